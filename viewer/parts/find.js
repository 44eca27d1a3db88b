// ---- Finding text ---------------------------------------------------------------------------------

/** What finds a text, in small letters and in capitals; nothing in it has a meaning of its own. */
function needleOf(word, flags) {
  return new RegExp(word.replace(/[.*+?^${}()|[\]\\/-]/g, "\\$&"), flags);
}

const everywhere = { turn: 0, hits: [], rows: null };

/** Finds a text in all files. Between some thousands of lines the page has a moment for its user, who may type on. */
async function searchAll() {
  const word = part("search-all").value;
  const turn = (everywhere.turn += 1);
  everywhere.hits = [];
  showHits(word, word === "");
  if (word === "") return;
  const needle = needleOf(word, "i");
  let lines = 0;
  const routers = state.listed.map((name) => sides.now.routers.get(name));
  for (const router of routers.filter((one) => one !== undefined && one.text !== null)) {
    for (let k = 0; k < Math.min(router.text.count, router.marks.length); k += 1) {
      if (needle.test(router.text.plain(k))) everywhere.hits.push({ router, k });
      lines += 1;
      if (lines % 20000 === 0) await new Promise((next) => setTimeout(next));
      if (turn !== everywhere.turn) return;
    }
  }
  showHits(word, true);
}

function showHits(word, isWhole) {
  const { hits } = everywhere;
  const routers = new Set(hits.map((hit) => hit.router)).size;
  part("hits").hidden = word === "" || hits.length === 0;
  part("found-all").textContent = word === "" ? "" : !isWhole ? "looking …" : hits.length === 0 ? "not found"
    : `${many(hits.length, "line")} in ${many(routers, "router")}`;
  everywhere.rows ??= new Rows(part("hits"), hitRow, "list");
  everywhere.rows.set(Math.min(hits.length, MOST_ANSWERS));
}

function hitRow(i) {
  const { router, k } = everywhere.hits[i];
  const mark = markAt(router, k);
  const link = make("a", "n", `${router.name}:${k + 1}`);
  link.href = linkTo(router.name, k + 1);
  const text = textPieces(router.text, k, needleOf(part("search-all").value, "gi"));
  const letter = make("span", "m", mark);
  Object.assign(letter, { role: "img", ariaLabel: WORDS[mark] });
  const row = make("div", `row ${classOf(mark)}`, letter, link, text);
  row.role = "listitem";
  return row;
}

function search() {
  const word = part("search").value;
  view.needle = word === "" ? null : needleOf(word, "gi");
  Object.assign(view, { hits: word === "" ? [] : hitsOf(word), hit: -1 });
  showFound();
  lineRows.redraw();
}

function hitsOf(word) {
  const needle = needleOf(word, "i");
  const hits = [];
  for (let k = 0; k < view.count; k += 1) {
    const found = textAt(rowAt(k));
    if (found !== null && needle.test(found.text.plain(found.k))) hits.push(k);
  }
  return hits;
}

function showFound() {
  const { hits, hit, needle } = view;
  const count = hit < 0 ? many(hits.length, "line") : `${hit + 1} of ${hits.length}`;
  part("found").textContent = needle === null ? "" : hits.length === 0 ? "not found" : count;
}

function goToHit(step) {
  const { hits } = view;
  if (hits.length === 0) return;
  const from = state.target >= 0 ? state.target : step > 0 ? -1 : Infinity;
  const found = step > 0 ? hits.findIndex((k) => k > from) : hits.findLastIndex((k) => k < from);
  view.hit = found < 0 ? (step > 0 ? 0 : hits.length - 1) : found;
  goToRow(hits[view.hit]);
  showFound();
}
