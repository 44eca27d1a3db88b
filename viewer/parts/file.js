// ---- A router's file ------------------------------------------------------------------------------

/** What the link to a router, or to a line of it, ends with. */
function linkTo(name, line) {
  const plain = encodeURIComponent(name);
  return line === undefined ? `#${plain}` : `#${plain}:${line}`;
}

/** The router and line that the address of the page names; the line is null where it names none. */
function linked() {
  const hash = location.hash.slice(1);
  const found = /^(.*?)(?::(\d+))?$/s.exec(hash);
  try {
    return { name: decodeURIComponent(found[1]), line: found[2] === undefined ? null : Number(found[2]) };
  } catch {
    return { name: found[1], line: null };
  }
}

/** Shows what the address of the page names. */
function follow() {
  const { name, line } = linked();
  const read = state.order.length > 0;
  part("welcome").hidden = read;
  part("overview").hidden = !read || name !== "";
  part("router").hidden = !read || name === "";
  say("");
  if (!read) return say(name === "" ? "" : `The link to ${name} is followed once replies are read.`);
  if (name === "" || !state.places.has(name)) {
    if (name !== "") say(`There is no router ${name} here.`);
    part("overview").hidden = false;
    part("router").hidden = true;
    return leaveRouter();
  }
  if (state.listed === undefined) showTable();
  if (state.name !== name) openRouter(name);
  return line === null ? undefined : goToLine(line);
}

/** Back to the table; the focus goes to the router that one comes from. */
function leaveRouter() {
  const came = state.name;
  state.name = null;
  document.title = "NetCov";
  showTable();
  if (came !== null) [...part("routers").querySelectorAll("th a")].find((link) => link.textContent === came)?.focus();
}

function openRouter(name) {
  Object.assign(state, { name, target: -1 });
  document.title = `${name} – NetCov`;
  const router = sides.now.routers.get(name);
  const old = sides.before.routers.get(name);
  const pairs = state.compared.get(name)?.pairs ?? null;
  Object.assign(view, { router, old, both: comparing(), pairs, needle: null, hits: [], hit: -1 });
  view.count = view.pairs === null ? router.marks.length : view.pairs.length / 2;
  view.starts = blockStarts();
  view.sizes = filterSizes();
  part("name").textContent = name;
  part("counts").textContent = countsText(router, old);
  part("changes").hidden = !view.both;
  part("changes").textContent = view.both ? changesText(state.compared.get(name).counts) : "";
  part("file-legend").replaceChildren(...legendOf());
  part("lines").ariaLabel = `lines of ${name}`;
  document.querySelector("[data-do=copy-file]").hidden = router === undefined || router.counts.U === 0 || elementsOf(router) === null;
  showFilters();
  showShown();
  part("lines").scrollTop = 0;
  part("lines").focus({ preventScroll: true });
  search();
}

function countsText(router, old) {
  if (router === undefined) return "only in the earlier session";
  const marks = [...MARKS].filter((mark) => mark !== "D" || sides.now.told.dead !== null);
  const share = (counts) => percent(counts, foldsDead());
  const covered = view.both && old !== undefined ? `${share(old.counts)} covered before, ${share(router.counts)} now` : `${share(router.counts)} covered`;
  const text = `${marks.map((mark) => `${router.counts[mark]} ${WORDS[mark]}`).join(", ")} · ${covered}`;
  return router.text === null ? `${text} · no text here` : text;
}

/** How many lines changed, and how. */
function changesText(counts) {
  const { became, lost, other } = counts;
  const all = became + lost + other + counts.new + counts.gone;
  return all === 0 ? "No line changed." : `${many(all, "line")} changed: ${became} became covered, ${lost} no longer, ${other} ${other === 1 ? "has" : "have"} `
    + `another mark, ${counts.new} ${counts.new === 1 ? "is" : "are"} new, ${counts.gone} ${counts.gone === 1 ? "is" : "are"} gone.`;
}

/** How many rows each filter shows. */
function filterSizes() {
  const sizes = Object.fromEntries(FILTERS.map(({ key }) => [key, 0]));
  for (let k = 0; k < view.count; k += 1) {
    const row = rowAt(k);
    for (const { key, test } of FILTERS) if (test(row)) sizes[key] += 1;
  }
  return sizes;
}

/** What stands in a row: its marks now and before, null where it isn't there, its places, -1 there, and its change. */
function rowAt(k) {
  const old = view.pairs === null ? -1 : view.pairs[2 * k];
  const line = view.pairs === null ? k : view.pairs[2 * k + 1];
  const now = markAt(view.router, line);
  const was = markAt(view.old, old);
  return { now, was, line, old, change: view.pairs === null ? "same" : changeOf(folded(was), folded(now)) };
}

/** The text of a row, and its number there; null where there is none. */
function textAt(row) {
  const [router, k] = row.line >= 0 ? [view.router, row.line] : [view.old, row.old];
  return router.text !== null && k < router.text.count ? { text: router.text, k } : null;
}

function isBreak(row) {
  const found = textAt(row);
  return found === null || isBlankOrComment(found.text, found.k);
}

/** The rows at which a run of uncovered lines begins. An outside line doesn't end it, unless it is blank or a comment. */
function blockStarts() {
  const starts = new Set();
  let open = false;
  for (let k = 0; k < view.count; k += 1) {
    const row = rowAt(k);
    if (row.now === "U" && !open) starts.add(k);
    if (row.now !== null) open = row.now === "U" || (open && (row.now === "D" || (row.now === "." && !isBreak(row))));
  }
  return starts;
}

function showShown() {
  const filter = FILTERS.find((one) => one.key === state.filter);
  view.shown = [];
  for (let k = 0; k < view.count; k += 1) if (filter.test(rowAt(k))) view.shown.push(k);
  part("lines").ariaRowCount = String(view.shown.length);
  lineRows.set(view.shown.length);
  showTarget();
  drawMapSoon(true);
  for (const button of part("filters").children) button.ariaPressed = String(button.dataset.filter === state.filter);
  if (view.shown.length === 0) say(`No line of ${state.name} is ${filter.word}.`);
}

function lineRow(i) {
  const k = view.shown[i];
  const row = rowAt(k);
  const mark = row.now ?? row.was;
  const line = make("div", `row ${classOf(mark)} ${row.change === "gone" ? "gone" : ""}`);
  Object.assign(line, { id: `row-${k}`, role: "row", ariaRowIndex: String(i + 1), ariaSelected: String(k === state.target) });
  line.dataset.row = k;
  if (i > 0 && view.shown[i - 1] !== k - 1) line.classList.add("gap");
  if (k === state.target) line.classList.add("target");
  if (view.both) {
    line.append(cell("was", SIGNS[row.change], NAMES[row.change]), cell("m old", row.was ?? "", row.was === null ? "not there before" : `${WORDS[row.was]} before`));
  }
  const letter = cell("m", row.now ?? "", row.now === null ? "not there now" : WORDS[row.now]);
  letter.title = WORDS[mark];
  line.append(letter, lineNumber(row), cell("", textOf(row)));
  return line;
}

/** A cell of a row, with a name where its text is a letter or a sign alone. */
function cell(name, content, label) {
  const box = make("span", name, content);
  box.role = "gridcell";
  if (label !== undefined) box.ariaLabel = label;
  return box;
}

/** The number of a line is the head of its row; it leads to the line, and is no stop of the tab key. */
function lineNumber(row) {
  const number = make(row.line < 0 ? "span" : "a", "n", String((row.line < 0 ? row.old : row.line) + 1));
  if (row.line >= 0) Object.assign(number, { href: linkTo(state.name, row.line + 1), tabIndex: -1 });
  const head = make("span", "", number);
  head.role = "rowheader";
  return head;
}

function textOf(row) {
  const found = textAt(row);
  return found === null ? make("span", "t") : textPieces(found.text, found.k, view.needle);
}

/** The text of a line, in which what the needle finds is marked. */
function textPieces(text, k, needle) {
  const box = make("span", "t");
  for (const piece of text.pieces(k)) {
    if (piece.odd || piece.more) box.append(make("span", piece.odd ? "odd" : "more", piece.text));
    else box.append(...withHits(piece.text, needle));
  }
  return box;
}

function withHits(text, needle) {
  if (needle === null) return [text];
  const pieces = [];
  let at = 0;
  for (const found of text.matchAll(needle)) {
    pieces.push(text.slice(at, found.index), make("mark", "", found[0]));
    at = found.index + found[0].length;
  }
  return [...pieces, text.slice(at)];
}

const lineRows = new Rows(part("lines"), lineRow, "rowgroup");

const mapStep = () => Math.min(part("map").clientHeight / view.shown.length, 4);

/** The whole file in one narrow picture: where several rows fall on one point, the least covered of them shows. */
function paintMap() {
  const { clientWidth: width, clientHeight: height } = part("map");
  const picture = make("canvas", "");
  [picture.width, picture.height] = [width, height];
  const brush = picture.getContext("2d");
  const style = getComputedStyle(document.documentElement);
  const marks = view.shown.map((k) => rowAt(k).now);
  const left = { S: 10, W: 5, D: 3, U: 0 };
  for (const mark of "SWDU") {
    brush.fillStyle = style.getPropertyValue(`--${mark}-bar`);
    const size = Math.max(1, Math.ceil(mapStep()));
    marks.forEach((one, i) => {
      if (one === mark) brush.fillRect(left[mark], Math.floor(i * mapStep()), width - left[mark], size);
    });
  }
  return picture;
}

/** Draws the picture, and a frame round what is in sight. */
function drawMap() {
  const map = part("map");
  if (state.name === null || map.clientHeight === 0 || map.clientWidth === 0) return;
  view.picture ??= paintMap();
  [map.width, map.height] = [map.clientWidth, map.clientHeight];
  const brush = map.getContext("2d");
  brush.drawImage(view.picture, 0, 0);
  const { scrollTop, clientHeight } = part("lines");
  const seen = mapStep() / lineRows.height;
  const rows = Math.min(clientHeight, view.shown.length * lineRows.height);
  brush.strokeStyle = getComputedStyle(document.documentElement).getPropertyValue("--ink");
  brush.strokeRect(0.5, scrollTop * seen + 0.5, map.width - 1, Math.max(3, rows * seen - 1));
}

let drawing = 0;

/** Draws the picture with the next frame; anew where its rows, its size or its colours changed. */
function drawMapSoon(anew) {
  if (anew) view.picture = null;
  cancelAnimationFrame(drawing);
  drawing = requestAnimationFrame(drawMap);
}

function goToMap(event) {
  part("lines").scrollTop = (event.offsetY / mapStep()) * lineRows.height - part("lines").clientHeight / 2;
}

// Going through a file

/** Marks a row and brings it into sight; all lines are shown where the filter hides it. */
function goToRow(k) {
  state.target = k;
  if (!view.shown.includes(k)) {
    state.filter = "all";
    showShown();
  }
  lineRows.show(view.shown.indexOf(k));
  showTarget();
  const { line } = rowAt(k);
  // A browser may refuse to take many addresses in a short time, as where a key is held down.
  try {
    if (line >= 0) history.replaceState(null, "", linkTo(state.name, line + 1));
  } catch { /* the line is marked all the same */ }
}

/** Goes to the next or the previous line that is shown, from the marked one or from the first in sight. */
function goToShown(step) {
  if (state.name === null || view.shown.length === 0) return;
  const at = view.shown.indexOf(state.target);
  const next = at < 0 ? lineRows.first() : at + step;
  if (next >= 0 && next < view.shown.length) goToRow(view.shown[next]);
}

function goToLine(line) {
  const count = view.router === undefined ? 0 : view.router.marks.length;
  if (line < 1 || line > count) return say(`${state.name} has ${count} lines; there is no line ${line}.`);
  return goToRow(view.pairs === null ? line - 1 : rowOfLine(line - 1));
}

function rowOfLine(line) {
  for (let k = 0; k < view.count; k += 1) if (view.pairs[2 * k + 1] === line) return k;
  return -1;
}

/** The next or the previous uncovered block, in this file or in the next one of the table that has one. */
function goToBlock(step) {
  if (state.name === null) return step > 0 ? goOn(-1, 1) : undefined;
  const starts = [...view.starts];
  const from = state.target >= 0 ? state.target : step > 0 ? -1 : Infinity;
  const found = step > 0 ? starts.find((k) => k > from) : starts.findLast((k) => k < from);
  if (found === undefined) return goOn(state.listed.indexOf(state.name), step);
  goToRow(found);
  return say(`Uncovered block ${starts.indexOf(found) + 1} of ${starts.length} in ${state.name}.`);
}

function goOn(place, step) {
  for (let k = place + step; k >= 0 && k < state.listed.length; k += step) {
    const router = sides.now.routers.get(state.listed[k]);
    if (router === undefined || router.counts.U === 0) continue;
    history.pushState(null, "", linkTo(router.name));
    follow();
    return goToBlock(step);
  }
  return say(step > 0 ? "There is no further uncovered block." : "There is no uncovered block before this one.");
}

function goToRouter(step) {
  const place = state.listed.indexOf(state.name) + step;
  if (state.name === null || place < 0 || place >= state.listed.length) return say("There is no further router.");
  location.hash = linkTo(state.listed[place]);
  return undefined;
}
