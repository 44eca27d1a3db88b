// ---- The table of routers --------------------------------------------------------------------------

const CHANGES = ["became", "lost", "other", "new", "gone"];

function columns() {
  const count = (mark) => ({ key: mark, word: WORDS[mark], value: (row) => row.counts[mark] });
  const change = (key) => ({ key, word: SIGNS[key] === key ? `${key} lines` : NAMES[key], value: (row) => row.changes[key] });
  const share = (key, word, counts) => ({
    key, word, value: (row) => partOf(counts(row)), show: (row) => percent(counts(row), foldsDead()),
  });
  return [
    { key: "name", word: "router", value: (row) => row.name, text: true },
    ...[...MARKS].filter((mark) => mark !== "D" || sides.now.told.dead !== null).map(count),
    ...(comparing() ? [share("was", "covered before", (row) => row.before)] : []),
    share("part", comparing() ? "covered now" : "covered", (row) => row.counts),
    { key: "place", word: "order of files", bar: true, value: (row) => row.place },
    ...(comparing() ? CHANGES.map(change) : []),
  ];
}

const partOf = (counts) => (counts.S + counts.W === 0 ? 0 : (counts.S + counts.W) / testable(counts, foldsDead()));

function rowsOfTable() {
  return state.order.map((name, place) => {
    const router = sides.now.routers.get(name);
    const counts = router?.counts ?? noCounts();
    const isNew = comparing() && !sides.before.routers.has(name);
    const word = router === undefined ? "only in the earlier session" : isNew ? "new" : router.text === null ? "no text" : "";
    const before = sides.before.routers.get(name)?.counts ?? noCounts();
    return { name, place, counts, before, word, first: router?.marks.indexOf(UNCOVERED) ?? -1, changes: state.compared.get(name)?.counts };
  });
}

/** The order of the table: what its user chose, else what no longer is covered, and what is uncovered, first. */
const sorting = () => state.sort ?? { key: comparing() ? "lost" : "U", down: true };

function sorted(rows) {
  const { key, down } = sorting();
  const column = columns().find((one) => one.key === key) ?? columns()[0];
  const byName = (a, b) => a.name.localeCompare(b.name, "en", { numeric: true });
  const compare = column.text ? byName : (a, b) => column.value(a) - column.value(b);
  return rows.sort((a, b) => (down ? -1 : 1) * compare(a, b) || b.counts.U - a.counts.U || a.place - b.place);
}

function showTable() {
  const all = columns();
  const rows = sorted(rowsOfTable());
  state.listed = rows.map((row) => row.name);
  const table = part("routers");
  const chosen = document.activeElement?.dataset.sort;
  const rowOf = (row) => tableRow(...all.map((column) => cellOf(column, row)));
  table.tHead.replaceChildren(tableRow(...all.map(headOf)));
  table.tBodies[0].replaceChildren(...rows.map(rowOf));
  const sum = sumOf(rows);
  table.tFoot.replaceChildren(rowOf(sum));
  table.classList.toggle("wide", all.length > 9);
  fitTable();
  if (chosen !== undefined) table.querySelector(`[data-sort="${chosen}"]`).focus();
  document.querySelector("[data-do=copy-all]").hidden = sum.counts.U === 0 || [...sides.now.routers.values()].every((router) => router.text === null);
  showTotals(sum, rows.length);
  showTests();
  showCuts();
  showAnswers();
  searchAll();
}

/** Lays the table out in blocks where its columns have no room beside one another. */
function fitTable() {
  const table = part("routers");
  const style = getComputedStyle(part("overview"));
  const room = part("overview").clientWidth - parseFloat(style.paddingLeft) - parseFloat(style.paddingRight);
  table.classList.remove("cards");
  table.classList.toggle("cards", room > 0 && table.offsetWidth > room);
}

// A table that is laid out in another form on narrow screens is one for readers of screens only where it says so.
function tableRow(...cells) {
  const row = make("tr", "", ...cells);
  row.role = "row";
  return row;
}

function sumOf(rows) {
  const changes = Object.fromEntries(CHANGES.map((key) => [key, 0]));
  const sum = { name: `all ${rows.length}`, counts: noCounts(), before: noCounts(), changes, isSum: true };
  for (const row of rows) {
    addCounts(sum.counts, row.counts);
    addCounts(sum.before, row.before);
    if (row.changes) for (const key of CHANGES) changes[key] += row.changes[key];
  }
  return sum;
}

function headOf(column) {
  const button = make("button", "", column.word);
  button.type = "button";
  button.dataset.sort = column.key;
  const head = make("th", "", button);
  Object.assign(head, { scope: "col", role: "columnheader" });
  const { key, down } = sorting();
  if (column.key === key) head.ariaSort = down ? "descending" : "ascending";
  return head;
}

function cellOf(column, row) {
  if (column.text) return nameCell(row);
  const cell = make("td", column.bar ? "bar-cell" : "", column.bar ? barOf(row.counts) : valueOf(column, row));
  cell.role = "cell";
  cell.dataset.label = column.word;
  if (!column.bar && column.value(row) === 0) cell.classList.add("zero");
  return cell;
}

function nameCell(row) {
  const name = row.isSum ? row.name : make("a", "", row.name);
  if (!row.isSum) name.href = linkTo(row.name);
  const head = make("th", "", name, row.word ? make("span", "word", ` ${row.word}`) : "");
  Object.assign(head, { scope: "row", role: "rowheader" });
  return head;
}

/** What a cell shows; the number of uncovered lines leads to the first of them. */
function valueOf(column, row) {
  const text = column.show ? column.show(row) : String(column.value(row));
  if (column.key !== "U" || row.isSum || row.counts.U === 0) return text;
  const link = make("a", "", text);
  Object.assign(link, { href: linkTo(row.name, row.first + 1), ariaLabel: `${text} uncovered in ${row.name}: go to the first` });
  return link;
}

function barOf(counts) {
  const bar = make("span", "bar");
  const all = [...MARKS].reduce((sum, mark) => sum + counts[mark], 0);
  const marks = [...MARKS].filter((mark) => mark !== "D" || counts.D > 0);
  for (const mark of marks) {
    const piece = make("i", classOf(mark));
    piece.style.width = `${all === 0 ? 0 : (100 * counts[mark]) / all}%`;
    bar.append(piece);
  }
  bar.role = "img";
  bar.ariaLabel = marks.map((mark) => `${WORDS[mark]} ${counts[mark]}`).join(", ");
  bar.title = bar.ariaLabel;
  return bar;
}

function showTotals(sum, count) {
  const { S, W, U, D } = sum.counts;
  const dead = sides.now.told.dead === null ? "" : ` ${D} dead,`;
  let text = `${many(count, "router")}: ${S} lines strong, ${W} weak, ${U} uncovered,${dead} ${sum.counts["."]} outside; `
    + `${percent(sum.counts, foldsDead())} of what can be tested is covered`;
  if (comparing()) {
    text += `, ${percent(sum.before, foldsDead())} before. Since the earlier session ${many(sum.changes.became, "line")} became covered, and `
      + `${sum.changes.lost} no longer.`;
  } else text += ".";
  part("totals").textContent = text;
  part("legend").replaceChildren(...legendOf());
}

/** What the letters, and in a comparison the signs, mean. */
function legendOf() {
  const key = (mark) => {
    const box = make("span", "bar", make("i", classOf(mark)));
    box.ariaHidden = "true";
    return make("span", "key", box, make("span", "", `${mark} ${WORDS[mark]}`));
  };
  const sign = (key) => make("span", "key", make("b", "", SIGNS[key]), make("span", "", NAMES[key]));
  const marks = [...MARKS].filter((mark) => mark !== "D" || sides.now.told.dead !== null);
  const signs = CHANGES.filter((key) => SIGNS[key] !== key);
  return [...marks.map(key), ...(comparing() ? signs.map(sign) : [])];
}
