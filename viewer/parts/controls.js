// ---- Buttons, keys, files -------------------------------------------------------------------------

function setFilter(key) {
  const filter = FILTERS.find((one) => one.key === key);
  if (filter === undefined || !isOffered(filter) || state.name === null) return;
  const at = state.target >= 0 ? state.target : view.shown[lineRows.first()] ?? 0;
  state.filter = key;
  say("");
  showShown();
  const near = view.shown.findIndex((k) => k >= at);
  if (near >= 0) lineRows.show(near);
}

/** The filters, each with the number of lines that it shows. */
function showFilters() {
  const offered = FILTERS.filter(isOffered);
  part("filters").replaceChildren(...offered.map((filter) => {
    const button = make("button", "", filter.word, make("span", "size", ` ${view.sizes[filter.key] ?? ""}`));
    Object.assign(button, { type: "button", title: `key ${FILTERS.indexOf(filter) + 1}` });
    button.dataset.filter = filter.key;
    button.ariaPressed = String(filter.key === state.filter);
    return button;
  }));
}

function copyLink() {
  const line = state.target >= 0 ? rowAt(state.target).line : -1;
  return copyText("the link", location.href.replace(/#.*$/s, "") + linkTo(state.name, line < 0 ? undefined : line + 1));
}

/** Copies a text; where the browser refuses, a short one is told below, and one of several lines stands ready to be taken. */
async function copyText(what, text) {
  const lines = text.split("\n").length - 1;
  try {
    await navigator.clipboard.writeText(text);
    say(lines > 0 ? `Copied ${what}: ${many(lines, "line")}.` : `Copied: ${text}`);
  } catch {
    if (lines === 0) return say(`The browser doesn't let the page copy ${what}: ${text}`);
    part("ready").value = text;
    part("copying").showModal();
    part("ready").select();
  }
  return undefined;
}

/** Copies the likely tests of some routers' uncovered lines, as lines of a session. */
function copyTests(routers) {
  const text = likelySession(sides.now, routers.filter((router) => router !== undefined));
  if (text === "") return say("There is no uncovered line here for which the files tell a test.");
  return copyText("the tests", text);
}

function swap() {
  [sides.now, sides.before] = [sides.before, sides.now];
  state.messages = [];
  prepare();
}

function dropBefore() {
  sides.before = new Side("before");
  state.messages = [];
  prepare();
  document.querySelector("[data-do='choose before']").focus();
}

let pasteTo = "now";

function openPaste(word) {
  pasteTo = word;
  part("pasted").value = "";
  part("paste").returnValue = "";
  part("paste").showModal();
}

part("paste").addEventListener("close", () => {
  if (part("paste").returnValue !== "read") return;
  takeBytes([{ name: "what was pasted", bytes: new TextEncoder().encode(part("pasted").value) }], pasteTo);
});

const ACTIONS = {
  choose: (word) => part(`choose-${word}`).click(),
  paste: openPaste,
  swap,
  "drop-before": dropBefore,
  help: () => part("help").showModal(),
  next: () => goToBlock(1),
  previous: () => goToBlock(-1),
  copy: () => state.name !== null && copyLink(),
  "copy-test": copyLikely,
  "copy-file": () => copyTests([view.router]),
  "copy-all": () => copyTests(state.listed.map((name) => sides.now.routers.get(name))),
  down: () => goToShown(1),
  up: () => goToShown(-1),
  left: () => goToRouter(-1),
  right: () => goToRouter(1),
  table: () => { location.hash = ""; },
  find: () => {
    finding = document.activeElement;
    part(state.name === null ? "search-all" : "search").focus();
  },
};
const KEYS = {
  n: "next", p: "previous", j: "down", k: "up", c: "copy", y: "copy-test", "[": "left", "]": "right", t: "table", "?": "help", "/": "find",
};

/** What had the focus before a text was looked for. */
let finding = null;

document.addEventListener("click", (event) => {
  const button = event.target.closest?.("button");
  if (!button) return;
  if (button.dataset.do) {
    const [action, ...words] = button.dataset.do.split(" ");
    ACTIONS[action](words.join(" "));
  }
  if (button.dataset.filter) setFilter(button.dataset.filter);
  if (button.dataset.sort) sortBy(button.dataset.sort);
});

/** Sorts the table by a column; a second time turns the order. Counts begin with the greatest. */
function sortBy(key) {
  const down = sorting().key === key ? !sorting().down : !["name", "place"].includes(key);
  state.sort = { key, down };
  showTable();
}

/** Keys in a field in which a text is looked for. */
function keyInSearch(event) {
  if (event.target.id === "search" && event.key === "Enter") goToHit(event.shiftKey ? -1 : 1);
  if (event.key !== "Escape" || !event.target.id.startsWith("search")) return;
  if (state.name !== null) part("lines").focus();
  else if (finding?.isConnected && finding !== document.body) finding.focus();
  else event.target.blur();
}

document.addEventListener("keydown", (event) => {
  const typing = /^(INPUT|TEXTAREA|SELECT)$/.test(event.target.tagName);
  if (typing) return keyInSearch(event);
  if (event.ctrlKey || event.metaKey || event.altKey || document.querySelector("dialog[open]")) return undefined;
  const arrows = event.target.id === "lines" ? { ArrowDown: "down", ArrowUp: "up" } : {};
  const action = KEYS[event.key] ?? arrows[event.key];
  if (action === undefined && !/^[1-8]$/.test(event.key)) return undefined;
  event.preventDefault();
  return action === undefined ? setFilter(FILTERS[Number(event.key) - 1].key) : ACTIONS[action]();
});

// A click on a line marks it, unless a piece of text was chosen with the mouse.
part("lines").addEventListener("click", (event) => {
  const row = event.target.closest("[data-row]");
  if (row !== null && event.target.tagName !== "A" && getSelection().isCollapsed) goToRow(Number(row.dataset.row));
});

for (const word of ["now", "before"]) {
  part(`choose-${word}`).addEventListener("change", (event) => {
    takeFiles([...event.target.files], word);
    event.target.value = "";
  });
}
part("search").addEventListener("input", search);
part("search-all").addEventListener("input", searchAll);
part("lines").addEventListener("scroll", () => drawMapSoon(false), { passive: true });
new ResizeObserver(() => drawMapSoon(true)).observe(part("map"));
new ResizeObserver(fitTable).observe(part("overview"));
matchMedia("(prefers-color-scheme: dark)").addEventListener("change", () => drawMapSoon(true));
for (const kind of ["pointerdown", "pointermove"]) {
  part("map").addEventListener(kind, (event) => event.buttons === 1 && goToMap(event));
}
addEventListener("hashchange", follow);

const slotUnder = (event) => (event.target.closest?.("#slot-before") ? "before" : "now");

document.addEventListener("dragover", (event) => {
  event.preventDefault();
  document.body.classList.add("over");
  for (const word of ["now", "before"]) part(`slot-${word}`).classList.toggle("over", slotUnder(event) === word);
});
const endDrag = () => document.querySelectorAll(".over").forEach((element) => element.classList.remove("over"));
document.addEventListener("dragleave", endDrag);
document.addEventListener("drop", (event) => {
  event.preventDefault();
  endDrag();
  if (event.dataTransfer.files.length > 0) takeFiles(event.dataTransfer.files, slotUnder(event));
});
document.addEventListener("paste", (event) => {
  if (/^(INPUT|TEXTAREA)$/.test(event.target.tagName)) return;
  const { files } = event.clipboardData;
  const text = event.clipboardData.getData("text/plain");
  if (files.length > 0) takeFiles(files, "now");
  else if (text !== "") takeBytes([{ name: "what was pasted", bytes: new TextEncoder().encode(text) }], "now");
});

// On paper all lines are there, not those alone that are in sight.
function forPaper(all) {
  for (const rows of [lineRows]) {
    rows.all = all;
    rows.redraw();
  }
}
addEventListener("beforeprint", () => forPaper(true));
addEventListener("afterprint", () => forPaper(false));

prepare();
