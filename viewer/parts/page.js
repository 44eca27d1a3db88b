// ---- The page ------------------------------------------------------------------------------------

const part = (id) => document.getElementById(id);

/** An element with this class, whose children are elements and plain text. */
function make(tag, name, ...children) {
  const element = document.createElement(tag);
  if (name) element.className = name;
  element.append(...children);
  return element;
}

const sides = { now: new Side("now"), before: new Side("before") };
const state = {
  filter: "all", sort: null, messages: [], name: null, target: -1, order: [], take: 0,
};
const view = { pairs: null, shown: [], starts: new Set(), hits: [], hit: -1, needle: null, sizes: {} };

const FILTERS = [
  { key: "all", word: "all", test: () => true },
  { key: "weak", word: "weak and uncovered", test: (row) => row.now === "W" || row.now === "U" || row.now === "D" },
  { key: "uncovered", word: "uncovered", test: (row) => row.now === "U" || row.now === "D" },
  { key: "changed", word: "changed", both: true, test: (row) => row.change !== "same" },
  { key: "became", word: "became covered", both: true, test: (row) => row.change === "became" },
  { key: "lost", word: "no longer covered", both: true, test: (row) => row.change === "lost" },
  { key: "missing", word: "uncovered, not dead", dead: true, test: (row) => row.now === "U" },
  { key: "dead", word: "dead", dead: true, test: (row) => row.now === "D" },
];

const isOffered = (filter) => (!filter.both || comparing()) && (!filter.dead || sides.now.told.dead !== null);

const comparing = () => sides.before.replies !== null && sides.before.routers.size > 0;

/** Whether dead lines count as uncovered ones: in a comparison in which they are known of one session alone. */
const foldsDead = () => comparing() && (sides.now.told.dead === null) !== (sides.before.told.dead === null);
const folded = (mark) => (mark === "D" && foldsDead() ? "U" : mark);

function say(text) {
  part("said").textContent = text;
}

// Reading files

async function takeFiles(files, word) {
  say("reading …");
  const taken = await Promise.all([...files].map(async (file) => {
    try {
      return { name: file.name, bytes: new Uint8Array(await file.arrayBuffer()) };
    } catch {
      return { name: file.name, bytes: null };
    }
  }));
  await new Promise((next) => setTimeout(next, 20));
  takeBytes(taken, word);
}

function takeBytes(files, word) {
  state.messages = [];
  state.take += 1;
  const note = (kind, text) => state.messages.push({ kind, text });
  const replies = [];
  for (const file of files) {
    if (file.bytes === null) note("error", `${file.name} can't be read. A folder can't be taken as one file.`);
    else if (sides[word].add(file, state.take, note)) replies.push(file);
  }
  if (replies.length > 1) takeTwo(replies, word, note);
  sides.now.read();
  sides.before.read();
  shareCommands([sides.now, sides.before]);
  prepare();
  keepFocus();
}

/** Where the button that had the focus is gone, what was read has it. */
function keepFocus() {
  const { activeElement } = document;
  if (activeElement !== document.body && activeElement.getClientRects().length > 0) return;
  part(state.name === null ? "overview-title" : "lines").focus({ preventScroll: true });
}

function takeTwo(replies, word, note) {
  if (word === "now" && replies.length === 2) {
    sides.before.add(replies[0], state.take, note);
    note("note", `${replies[0].name} is taken as the earlier session and ${replies[1].name} as the newer one; “Swap” turns `
      + "this round.");
  } else note("warning", `Of several files of replies ${replies[replies.length - 1].name} alone is taken.`);
}

/** Works out what depends on the files, and shows it. */
function prepare() {
  state.order = [...sides.now.routers.keys()];
  state.compared = new Map();
  if (comparing()) {
    for (const name of sides.before.routers.keys()) if (!sides.now.routers.has(name)) state.order.push(name);
    for (const name of state.order) state.compared.set(name, compareRouter(name));
    const numbers = [...state.compared.values()].filter((compared) => compared.by === "numbers").length;
    if (numbers > 0) {
      const text = `Without text in both sessions, the lines of ${many(numbers, "router")} are put side by side by their numbers.`;
      state.messages.push({ kind: "note", text });
    }
  }
  if (!isOffered(FILTERS.find((filter) => filter.key === state.filter))) state.filter = "all";
  state.listed = undefined;
  state.places = new Map(state.order.map((name, k) => [name, k]));
  showSlots();
  showMessages();
  showFilters();
  state.name = null;
  follow();
}

function compareRouter(name) {
  const old = sides.before.routers.get(name);
  const now = sides.now.routers.get(name);
  const { pairs, by } = alignRouters(old, now);
  if (by === "nothing") {
    const text = `${name}: without the text of both its ${old.marks.length} lines and its ${now.marks.length} can't be put side by side.`;
    state.messages.push({ kind: "warning", text });
  }
  const counts = { became: 0, lost: 0, other: 0, same: 0, new: 0, gone: 0 };
  for (let k = 0; k < pairs.length; k += 2) counts[changeOf(folded(markAt(old, pairs[k])), folded(markAt(now, pairs[k + 1])))] += 1;
  return { pairs, by, counts };
}

function markAt(router, line) {
  return router === undefined || line < 0 ? null : String.fromCharCode(router.marks[line]);
}

function showSlots() {
  for (const [word, side] of Object.entries(sides)) {
    const names = filesOf(side);
    const files = part(`files-${word}`);
    files.textContent = names.length === 0 ? "nothing" : names.join(", ");
    files.title = names.join("\n");
    part(`slot-${word}`).hidden = filesOf(sides.now).length + filesOf(sides.before).length === 0;
  }
  document.querySelector("[data-do=swap]").hidden = !(sides.before.replies && sides.now.replies);
  document.querySelector("[data-do=drop-before]").hidden = filesOf(sides.before).length === 0;
}

function filesOf(side) {
  return [side.replies, side.session, ...side.configurations].filter((file) => file !== null).map((file) => file.name);
}

function showMessages() {
  const words = { error: "Error", warning: "Warning", note: "Note" };
  const of = (side, front) => side.messages.map(({ kind, text }) => ({ kind, text: front + text }));
  const all = [...state.messages, ...of(sides.now, ""), ...of(sides.before, "Earlier session: ")];
  const list = make("ul");
  for (const { kind, text } of all) {
    const item = make("li", kind, text);
    item.dataset.word = words[kind];
    list.append(item);
  }
  part("notes").replaceChildren(list);
  part("notes").hidden = all.length === 0;
}
