// ---- What the session answered ---------------------------------------------------------------------

// A browser doesn't make an element higher than some millions of points.
const MOST_ANSWERS = 500000;
const MOST_LISTED = 100;
let answerRows = null;

/** A list of some lines, and of how many more there are. */
function listOf(items, more, count = items.length) {
  const list = make("ul", "", ...items.slice(0, MOST_LISTED));
  if (count > MOST_LISTED) list.append(make("li", "soft", `and ${count - MOST_LISTED} more ${more}`));
  return list;
}

/** The tests on top: what was refused, and in a comparison what broke, holds again, is new or is asked no longer. */
function showTests() {
  const refused = refusalsOf(sides.now);
  const compared = comparing() && sides.now.list.length > 0 ? compareTests(sides.before, sides.now) : undefined;
  const told = [];
  if (compared !== undefined) told.push(...comparedTests(compared));
  if (refused.length > 0) told.push(listOf(refusedItems(refused, compared), "among the answers below", refused.length));
  part("tests").hidden = told.length === 0;
  part("tests").classList.toggle("bad", refused.length > 0);
  part("tests-title").textContent = testsTitle(refused.length, compared);
  part("tests-told").replaceChildren(...told);
}

function testsTitle(refused, compared) {
  const title = refused === 0 ? "No line was refused" : `${many(refused, "line")} ${refused === 1 ? "was" : "were"} refused`;
  return compared?.broke.length > 0 ? `${many(compared.broke.length, "test")} broke; ${title}` : title;
}

/** The refused lines, those first that broke and those that are new. */
function refusedItems(refused, compared) {
  const words = new Map([...(compared?.fails ?? []).map((test) => [test, "new"]), ...(compared?.broke ?? []).map((test) => [test, "broke"])]);
  const order = ["broke", "new", ""];
  const all = refused.map((k) => ({ k, ...refusalOf(sides.now, k) })).map((one) => ({ ...one, word: words.get(one.asked) ?? "" }));
  all.sort((a, b) => order.indexOf(a.word) - order.indexOf(b.word) || a.k - b.k);
  return all.slice(0, MOST_LISTED).map(refusedItem);
}

function refusedItem({ asked, told, cause, word, k }) {
  const tag = word === "" ? "" : make("b", "tag", word);
  const isTold = asked === null || told === "refused absent";
  const why = make("span", "soft", isTold ? ` ${cause}` : ` ${told}: ${cause}`);
  return make("li", "", make("span", "soft", `${k + 1} `), tag, make("code", "", asked ?? told), why);
}

/** In a comparison: how many tests broke and so on, with lists of those that aren't among the refused. */
function comparedTests(compared) {
  if (compared === null) {
    return [make("p", "soft", "Which tests broke and which are new can't be told here: drop the session's file beside each of the two replies.")];
  }
  const { broke, mended, holds, fails, gone } = compared;
  const fresh = holds.length + fails.length;
  const text = `Since the earlier session ${many(broke.length, "test")} broke, ${mended.length} ${mended.length === 1 ? "holds" : "hold"} again, `
    + `${fresh} ${fresh === 1 ? "is" : "are"} new, ${gone.length} asked no longer.`;
  return [make("p", "", text), ...groupOf(mended, "test holds again", "tests hold again"), ...groupOf(holds, "new test holds", "new tests hold"),
    ...groupOf(gone, "test is asked no longer", "tests are asked no longer")];
}

/** A list of tests that opens where one asks for it. */
function groupOf(tests, one, more) {
  if (tests.length === 0) return [];
  const items = tests.slice(0, MOST_LISTED).map((test) => make("li", "", make("code", "", test)));
  const summary = make("summary", "", `${tests.length} ${tests.length === 1 ? one : more}`);
  return [make("details", "", summary, listOf(items, "of them", tests.length))];
}

/** The replies that name lines on which tests hang: cuts, and what a test has that another lacks. */
function showCuts() {
  const { cuts } = sides.now.told;
  part("cuts").hidden = cuts.length === 0;
  part("cuts-title").textContent = "Lines that tests hang on";
  const single = cuts.filter(({ kind, places }) => kind === "cut" && places.length === 1).length;
  const told = single === 0 ? [] : [make("p", "", `${many(single, "test")} ${single === 1 ? "hangs" : "hang"} on one line alone: a single point of failure.`)];
  part("cuts-told").replaceChildren(...told, listOf(cuts.slice(0, MOST_LISTED).map(cutItem), "among the answers below", cuts.length));
}

function cutItem(told) {
  const { places, reply } = told;
  const text = told.kind === "cut" ? cutText(told) : lackText(told);
  return make("li", "", text, ...(places.length === 0 ? [] : [listOf(places.map((place) => placeItem(place, reply)), "in this reply")]));
}

const linesText = (places) => (places.length === 1 ? "this line" : `these ${places.length} lines`);

/** What a cut says; the routers that it keeps stand in the session's command alone. */
function cutText({ test, none, places, reply }) {
  const kept = sides.now.commands?.[reply]?.split(" keep ")[1];
  const front = `${testText(sides.now, test)}${kept === undefined ? "" : `, keeping ${kept}`}`;
  return none ? `${front}: nothing that may be lost breaks it` : `${front}: lost without ${linesText(places)}:`;
}

/** What `implies` says where one test doesn't imply another. */
function lackText({ test, from, places }) {
  return `${testText(sides.now, from)}, holds without ${linesText(places)}, and ${testText(sides.now, test)}, doesn't:`;
}

/** A line by its place, with a link, its mark and its text. */
function placeItem({ name, line }, reply) {
  const router = sides.now.routers.get(name);
  const link = make("a", "mono", `${name}:${line}`, make("span", "away", `, reply ${reply + 1}`));
  link.href = linkTo(name, line);
  const known = router?.text !== null && router !== undefined && line <= router.text.count;
  return make("li", "", link, known ? make("code", "", ` ${router.text.plain(line - 1).slice(0, 200)}`) : "");
}

function showAnswers() {
  const { list, lines, commands, told } = sides.now;
  const refused = refusalsOf(sides.now).length;
  const tests = list.filter((reply) => reply.kind === "report" && lines.latin(reply.at, 5) === "test ").length;
  part("answers").hidden = list.length === 0;
  let text = `What the session answered: ${many(tests, "test")} accepted, ${many(refused, "line")} refused`;
  if (told.suite !== null) text += `; ${told.suite.spare.size} of ${told.suite.spare.size + told.suite.kept.size} can go`;
  if (commands !== null) text += ", with their commands";
  if (list.length > MOST_ANSWERS) text += "; the first 500,000 are listed";
  part("answers").querySelector("summary").textContent = text;
  answerRows ??= new Rows(part("answer-rows"), answerRow, "list");
  answerRows.set(Math.min(list.length, MOST_ANSWERS));
}

function answerRow(k) {
  const { list, lines, commands } = sides.now;
  const text = lines.plain(list[k].at);
  const { kind } = list[k];
  const said = ["show", "json", "lcov"].includes(kind) ? `(the text of ${kind})` : text;
  const [word, number] = kind === "report" ? text.split(" ", 2) : [];
  const about = word === "test" ? aboutTest(Number(number), k) : { tag: "", gained: "" };
  const row = make("div", `row ${kind === "refused" ? "U" : "O"}`, make("span", "n", String(k + 1)), about.tag);
  row.role = "listitem";
  if (commands !== null) row.append(make("span", "t", `${commands[k] ?? ""}   →   `));
  row.append(make("span", kind === "refused" ? "bad" : "t", said.slice(0, 4200)), make("span", "word", about.gained));
  return row;
}

/** Beside an accepted test: whether it can go, and how many lines it covered first. */
function aboutTest(number, k) {
  const { told, firsts } = sides.now;
  if (told.tests.get(number) !== k) return { tag: "", gained: "" };
  const report = firsts.reports.find((one) => one.number === number && one.from === number);
  const tag = told.suite?.spare.has(number) ? make("b", "tag", "can go") : told.suite?.kept.has(number) ? make("span", "tag", "suffices") : "";
  return { tag, gained: report === undefined ? "" : `   ${many(report.gained, "line")} covered first` };
}
