// ---- The tests of a session: what was refused, and what became of it since an earlier one -----------

const TESTS = ["rib", "bgp", "session", "reach", "every", "element", "flow"];

const ABSENT = {
  rib: "its main table has no such row", bgp: "no such route is chosen", session: "no such session is established",
  reach: "no packet arrives", every: "there is no way, or one of them doesn't arrive", flow: "no such packet arrives past all filters",
};
const REFUSALS = [
  ["refused syntax", "the line is no command"],
  ["refused router ", "no router has this name"],
  ["refused line", "there is no such line, or nothing that is tested depends on it"],
  ["refused test ", "no test has this number, or it was taken back"],
  ["refused long", "the line has more than 4,096 bytes"],
  ["refused limit ", "a limit was passed"],
];

/** What a refused line asked, as far as it is known, and why it was refused, in words. */
function refusalOf(side, k) {
  const text = side.lines.plain(side.list[k].at).slice(0, 4200);
  if (!text.startsWith("refused absent ")) {
    const cause = REFUSALS.find(([front]) => text.startsWith(front))?.[1] ?? "it was refused";
    return { asked: side.commands?.[k] ?? null, told: text, cause };
  }
  const asked = text.slice("refused absent ".length);
  const accepted = asked.startsWith("bgp ") && asked.includes(" from ");
  return { asked, told: "refused absent", cause: accepted ? "no such route is accepted" : ABSENT[wordsOf(asked)[0]] ?? "it doesn't hold" };
}

const refusalsOf = (side) => side.list.flatMap(({ kind }, k) => (kind === "refused" ? [k] : []));

/** Whether each test of a session held, by its words. It needs the session's commands. */
function outcomesOf(side) {
  const outcomes = new Map();
  side.list.forEach(({ kind }, k) => {
    const command = side.commands[k] ?? "";
    if (TESTS.includes(command.split(" ", 1)[0])) outcomes.set(command, kind === "report");
  });
  return outcomes;
}

const isTestLike = ({ kind }) => kind === "report" || kind === "refused";

/** Whether two lists of replies are answers to the same lines, as far as the replies tell. */
function areAlike(old, now) {
  if (old.list.length !== now.list.length) return false;
  const absent = (side, k) => (side.list[k].kind === "refused" ? refusalOf(side, k).asked : null);
  return old.list.every((reply, k) => {
    const other = now.list[k];
    if (reply.kind !== other.kind) return isTestLike(reply) && isTestLike(other);
    return reply.kind !== "refused" || absent(old, k) === absent(now, k);
  });
}

/**
 * What became of the tests of an earlier session: which broke, which hold again, which are new (and hold, or don't), and which
 * are asked no longer. Without commands they go by their place, where both sessions have as many replies; else null.
 */
function compareTests(old, now) {
  const found = { broke: [], mended: [], holds: [], fails: [], gone: [] };
  if (old.commands !== null && now.commands !== null) {
    const [before, after] = [outcomesOf(old), outcomesOf(now)];
    for (const [test, held] of after) {
      if (!before.has(test)) found[held ? "holds" : "fails"].push(test);
      else if (before.get(test) !== held) found[held ? "mended" : "broke"].push(test);
    }
    found.gone = [...before.keys()].filter((test) => !after.has(test));
    return found;
  }
  if (!areAlike(old, now)) return null;
  now.list.forEach(({ kind }, k) => {
    if (kind === old.list[k].kind || !isTestLike(now.list[k])) return;
    const [side, word] = kind === "refused" ? [now, "broke"] : [old, "mended"];
    const { asked } = refusalOf(side, k);
    if (asked !== null) found[word].push(asked);
  });
  return found;
}

/** Where one of two sessions has no commands, those of the other stand for it if they go with each of its replies. */
function shareCommands(sides) {
  for (const [side, other] of [sides, [...sides].reverse()]) {
    if (side.commands !== null || other.commands === null || side.list.length === 0 || side.list[0].kind === "part") continue;
    const last = side.list.length - 1;
    const fits = (reply, k) => goesWith(other.commands[k], reply, side.lines.latin(reply.at, 200), k === last);
    if (side.list.length <= other.commands.length && side.list.every(fits)) side.commands = other.commands;
  }
}

/** A test by its number, with its words where they are known. */
function testText(side, number) {
  const command = side.commands?.[side.told.tests.get(number)];
  return command === undefined ? `test ${number}` : `test ${number}, ${command}`;
}

/** In words: since which test a line has been covered, and since which strong. */
function firstText(side, name, k, mark) {
  const { covered, strong } = side.firsts.of(name, k);
  if (covered === null || !isCovered(mark)) return "";
  const word = (report) => {
    if (report.number === null) return "a test before the first report";
    const known = testText(side, report.number);
    const sure = report.from === report.number ? known : `${known}, or one before it`;
    return side.firsts.forgotten.has(report.number) ? `${sure} (taken back since; others cover it)` : sure;
  };
  const later = mark === "S" && strong !== null && strong !== covered ? `; strong since ${word(strong)}` : "";
  return `Covered first by ${word(covered)}${later}.`;
}
