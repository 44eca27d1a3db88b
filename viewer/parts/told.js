// ---- What cuts, suites and dead elements tell ------------------------------------------------------

/** The places `NAME:LINE` of some words; a name may have a colon in it. Null where a word is none. */
function placesOf(words) {
  const places = words.map((word) => /^(.+):([1-9]\d*)$/.exec(word));
  return places.includes(null) ? null : places.map(([, name, line]) => ({ name, line: Number(line) }));
}

/** A reply that lists lines: `cut N SIZE ..`, `cut N none`, `implies M N no without ..`, `dead D ..`; null where it is cut short. */
function listed(kind, words) {
  if (kind === "cut") {
    const places = words[2] === "none" ? [] : placesOf(words.slice(3));
    const whole = words[2] === "none" || places?.length === Number(words[2]);
    return whole ? { test: Number(words[1]), none: words[2] === "none", places } : null;
  }
  if (kind === "dead") {
    const places = placesOf(words.slice(2));
    return places?.length === Number(words[1]) ? { places } : null;
  }
  const places = placesOf(words.slice(5));
  return places === null ? null : { test: Number(words[2]), from: Number(words[1]), places };
}

/** What the replies of a session tell beside marks: its cuts, the last answers of `dead` and `suite`, and where each test stands. */
class Told {
  constructor(list, lines, name, say) {
    Object.assign(this, { cuts: [], dead: null, suite: null, tests: new Map() });
    const live = new Set();
    list.forEach(({ kind, at }, k) => {
      if (kind === "report") this.countTest(wordsOf(lines.latin(at, 80)), live, k);
      if (kind === "suite") this.suite = suiteOf(wordsOf(lines.plain(at)), live);
      const places = kind === "cut" || kind === "dead" || (kind === "implies" && lines.latin(at, 80).includes(" no "));
      if (places) this.takePlaces(kind, wordsOf(lines.plain(at)), k, () => say("warning", `${name}: the ${kind} reply at line ${at + 1} is cut.`));
    });
  }

  countTest([kind, number], live, k) {
    if (kind === "forgot") live.delete(Number(number));
    else {
      live.add(Number(number));
      this.tests.set(Number(number), k);
    }
  }

  takePlaces(kind, words, k, tellCut) {
    const told = listed(kind, words);
    if (told === null) tellCut();
    else if (kind === "dead") this.dead = told.places;
    else this.cuts.push({ kind, reply: k, ...told });
  }
}

/** Which of the live tests suffice, and which can go. */
function suiteOf([, ...numbers], live) {
  const kept = new Set(numbers.map(Number));
  return { kept, spare: new Set([...live].filter((test) => !kept.has(test))) };
}

/** Gives uncovered lines of dead elements a mark of their own. A reply names the first line of each element. */
function markDead(routers, dead, say) {
  let [unknown, textless] = [0, 0];
  for (const router of routers.values()) router.marks = router.marks.slice();
  for (const { name, line } of dead) {
    const router = routers.get(name);
    const known = router !== undefined && line <= router.marks.length && router.marks[line - 1] !== OUTSIDE;
    unknown += known ? 0 : 1;
    textless += known && elementsOf(router) === null ? 1 : 0;
    if (known) linesOfElement(router, line - 1).forEach((k) => { if (router.marks[k] === UNCOVERED) router.marks[k] = DEAD; });
  }
  for (const router of routers.values()) router.counts = countMarks(router.marks);
  if (unknown > 0) say("warning", `${many(unknown, "place")} of the dead reply ${unknown === 1 ? "is" : "are"} no line that the marks know.`);
  if (textless > 0) say("note", "Without its text, of a dead statement of several lines the first line alone is marked as dead.");
}

/** The lines that are of one element with this one. */
function linesOfElement(router, k) {
  return elementAt(router, k)?.lines.filter((line) => router.marks[line] !== OUTSIDE) ?? [k];
}
