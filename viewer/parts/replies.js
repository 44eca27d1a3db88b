// ---- Reading replies -----------------------------------------------------------------------------

const COUNTS = /^strong (\d+) weak (\d+) uncovered (\d+) outside (\d+)$/;
const REPORT = /^(?:test (\d+) facts \d+|forgot (\d+))$/;
const SHOWN = /^[SWU.] (\d+)(?: |$)/;
const LINE = /^(?:refused |implies \d+ \d+ (?:yes|no)|cut \d+ (?:\d+|none)|suite(?: \d+)* ?$|dead \d+)/;
const HEAD = /^fat-tree \d+ routers \d+ lines \d+$/;
const COMMANDS = ["rib", "bgp", "session", "reach", "every", "element", "flow", "forget", "implies", "cut", "suite", "dead",
  "show", "lcov", "json", "quit"];

/** Reads what a session wrote: replies to tests, refusals, and the texts of `show`, `lcov` and `json`, in any order. */
class Replies {
  constructor(bytes, name, say) {
    const first = bytes.indexOf(10);
    const lines = cutLines(bytes, first > 0 && bytes[first - 1] === 13);
    Object.assign(this, { lines, name, say, at: 0, without: false, passed: [], lcov: 0 });
    /** Each reply: its kind, and its first line. */
    this.list = [];
    /** Each text of `show`: its lines and marks, and which reply it is. */
    this.shows = [];
    /** The last marks of each router, by its name, in the order of the last reply that gave them all. */
    this.marks = new Map();
    this.firsts = new Firsts();
    this.whole = bytes.length === 0 || bytes[bytes.length - 1] === 10;
    while (this.at < lines.count) this.readOne(lines.latin(this.at, 160));
    this.tellPassed();
  }

  readOne(line) {
    const shown = SHOWN.exec(line);
    if (shown !== null && shown[1] === "1") return this.readShow();
    if (REPORT.test(line)) return this.readReport("report", this.at + 1);
    if (COUNTS.test(line)) return this.readReport("part", this.at);
    if (line.startsWith("TN:")) return this.readLcov();
    if (line.startsWith("{")) return this.readJson();
    if (HEAD.test(line)) this.without = true;
    else if (LINE.test(line)) this.list.push({ kind: line.split(" ", 1)[0], at: this.at });
    else this.passed.push(this.at);
    this.at += 1;
  }

  tellPassed() {
    if (this.passed.length > 0) {
      const [first] = this.passed;
      this.say("warning", `${this.name}: ${many(this.passed.length, "line")} passed over as no reply of NetCov, `
        + `the first at line ${first + 1}: “${this.lines.plain(first).slice(0, 80)}”.`);
    }
    if (this.lcov > 0) {
      this.say("note", `${this.name}: LCOV tells no weak line from a strong one; ${many(this.lcov, "record")} of it passed over.`);
    }
    if (!this.whole) this.say("warning", `${this.name} ends inside a line, so its last reply may be cut.`);
  }

  /** Lines `MARK NUMBER TEXT` whose numbers count up from 1. */
  readShow() {
    const { lines, at } = this;
    const from = [];
    const marks = [];
    for (let k = at; k < lines.count; k += 1) {
      const number = String(k - at + 1);
      const begin = lines.latin(k, number.length + 3);
      if (!isMark(begin.charCodeAt(0)) || begin.slice(1, number.length + 2) !== " " + number) break;
      if (begin.length === number.length + 3 && begin[number.length + 2] !== " ") break;
      marks.push(begin.charCodeAt(0));
      from.push(Math.min(lines.from[k] + number.length + 3, lines.to[k]));
    }
    this.at += from.length;
    const text = new Text(lines.bytes, Uint32Array.from(from), lines.to.slice(at, this.at));
    const cut = this.at === lines.count && !this.whole;
    this.shows.push({ text, marks: Uint8Array.from(marks), at, reply: this.list.length, cut });
    this.list.push({ kind: "show", at });
  }

  /** A report: the line of counts, then one line a router until there are as many marks as it counts. */
  readReport(kind, at) {
    const reply = { kind, at: this.at };
    this.list.push(reply);
    const counts = COUNTS.exec(at < this.lines.count ? this.lines.latin(at, 160) : "");
    this.at = counts === null ? at : at + 1;
    if (counts === null) return this.say("warning", `${this.name}: the report at line ${reply.at + 1} is cut.`);
    if (this.without) return undefined;
    const told = counts.slice(1).map(Number);
    const total = told.reduce((sum, n) => sum + n, 0);
    const found = new Map();
    let seen = 0;
    for (let more = 1; more > 0 && seen < total && this.at < this.lines.count; seen += more) {
      more = this.readRouter(found);
    }
    if (seen !== total) {
      return this.say("warning", `${this.name}: the report at line ${reply.at + 1} is cut: it counts ${total} lines, `
        + `and marks of ${seen} stand behind it. It is passed over.`);
    }
    return this.keepReport(found, told, reply.at);
  }

  /** Takes the marks of one router in, and gives their number; 0 where the line is none of a router. */
  readRouter(found) {
    const raw = this.lines.raw(this.at);
    const space = raw.indexOf(32);
    if (space < 1 || space > 63 || space + 1 === raw.length || !areMarks(raw.subarray(space + 1))) return 0;
    const name = LATIN.decode(raw.subarray(0, space));
    if (found.has(name)) return 0;
    found.set(name, raw.subarray(space + 1));
    this.at += 1;
    return raw.length - space - 1;
  }

  keepReport(found, told, at) {
    const number = REPORT.exec(this.lines.latin(at, 160));
    if (this.list[this.list.length - 1].kind !== "json") this.firsts.take(found, number?.[1], number?.[2]);
    this.marks = new Map([...found].map(([name, marks]) => [name, { marks, at }]));
    this.told = { told, at };
  }

  readLcov() {
    let at = this.at;
    while (at < this.lines.count && this.lines.latin(at, 14) !== "end_of_record") at += 1;
    if (this.list[this.list.length - 1]?.kind !== "lcov") this.list.push({ kind: "lcov", at: this.at });
    this.lcov += 1;
    if (at === this.lines.count) this.say("warning", `${this.name}: the LCOV record at line ${this.at + 1} is cut.`);
    this.at = at + 1;
  }

  /** One line of JSON; or, where a tool has set it out in lines, the rest of the file. */
  readJson() {
    const { at } = this;
    const rest = LATIN.decode(this.lines.bytes.subarray(this.lines.from[at]));
    for (const [text, next] of [[this.lines.latin(at), at + 1], [rest, this.lines.count]]) {
      const found = routersOfJson(text);
      if (found !== null) {
        this.at = next;
        this.list.push({ kind: "json", at });
        return this.keepReport(found.routers, found.told, at);
      }
    }
    this.at = at + 1;
    return this.say("warning", `${this.name}: line ${at + 1} begins like a json reply but isn't a whole one; it is passed over.`);
  }
}

/** The marks by router of a `json` reply, or null where the text is none. */
function routersOfJson(text) {
  let value;
  try {
    value = JSON.parse(text);
  } catch {
    return null;
  }
  if (value === null || !Array.isArray(value.routers)) return null;
  const routers = new Map();
  for (const router of value.routers) {
    if (router === null || typeof router.name !== "string" || !/^[!-~]{1,63}$/.test(router.name)) return null;
    if (typeof router.marks !== "string" || !/^[SWU.]+$/.test(router.marks) || routers.has(router.name)) return null;
    routers.set(router.name, new TextEncoder().encode(router.marks));
  }
  return { routers, told: ["strong", "weak", "uncovered", "outside"].map((word) => value[word]) };
}
