// ---- Which test covered a line first --------------------------------------------------------------

/**
 * What the reports of a session tell of each line: since which of them it has been covered without a break, and since which strong.
 * Each line has the place of that report in `reports`, counted from 1; 0 where it isn't covered, or isn't strong.
 */
class Firsts {
  constructor() {
    Object.assign(this, { reports: [], routers: new Map(), forgotten: new Set(), last: 0 });
  }

  /** Takes the marks of one report in, by router; and the number of the test that it is about, or of the one that was forgotten. */
  take(found, test, forgot) {
    const number = test === undefined ? null : Number(test);
    if (number !== null && number <= this.last) Object.assign(this, { routers: new Map(), forgotten: new Set(), last: 0 });
    this.reports.push({ number, from: this.last + 1, gained: 0 });
    if (number !== null) this.last = number;
    else if (forgot === undefined) this.last = 0;
    else this.forgotten.add(Number(forgot));
    for (const [name, marks] of found) this.takeRouter(name, marks);
  }

  takeRouter(name, marks) {
    let known = this.routers.get(name);
    if (known === undefined || known.covered.length !== marks.length) {
      known = { marks: new Uint8Array(marks.length), covered: new Uint16Array(marks.length), strong: new Uint16Array(marks.length) };
      this.routers.set(name, known);
    }
    const report = this.reports[this.reports.length - 1];
    const at = Math.min(this.reports.length, 65535);
    for (let k = 0; k < marks.length; k += 1) {
      if (marks[k] === known.marks[k]) continue;
      const covers = marks[k] === 83 || marks[k] === 87;
      if (covers && known.covered[k] === 0) report.gained += 1;
      known.covered[k] = covers ? known.covered[k] || at : 0;
      known.strong[k] = marks[k] === 83 ? at : 0;
    }
    known.marks = marks;
  }

  /** The reports since which a line is covered and strong; null where it isn't, or where no report tells. */
  of(name, k) {
    const known = this.routers.get(name);
    const report = (numbers) => (known === undefined || k >= numbers?.length ? null : this.reports[numbers[k] - 1] ?? null);
    return { covered: report(known?.covered), strong: report(known?.strong) };
  }
}
