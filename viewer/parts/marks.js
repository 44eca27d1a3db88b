// ---- Marks ---------------------------------------------------------------------------------------

// A line that is uncovered and, by a `dead` reply, dead has a letter of its own here; in replies there are the other four.
const MARKS = "SWUD.";
const IN_REPLIES = "SWU.";
const WORDS = { S: "strong", W: "weak", U: "uncovered", D: "dead", ".": "outside" };
const UNCOVERED = 85;
const DEAD = 68;
const OUTSIDE = 46;
const isMark = (byte) => byte === 83 || byte === 87 || byte === UNCOVERED || byte === OUTSIDE;
const areMarks = (bytes) => {
  for (let k = 0; k < bytes.length; k += 1) if (!isMark(bytes[k])) return false;
  return true;
};
const isCovered = (mark) => mark === "S" || mark === "W";
const classOf = (mark) => (mark === "." ? "O" : mark);
const noCounts = () => Object.fromEntries([...MARKS].map((mark) => [mark, 0]));

/** How many of these marks are strong, weak, uncovered, dead, outside. */
function countMarks(marks) {
  const numbers = new Uint32Array(256);
  for (const byte of marks) numbers[byte] += 1;
  return Object.fromEntries([...MARKS].map((mark) => [mark, numbers[mark.charCodeAt(0)]]));
}

/** A number with its word. */
const many = (count, word) => `${count} ${word}${count === 1 ? "" : "s"}`;

function addCounts(sum, counts) {
  for (const mark of MARKS) sum[mark] += counts[mark];
  return sum;
}

/** How many lines a test could cover; dead ones are among them where a comparison knows them of one side alone. */
const testable = (counts, withDead) => counts.S + counts.W + counts.U + (withDead ? counts.D : 0);

/** The part of the lines that are covered, never rounded up: "100 %" is all of them. */
function percent(counts, withDead) {
  const all = testable(counts, withDead);
  return all === 0 ? "–" : Math.floor((1000 * (counts.S + counts.W)) / all) / 10 + " %";
}
