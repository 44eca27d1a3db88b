// ---- Comparing two files -------------------------------------------------------------------------

/**
 * The rows of a comparison: for each row its place in the old file and in the new one, -1 where it isn't there.
 * Rows keep the order of both files. Where there is no text, lines go by their numbers, if there are as many of both.
 */
function alignRouters(old, now) {
  const before = old === undefined ? 0 : old.marks.length;
  const after = now === undefined ? 0 : now.marks.length;
  let partner = new Int32Array(after).fill(-1);
  const whole = (router) => router.text !== null && router.text.count === router.marks.length;
  const both = before > 0 && after > 0;
  const texts = both && whole(old) && whole(now);
  if (texts) partner = pairLines(old.text, now.text);
  else if (before === after) partner = partner.map((_, k) => k);
  return { pairs: joinRows(partner, before), by: !both || texts ? "text" : before === after ? "numbers" : "nothing" };
}

/** Lines that are gone stand before the new ones that took their place. */
function joinRows(partner, before) {
  const next = new Int32Array(partner.length + 1).fill(before);
  for (let k = partner.length - 1; k >= 0; k -= 1) next[k] = partner[k] >= 0 ? partner[k] : next[k + 1];
  const rows = [];
  let old = 0;
  for (let k = 0; k <= partner.length; k += 1) {
    while (old < next[k]) rows.push(old++, -1);
    if (k < partner.length) rows.push(partner[k] >= 0 ? old++ : -1, k);
  }
  return Int32Array.from(rows);
}

/** For each line of `b` the line of `a` that it goes with, or -1; the pairs go up in both. */
function pairLines(a, b) {
  const partner = new Int32Array(b.count).fill(-1);
  const whole = trimEnds({ al: 0, ah: a.count, bl: 0, bh: b.count }, (i, j) => sameBytes(a.raw(i), b.raw(j)), partner);
  const numbers = new Map();
  const numbered = (text, low, high) => Int32Array.from({ length: text.count }, (_, k) =>
    (k < low || k >= high ? -1 : numberOf(numbers, text.latin(k))));
  const as = numbered(a, whole.al, whole.ah);
  const bs = numbered(b, whole.bl, whole.bh);
  const todo = [whole];
  while (todo.length > 0) {
    const part = trimEnds(todo.pop(), (i, j) => as[i] === bs[j], partner);
    if (part.al < part.ah && part.bl < part.bh) todo.push(...splitPart(part, as, bs, partner));
  }
  return partner;
}

function sameBytes(a, b) {
  return a.length === b.length && a.every((byte, k) => byte === b[k]);
}

function numberOf(numbers, line) {
  if (!numbers.has(line)) numbers.set(line, numbers.size);
  return numbers.get(line);
}

/** Pairs the lines that are the same at both ends of a part, and gives what is left between them. */
function trimEnds({ al, ah, bl, bh }, same, partner) {
  while (al < ah && bl < bh && same(al, bl)) partner[bl++] = al++;
  while (al < ah && bl < bh && same(ah - 1, bh - 1)) partner[--bh] = --ah;
  return { al, ah, bl, bh };
}

/** Pairs lines that stand once on each side, as many as go in order, and gives the parts between them. */
function splitPart(part, as, bs, partner) {
  const anchors = longestRising(anchorsOf(part, as, bs));
  if (anchors.length === 0) {
    if ((part.ah - part.al) * (part.bh - part.bl) <= 1000000) pairSmall(part, as, bs, partner);
    return [];
  }
  const parts = [];
  let { al, bl } = part;
  for (const [i, j] of anchors) {
    partner[j] = i;
    parts.push({ al, ah: i, bl, bh: j });
    [al, bl] = [i + 1, j + 1];
  }
  parts.push({ al, ah: part.ah, bl, bh: part.bh });
  return parts;
}

function anchorsOf({ al, ah, bl, bh }, as, bs) {
  const once = (list, low, high) => {
    const places = new Map();
    for (let k = low; k < high; k += 1) places.set(list[k], places.has(list[k]) ? -1 : k);
    return places;
  };
  const places = once(as, al, ah);
  return [...once(bs, bl, bh)].map(([line, j]) => [places.get(line) ?? -1, j]).filter(([i, j]) => i >= 0 && j >= 0);
}

/** The longest of the lists of pairs whose first numbers rise; the second ones rise already. */
function longestRising(pairs) {
  const ends = [];
  const before = pairs.map(() => -1);
  for (let k = 0; k < pairs.length; k += 1) {
    let [low, high] = [0, ends.length];
    while (low < high) {
      const middle = (low + high) >> 1;
      if (pairs[ends[middle]][0] < pairs[k][0]) low = middle + 1;
      else high = middle;
    }
    if (low > 0) before[k] = ends[low - 1];
    ends[low] = k;
  }
  const found = [];
  for (let k = ends.length > 0 ? ends[ends.length - 1] : -1; k >= 0; k = before[k]) found.push(pairs[k]);
  return found.reverse();
}

/** Pairs as many equal lines as can be, in a part that is small enough for a table of all pairs. */
function pairSmall({ al, ah, bl, bh }, as, bs, partner) {
  const width = bh - bl + 1;
  const best = new Uint16Array((ah - al + 1) * width);
  for (let i = ah - 1; i >= al; i -= 1) {
    for (let j = bh - 1; j >= bl; j -= 1) {
      const at = (i - al) * width + j - bl;
      best[at] = as[i] === bs[j] ? best[at + width + 1] + 1 : Math.max(best[at + width], best[at + 1]);
    }
  }
  for (let [i, j] = [al, bl]; i < ah && j < bh; ) {
    const at = (i - al) * width + j - bl;
    if (as[i] === bs[j]) partner[j++] = i++;
    else if (best[at + width] >= best[at + 1]) i += 1;
    else j += 1;
  }
}

/** What became of a line with these marks, null where it isn't there: a key of SIGNS. */
function changeOf(old, now) {
  if (old === null) return "new";
  if (now === null) return "gone";
  if (old === now) return "same";
  return isCovered(old) === isCovered(now) ? "other" : isCovered(now) ? "became" : "lost";
}

// What stands for a change in a row, and how it is called.
const SIGNS = { became: "+", lost: "−", other: "~", same: "", new: "new", gone: "gone" };
const NAMES = {
  became: "became covered", lost: "no longer covered", other: "another mark", same: "unchanged", new: "new", gone: "gone",
};
