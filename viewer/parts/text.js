// ---- Bytes and lines -----------------------------------------------------------------------------

const LATIN = new TextDecoder("latin1");
const STRICT = new TextDecoder("utf-8", { fatal: true, ignoreBOM: true });
const LOOSE = new TextDecoder("utf-8", { ignoreBOM: true });
// What can't be seen, or turns the order of what stands beside it.
const UNSEEN = /[\u0000-\u0008\u000a-\u001f\u007f-\u009f\u00ad\u200b-\u200f\u2028-\u202e\u2060-\u2069\ufeff]/u;

/** Lines of some bytes: where each begins and where it ends. None is decoded before it is asked for. */
class Text {
  constructor(bytes, from, to) {
    Object.assign(this, { bytes, from, to, count: from.length });
  }
  raw(k) {
    return this.bytes.subarray(this.from[k], this.to[k]);
  }
  /** The line, or its first bytes, each as one character. */
  latin(k, most = Infinity) {
    return latinOf(this.bytes.subarray(this.from[k], Math.min(this.to[k], this.from[k] + most)));
  }
  /** The line as it is shown: a list of pieces, each with its text, and whether it stands for something odd. */
  pieces(k) {
    const raw = this.raw(k);
    const most = 4000;
    const pieces = piecesOf(raw.length > most ? raw.subarray(0, most) : raw);
    if (raw.length > most) pieces.push({ text: `… and ${raw.length - most} more bytes`, more: true });
    return pieces;
  }
  plain(k) {
    const latin = this.latin(k);
    return /^[\x00-\x7f]*$/.test(latin) ? latin : LOOSE.decode(this.raw(k));
  }
}

/** Bytes as characters of the same numbers. For short ones this is much quicker than a decoder. */
function latinOf(bytes) {
  return bytes.length < 5000 ? String.fromCharCode.apply(null, bytes) : LATIN.decode(bytes);
}

function piecesOf(raw) {
  try {
    const text = STRICT.decode(raw);
    if (!UNSEEN.test(text)) return [{ text }];
  } catch { /* not UTF-8: byte by byte below */ }
  const pieces = [];
  for (let at = 0; at < raw.length; ) {
    const { text, size, odd } = characterAt(raw, at);
    const last = pieces[pieces.length - 1];
    if (odd || last === undefined || last.odd) pieces.push({ text, odd });
    else last.text += text;
    at += size;
  }
  return pieces;
}

/** The character at this place, or its number where it is odd, or the byte's where no character is there. */
function characterAt(raw, at) {
  const size = raw[at] < 0x80 ? 1 : raw[at] >= 0xf0 ? 4 : raw[at] >= 0xe0 ? 3 : 2;
  let text;
  try {
    text = STRICT.decode(raw.subarray(at, at + size));
  } catch {
    return { text: "\\x" + raw[at].toString(16).padStart(2, "0"), size: 1, odd: true };
  }
  if (!UNSEEN.test(text)) return { text, size, odd: false };
  const number = text.codePointAt(0).toString(16);
  return { text: size === 1 ? "\\x" + number.padStart(2, "0") : `\\u{${number}}`, size, odd: true };
}

/** Cuts bytes into lines as NetCov does: at line feeds; a rest behind the last is a line; one carriage return is dropped. */
function cutLines(bytes, dropReturn) {
  let count = bytes.length > 0 && bytes[bytes.length - 1] !== 10 ? 1 : 0;
  for (let at = bytes.indexOf(10); at >= 0; at = bytes.indexOf(10, at + 1)) count += 1;
  const from = new Uint32Array(count);
  const to = new Uint32Array(count);
  for (let k = 0, start = 0; k < count; k += 1) {
    const feed = bytes.indexOf(10, start);
    const end = feed < 0 ? bytes.length : feed;
    from[k] = start;
    to[k] = dropReturn && end > start && bytes[end - 1] === 13 ? end - 1 : end;
    start = end + 1;
  }
  return new Text(bytes, from, to);
}

/** Bytes as NetCov wrote them, from a file that a shell or an editor may have put into another form. */
function plainBytes(bytes, name, say) {
  if ((bytes[0] === 0xff && bytes[1] === 0xfe) || (bytes[0] === 0xfe && bytes[1] === 0xff)) {
    say("note", `${name} is UTF-16, as some shells write; it is read as such, and odd bytes in it may be lost.`);
    return new TextEncoder().encode(new TextDecoder(bytes[0] === 0xff ? "utf-16le" : "utf-16be").decode(bytes));
  }
  return bytes[0] === 0xef && bytes[1] === 0xbb && bytes[2] === 0xbf ? bytes.subarray(3) : bytes;
}

const wordsOf = (line) => line.split(/[ \t]+/).filter((word) => word !== "");

/** The name that the last `hostname` statement of a file gives, or null. Banners hold text, not statements. */
function hostnameOf(text) {
  let name = null;
  let inBanner = false;
  for (let k = 0; k < text.count; k += 1) {
    const first = text.bytes[text.from[k]];
    if (inBanner) inBanner = !text.latin(k).includes("^C");
    else if (text.to[k] > text.from[k] && (first === 98 || first === 104)) {
      const words = wordsOf(text.latin(k, 5000));
      if (words[0] === "hostname" && words.length === 2) name = words[1];
      if (words[0] === "banner") inBanner = opensBanner(text.latin(k));
    }
  }
  return name;
}

function opensBanner(line) {
  const mark = line.indexOf("^C");
  return mark >= 0 && !line.includes("^C", mark + 2);
}
