// ---- What the lines of a file say ----------------------------------------------------------------

/** An address as a number, or null where the word is none. */
function addressOf(word) {
  if (word === undefined || !/^\d{1,3}(?:\.\d{1,3}){3}$/.test(word)) return null;
  return word.split(".").reduce((sum, piece) => sum * 256 + Number(piece), 0);
}

const addressText = (number) => [24, 16, 8, 0].map((shift) => Math.floor(number / 2 ** shift) % 256).join(".");
const lengthOf = (mask) => (mask === null ? null : mask.toString(2).replace(/0+$/, "").length);
const firstOf = (address, length) => address - (address % 2 ** (32 - length));

/** The prefix of this length that has the address in it. */
const prefixOf = (address, length) => ({ address: firstOf(address, length), length });
const prefixText = (prefix) => `${addressText(prefix.address)}/${prefix.length}`;
const holds = (prefix, address) => firstOf(address, prefix.length) === prefix.address;
const isInside = (inner, outer) => inner.length >= outer.length && holds(outer, inner.address);

/** A community as a number; two numbers with a colon between stand for one. */
function communityOf(word) {
  const [high, low] = word.split(":").map(Number);
  return low === undefined ? high : high * 65536 + low;
}

/** The length of an address's class, by which `network` without a mask goes. */
function classLength(address) {
  if (address === 0) return 0;
  const first = Math.floor(address / 2 ** 24);
  return first < 128 ? 8 : first < 192 ? 16 : 24;
}

/** The numbers of access lists by which `access-list` tells a standard one, and an extended one. */
const isBetween = (number, ...ranges) => ranges.some(([low, high]) => number >= low && number <= high);
const isStandard = (number) => isBetween(number, [1, 99], [1300, 1999]);
const isExtended = (number) => isBetween(number, [100, 199], [2000, 2699]);
const isNumber = (word) => /^(?:0|[1-9]\d*)$/.test(word ?? "");
const isAction = (word) => word === "permit" || word === "deny";

const ANYWHERE = { address: 0, wild: -1 };

/** Whether an address agrees with that of an entry in every bit that is 0 in the wildcard. */
const agrees = (side, address) => ((side.address ^ address) & ~side.wild) === 0;

/** The addresses that some words begin with and the words behind, or null; in a standard list an address may stand alone. */
function sideOf(words, standard) {
  const [first, second] = words;
  if (first === "any") return { side: ANYWHERE, rest: words.slice(1) };
  const [address, wild] = [addressOf(first), addressOf(second)];
  if (first === "host" && wild !== null) return { side: { address: wild, wild: 0 }, rest: words.slice(2) };
  if (address !== null && wild !== null) return { side: { address, wild }, rest: words.slice(2) };
  return standard && address !== null ? { side: { address, wild: 0 }, rest: words.slice(1) } : null;
}

/** What an entry of an access list says, of the words from `permit` or `deny` on; null where it is read by no form. */
function entryOf([action, ...words], standard) {
  const said = { permits: action === "permit", ip: true, to: ANYWHERE };
  if (!standard && words.length > 0 && words[0] !== "ip") return { ...said, ip: false, from: ANYWHERE };
  const from = sideOf(standard ? words : words.slice(1), standard);
  const to = standard || from === null ? from : sideOf(from.rest, false);
  if (to === null || to.rest.length > 1) return null;
  const [last = "log"] = to.rest;
  if (last !== "log" && (standard || last !== "log-input")) return null;
  return { ...said, from: from.side, ...(standard ? {} : { to: to.side }) };
}

/**
 * The elements of a file: what its statements make, an interface, a route, a clause and so on. Several lines may be of one.
 * `of` has the element of each line, null where it makes none; `all` has each element once, by its key.
 */
class Elements {
  constructor(text) {
    Object.assign(this, { of: new Array(text.count).fill(null), all: new Map(), block: null, highest: new Map() });
    let inBanner = false;
    for (let k = 0; k < text.count; k += 1) {
      const line = text.latin(k, 5000);
      const words = wordsOf(line);
      if (inBanner) inBanner = !line.includes("^C");
      else if (words.length > 0 && words[0][0] !== "!") {
        const indented = line[0] === " " || line[0] === "\t";
        inBanner = !indented && words[0] === "banner" && opensBanner(line);
        this.of[k] = indented ? this.inBlock(words, k) : this.atTop(words, k);
        this.of[k]?.lines.push(k);
      }
    }
  }

  /** The element of this key, made where it isn't there. */
  element(kind, name, k, more = {}) {
    const key = `${kind} ${name}`;
    if (!this.all.has(key)) this.all.set(key, { kind, key, lines: [], ...more });
    return this.all.get(key);
  }

  /** All elements of a kind, in the order of their first lines. */
  ofKind(kind) {
    this.kinds ??= Map.groupBy(this.all.values(), (element) => element.kind);
    return this.kinds.get(kind) ?? [];
  }

  /** The entries of a prefix list, in the order of their numbers. */
  entriesOf(list) {
    this.lists ??= Map.groupBy([...this.ofKind("entry")].sort((a, b) => a.number - b.number), (entry) => entry.list);
    return this.lists.get(list) ?? [];
  }

  atTop(words, k) {
    const [first, second] = words;
    this.block = null;
    if (first === "interface" && second) {
      this.block = this.element("interface", second, k, { name: second, address: null, length: null, shut: false });
    } else if (first === "router" && second === "bgp") this.block = this.element("process", "", k);
    else if (first === "route-map" && words.length === 4) {
      this.block = this.element("clause", `${second} ${words[3]}`, k, {
        map: second, number: Number(words[3]), lists: [], communities: [], sets: [],
      });
      this.block.permits = words[2] === "permit";
    } else if (first === "ip" && second === "route") return this.route(words, k);
    else if (first === "ip" && second === "prefix-list") return this.entry(words, k);
    else if (first === "ip" && second === "community-list") return this.community(words, k);
    else if (first === "ip" && second === "access-list") return this.openList(words);
    else if (first === "access-list") return this.numbered(words, k);
    return this.block;
  }

  route(words, k) {
    const [address, mask] = [addressOf(words[2]), addressOf(words[3])];
    if (address === null || mask === null) return null;
    const prefix = prefixOf(address, lengthOf(mask));
    const discards = words[4] === "Null0";
    const at = discards || addressOf(words[4]) !== null ? 4 : 5;
    const via = discards ? null : words[at];
    const route = this.element("route", `${prefixText(prefix)} ${words.slice(4, at + 1).join(" ")}`, k, { prefix, via });
    route.distance = /^\d+$/.test(words[at + 1] ?? "") ? Number(words[at + 1]) : 1;
    return route;
  }

  /** An entry of a prefix list; one without a number has the highest of its list so far plus 5. */
  entry(words, k) {
    const numbered = words[3] === "seq";
    const [action, range, ...bounds] = words.slice(numbered ? 5 : 3);
    const found = /^([\d.]+)\/(\d+)$/.exec(range ?? "");
    if ((action !== "permit" && action !== "deny") || found === null) return null;
    const list = words[2];
    const number = numbered ? Number(words[4]) : (this.highest.get(list) ?? 0) + 5;
    this.highest.set(list, Math.max(number, this.highest.get(list) ?? 0));
    const prefix = prefixOf(addressOf(found[1]) ?? 0, Number(found[2]));
    const bound = (word) => (bounds.includes(word) ? Number(bounds[bounds.indexOf(word) + 1]) : null);
    const [low, high] = [bound("ge"), bound("le")];
    const entry = this.element("entry", `${list} ${number}`, k, { list, number });
    return Object.assign(entry, {
      permits: action === "permit", prefix, low: low ?? prefix.length, high: high ?? (low === null ? prefix.length : 32),
    });
  }

  community(words, k) {
    const at = words[2] === "standard" ? 3 : 2;
    const action = words[at + 1];
    if (action !== "permit" && action !== "deny") return null;
    return this.element("community", k, k, {
      list: words[at], permits: action === "permit", communities: words.slice(at + 2).map(communityOf),
    });
  }

  /** The header of an access list: its lines are elements, and it is none. */
  openList(words) {
    const kind = words[2];
    if (words.length === 4 && (kind === "standard" || kind === "extended")) this.block = { kind: "list", name: words[3], standard: kind === "standard" };
    return null;
  }

  /** An entry of an access list that `access-list` tells. */
  numbered([, number, ...words], k) {
    if (!isNumber(number) || !isAction(words[0]) || !(isStandard(number) || isExtended(number))) return null;
    return this.filter(number, entryOf(words, isStandard(number)), k);
  }

  inList(words, k, { name, standard }) {
    const entry = isNumber(words[0]) ? words.slice(1) : words;
    return isAction(entry[0]) ? this.filter(name, entryOf(entry, standard), k) : null;
  }

  filter(list, said, k) {
    return said === null ? null : this.element("filter", k, k, { list, ...said });
  }

  /** The filter of an interface and a direction; the last one tells the list. */
  group([, , list, way], block, k) {
    return Object.assign(this.element("group", `${block.name} ${way}`, k, { face: block, way }), { list });
  }

  inBlock(words, k) {
    const { block } = this;
    if (block === null) return null;
    if (block.kind === "interface") return this.inInterface(words, k, block);
    if (block.kind === "list") return this.inList(words, k, block);
    if (block.kind === "clause") return this.inClause(words, block);
    return this.inProcess(words, k, block);
  }

  inInterface(words, k, block) {
    const said = words.join(" ");
    if (/^ip access-group \S+ (?:in|out)$/.test(said)) return this.group(words, block, k);
    if (said === "shutdown" || said === "no shutdown") block.shut = words.length === 1;
    else if (said === "no ip address") Object.assign(block, { address: null, length: null });
    else if (said.startsWith("ip address ")) {
      Object.assign(block, { address: addressOf(words[2]), length: lengthOf(addressOf(words[3])) });
    } else return null;
    return block;
  }

  inClause(words, block) {
    const said = words.join(" ");
    if (said.startsWith("match ip address prefix-list ")) block.lists.push(...words.slice(4));
    else if (said.startsWith("match community ")) block.communities.push(...words.slice(2));
    else if (said.startsWith("set community ")) block.sets.push(...words.slice(2).map(communityOf));
    else if (words[0] !== "set") return null;
    return block;
  }

  inProcess(words, k, block) {
    const [first, second, third] = words;
    const address = addressOf(second);
    if (first === "network" && address !== null) {
      const prefix = prefixOf(address, third === "mask" ? lengthOf(addressOf(words[3])) : classLength(address));
      return this.element("network", prefixText(prefix), k, { prefix });
    }
    if (first === "aggregate-address" && address !== null) {
      const prefix = prefixOf(address, lengthOf(addressOf(third)));
      const aggregate = this.element("aggregate", prefixText(prefix), k, { prefix, hides: false });
      aggregate.hides ||= words.includes("summary-only");
      return aggregate;
    }
    if (first === "neighbor" && address !== null) return this.neighbor(words, k);
    const said = ["bgp router-id", "bgp always-compare-med", "bgp bestpath", "address-family ipv4", "exit-address-family "];
    return first === "maximum-paths" || said.includes(`${first} ${second ?? ""}`) ? block : null;
  }

  neighbor(words, k) {
    const verbs = ["remote-as", "update-source", "ebgp-multihop", "next-hop-self", "route-map", "send-community", "shutdown", "activate"];
    const [, address, verb, word] = words;
    if (!verbs.includes(verb)) return null;
    const neighbor = this.element("neighbor", address, k, { address, in: null, out: null, source: null, shut: false });
    if (verb === "route-map") neighbor[words[4]] = word;
    if (verb === "update-source") neighbor.source = word;
    if (verb === "shutdown") neighbor.shut = true;
    return neighbor;
  }
}

/** The elements of a router's file, or null where its text isn't here as a whole. They are read once. */
function elementsOf(router) {
  if (router === undefined || router.text === null || router.text.count !== router.marks.length) return null;
  if (router.elements?.text !== router.text) router.elements = Object.assign(new Elements(router.text), { text: router.text });
  return router.elements;
}

/** The element of a line that has a mark, or null. */
function elementAt(router, k) {
  return k < 0 || router.marks[k] === OUTSIDE ? null : elementsOf(router)?.of[k] ?? null;
}
