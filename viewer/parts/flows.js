// ---- Which flow would cover an entry of an access list, or a filter --------------------------------

/** Farther down its list no flow is looked for: each entry above would have to be asked of each address. */
const MOST_ABOVE = 1000;

/** The network of an interface, as text. */
const networkOf = ({ address, length }) => prefixText(prefixOf(address, length));
const isUp = ({ address, shut }) => address !== null && !shut;

/** Whether an entry of an access list is of all packets of which another one is. */
const takesAll = (entry, other) => ["from", "to"].every((end) => (other[end].wild & ~entry[end].wild) === 0 && agrees(entry[end], other[end].address));

/** Where a packet for an address leaves a router, by its connected and static routes: the networks of these interfaces. */
function exitsOf(router, to) {
  const elements = elementsOf(router);
  const faces = (elements?.ofKind("interface") ?? []).filter(isUp);
  const routes = [
    ...faces.map((face) => ({ prefix: prefixOf(face.address, face.length), exit: networkOf(face) })),
    ...(elements?.ofKind("route") ?? []).map(({ prefix, via }) => {
      const face = via === null ? undefined : faces.find(({ address, length }) => holds(prefixOf(address, length), addressOf(via)));
      return { prefix, exit: face === undefined ? null : networkOf(face) };
    }),
  ].filter(({ prefix }) => holds(prefix, to));
  const most = Math.max(...routes.map(({ prefix }) => prefix.length));
  return routes.filter(({ prefix }) => prefix.length === most).map(({ exit }) => exit);
}

/** Finds flows that pass the filters of a router's interfaces, from what the files of all routers tell. */
class Flows {
  constructor(known, router) {
    Object.assign(this, { known, router, elements: elementsOf(router), lists: new Map() });
    const faces = known.faces.map(({ prefix }) => prefix);
    const hosts = faces.filter(({ length }) => length < 29).map(({ address }) => address + 9);
    /** Addresses of packets: a host of each network that has room for some, then those of routers. */
    this.ends = [...new Set([...hosts, ...known.faces.map(({ address }) => address)])];
  }

  /** The entries of a list that decide, in order: those of another protocol never do. */
  deciding(list) {
    if (!this.lists.has(list)) {
      const entries = this.elements.ofKind("filter").filter((entry) => entry.list === list && entry.ip);
      entries.forEach((entry, k) => { entry.place = k; });
      this.lists.set(list, entries);
    }
    return this.lists.get(list);
  }

  ofEntry(entry) {
    if (!entry.ip) return { tests: [], note: "An entry of another protocol than ip decides on no flow, so no test rests on it." };
    const groups = this.elements.ofKind("group").filter(({ list }) => list === entry.list);
    if (groups.length === 0) return { tests: [], note: "No interface filters by its list, so no test rests on it." };
    const entries = this.deciding(entry.list);
    if (entry.place > MOST_ABOVE) return { tests: [], note: "A flow that it lets pass. It stands so far down its list that none is looked for here." };
    const taker = entries.slice(0, entry.place).find((other) => takesAll(other, entry));
    if (taker !== undefined) return { tests: [], note: `Line ${taker.lines[0] + 1} takes every packet that it is of, so no test rests on it.` };
    return this.told(groups.flatMap((group) => this.through(group, entry)));
  }

  ofGroup(group) {
    const entries = this.elements.ofKind("filter").filter(({ list }) => list === group.list);
    if (entries.length === 0) return { tests: [], note: "Its list has no entry, so it lets everything pass, and no test rests on it." };
    const permitting = this.deciding(group.list).slice(0, MOST_ABOVE).filter(({ permits }) => permits);
    return this.told(permitting.slice(0, MOST_LIKELY).flatMap((entry) => this.through(group, entry)));
  }

  told(tests) {
    return { tests, note: tests.length === 0 ? "A flow that it lets pass; which one, the files here don't tell." : "" };
  }

  /** Flows on which an entry decides, by a filter: out of its router, or into it from one that has an address beside its interface. */
  through({ face, way }, entry) {
    if (!isUp(face)) return [];
    const network = networkOf(face);
    const beside = this.known.faces.filter(({ router, prefix }) => router !== this.router && prefixText(prefix) === network).map(({ router }) => router);
    const begins = way === "out" ? [this.router] : [...new Set(beside)];
    return begins.flatMap((begin) => some(this.targets(begin, network, entry.to).map((to) => [this.source(entry, to), to]), ([from]) => from !== undefined)
      .map(([from, to]) => `flow ${begin.name} ${addressText(from)} ${addressText(to)}`));
  }

  /** Addresses of which an entry is and to which a router sends by a network, as far as its routes tell; those of which they tell otherwise last. */
  targets(begin, network, side) {
    const fit = [...new Set([...this.ends.filter((address) => agrees(side, address)), side.address])];
    const rank = (to) => {
      const exits = exitsOf(begin, to);
      return exits.includes(network) ? 0 : exits.length === 0 ? 1 : 2;
    };
    return fit.map((to) => [rank(to), to]).sort(([a], [b]) => a - b).map(([, to]) => to);
  }

  /** An address from which a packet comes on which an entry decides. */
  source(entry, to) {
    const above = this.deciding(entry.list).slice(0, entry.place).filter((other) => agrees(other.to, to));
    return [...this.ends, entry.from.address].find((from) => from !== to && agrees(entry.from, from) && !above.some((other) => agrees(other.from, from)));
  }
}
