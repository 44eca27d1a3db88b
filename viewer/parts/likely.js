// ---- Which test would cover a line -----------------------------------------------------------------

const MOST_LIKELY = 3;

/** The first few of a list that fit. */
function some(list, fits) {
  const found = [];
  for (let k = 0; k < list.length && found.length < MOST_LIKELY; k += 1) if (fits(list[k])) found.push(list[k]);
  return found;
}

/** Whether one of a router's aggregates keeps it from sending a prefix. */
function isHeldBack(aggregates, prefix) {
  return aggregates.some(({ hides, prefix: outer }) => hides && isInside(prefix, outer) && prefix.length > outer.length);
}

/** What the files of all routers of a session tell of the network. Files that aren't here are missing in it. */
class Network {
  constructor(routers) {
    Object.assign(this, { owners: new Map(), begun: [], communities: new Set(), others: new Map(), faces: [], finders: new Map() });
    for (const router of routers.values()) this.take(router, [...elementsOf(router)?.all.values() ?? []]);
  }

  take(router, elements) {
    const aggregates = elements.filter(({ kind }) => kind === "aggregate");
    for (const { kind, address, length, shut, prefix, sets } of elements) {
      if (kind === "interface" && address !== null && !shut) {
        this.owners.set(addressText(address), router);
        this.faces.push({ router, address, prefix: prefixOf(address, length) });
      }
      if ((kind === "network" || kind === "aggregate") && !isHeldBack(aggregates, prefix)) this.begun.push({ router, prefix });
      if (kind === "clause") sets.forEach((community) => this.communities.add(community));
    }
  }

  /** What finds flows past the filters of a router. */
  flows(router) {
    if (!this.finders.has(router)) this.finders.set(router, new Flows(this, router));
    return this.finders.get(router);
  }

  /** The prefixes that routers other than this one begin and send, without repetition. */
  prefixes(router) {
    if (!this.others.has(router)) {
      const others = this.begun.filter((one) => one.router !== router);
      this.others.set(router, [...new Map(others.map(({ prefix }) => [prefixText(prefix), prefix])).values()]);
    }
    return this.others.get(router);
  }
}

const isOfEntry = (entry, prefix) => isInside(prefix, entry.prefix) && prefix.length >= entry.low && prefix.length <= entry.high;

/** The clauses that name the list of an entry. */
function usersOf(elements, { kind, list }) {
  return elements.ofKind("clause").filter(({ lists, communities }) => (kind === "entry" ? lists : communities).includes(list));
}

/** Whether a line can't do more than deny: a clause or an entry that says so, and an entry that clauses name which all deny. */
function onlyDenies(elements, element) {
  if (element.permits !== true || element.kind === "clause" || element.kind === "filter") return element.permits === false;
  const users = usersOf(elements, element);
  return users.length > 0 && users.every(({ permits }) => !permits);
}

/** Whether a prefix list permits a prefix: its first entry that is of it decides. */
function isPermitted(elements, list, prefix) {
  return elements.entriesOf(list).find((entry) => isOfEntry(entry, prefix))?.permits === true;
}

const takes = (elements, clause, prefix) => clause.lists.length === 0 || clause.lists.some((list) => isPermitted(elements, list, prefix));

/** Whether a clause may decide a prefix: it takes it, and no clause before it does whatever communities the route has. */
function decides(elements, clause, prefix) {
  const before = elements.ofKind("clause").filter(({ map, number }) => map === clause.map && number < clause.number);
  return takes(elements, clause, prefix) && !before.some((other) => other.communities.length === 0 && takes(elements, other, prefix));
}

/** Finds tests that are likely to cover a line, as a session is asked; or why there is none. */
class Likely {
  constructor(network, router) {
    Object.assign(this, { known: network, router, name: router.name, elements: elementsOf(router) });
  }

  /** The tests of an element, the likeliest first, and a note. */
  of(element) {
    const found = this[element.kind](element);
    return { tests: [...new Set(found.tests)].slice(0, MOST_LIKELY), note: found.note ?? "" };
  }

  interface({ address, length, shut }) {
    if (shut) return { tests: [], note: "The interface is shut, so no test rests on it." };
    if (address === null) return { tests: [], note: "An interface without an address has no route, so no test rests on it." };
    return { tests: [`rib ${this.name} ${prefixText(prefixOf(address, length))}`] };
  }

  route({ prefix, via, distance }) {
    const others = this.elements.ofKind("route").filter((other) => prefixText(other.prefix) === prefixText(prefix));
    if (others.some((other) => other.distance < distance)) {
      return { tests: [], note: "The route is there in case another fails, and is no part of what holds now. Take the other out of "
        + "a copy of the files, and run the session over the copy." };
    }
    const rib = `rib ${this.name} ${prefixText(prefix)}`;
    const inside = [...this.known.owners.keys()].find((address) => prefix.length > 0 && holds(prefix, addressOf(address)));
    const every = others.length > 1 && inside !== undefined ? [`every ${this.name} ${inside}`] : [];
    return { tests: [via === null ? rib : `${rib} via ${via}`, ...every] };
  }

  process() {
    const [neighbor] = this.elements.ofKind("neighbor").filter(({ shut }) => !shut);
    if (neighbor !== undefined) return this.neighbor(neighbor);
    const [network] = [...this.elements.ofKind("network"), ...this.elements.ofKind("aggregate")];
    return network === undefined ? { tests: [], note: "The process has neither a neighbor nor a network." } : this.begun(network);
  }

  neighbor({ address, shut }) {
    if (shut) return { tests: [], note: "The neighbor is shut, so no test rests on it." };
    return { tests: [`session ${this.name} ${address}`] };
  }

  begun({ prefix }) {
    const text = prefixText(prefix);
    const others = this.elements.ofKind("neighbor").map(({ address }) => this.known.owners.get(address));
    const names = [...new Set(others.filter((other) => other !== undefined && other !== this.router).map((other) => other.name))];
    return {
      tests: [`bgp ${this.name} ${text}`, ...names.map((name) => `rib ${name} ${text}`)],
      note: names.length > 0 ? "Better is rib on a router that is to get it." : "",
    };
  }

  network(element) {
    return this.begun(element);
  }

  aggregate(element) {
    return this.begun(element);
  }

  clause(clause) {
    if (onlyDenies(this.elements, clause)) return this.denies(clause);
    const entries = clause.lists.flatMap((list) => this.elements.entriesOf(list)).filter(({ permits }) => permits);
    return this.through([clause], () => true, entries.map(({ prefix }) => prefix));
  }

  entry(entry) {
    if (onlyDenies(this.elements, entry)) return this.denies(entry);
    const own = entry.prefix.length >= entry.low ? [entry.prefix] : [];
    return this.through(usersOf(this.elements, entry), (prefix) => isOfEntry(entry, prefix), own);
  }

  community(entry) {
    if (onlyDenies(this.elements, entry)) return this.denies(entry);
    if (!entry.communities.every((community) => this.known.communities.has(community))) {
      return { tests: [], note: "A test of a route with these communities. No clause of the files here sets them, so they don't tell which that is." };
    }
    return this.through(usersOf(this.elements, entry), () => true, []);
  }

  filter(entry) {
    return onlyDenies(this.elements, entry) ? this.denies(entry) : this.known.flows(this.router).ofEntry(entry);
  }

  group(group) {
    return this.known.flows(this.router).ofGroup(group);
  }

  denies(element) {
    const line = element.lines[0] + 1;
    return {
      tests: [`element ${this.name} ${line}`],
      note: "A line that only denies is covered by no test of a route or a flow: a test rests on what is there.",
    };
  }

  /** Tests of routes that one of these clauses decides: of prefixes that fit and that routers begin, else of the entries' own. */
  through(clauses, fits, own) {
    const neighbors = this.elements.ofKind("neighbor").filter(({ shut }) => !shut);
    const permitting = clauses.filter(({ permits }) => permits);
    const found = (way, tests) => permitting.flatMap((clause) => some(neighbors, (neighbor) => neighbor[way] === clause.map).map((neighbor) =>
      tests(neighbor, (prefix) => fits(prefix) && decides(this.elements, clause, prefix), own)));
    const inward = found("in", this.accepted.bind(this));
    const outward = found("out", this.sent.bind(this));
    if (inward.length + outward.length === 0) return { tests: [], note: "No neighbor uses it, so no test rests on it." };
    const tests = [...inward, ...outward].flat();
    return { tests, note: tests.length === 0 ? "A test of a route that goes through it; which one, the files here don't tell." : "" };
  }

  /** Tests of what comes from a neighbor: of prefixes that others begin, else of those that the entries name. */
  accepted({ address }, fits, own) {
    const begun = some(this.known.prefixes(this.router), fits);
    return (begun.length > 0 ? begun : own).map((prefix) => `bgp ${this.name} ${prefixText(prefix)} from ${address}`);
  }

  /** Tests of what a neighbor gets, on the router that it is. */
  sent({ address }, fits, own) {
    const owner = this.known.owners.get(address);
    if (owner === undefined) return [];
    const aggregates = this.elements.ofKind("aggregate");
    const begun = some(this.known.prefixes(owner), (prefix) => fits(prefix) && !isHeldBack(aggregates, prefix));
    return (begun.length > 0 ? begun : own).map((prefix) => `rib ${owner.name} ${prefixText(prefix)}`);
  }
}

/** The likely tests of a line: `tests` in the words of a session, those that were refused already apart, and a note. */
function likelyTests(side, router, k) {
  const element = elementAt(router, k);
  if (router.marks[k] === DEAD) return { tests: [], refused: [], note: deadNote(router, element) };
  if (element === null) return { tests: [], refused: [], note: "" };
  side.network ??= new Network(side.routers);
  side.asked ??= new Set(refusalsOf(side).map((reply) => refusalOf(side, reply).asked));
  const { tests, note } = new Likely(side.network, router).of(element);
  return { tests: tests.filter((test) => !side.asked.has(test)), refused: tests.filter((test) => side.asked.has(test)), note };
}

function deadNote(router, element) {
  const dead = "As the files are, no row of a main table, no accepted route and no session rests on it.";
  if (element === null || !onlyDenies(elementsOf(router), element)) return dead;
  return `${dead} It only denies, so that is its nature, and doesn't say that it refuses nothing: take it out of a copy, and see what comes in.`;
}

/** A session's lines for the uncovered lines of these routers: of each element the likeliest test that wasn't refused. */
function likelySession(side, routers) {
  const tests = new Set();
  for (const router of routers) {
    const seen = new Set();
    for (let k = 0; k < router.marks.length; k += 1) {
      const element = router.marks[k] === UNCOVERED ? elementAt(router, k) : null;
      if (element === null || seen.has(element) || onlyDenies(elementsOf(router), element)) continue;
      seen.add(element);
      const [test] = likelyTests(side, router, k).tests;
      if (test !== undefined) tests.add(test);
    }
  }
  return [...tests].map((test) => `${test}\n`).join("");
}
