"""The network of several configurations: faults of files together, base tables, reach and BGP sessions."""
from reading import references
from texts import bits, covers, inside

LIMIT_PREFIXES, LIMIT_NEIGHBOURS, HOPS = 1024, 1024, 30


def join(routers):
    """(router, line, cause) of the first joining fault, ('limit', word) or None."""
    found = []
    for i, a in enumerate(routers):
        for j, b in enumerate(routers):
            if i < j and a["name"] == b["name"]:
                found.append((i, a["name_line"], j, b["name_line"]))
    if found:
        return min(found)[2], min(found)[3], b"same-name"
    up = [(r, x["line"], x) for r, c in enumerate(routers) for x in c["interfaces"] if x["up"]]
    for r, m, x in up:
        for s, n, y in up:
            if r == s and m < n and (inside(x["prefix"], y["prefix"]) or inside(y["prefix"], x["prefix"])):
                found.append((r, m, n))
    if found:
        return min(found)[0], min(found)[2], b"overlap"
    for r, m, x in up:
        for s, n, y in up:
            if r < s and x["addr"] == y["addr"]:
                found.append((r, m, s, n))
    if found:
        return min(found)[2], min(found)[3], b"same-address"
    for r, c in enumerate(routers):
        found += [(r, n) for n, name, defined in references(c) if name not in defined]
    if found:
        return min(found)[0], min(found)[1], b"undefined"
    prefixes = {x["prefix"] for c in routers for x in c["interfaces"] if x["prefix"] is not None}
    prefixes |= {t["prefix"] for c in routers for t in c["statics"]}
    processes = [c["process"] for c in routers if c["process"]]
    prefixes |= {x["prefix"] for b in processes for x in b["networks"] + b["aggregates"]}
    if len(prefixes) > LIMIT_PREFIXES:
        return ("limit", b"prefixes")
    return ("limit", b"neighbours") if sum(len(b["neighbors"]) for b in processes) > LIMIT_NEIGHBOURS else None


# --- base tables -----------------------------------------------------------------------------
def route_interface(c, t):
    """The place of the interface of a usable static route; None where it isn't usable; -1 for Null0."""
    if t["distance"] >= 255:
        return None
    if t["hop"] is None:
        return -1
    if t["hop"] in [x["addr"] for x in c["interfaces"] if x["up"]]:
        return None
    fits = [k for k, x in enumerate(c["interfaces"])
            if x["up"] and covers(x["prefix"], t["hop"]) and t["name"] in (None, x["name"])]
    assert len(fits) <= 1
    return fits[0] if fits else None


def base_table(c):
    rows = [(x["prefix"], 0, 0, k) for k, x in enumerate(c["interfaces"]) if x["up"]]
    rows += [(t["prefix"], t["distance"], 1, k) for k, t in enumerate(c["statics"]) if route_interface(c, t) is not None]
    table = []
    for at in {row[0] for row in rows}:
        mine = [row for row in rows if row[0] == at]
        least = min(row[1] for row in mine)
        table += [(prefix, kind, place) for prefix, distance, kind, place in mine if distance == least]
    return sorted(table)


# --- the network ----------------------------------------------------------------------------
class Net:
    """Routers that go together: their base tables and sessions. What was worked out once is kept."""

    def __init__(self, routers):
        self.routers = routers
        self.tables = [base_table(c) for c in routers]
        self.before = [sum(len(c["elements"]) for c in routers[:r]) for r in range(len(routers))]
        self.owners = {x["addr"]: (r, k) for r, c in enumerate(routers) for k, x in enumerate(c["interfaces"]) if x["up"]}
        self.kept, self.kept_hits, self.bgp, self.main = {}, {}, {}, None
        self.sessions = {}
        for r, c in enumerate(routers):
            for n in range(len(c["process"]["neighbors"]) if c["process"] else 0):
                found = self.session(r, n)
                if found is not None:
                    self.sessions[r, n] = found

    def element(self, r, thing):
        return ("Element", self.before[r] + thing["element"])

    def router_of(self, e):
        return max(r for r, before in enumerate(self.before) if before <= e and self.routers[r]["elements"])

    def longest(self, r, a):
        """The places of the base rows of the longest prefix that covers a."""
        fits = [k for k, row in enumerate(self.tables[r]) if covers(row[0], a)]
        most = max((self.tables[r][k][0][1] for k in fits), default=None)
        return [k for k in fits if self.tables[r][k][0][1] == most]

    def exit(self, r, k, a):
        """(interface, address) at which base row k sends what is for a; None for a row to Null0."""
        _, kind, place = self.tables[r][k]
        if not kind:
            return place, a
        t = self.routers[r]["statics"][place]
        return None if t["hop"] is None else (route_interface(self.routers[r], t), t["hop"])

    def hits(self, r, a):
        if (r, a) not in self.kept_hits:
            self.kept_hits[r, a] = [k for k in self.longest(r, a) if self.exit(r, k, a) is not None]
        return self.kept_hits[r, a]

    def leads(self, r, k, a):
        """(router, interface) to which hit k leads, or None."""
        iface, hop = self.exit(r, k, a)
        if hop not in self.owners:
            return None
        s, j = self.owners[hop]
        same = self.routers[s]["interfaces"][j]["prefix"] == self.routers[r]["interfaces"][iface]["prefix"]
        return (s, j) if s != r and same else None

    def owns(self, r, a):
        return a in self.owners and self.owners[a][0] == r

    def reach(self, r, a, t):
        if (r, a, t) not in self.kept:
            self.kept[r, a, t] = self.owns(r, a) or any(self.hop(r, a, k, t) for k in self.hits(r, a))
        return self.kept[r, a, t]

    def hop(self, r, a, k, t):
        if t == 0 or k not in self.hits(r, a) or self.leads(r, k, a) is None:
            return False
        return self.reach(self.leads(r, k, a)[0], a, t - 1)

    def source(self, r, b):
        """The interface from which a neighbor's session is opened, which is up; or None."""
        faces = self.routers[r]["interfaces"]
        if b["source"][0] is not None:
            return next((k for k, x in enumerate(faces) if x["up"] and x["name"] == b["source"][0]), None)
        hits = self.hits(r, b["addr"])
        return self.exit(r, hits[0], b["addr"])[0] if hits else None

    def session(self, r, n):
        """(peer, its neighbor, source, its source, whether internal) of an established session, or None."""
        mine, own = self.routers[r]["process"], self.routers[r]["process"]["neighbors"][n]
        source = self.source(r, own)
        if own["shut"] or source is None or own["addr"] not in self.owners:
            return None
        here = self.routers[r]["interfaces"][source]["addr"]
        s = self.owners[own["addr"]][0]
        yours = self.routers[s]["process"]
        if s == r or yours is None or yours["as"] != own["as"]:
            return None
        for m, other in enumerate(yours["neighbors"]):
            back = self.source(s, other)
            if other["addr"] != here or other["shut"] or other["as"] != mine["as"] or back is None:
                continue
            if self.routers[s]["interfaces"][back]["addr"] != own["addr"]:
                continue
            internal = mine["as"] == yours["as"]
            if not internal and not (self.near(r, own) and self.near(s, other)):
                continue
            if self.reach(r, own["addr"], HOPS) and self.reach(s, here, HOPS):
                return s, m, source, back, internal
        return None

    def near(self, r, b):
        """Whether an external session to this neighbor may be opened: by multihop, or because it is next to the router."""
        return b["multihop"] or any(x["up"] and covers(x["prefix"], b["addr"]) for x in self.routers[r]["interfaces"])

    def router_id(self, r):
        c = self.routers[r]
        if c["process"] and c["process"]["id"] is not None:
            return c["process"]["id"]
        ups = [x for x in c["interfaces"] if x["up"]]
        loops = [x["addr"] for x in ups if x["name"].startswith(b"Loopback")]
        return max(loops or [x["addr"] for x in ups], default=0)
