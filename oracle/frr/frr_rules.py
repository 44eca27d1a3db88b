"""The rules in which NetCov departs from FRRouting, turned in the oracle to those of FRRouting.

By each departure stand [(module, text, text by which it says what FRRouting does)]. Under those of all departures that a lab
shows, its answers are FRRouting's, without an entry.
"""

NOT_DISCARDED = """        mine = [row for row in mine if row[1] == least]
        first = min((row[3] for row in mine if row[2]), default=None)
        mine = [row for row in mine if not row[2] or (c["statics"][row[3]]["hop"] is None) == (c["statics"][first]["hop"] is None)]
        table += ["""

RESOLVED = """def resolved(c, t):
    if t["hop"] is None:
        return t
    own = max([x["prefix"][1] for x in c["interfaces"] if x["up"] and covers(x["prefix"], t["hop"])], default=-1)
    ways = [u for u in c["statics"] if u is not t and u["hop"] is not None and covers(u["prefix"], t["hop"]) and u["prefix"][1] > own]
    return resolved(c, max(ways, key=lambda u: u["prefix"][1])) if ways else t


def route_interface(c, t):
    t = resolved(c, t)
"""

NOT_HEARD = """x["prefix"] == prefix and contributors(net, table, r, k)
              and not any(e is not None and e[0].route.path == () and not e[0].route.communities for e in
                          [entry(net, table, r, n, prefix) for n in range(len(process["neighbors"]))])"""

EITHER_SIDE = """if self.owners.get(other["addr"], (None,))[0] != r or"""

BESIDE_LINK = """for k, c in enumerate(chosen)
                      if chosen[0].internal or process["neighbors"][chosen[0].place]["multihop"] or
                      any(x["up"] and covers(x["prefix"], c.route.hop) for x in net.routers[r]["interfaces"])]"""

FRR_RULES = {
    "a static next hop is resolved by connected routes alone":
    [("network.py", "def route_interface(c, t):\n", RESOLVED),
     ("network.py", "self.routers[r], t), t[\"hop\"])", "self.routers[r], t), resolved(self.routers[r], t)[\"hop\"])")],
    "a static route to one address may have it as next hop":
    [("network.py", 'if t["hop"] in [x["addr"]', 'if t["prefix"] == (t["hop"], 32) or t["hop"] in [x["addr"]')],
    "an interface that is named has to have the next hop":
    [("network.py", 'if x["up"] and covers(x["prefix"], t["hop"])', 'if x["up"] and (covers(x["prefix"], t["hop"]) or x["prefix"][1] == 32 and t["name"])')],
    "a route that discards and one that sends stand side by side":
    [("network.py", "        table += [", NOT_DISCARDED)],
    "each side starts from the address that the other names":
    [("network.py", 'if other["addr"] != here or', EITHER_SIDE),
     ("network.py", '["addr"] != own["addr"]:', '["addr"] != own["addr"] and other["addr"] != here:'),
     ("network.py", "return s, m, source, back, internal", 'return s, m, source, self.owners[own["addr"]][1], internal'),
     ("network.py", 'if x["up"] and x["name"] == b["source"][0]', 'if x["name"] == b["source"][0]'),
     ("network.py", 'self.reach(s, here, HOPS)', 'self.reach(s, other["addr"], HOPS)')],
    "each side without multihop has the other on a connected prefix":
    [("network.py", "self.near(r, own) and self.near(s, other)", "True"),
     ("routes.py", "for k, c in enumerate(chosen)]",
      'for k, c in enumerate(chosen) if c.internal or net.near(r, process["neighbors"][c.place])]')],
    "two routers of a system may have one router id":
    [("network.py", 'other["addr"] != here or', 'other["addr"] != here or (mine["as"] == yours["as"] and self.router_id(r) == self.router_id(s)) or')],
    "a neighbor is reached by connected and static routes alone":
    [("network.py", 'if self.reach(r, own["addr"], HOPS) and self.reach(s, here, HOPS)', "if True")],
    "an aggregate is held back by a wider one":
    [("routes.py", "held_back(process, prefix) or (", "(best.kind != AGGREGATE and held_back(process, prefix)) or (")],
    "an aggregate is begun beside an equal route from inside":
    [("routes.py", 'x["prefix"] == prefix and contributors(net, table, r, k)', NOT_HEARD),
     ("routes.py", "contributors_of(net, r, k):", "contributors_of(net, r, k) and chosen_at(net, r, prefix)[0].kind == AGGREGATE:")],
    "the next hop toward another system is the sender":
    [("routes.py", "hop=source, preference",
      'hop=route.hop if best.kind == LEARNT and covers(net.routers[s]["interfaces"][back]["prefix"], route.hop) else source, preference')],
    "a way beside one from a link may come from behind another router":
    [("routes.py", "for k, c in enumerate(chosen)]", BESIDE_LINK)],
    "a next hop is resolved by connected and static routes alone":
    [("routes.py", "or not net.hits(r, route.hop)", "or not (net.hits(r, route.hop) or any(s == r and covers(p, route.hop) for s, p in table))"),
     ("paths.py", "for k, led in leads]", "for k, led in leads] or [(row, None, way[2]) for way in alternatives(net, r, hop)]")],
    "a next hop isn't resolved by a route that discards":
    [("routes.py", "or not net.hits(r, route.hop)", "or not net.longest(r, route.hop)")],
    "a route to one address may have it as next hop":
    [("routes.py", "or not net.hits(r, route.hop)", "or not net.hits(r, route.hop) or prefix == (route.hop, 32)")],
    "an aggregate's origin is igp":
    [("routes.py", "Candidate(AGGREGATE, k, OWN,",
      "Candidate(AGGREGATE, k, OWN._replace(origin=max(table[r, p][0].route.origin for p, _ in contributors(net, table, r, k))),")],
    "without relax whole paths are equal":
    [("routes.py", "if relax else x.route.path", "if relax else (len(x.route.path), x.route.path[:1])")],
}
