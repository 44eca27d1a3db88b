"""Facts, their parents, and the marks of lines."""
from filters import passing
from network import HOPS, route_interface
from paths import alternatives, flow_step, gates, step
from routes import AGGREGATE, LEARNT, ORIGIN, chosen_at, contributors_of, entry_of, main_table, message_of


def parents(net, f):
    """(kind, parents)"""
    return KINDS[f[0]](net, *f[1:])


def leaf(net, e):
    return "Leaf", []


def connected(net, r, k):
    return "Every", [net.element(r, net.routers[r]["interfaces"][k])]


def static(net, r, place):
    t = net.routers[r]["statics"][place]
    through = route_interface(net.routers[r], t)
    assert through is not None
    return "Every", [net.element(r, t)] + ([("Connected", r, through)] if through >= 0 else [])


def base(net, r, row):
    _, kind, place = net.tables[r][row]
    return "Every", [("Static" if kind else "Connected", r, place)]


def resolve(net, r, a):
    return "Any", [("Base", r, k) for k in net.hits(r, a)]


def reach(net, r, a, t):
    if net.owns(r, a):
        return "Any", [("Connected",) + net.owners[a]]
    return "Any", [("Hop", r, a, k, t) for k in net.hits(r, a) if net.hop(r, a, k, t)]


def hop(net, r, a, k, t):
    s, j = net.leads(r, k, a)
    return "Every", [("Base", r, k), ("Connected", s, j), ("Reach", s, a, t - 1)]


def session(net, r, n):
    s, m, source, back, _ = net.sessions[r, n]
    mine, yours = net.routers[r]["process"], net.routers[s]["process"]
    own, other = mine["neighbors"][n], yours["neighbors"][m]
    return "Every", [net.element(r, mine), net.element(r, own), net.element(s, yours), net.element(s, other), ("Connected", r, source), ("Connected", s, back),
                     ("Reach", r, own["addr"], HOPS), ("Reach", s, other["addr"], HOPS)]


def net_source(net, r, prefix):
    return "Any", [("Base", r, k) for k, row in enumerate(net.tables[r]) if row[0] == prefix]


def origin(net, r, place):
    process = net.routers[r]["process"]
    x = process["networks"][place]
    return "Every", [net.element(r, process), net.element(r, x), ("NetSource", r, x["prefix"])]


def contrib(net, r, place):
    return "Any", [("Chosen", r, prefix, k) for prefix, k in contributors_of(net, r, place)]


def aggregate(net, r, place):
    process = net.routers[r]["process"]
    return "Every", [net.element(r, process), net.element(r, process["aggregates"][place]), ("Contrib", r, place)]


def decided(net, r, places):
    """The elements of a clause and of entries by which a map decided, or of a filter and its entry."""
    return [("Element", net.before[r] + place) for place in places]


def message(net, r, n, prefix):
    s = net.sessions[r, n][0]
    return "Every", [("Session", r, n), ("Chosen", s, prefix, 0)] + decided(net, s, message_of(net, r, n, prefix)[1])


def entry(net, r, n, prefix):
    _, sent, named = entry_of(net, r, n, prefix)
    return "Every", [("Message", r, n, prefix), ("Resolve", r, sent.hop)] + decided(net, r, named)


def chosen(net, r, prefix, place):
    c = chosen_at(net, r, prefix)[place]
    made = {ORIGIN: ("Origin", r, c.place), AGGREGATE: ("Aggregate", r, c.place), LEARNT: ("Entry", r, c.place, prefix)}
    return "Every", [made[c.kind]]


def main(net, r, row):
    return "Every", [main_table(net, r)[row][1]]


def on_the_way(net, r, a, m, onward):
    """What a step by alternative m rests on; onward gives the fact that the packet arrives from the router to which it leads."""
    row, base_row, outcome = alternatives(net, r, a)[m]
    behind = [("Connected",) + outcome[1:], onward(outcome[1])] if outcome[0] == "Go" else []
    return [("Main", r, row)] + ([] if base_row is None else [("Base", r, base_row)]) + behind


def by_step(net, whole_kind, r, a, m, t):
    return "Every", on_the_way(net, r, a, m, lambda s: (whole_kind, s, a, t - 1))


def by_ways(net, kind, step_kind, every, r, a, t):
    if net.owns(r, a):
        return kind, [("Connected",) + net.owners[a]]
    return kind, [(step_kind, r, a, m, t) for m in range(len(alternatives(net, r, a))) if step(net, every, r, a, m, t)]


def passed(net, r, k, inward, source, target):
    return "Every", [("Connected", r, k)] + decided(net, r, passing(net.routers[r], k, inward, source, target))


def by_flow_step(net, r, source, target, m, t):
    way = on_the_way(net, r, target, m, lambda s: ("Flow", s, source, target, t - 1))
    return "Every", way + [("Pass", *gate, source, target) for gate in gates(net, r, target, m)]


def by_flows(net, r, source, target, t):
    if net.owns(r, target):
        return "Any", [("Connected",) + net.owners[target]]
    ways = range(len(alternatives(net, r, target)))
    return "Any", [("FlowStep", r, source, target, m, t) for m in ways if flow_step(net, r, source, target, m, t)]


KINDS = {"Element": leaf, "Connected": connected, "Static": static, "Base": base, "Resolve": resolve, "Reach": reach, "Hop": hop, "Session": session, "NetSource": net_source,
         "Origin": origin, "Contrib": contrib, "Aggregate": aggregate, "Message": message, "Entry": entry, "Chosen": chosen, "Main": main,
         "Step": lambda net, *f: by_step(net, "Trace", *f), "Trace": lambda net, *f: by_ways(net, "Any", "Step", False, *f),
         "AllStep": lambda net, *f: by_step(net, "All", *f), "All": lambda net, *f: by_ways(net, "Every", "AllStep", True, *f),
         "Pass": passed, "FlowStep": by_flow_step, "Flow": by_flows}


def closure(net, facts):
    reached, todo = set(), list(facts)
    while todo:
        f = todo.pop()
        if f not in reached:
            reached.add(f)
            todo += parents(net, f)[1]
    return reached


def stands(net, fact):
    """The elements that no choice avoids, and those that some choice has. A choice that avoids an element at each fact at which one can does so at all of them at once."""
    done, todo = {}, [fact]
    while todo:
        f = todo[-1]
        kind, above = parents(net, f)
        missing = [p for p in above if p not in done]
        if missing:
            todo += missing
            continue
        todo.pop()
        own = [frozenset([f[1]])] if kind == "Leaf" else [done[p][0] for p in above]
        strong = frozenset.intersection(*own) if kind == "Any" else frozenset().union(*own)
        done[f] = strong, frozenset([f[1]]) if kind == "Leaf" else frozenset().union(*[done[p][1] for p in above])
    return done[fact]


def marks_of(net, tested):
    """The marks of the lines of each router."""
    strong, some = set(), set()
    for f in set(tested):
        of_fact = stands(net, f)
        strong |= of_fact[0]
        some |= of_fact[1]
    sheets = []
    for r, c in enumerate(net.routers):
        marks = bytearray(b"." * c["count"])
        for place, (_, own) in enumerate(c["elements"]):
            e = net.before[r] + place
            for n in own:
                marks[n - 1] = (b"S" if e in strong else b"W" if e in some else b"U")[0]
        sheets.append(bytes(marks))
    return sheets
