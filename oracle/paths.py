"""Ways of packets over main tables: the alternatives of a router for an address, and whether a packet arrives by one of them, or by all,
or by one on which the filters of interfaces let it pass."""
from filters import passing
from routes import main_table
from texts import covers

DELIVER, LOST = ("Deliver",), ("Lost",)


def by_row(net, r, k, a):
    """What comes of a packet for a that base row k sends."""
    _, kind, _ = net.tables[r][k]
    if not kind and a not in net.owners:
        return DELIVER
    led = net.leads(r, k, a) if net.exit(r, k, a) is not None else None
    return LOST if led is None else ("Go",) + led


def worked_out(net, r, a):
    table = main_table(net, r)
    fits = [row for row, (prefix, _, _) in enumerate(table) if covers(prefix, a)]
    most = max((table[row][0][1] for row in fits), default=None)
    found = []
    for row in fits:
        prefix, made, hop = table[row]
        if prefix[1] != most:
            continue
        if made[0] == "Base":
            found.append((row, None, by_row(net, r, made[2], a)))
        elif made[0] == "Chosen":
            leads = [(k, net.leads(r, k, hop)) for k in net.hits(r, hop)]
            found += [(row, k, LOST if led is None else ("Go",) + led) for k, led in leads]
        else:
            found.append((row, None, LOST))
    return found


def alternatives(net, r, a):
    """[(main row, base row of a row of BGP or None, outcome)]"""
    key = ("alternatives", r, a)
    if key not in net.kept:
        net.kept[key] = worked_out(net, r, a)
    return net.kept[key]


def arrives(net, every, r, a, t):
    """Whether a packet for a arrives from r within t hops: by every alternative, or by some."""
    key = ("every" if every else "some", r, a, t)
    if key not in net.kept:
        ways = [step(net, every, r, a, m, t) for m in range(len(alternatives(net, r, a)))]
        net.kept[key] = net.owns(r, a) or (bool(ways) and (all if every else any)(ways))
    return net.kept[key]


def step(net, every, r, a, m, t):
    outcome = alternatives(net, r, a)[m][2]
    return outcome == DELIVER or (outcome[0] == "Go" and t > 0 and arrives(net, every, outcome[1], a, t - 1))


# --- past the filters of interfaces --------------------------------------------------------------
def passes(net, r, k, inward, source, target):
    """Whether an interface that is up lets a packet in or out."""
    return net.routers[r]["interfaces"][k]["up"] and passing(net.routers[r], k, inward, source, target) is not None


def gates(net, r, target, m):
    """The interfaces by which alternative m leaves a router and comes to the next one: (router, interface, whether it comes in)"""
    row, base_row, outcome = alternatives(net, r, target)[m]
    k = main_table(net, r)[row][1][2] if base_row is None else base_row
    out = (r, net.exit(r, k, target)[0], False)
    return [out] if outcome == DELIVER else [out, outcome[1:] + (True,)]


def flow_step(net, r, source, target, m, t):
    """Whether a packet from source to target arrives from r by alternative m within t hops, and is let pass all along."""
    outcome = alternatives(net, r, target)[m][2]
    if outcome == LOST or outcome != DELIVER and t == 0:
        return False
    if not all(passes(net, *gate, source, target) for gate in gates(net, r, target, m)):
        return False
    return outcome == DELIVER or flows(net, outcome[1], source, target, t - 1)


def flows(net, r, source, target, t):
    """Whether a packet from source to target, which stands at r past what filters come in there, arrives within t hops."""
    key = ("flow", r, source, target, t)
    if key not in net.kept:
        ways = range(len(alternatives(net, r, target)))
        net.kept[key] = net.owns(r, target) or any(flow_step(net, r, source, target, m, t) for m in ways)
    return net.kept[key]
