"""What there is to ask of a network: tests of what is there in the state that the oracle works out, and of what is beside it."""
import itertools

import oracle
from network import HOPS
from paths import arrives, flows
from pieces import R, dotted
from reading import Fault, read_file
from routes import entry_of, main_table, settle
from texts import lines_of

MOST_ROUNDS = 12


def slashed(prefix):
    return f"{dotted(prefix[0])}/{prefix[1]}"


def joined(files, names):
    """The network of these files, and the least rounds in which it settles; None where there is none, or it doesn't soon."""
    try:
        routers = [read_file(lines_of(files[name])) for name in names]
    except Fault:
        return None, None
    if oracle.join(routers):
        return None, None
    net = oracle.Net(routers)
    return net, next((n for n in range(1, MOST_ROUNDS) if settle(net, n)), None)


def named(net, r):
    return net.routers[r]["name"].decode()


def packets(net, r):
    """Addresses to which a router may send packets: those that routers own, and one inside each prefix of its main table."""
    return sorted(set(net.owners) | {p[0] + 9 * (p[1] <= 28) for p, _, _ in main_table(net, r)})


def of_packets(net, there):
    """A few tests of packets, of those that arrive or of those that don't."""
    asks = itertools.product(range(len(net.routers)), (False, True))
    found = [(every, r, a) for r, every in asks for a in packets(net, r) if arrives(net, every, r, a, HOPS) == there]
    return [f"{'every' if every else 'reach'} {named(net, r)} {dotted(a)}" for every, r, a in R.sample(found, min(len(found), 8))]


def of_flows(net, hosts, count):
    """Tests of flows between these hosts and the routers' own addresses: those that are let pass to their end, and those that aren't. So many
    are tried, most of them of packets that have a way."""
    ends = hosts + sorted(net.owners)
    found = {True: [], False: []}
    for _ in range(count):
        r, source, target = R.randrange(len(net.routers)), R.choice(ends), R.choice(ends)
        if R.random() < 0.7 and not arrives(net, False, r, target, HOPS):
            continue
        found[flows(net, r, source, target, HOPS)].append(f"flow {named(net, r)} {dotted(source)} {dotted(target)}")
    return list(dict.fromkeys(found[True])), list(dict.fromkeys(found[False]))


def of_elements(net):
    """A test of a line of some elements, few of each router."""
    chosen = [(r, lines) for r, c in enumerate(net.routers) for _, lines in R.sample(c["elements"], min(len(c["elements"]), 2))]
    return [f"element {named(net, r)} {R.choice(sorted(lines))}" for r, lines in chosen]


def of_reports(net):
    """The forms of a report."""
    return ["lcov", "json"] + [f"show {named(net, r)}" for r in range(len(net.routers))]


def there(net):
    """Tests that are accepted: each candidate that is chosen, each that is accepted, each row of a main table, each session, and
    some of packets that arrive and of lines of elements; and the forms of a report."""
    asks = [f"bgp {named(net, r)} {slashed(p)}" for r, p in net.bgp]
    for r, n in net.sessions:
        a = dotted(net.routers[r]["process"]["neighbors"][n]["addr"])
        asks += [f"bgp {named(net, r)} {slashed(p)} from {a}" for p in sorted({p for _, p in net.bgp}) if entry_of(net, r, n, p) is not None]
        asks.append(f"session {named(net, r)} {a}")
    for r in range(len(net.routers)):
        for prefix, _, hop in main_table(net, r):
            asks += [f"rib {named(net, r)} {slashed(prefix)}"] + ([] if hop is None else [f"rib {named(net, r)} {slashed(prefix)} via {dotted(hop)}"])
    return list(dict.fromkeys(asks + of_packets(net, True) + of_elements(net) + of_reports(net)))


def beside(net):
    """Tests of prefixes, neighbors and next hops that stand somewhere in the network, most of which aren't there, and some of packets
    that don't arrive and of lines that may be no element's."""
    prefixes = {p for _, p in net.bgp} | {row[0] for table in net.tables for row in table}
    prefixes |= {x["prefix"] for c in net.routers if c["process"] for x in c["process"]["networks"] + c["process"]["aggregates"]}
    few = sorted(prefixes)[:4]
    prefixes |= {(p[0] & oracle.bits(p[1] - 1), p[1] - 1) for p in few if p[1]} | {(p[0], p[1] + 1) for p in few if p[1] < 32}
    hops = sorted(net.owners) + [0]
    for r, prefix in itertools.product(range(len(net.routers)), sorted(prefixes)):
        peers = [x["addr"] for x in net.routers[r]["process"]["neighbors"]] if net.routers[r]["process"] else []
        yield f"{R.choice(['bgp', 'rib'])} {named(net, r)} {slashed(prefix)}"
        yield f"bgp {named(net, r)} {slashed(prefix)} from {dotted(R.choice(peers * 3 + hops))}"
        yield f"rib {named(net, r)} {slashed(prefix)} via {dotted(R.choice(hops))}"
    yield from of_packets(net, False)
    for r in range(len(net.routers)):
        yield f"element {named(net, r)} {R.randrange(40)}"
    yield from ("show nobody", "show", "lcov r1", "json json")


def cut_question(net, count):
    """A question for the least cut of one of so many tests, of all routers or of all but some, often of all but the first and the last."""
    names = [named(net, r) for r in range(len(net.routers))]
    kept = R.choice([[], names[:1] + names[-1:], R.choices(names, k=R.choice([1, 1, 2, 3]))]) + ["nobody"] * (R.random() < 0.03)
    return " ".join([f"cut {R.randint(1, count)}"] + ["keep"] * bool(kept) + kept)


def whole_question():
    """A question about all tests at once or about what no test could mark, now and then twice or with words behind it."""
    behind = R.choice(["", "", "", "", "", f" {R.randint(0, 3)}", " r1", " suite", " keep r1", " x y"])
    return [R.choice(["suite", "dead"]) + behind] * R.choice([1, 1, 1, 2])


def with_questions(net, asks):
    """The lines, with questions about tests between them, some twice and some forgotten; a question may stand before them all, and behind."""
    lines = whole_question() if R.random() < 0.2 else []
    for count, line in enumerate(asks, 1):
        lines += [line] * R.choice([1] * 20 + [2])
        if R.random() < 0.3:
            lines.append(f"implies {R.randint(1, count)} {R.randint(1, count)}")
        if R.random() < 0.4:
            lines.append(cut_question(net, count))
        if R.random() < 0.1:
            lines += whole_question()
        if R.random() < 0.1:
            lines += [f"forget {R.randint(1, count)}"] + ["suite"] * R.choice([0, 1])
    return lines + R.choice([[], ["suite"], ["dead", "suite"]])


def some_there(files, names, count):
    """So many tests of what is there, where the files go together and routing settles soon."""
    net, rounds = joined(files, names)
    present = there(net) if rounds else []
    return with_questions(net, R.sample(present, min(len(present), count)))
