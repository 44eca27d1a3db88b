"""Networks with several ways between two routers, of which one element may be enough to cut them all, or one of each way, or none."""
from asking import cut_question, joined, whole_question
from exchanges import with_session
from pieces import R, Case, b

LOOPBACK = "192.168.0.{0}"


def linked_ways():
    """For each way the numbers of the routers along it, from 1 to the last one, and the last one's number."""
    between = [R.choice([0, 1, 1, 1, 1, 1, 2, 2]) for _ in range(R.choice([1, 2, 2, 2, 3, 3, 4]))]
    last, ways = sum(between) + 2, []
    for count in between:
        first = 2 + sum(len(way) - 2 for way in ways)
        ways.append([1, *range(first, first + count), last])
    return ways, last


def route_lines(hop, back, last, distance):
    """Routes onward to the network and the loopback of the last router, and back to those of the first."""
    onward = [f"ip route 10.200.0.0 255.255.255.0 {hop}{distance}", f"ip route {LOOPBACK.format(last)} 255.255.255.255 {hop}"] if hop else []
    backward = [f"ip route 10.100.0.0 255.255.255.0 {back}", f"ip route {LOOPBACK.format(1)} 255.255.255.255 {back}{distance}"] if back else []
    return [line for line in onward + backward if R.random() < 0.93]


def way_lines(number, way, last):
    """What each router of a way has of it: interfaces at its ends, and routes both ways."""
    lines = {r: [] for r in way}
    distance = R.choice(["", "", "", "", " 5"])
    for step, (r, s) in enumerate(zip(way, way[1:])):
        for own, router in ((1, r), (2, s)):
            lines[router] += [f"interface Ethernet{number}.{step}", f" ip address 10.{number}.{step}.{own} 255.255.255.252"]
    for place, r in enumerate(way):
        hop = f"10.{number}.{place}.2" if place + 1 < len(way) else None
        back = f"10.{number}.{place - 1}.1" if place else None
        lines[r] += route_lines(hop, back, last, distance)
    return lines


def end_lines(r, other, numbers):
    """The loopback, the network and the process of the first or the last router."""
    lan, begun = ("10.100.0", "10.210.0.0") if r == 1 else ("10.200.0", "10.220.0.0")
    lines = ["interface Loopback0", f" ip address {LOOPBACK.format(r)} 255.255.255.255", "interface Ethernet9", f" ip address {lan}.1 255.255.255.0"]
    name = "neighbor " + LOOPBACK.format(other)
    process = [f"{name} remote-as {numbers[1]}", f"{name} update-source Loopback0", f"{name} ebgp-multihop", f"network {begun} mask 255.255.0.0"]
    route = [f"ip route {begun} 255.255.0.0 {R.choice(['Null0', f'{lan}.7'])}"] * R.choice([1, 1, 1, 0])
    return lines + route + [f"router bgp {numbers[0]}"] + [" " + text for text in process]


def asks_across(case, last):
    """Tests from end to end, each followed by questions for its least cut."""
    net, rounds = joined(case.files, case.words)
    tests = ["reach r1 10.200.0.9", f"reach r{last} 10.100.0.9", f"session r1 {LOOPBACK.format(last)}", "reach r1 10.220.0.9", f"bgp r{last} 10.210.0.0/16", "element r1 2"]
    lines = []
    for count, test in enumerate(R.sample(tests, R.choice([1, 2, 4])) if rounds else [], 1):
        lines += [test, f"cut {count} keep r1 r{last}"] + [cut_question(net, count) for _ in range(R.choice([1, 2]))]
    lines += whole_question() if lines else []
    return b("".join(line + "\n" for line in lines))


def kind_ways():
    """Two routers with one to four ways between them, by static routes, and a session between their loopbacks."""
    ways, last = linked_ways()
    numbers = R.choice([(1, 1), (1, 2)])
    lines = {r: [f"hostname r{r}"] for r in range(1, last + 1)}
    for number, way in enumerate(ways, 1):
        for r, more in way_lines(number, way, last).items():
            lines[r] += more
    lines[1] += end_lines(1, last, numbers)
    lines[last] += end_lines(last, 1, numbers[::-1])
    files = {b"r%d.cfg" % r: b("\n".join(text) + "\n") for r, text in lines.items()}
    case = with_session(Case(files, sorted(files), b""))
    return Case(files, case.words, asks_across(Case(files, sorted(files), b""), last) + case.session)
