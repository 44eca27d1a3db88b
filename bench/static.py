"""Networks of one file or of static routes, by size, and what is asked of each."""
from statements import HOST, INSIDE, LAN, SEGMENT, discards, dotted, interface, link_end, on_segment, prefix, route, tested

END = 0xC000FA60
LOOPBACKS = 0xC0000000
BEHIND = 0x0B000000
FAR = 0x1E000000


def start():
    """One router with one interface."""
    return [("r1.cfg", ["hostname r1", *interface("E0", "10.0.0.1", LAN)])]


def start_rows():
    return [("one test", ["rib r1 10.0.0.0/24"])]


def lines_rows(count):
    return [("each refused for its syntax", ["rib"] * count)]


def ring(routers, routes):
    """Routers in a ring, each with routes by the next one, and every third also by the one before."""
    files = []
    for place in range(routers):
        before = (place - 1) % routers
        lines = [f"hostname r{place}", *interface("A", link_end(place, 1)), *interface("B", link_end(before, 2))]
        for number in range(routes):
            lines.append(route(tested(number), link_end(place, 2)))
            if number % 3 == 0:
                lines.append(route(tested(number), link_end(before, 1)))
        files.append((f"r{place}.cfg", lines))
    return files


def ring_rows(routers, routes):
    tests = [f"rib r{it * 37 % routers} {prefix(it * 7 % routes)}" for it in range(64 * routers)]
    return [(f"{len(tests):,} tests, each with a report on all lines", tests)]


def ports(routers, count):
    """Files as a device prints them, with so many ports that are shut."""
    files = []
    for place in range(routers):
        lines = ["Building configuration...", "!", "version 15.2", f"hostname r{place}", "!"]
        lines += [*interface("Loopback0", f"10.0.{place}.1", LAN), "!"]
        for port in range(count):
            lines += [f"interface GigabitEthernet{port // 48}/{port % 48}", f" description port {port} of building {place}"]
            lines += [" no ip address", " duplex auto", " shutdown", "!"]
        files.append((f"r{place}.cfg", [*lines, *discards(range(place * 8, place * 8 + 8)), "end"]))
    return files


def ports_rows(routers, count):
    return [("two tests", ["rib r3 10.0.3.0/24", f"rib r5 {prefix(41)}"])]


def entries(routers, count):
    """Files with so many entries of seven prefix lists, which nothing applies."""
    files = []
    for place in range(routers):
        lines = [f"hostname r{place}", *interface("E0", f"10.0.{place}.1", LAN)]
        for number in range(count):
            address = dotted(tested(number % 0x100000))
            lines.append(f"ip prefix-list L{number % 7} seq {number + 1} permit {address}/24")
        files.append((f"r{place}.cfg", lines))
    return files


def entries_rows(routers, count):
    tests = [f"rib r{it % routers} 10.0.{it % routers}.0/24" for it in range(50)]
    return [("50 tests", tests), ("and `lcov`, `json` and `show`", ["lcov", "json", "show r0"])]


def segment(routers):
    """Routers on one segment, each with routes over all others to a network of the last one."""
    files = []
    for place in range(routers):
        lines = [f"hostname r{place}", *interface("E0", on_segment(place), SEGMENT)]
        if place == routers - 1:
            lines += interface("E1", dotted(FAR + 1), LAN)
        else:
            lines += [route(FAR, on_segment(other)) for other in range(routers) if other != place]
        files.append((f"r{place}.cfg", lines))
    return files


def segment_rows(routers):
    tests = [f"reach r{place} {dotted(FAR + 9)}" for place in (0, 1)]
    return [("two tests of packets", tests), ("and a question between them", ["implies 1 2"]), ("and a least cut", ["cut 1"])]


def grid(columns, height):
    """Columns of routers, each with routes over all of the next column to a network behind the last one."""
    files = []
    for column in range(columns):
        here, before = INSIDE + column * 65536, INSIDE + (column - 1) * 65536
        for place in range(height):
            lines = [f"hostname g{column}_{place}"]
            if column > 0:
                lines += interface("A", dotted(before + 1000 + place), SEGMENT)
            if column < columns - 1:
                lines += interface("B", dotted(here + 1 + place), SEGMENT)
                lines += [route(FAR, dotted(here + 1000 + hop)) for hop in range(height)]
            else:
                lines += interface("B", dotted(FAR + 1 + place), LAN)
            files.append((f"g{column}_{place}.cfg", lines))
    return files


def grid_rows(columns, height):
    tests = [f"{command} g0_0 {dotted(FAR + 99)}" for command in ("reach", "every")]
    return [("two tests of packets", tests), ("and the questions between them", ["implies 2 1", "implies 1 2"]),
            ("and a least cut", ["cut 1"])]


def parallel(links):
    """Two routers with so many links, and a route over each of them."""
    near, far = ["hostname r1"], ["hostname r2"]
    for link in range(links):
        near += interface(f"E{link}", link_end(link, 1))
        far += interface(f"E{link}", link_end(link, 2))
    near += [route(FAR, link_end(link, 2)) for link in range(links)]
    return [("r1.cfg", near), ("r2.cfg", far + interface("L0", dotted(FAR + 1), LAN))]


def parallel_rows(links):
    tests = [f"reach r1 {dotted(FAR + 9)}", f"rib r1 {dotted(FAR)}/24"]
    return [("two tests", tests), ("and the questions between them", ["implies 1 2", "implies 2 1"]), ("and a least cut", ["cut 1"])]


def behind(wide, long, speakers):
    """Routers on a segment, each with routes over all others to the end of a line behind the last of them.

    The speakers among them have an internal session with the end of the line.
    """
    last = wide + long - 1
    return [(f"r{place}.cfg", behind_router(place, wide, last, speakers)) for place in range(last + 1)]


def behind_router(place, wide, last, speakers):
    """Returns the file of one of these routers."""
    lines = [f"hostname r{place}"]
    if place < wide:
        lines += interface("E0", on_segment(place), SEGMENT)
    if place in speakers or place == last:
        lines += interface("Loopback0", dotted(END if place == last else LOOPBACKS + place), HOST)
    if place < wide - 1:
        lines += [route(END, on_segment(other), HOST) for other in range(wide) if other != place]
    if 0 < place < wide:
        back = [it for it in speakers if it != place and (place == wide - 1 or len(speakers) == 1)]
        lines += [route(LOOPBACKS + it, on_segment(it), HOST) for it in back]
    if wide - 1 <= place < last:
        lines += interface("B", dotted(BEHIND + 4 * place + 1)) + [route(END, dotted(BEHIND + 4 * place + 2), HOST)]
    if place > wide - 1:
        hop = dotted(BEHIND + 4 * (place - 1) + 1)
        lines += interface("A", dotted(BEHIND + 4 * (place - 1) + 2)) + [route(LOOPBACKS + it, hop, HOST) for it in speakers]
    return lines + behind_process(place, last, speakers)


def behind_process(place, last, speakers):
    """Returns the process of one of these routers, if it has one."""
    peers = [END] if place in speakers else [LOOPBACKS + it for it in speakers] if place == last else []
    lines = ["router bgp 65000"] if peers else []
    for peer in map(dotted, peers):
        lines += [f" neighbor {peer} remote-as 65000", f" neighbor {peer} update-source Loopback0"]
    return lines


def behind_one(wide, long):
    return behind(wide, long, [0])


def behind_one_rows(wide, long):
    return [("whether the session is established", [f"session r0 {dotted(END)}"])]


def behind_all(wide, long):
    return behind(wide, long, range(wide))


def behind_all_rows(wide, long):
    return [("one test", [f"rib r0 {dotted(END)}/32"])]
