"""A generated network: the files of a fat tree, and its session."""


def dotted(a):
    return ".".join(str(a >> shift & 255) for shift in (24, 16, 8, 0))


def routers_of(half):
    """The names of the routers, in order: the cores, and then those of each pod, first the ones between."""
    pods = [[f"{layer}{pod}_{j}" for layer in "ae" for j in range(half)] for pod in range(2 * half)]
    return [f"c{i}" for i in range(half * half)] + sum(pods, [])


def links_of(half):
    """The upper and the lower end of each link, in order of number."""
    within = [(f"a{p}_{a}", f"e{p}_{e}") for p in range(2 * half) for e in range(half) for a in range(half)]
    above = [(f"c{a * half + i}", f"a{p}_{a}") for p in range(2 * half) for a in range(half) for i in range(half)]
    return within + above


def ports_of(name, links, systems):
    """(own address, the peer's address, the peer's system) of each link of a router, in order."""
    start = 10 * 2**24 + 128 * 2**16
    found = []
    for n, ends in enumerate(links):
        if name in ends:
            side = ends.index(name)
            found.append((start + 4 * n + 1 + side, start + 4 * n + 2 - side, systems[ends[1 - side]]))
    return found


def file_of(name, half, links, systems):
    ports = ports_of(name, links, systems)
    wide = [(own, "255.255.255.252") for own, _, _ in ports]
    statements = [f" neighbor {dotted(peer)} remote-as {system}" for _, peer, system in ports]
    if name[0] == "e":
        lan = 10 * 2**24 + 256 * (int(name[1:].split("_")[0]) * half + int(name.split("_")[1]))
        wide.append((lan + 1, "255.255.255.0"))
        statements.insert(0, f" network {dotted(lan)} mask 255.255.255.0")
    interfaces = [line for m, (own, width) in enumerate(wide) for line in (f"interface Ethernet{m}", f" ip address {dotted(own)} {width}")]
    process = [f"router bgp {systems[name]}", " bgp bestpath as-path multipath-relax", f" maximum-paths {half}"]
    return "".join(line + "\n" for line in [f"hostname {name}"] + interfaces + process + statements).encode()


def fat_tree(pods):
    """The files, each with its name, and the session of a fat tree of so many pods."""
    half = pods // 2
    names, links = routers_of(half), links_of(half)
    systems = {name: 64512 + i for i, name in enumerate(names)}
    files = [(name.encode() + b".cfg", file_of(name, half, links, systems)) for name in names]
    asked = dotted(10 * 2**24 + 256 * (pods * half - 1) + 9)
    lines = [f"reach e0_0 {asked}", f"every e0_0 {asked}", "implies 2 1", "implies 1 2"]
    return files, "".join(line + "\n" for line in lines).encode()
