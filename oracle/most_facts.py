"""Cases at the limit of facts, of the tests of a session and of `dead`."""
from pieces import Case, b


def with_routes(sizes):
    """Routers with so many routes each to one prefix."""
    files = {}
    for r, n in enumerate(sizes):
        text = [f"hostname r{r}", "interface E", f" ip address 10.{r}.0.1 255.255.0.0", "ip route 98.0.0.0 255.0.0.0 Null0"]
        text += [f"ip route 99.0.0.0 255.0.0.0 10.{r}.{k >> 8}.{k & 255}" for k in range(2, n + 2)]
        files[b"f%d.cfg" % r] = b("\n".join(text) + "\n")
    return files


def facts_cases():
    """Five routers with so many routes to one prefix that the limit of facts is met exactly, passed by one, and passed; then so many of
    which `dead` asks as many facts as the limit, and more."""
    for last in (52141, 52142, 52140):
        asks = [f"rib r{r} 99.0.0.0/8" for r in range(5)] + ["rib r0 98.0.0.0/8", "rib r0 10.0.0.0/16", "rib r1 10.1.0.0/16", "rib r4 99.0.0.0/8", "rib r0 99.0.0.0/8 via 10.0.0.9", "rib r9 1.0.0.0/8", "rib r4 1.0.0.0/8"]
        files = with_routes([52500, 52500, 52500, 52500, last])
        yield Case(files, sorted(files), b("\n".join(asks) + "\n"))
    for last in (52134, 52135):
        files = with_routes([52500, 52500, 52500, 52500, last])
        yield Case(files, sorted(files), b"dead\nrib r0 10.0.0.0/16\ndead\nsuite\n")
