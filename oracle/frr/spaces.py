"""The routers of a lab as network namespaces of Linux, joined as their prefixes say. Needs root and iproute2."""
import os
import subprocess

from translation import devices_of, dotted

ROUTER_SETTINGS = ["net.ipv4.ip_forward=1", "net.ipv4.fib_multipath_hash_policy=1", "net.ipv6.conf.default.disable_ipv6=1",
                   "net.ipv6.conf.all.disable_ipv6=1"]
ROUTER_SETTINGS += [f"net.ipv4.conf.{which}.{key}=0" for which in ("all", "default") for key in ("rp_filter", "send_redirects", "accept_redirects")]


def call(*words, given=None, check=True):
    """What a command writes; RuntimeError where it fails."""
    done = subprocess.run(words, input=given, stdout=subprocess.PIPE, stderr=subprocess.STDOUT, text=True, check=False)
    if check and done.returncode:
        raise RuntimeError(f"{' '.join(words)}: {done.stdout.strip()}")
    return done.stdout


def batch(space, lines):
    """Commands of `ip` in a namespace."""
    if lines:
        call("ip", "-n", space, "-batch", "-", given="".join(line + "\n" for line in lines))


def segments(routers):
    """[(prefix, its interfaces that are up as (router, interface))], in order of first mention."""
    found = {}
    for r, config in enumerate(routers):
        for k, x in enumerate(config["interfaces"]):
            if x["up"]:
                found.setdefault(x["prefix"], []).append((r, k))
    return list(found.items())


def stubs(routers):
    """The interfaces that are up and alone on their prefix."""
    return [members[0] for _, members in segments(routers) if len(members) == 1]


class Spaces:
    """One namespace a router, and one between them, in which far ends of interfaces stand and segments of three and more are bridged."""

    def __init__(self, routers):
        self.routers = routers
        self.tag = f"lab{os.getpid()}"
        self.between = self.tag + "-between"
        self.devices = [devices_of(config) for config in routers]
        self.made = []

    def of(self, r):
        return f"{self.tag}-{r}"

    def device(self, r, k):
        return self.devices[r][self.routers[r]["interfaces"][k]["name"]]

    def make(self):
        for space in [self.between] + [self.of(r) for r in range(len(self.routers))]:
            call("ip", "netns", "add", space)
            self.made.append(space)
            settings = ROUTER_SETTINGS if space != self.between else ROUTER_SETTINGS[2:4]
            call("ip", "netns", "exec", space, "sysctl", "-q", "-w", *settings)
        for r in range(len(self.routers)):
            # a seed of its own, else all routers choose alike among equal ways (Linux 6.11 and later)
            call("ip", "netns", "exec", self.of(r), "sysctl", "-q", "-w", f"net.ipv4.fib_multipath_hash_seed={7919 * (r + 1)}")
        self.join()
        self.open()

    def join(self):
        """A veth pair between two interfaces of one prefix; else each has its far end between the routers, bridged where they are several."""
        lines = {self.of(r): ["link set lo up"] for r in range(len(self.routers))}
        middle = ["link set lo up"]
        for n, (_, members) in enumerate(segments(self.routers)):
            (r, k), rest = members[0], members[1:]
            if len(rest) == 1:
                s, j = rest[0]
                lines[self.of(r)].append(f"link add {self.device(r, k)} type veth peer name {self.device(s, j)} netns {self.of(s)}")
                continue
            middle += [f"link add bridge{n} type bridge", f"link set bridge{n} up"] if rest else []
            for r, k in members:
                far = f"{self.device(r, k)}-{r}"
                lines[self.of(r)].append(f"link add {self.device(r, k)} type veth peer name {far} netns {self.between}")
                middle += ([f"link set {far} master bridge{n}"] if rest else []) + [f"link set {far} up"]
        for space, commands in lines.items():
            batch(space, commands)
        batch(self.between, middle)

    def open(self):
        """Addresses. An interface that is alone asks nobody for hosts of its network, so that packets to them leave and can be seen."""
        alone = stubs(self.routers)
        for r, config in enumerate(self.routers):
            lines = []
            for k, x in enumerate(config["interfaces"]):
                if x["up"]:
                    device = self.device(r, k)
                    lines.append(f"addr add {dotted(x['addr'])}/{x['prefix'][1]} dev {device}")
                    lines += [f"link set {device} arp off"] if (r, k) in alone else []
                    lines.append(f"link set {device} up")
            batch(self.of(r), lines)

    def remove(self):
        for space in self.made:
            call("ip", "netns", "del", space, check=False)
