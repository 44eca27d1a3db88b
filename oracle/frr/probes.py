"""Flows from each router to each address worth asking about, one way, and how many of them arrived.

A flow to an address of a router has arrived where that router receives it; one to another address where it leaves a router
on the network that has the address, by an interface that is alone there. Needs root.
"""
import ctypes
import os
import re
import select
import socket
import struct
import time

from spaces import segments, stubs
from texts import address, covers
from translation import dotted

FLOWS, PORT, FIRST_PORT, STEP = 24, 33999, 40000, 37
FOREIGN = address(b"203.0.113.77")
NETWORK_SPACES, IP, UDP = 0x40000000, 3, 17
TAKEN_FIRST = (9, 77, 200, 250, -2, 2)
MESSAGE = re.compile(rb"flow (\d+) (\d+) (\d+) ")
SYSTEM = ctypes.CDLL(None, use_errno=True)


def own_addresses(routers):
    return {x["addr"] for config in routers for x in config["interfaces"] if x["up"]}


def unowned(prefix, owned, shared):
    """An address in a prefix that no router owns, and for which nobody would be asked on a segment that routers share; or None."""
    size = 1 << (32 - prefix[1])
    for offset in TAKEN_FIRST:
        found = prefix[0] + offset % size
        if offset % size not in (0, size - 1) and found not in owned:
            return None if any(covers(segment, found) for segment in shared) else found
    return None


def targets(routers):
    """Each address of a router, an unowned one of each network, static route and BGP prefix, and one of nobody; in order."""
    owned = own_addresses(routers)
    shared = {prefix for prefix, members in segments(routers) if len(members) > 1}
    prefixes = {prefix for prefix, members in segments(routers) if len(members) == 1}
    for config in routers:
        process = config["process"] or {"networks": [], "aggregates": []}
        prefixes |= {x["prefix"] for x in config["statics"] + process["networks"] + process["aggregates"]}
    wide = {prefix for prefix in prefixes - shared if 0 < prefix[1] <= 30}
    return sorted((owned | {unowned(prefix, owned, shared) for prefix in wide} | {FOREIGN}) - {None})


def enter(path):
    """Moves this thread into a network namespace."""
    space = os.open(path, os.O_RDONLY)
    try:
        if SYSTEM.setns(space, NETWORK_SPACES):
            raise OSError(ctypes.get_errno(), f"can't enter {path}")
    finally:
        os.close(space)


def opened(family, kind, bound, number=0):
    made = socket.socket(family, kind, number)
    made.setsockopt(socket.SOL_SOCKET, socket.SO_RCVBUF, 1 << 22)
    made.bind(bound)
    made.setblocking(False)
    return made


def payload(frame):
    """What a packet with a flow's message has behind its headers, else nothing."""
    if len(frame) < 28 or frame[9] != UDP:
        return b""
    header = 4 * (frame[0] & 15)
    return frame[header + 8:] if struct.unpack("!H", frame[header + 2:header + 4])[0] == PORT else b""


class Probes:
    """Sockets in the namespaces of a lab: a receiver and the senders of each router, and a listener on each interface that is alone."""

    def __init__(self, routers, spaces):
        self.owned, self.asked = own_addresses(routers), targets(routers)
        self.receivers, self.senders, self.arrived = [], [], {}
        self.listeners = {}     # each with the prefix of its interface
        home = f"/proc/{os.getpid()}/ns/net"
        self.home = os.open(home, os.O_RDONLY)
        try:
            for r in range(len(routers)):
                enter("/var/run/netns/" + spaces.of(r))
                self.receivers.append(opened(socket.AF_INET, socket.SOCK_DGRAM, ("0.0.0.0", PORT)))
                self.senders.append([opened(socket.AF_INET, socket.SOCK_DGRAM, ("0.0.0.0", FIRST_PORT + STEP * k)) for k in range(FLOWS)])
            for r, k in stubs(routers):
                enter("/var/run/netns/" + spaces.of(r))
                listener = opened(socket.AF_PACKET, socket.SOCK_DGRAM, (spaces.device(r, k), IP), socket.htons(IP))
                self.listeners[listener] = routers[r]["interfaces"][k]["prefix"]
        finally:
            SYSTEM.setns(self.home, NETWORK_SPACES)

    def is_there(self, from_socket, target):
        """Whether a packet for this address that comes by a socket has arrived: at its owner, or on the network that has it, of no router's."""
        prefix = self.listeners.get(from_socket)
        return prefix is None or (target not in self.owned and covers(prefix, target))

    def take(self, from_socket):
        """Notes the flows whose messages wait at a socket."""
        while True:
            try:
                data = from_socket.recv(2048)
            except BlockingIOError:
                return
            found = MESSAGE.match(payload(data) if from_socket in self.listeners else data)
            if found:
                r, at, flow = map(int, found.groups())
                if self.is_there(from_socket, self.asked[at]):
                    self.arrived.setdefault((r, at), set()).add(flow)

    def drain(self, seconds):
        until = time.time() + seconds
        while True:
            ready = select.select(self.receivers + list(self.listeners), [], [], max(0, until - time.time()))[0]
            if not ready:
                return
            for from_socket in ready:
                self.take(from_socket)

    def send(self, r):
        """Sends the flows of a router that haven't arrived yet."""
        for at, target in enumerate(self.asked):
            for flow in set(range(FLOWS)) - self.arrived.get((r, at), set()):
                try:
                    self.senders[r][flow].sendto(b"flow %d %d %d " % (r, at, flow), (dotted(target), PORT))
                except OSError:
                    continue    # the router has no way: the flow doesn't arrive
            self.drain(0)

    def counts(self):
        """[(router's number, address, flows that arrived)], after two tries."""
        for _ in range(2):
            for r in range(len(self.senders)):
                self.send(r)
            self.drain(1.2)
        pairs = [(r, at) for r in range(len(self.senders)) for at in range(len(self.asked))]
        return [(r, dotted(self.asked[at]), len(self.arrived.get((r, at), ()))) for r, at in pairs]

    def close(self):
        os.close(self.home)
        for one in self.receivers + list(self.listeners) + [sender for some in self.senders for sender in some]:
            one.close()
