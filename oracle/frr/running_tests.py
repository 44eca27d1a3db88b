"""Tests of what runs a lab, as far as it can be tried without FRRouting, and of the words of the scripts."""
import copy
import os
import subprocess
import sys

import tables
from labs import Lab, folder_of, read_one
from probes import own_addresses, payload, targets
from spaces import segments, stubs
from translation import devices_of, dotted, slashed, translated

HERE = os.path.dirname(os.path.abspath(__file__))
FORMS = os.path.join(HERE, "forms")
ORACLE = f"{sys.executable} {os.path.join(os.path.dirname(HERE), 'oracle.py')}"


def same(found, wanted):
    return [] if found == wanted else [f"{found} instead of {wanted}"]


def text_of(name):
    with open(os.path.join(FORMS, name), encoding="utf-8") as file:
        return file.read()


def translations():
    config = read_one(os.path.join(FORMS, "router.cfg"))
    yield "a translation of each statement", same(translated(config, 0xC0000201), text_of("frr.conf"))
    other = translated(config, 0xC0000201, via_default=True).splitlines()[2]
    yield "next hops by a default route", same(other, "ip nht resolve-via-default")


def wires():
    lab = Lab(folder_of("multipath-unequal"))
    lan = Lab(folder_of("lan"))
    found = {slashed(prefix): [lab.names[r] for r, _ in members] for prefix, members in segments(lab.routers)}
    yield "interfaces of one prefix are joined", same((len(found), found["10.0.13.0/30"]), (7, ["r1", "r2"]))
    yield "interfaces that are alone", same([lab.names[r] for r, _ in stubs(lab.routers)], ["r1", "r1", "r1", "r2"])
    yield "a segment of three", same(max(len(members) for _, members in segments(lan.routers)), 3)
    yield "an interface that is shut has no device", same(devices_of(read_one(os.path.join(FORMS, "router.cfg")))[b"Ethernet1"], None)
    asked = [dotted(a) for a in targets(lab.routers)]
    yield "each address of a router is asked", same(own_addresses(lab.routers) - set(targets(lab.routers)), set())
    yield "an unowned address of each network is asked", same([a for a in asked if a.startswith("10.9.1.")], ["10.9.1.1", "10.9.1.9"])
    yield "no unowned address of a joined segment is asked", same([a for a in asked if a.startswith("10.0.13.")], ["10.0.13.1", "10.0.13.2"])
    frame = bytes([0x45]) + bytes(8) + bytes([17]) + bytes(12) + (33999).to_bytes(2, "big") + bytes(4) + b"flow 1 2 3 "
    yield "what a flow's packet says", same(payload(frame), b"flow 1 2 3 ")
    yield "a packet of something else", same(payload(frame.replace(bytes([17]), bytes([6]), 1)), b"")


def kept_tables():
    replies = tables.documents(text_of("show"))
    found = tables.normal(replies, {"e0": "Ethernet0", "e1": "Ethernet1", "e2": "Ethernet2"})
    yield "the kept form of what FRRouting shows", same(tables.written({"routers": {"r3": found}}) + "\n", text_of("tables.json"))
    dump = Lab(folder_of("lan")).tables()
    yield "equal tables", same(tables.differences(dump, dump), [])
    other = copy.deepcopy(dump)
    other["routers"]["x"]["sessions"]["10.10.10.2"] = False
    other["probes"][0][3] = 24 - other["probes"][0][3]
    name, target = other["probes"][0][:2]
    yield "tables that differ", same(tables.differences(dump, other), ["routers/x/sessions/10.10.10.2", f"probes/{name}/{target}"])
    yield "flows that arrive", same([tables.arrived(["r", "a", 24, n]) for n in (0, 1, 24)], ["none", "some", "all"])


def run(name, *words):
    done = subprocess.run([sys.executable, os.path.join(HERE, name), *words], stdout=subprocess.PIPE, stderr=subprocess.PIPE, text=True, check=False)
    return done.returncode, done.stdout, done.stderr


def scripts():
    for name in ("compare", "run_lab"):
        status, said, _ = run(name, "--help")
        yield f"{name} --help", same((status, said.startswith(f"usage: {name}")), (0, True))
        status, _, said = run(name, "no-such-lab")
        yield f"{name} of no lab", same((status, said), (2, f"{name}: no-such-lab: no such lab\n"))
        yield f"{name} with an unknown word", same(run(name, "--none")[0], 2)
    status, said, _ = run("run_lab", "--print", "pair")
    yield "run_lab --print", same((status, said.count("frr defaults")), (0, 2))
    yield "a program that is asked by sessions", same(run("compare", "--program", ORACLE, "pair"), (0, "held   pair: 174 questions\n", ""))
    status, said, _ = run("compare", "--program", ORACLE, "disagree")
    yield "a program that refuses a network", same((status, said), (0, "held   disagree: 250 questions\n"))
    status, said, _ = run("compare", "--program", "false", "pair")
    yield "a program that fails", same((status, "status 1 of false" in said), (1, True))
    status, _, said = run("compare", "--program", "no-such-program", "pair")
    yield "a program that isn't there", same((status, "no-such-program" in said), (2, True))
    status, said, _ = run("compare", "--program", "true", "pair")
    yield "a program that says nothing", same((status, "no reply" in said), (1, True))
