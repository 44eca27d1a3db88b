"""The networks on which the program is measured: of each its files by size, and what is asked of it.

A session is told in rows: each row asks what those before it ask, and more. The second size is a small one, on which
the generators are tried. `refuses` says that a row is there for what it refuses.
"""
import typing

import filtered
import routed
import static


class Network(typing.NamedTuple):
    """A kind of network."""

    about: str
    files: typing.Callable
    rows: typing.Callable
    size: tuple
    small: tuple


def generated(pods):
    """Returns no files: the program generates the network."""
    return []


def own_session(pods):
    """Returns the one row of a generated network, which brings its session."""
    return [("its own session", [])]


NETWORKS = {
    "start": Network("one small file", static.start, static.start_rows, (), ()),
    "lines": Network("one small file, 500,000 lines", static.start, static.lines_rows, (500000,), (50,)),
    "static64": Network("64 routers in a ring, 42,752 static routes", static.ring, static.ring_rows, (64, 500), (4, 9)),
    "read16": Network("16 files with as many lines as are read, most of them of interfaces", static.ports, static.ports_rows, (16, 10919), (6, 5)),
    "big16": Network("16 files with as many lines as are read, nearly all entries of prefix lists", static.entries, static.entries_rows, (16, 65532), (2, 9)),
    "smesh128": Network("128 routers on one segment with static routes of each over all others", static.segment, static.segment_rows, (128,), (4,)),
    "grid8x4": Network("eight columns of four routers, each with routes over all of the next column", static.grid, static.grid_rows, (8, 4), (3, 2)),
    "par16": Network("two routers and 16 links", static.parallel, static.parallel_rows, (16,), (3,)),
    "chain256": Network("256 routers in a line, external sessions, three networks each", routed.chain, routed.chain_rows, (256,), (5,)),
    "walks256": Network("the line of 256 routers", routed.chain, routed.walks_rows, (256,), (5,)),
    "lan256": Network("256 routers on one segment with four sessions each, 1,023 networks", routed.lan, routed.lan_rows, (256,), (5,)),
    "mesh32": Network("32 routers, a link and a session between each two, 512 networks, multipath", routed.mesh, routed.mesh_rows, (32,), (3,)),
    "policy16": Network("16 routers, a session between each two, each with a map over a list of 50,001 entries, 900 networks", routed.policy, routed.policy_rows, (16, 900, 50000), (4, 9, 9)),
    "maps16": Network("16 routers, a session between each two, each with a map of 250 clauses, 900 networks", routed.maps, routed.maps_rows, (16, 900, 250), (4, 9, 9)),
    "lists16": Network("16 routers, a session between each two, each with a map of 21 clauses over 200 community lists, 900 networks", routed.lists, routed.lists_rows, (16, 900, 20), (4, 9, 2)),
    "backbone": Network("a backbone of ten routers with 200 external systems, policies with lists and communities", routed.backbone, routed.backbone_rows, (10, 20), (4, 3)),
    "filters20": Network("4 spines and 16 leaves, static routes over all spines, a list of 2,002 entries each way at each end of a link and toward the hosts", filtered.fabric, filtered.fabric_rows, (4, 16, 2000, 1000), (2, 3, 5, 12)),
    "behind60": Network("60 routers on one segment, 25 in a line behind them, one internal session from end to end", static.behind_one, static.behind_one_rows, (60, 25), (3, 3)),
    "behind230": Network("230 routers on one segment, 25 in a line behind them, 230 internal sessions with the last", static.behind_all, static.behind_all_rows, (230, 25), (3, 3)),
    "fat8": Network("the generated fat tree of 80 routers", generated, own_session, (8,), (2,)),
}


def words_of(name, small=False):
    """Returns the words with which the program is called, and the files that they name, each as lines by its name."""
    network = NETWORKS[name]
    size = network.small if small else network.size
    files = network.files(*size[:network.files.__code__.co_argcount])
    words = [it for it, _ in files] or ["--fat-tree", str(size[0])]
    return words, dict(files)


def rows_of(name, small=False):
    """Returns what is asked: for each row its words, and the lines of the session up to its end."""
    network = NETWORKS[name]
    asked, rows = [], []
    for words, lines in network.rows(*(network.small if small else network.size)):
        asked = asked + lines
        rows.append((words, asked))
    return rows
