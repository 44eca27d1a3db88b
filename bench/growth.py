"""How the cost grows: networks of one kind in several sizes, each with a session."""
import itertools
import typing

import routed
import static


class Family(typing.NamedTuple):
    """A kind of network: what of it grows, its files and its session by size, the sizes by what grows, and a small size."""

    about: str
    files: typing.Callable
    lines: typing.Callable
    sizes: dict
    small: tuple


def nothing(*_):
    """Returns no lines: the network is loaded, and nothing is asked."""
    return []


def all_lines(rows, most=None):
    """Returns a function that gives the lines of so many rows of a network, by its size."""
    return lambda *size: list(itertools.chain.from_iterable(lines for _, lines in rows(*size)[:most]))


FAMILIES = [
    Family("routers on one segment with routes over each other, 25 in a line behind them, a session from end to end",
           static.behind_one, all_lines(static.behind_one_rows), {wide: (wide, 25) for wide in (20, 40, 60, 120)}, (3, 3)),
    Family("clauses of the map of each of 16 routers, 900 networks, loading alone",
           routed.maps, nothing, {count: (16, 900, count) for count in (250, 1000, 4000)}, (4, 9, 9)),
    Family("tests of packets on the line of 256 routers",
           lambda routers, _: routed.chain(routers), all_lines(routed.walks_rows), {count: (256, count) for count in (256, 1024, 4096)}, (5, 4)),
    Family("external systems at each of the ten routers of the backbone, with all tests and questions",
           routed.backbone, all_lines(routed.backbone_rows, 4), {stubs: (10, stubs) for stubs in (5, 10, 20)}, (4, 3)),
    Family("routers in a line, loading alone", routed.chain, nothing, {count: (count,) for count in (64, 128, 256)}, (5,)),
    Family("routers with a link and a session between each two, loading alone",
           routed.mesh, nothing, {count: (count,) for count in (8, 16, 32)}, (3,)),
]
