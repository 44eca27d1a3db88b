"""Suites of tests that suffice, and elements that no test of a route, an accepted route or a session could mark and that are neither
entries of access lists nor filters of interfaces."""
import itertools

from facts import closure, stands
from routes import entry_of, main_table

NO_MARKS = frozenset(), frozenset()


def together(one, other):
    """The marks over two lists of facts: which elements are strong, and which are strong or weak."""
    return one[0] | other[0], one[1] | other[1]


def marked_by(net, facts):
    """Which elements are strong over these facts, and which are strong or weak."""
    marks = NO_MARKS
    for f in facts:
        if ("stands", f) not in net.kept:
            net.kept["stands", f] = stands(net, f)
        marks = together(marks, net.kept["stands", f])
    return marks


def suite(net, tests):
    """The numbers of those tests that are kept, ascending; each test is its number and its facts.

    From the last to the first a test is left out exactly where the marks of all elements over what is still kept are the same without it: over
    all tests before it, and those behind it that were kept.
    """
    marks = [marked_by(net, facts) for _, facts in tests]
    before = list(itertools.accumulate(marks, together, initial=NO_MARKS))
    kept, behind = [], NO_MARKS
    for place in reversed(range(len(tests))):
        with_it, without = together(before[place + 1], behind), together(before[place], behind)
        if with_it != without:
            kept.append(tests[place][0])
            behind = together(behind, marks[place])
    return kept[::-1]


def roots(net):
    """All rows of main tables, all routes that are accepted from a neighbor, and all sessions."""
    prefixes = sorted({prefix for _, prefix in net.bgp})
    rows = [("Main", r, row) for r in range(len(net.routers)) for row in range(len(main_table(net, r)))]
    accepted = [("Entry", r, n, p) for r, n in net.sessions for p in prefixes if entry_of(net, r, n, p) is not None]
    return rows + accepted + [("Session", r, n) for r, n in net.sessions]


def dead(net, most):
    """The elements that stand in no derivation of a root, but for filters and their entries, which only packets need, ascending; None where
    the roots rest on more than so many facts.

    An element stands in some derivation of a fact exactly where the way down from the fact comes to it: each choice takes some parent, and one
    takes those on the way.
    """
    reached = closure(net, roots(net))
    if len(reached) > most:
        return None
    kinds = [key[0] for c in net.routers for key, _ in c["elements"]]
    return [e for e, kind in enumerate(kinds) if kind not in ("filter", "group") and ("Element", e) not in reached]
