"""Least cuts of tests, by trying sets of elements."""
import itertools

from carriers import carried_all, carried_each, elements_of, in_order

TOGETHER = 4096


def are_cuts(order, facts, sets):
    """A bit for each set, the first lowest: whether all elements outside the set don't carry the facts."""
    every, missing = (1 << len(sets)) - 1, {}
    for k, one in enumerate(sets):
        for e in one:
            missing[e] = missing.get(e, 0) | 1 << k
    return every ^ carried_all(carried_each(order, every, lambda e: every ^ missing.get(e, 0)), facts, every)


def first_cut(order, facts, tried, size):
    """The first cut that has so many of the elements tried, or None."""
    sets = itertools.combinations(tried, size)
    while together := list(itertools.islice(sets, TOGETHER)):
        found = are_cuts(order, facts, together)
        if found:
            return together[(found & -found).bit_length() - 1]
    return None


def least_cut(net, facts, kept):
    """The elements of the least cut of these facts that has none of the routers kept, ascending; None where there is no cut.

    Sets are tried by size, and those of one size in order. Only elements that some derivation of a fact has are tried: a cut that has
    another one is a cut without it too, so no least cut has such an element. And what has a cut inside is a cut: if the facts are carried
    where all elements that may be missing are, there is no cut.
    """
    order = in_order(net, facts)
    tried = [e for e in elements_of(order) if net.router_of(e) not in kept]
    if not are_cuts(order, facts, [tried]):
        return None
    sizes = (first_cut(order, facts, tried, size) for size in range(len(tried) + 1))
    return next(cut for cut in sizes if cut is not None)
