"""Which sets of elements carry facts, and the greatest that carries one test and not another, by trying sets."""
from functools import reduce
from operator import and_, or_

from facts import parents

LEAST, MOST, BOTH = 1, 2, 3


def in_order(net, facts):
    """All facts that these are derived from with themselves, parents first, each with its kind and parents."""
    order, done, todo = [], set(), list(facts)
    while todo:
        f = todo[-1]
        kind, above = parents(net, f)
        missing = [p for p in above if p not in done]
        if f in done or not missing:
            todo.pop()
            if f not in done:
                done.add(f)
                order.append((f, kind, above))
        else:
            todo += missing
    return order


def elements_of(order):
    """The elements among these facts, ascending."""
    return sorted({f[1] for f, kind, _ in order if kind == "Leaf"})


def carried_each(order, every, having):
    """For each fact which of several sets have all elements of some derivation of it, a bit for each set: every has the bits of all sets,
    and having gives those of the sets that have an element."""
    carried = {}
    for f, kind, above in order:
        bits = [carried[p] for p in above]
        carried[f] = having(f[1]) if kind == "Leaf" else reduce(or_, bits, 0) if kind == "Any" else reduce(and_, bits, every)
    return carried


def carried_all(carried, facts, every):
    """Which of the sets carry all of these facts."""
    return reduce(and_, [carried[f] for f in facts], every)


def undecided(order, carried, facts):
    """The facts, from these on, that the greater set carries and the lesser one doesn't. They tell all that the elements between the two
    decide, where the greater set carries all of these facts: of a conjunction that is among them all other parents are carried by both sets,
    and of a disjunction by none."""
    wanted, found = set(facts), set()
    for f, _, above in reversed(order):
        if f in wanted and carried[f] == MOST:
            found.add(f)
            wanted.update(above)
    return frozenset(found)


def lacking(net, first, second):
    """The elements, in order, that the greatest set lacks which carries the first facts and not the second; None where there is none.

    A set with a lower element than another, where they first differ, is the greater one: so each element in turn is tried as a member
    before it is tried as missing, and where the same was left to decide once before, there was no such set. Elements that no derivation
    has are members.
    """
    order = in_order(net, list(first) + list(second))
    relevant = elements_of(order)
    todo, seen = [(0, frozenset(relevant))], set()
    while todo:
        place, most = todo.pop()
        least = most.difference(relevant[place:])
        carried = carried_each(order, BOTH, lambda e: MOST * (e in most) | LEAST * (e in least))
        if not carried_all(carried, first, BOTH) & MOST or carried_all(carried, second, BOTH) & LEAST:
            continue
        if not carried_all(carried, second, BOTH) & MOST:
            return [e for e in relevant if e not in most]
        left = place, undecided(order, carried, [*first, *second])
        if left not in seen:
            seen.add(left)
            todo += [(place + 1, most - {relevant[place]}), (place + 1, most)]
    return None
