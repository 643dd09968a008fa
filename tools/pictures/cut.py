"""Which objects of a heap are shown. A large heap is cut to what lies within so many hops of the roots, or of one object."""
from collections import Counter, defaultdict
from typing import NamedTuple

from .image import KINDS
from .text import count

MOST = 2000  # objects of a picture
ENDS = 300  # of a path that is too long: so many objects at either end


class Shown(NamedTuple):
    """The names that are shown, in the order in which they were found; and what is to be said of the others."""

    names: list
    told: str


def kinds_told(heap, names):
    """`3 con, 1 arr`: how many objects there are of each kind."""
    counts = Counter(heap.kind(name) for name in names)
    return ", ".join(f"{counts[kind]:,} {kind}" for kind in KINDS if counts[kind])


def _sentence(heap, shown, where):
    """What is told of a cut."""
    left = [name for name in heap.lines if name not in shown]
    if not left:
        return ""
    objects = count(len(heap.lines), "object")
    return f"Cut: shown are {len(shown):,} of {objects}, {where}. Left out are {len(left):,}: {kinds_told(heap, left)}."


def near_roots(heap, every, hops=None):
    """What lies within so many hops of the roots; or within as many as leave `MOST` objects at most."""
    by_level = Counter(how.level for how in every.values())
    if hops is None:
        if len(every) <= MOST:
            return Shown(list(every), "")
        hops = 0
        while sum(by_level[level] for level in range(hops + 2)) <= MOST:
            hops += 1
    names = [name for name, how in every.items() if how.level <= hops]
    where = f"what lies within {count(hops, 'hop')} of the roots"
    if len(names) > MOST:
        names, where = names[:MOST], f"the first of {where}"
    return Shown(names, _sentence(heap, set(names), where))


def _rings(heap, name):
    """Names by their distance from one, along fields in either direction: a list for each distance."""
    referrers = defaultdict(list)
    for source in heap.lines:
        for _, target in heap.node(source).references():
            referrers[target].append(source)
    seen, ring = {name}, [name]
    while ring:
        yield ring
        following = []
        for here in ring:
            for other in [target for _, target in heap.node(here).references()] + referrers[here]:
                if other not in seen:
                    seen.add(other)
                    following.append(other)
        ring = following


def near_object(heap, every, name, way, hops=None):
    """The path to an object (the names of `way`), and what lies within so many hops of it; or as many as leave `MOST` at most."""
    if hops is None and len(every) <= MOST:
        return Shown(list(every), "")
    shown = set(way if len(way) <= 2 * ENDS else way[:ENDS] + way[-ENDS:])
    reached = 0
    for distance, ring in enumerate(_rings(heap, name)):
        if (hops is not None and distance > hops) or (distance and len(shown.union(ring)) > MOST):
            break
        shown.update(ring)
        reached = distance
    where = f"what lies within {count(reached, 'hop')} of {name}, and its path"
    if len(way) > 2 * ENDS:
        where += f" but for {count(len(way) - 2 * ENDS, 'object')} in its middle"
    return Shown([it for it in every if it in shown], _sentence(heap, shown, where))
