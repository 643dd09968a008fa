"""What leads to an object: levels from the roots, shortest paths, and what keeps it.

The search is the one of `nmgc retain`, so that the path which is shown is the one that it tells: level by level, g first,
then each mutator's registers and queue, fields in their order. A weak pointer holds nothing there. What only its fields
lead to gets a level too, so that it has a place in a picture, but no path.
"""
from collections import defaultdict
from typing import NamedTuple, Union

STRONG, FINALISER, WEAK, LOOSE = "strong", "finaliser", "weak", "loose"


class Root(NamedTuple):
    """A root: `shared`, `register` or `queue` with its mutator and number; `list` for a weak pointer that no field refers to,
    and `none` for another such object."""

    kind: str
    mutator: int = 0
    number: int = 0


class Step(NamedTuple):
    """A field of an object, by its number."""

    source: str
    field: int


class Found(NamedTuple):
    """How an object was found: its level, and the root or the field that refers to it."""

    level: int
    way: Union[Root, Step]


def roots(heap, queues=True):
    """The roots that refer to an object, each with its name."""
    yield Root("shared"), "g"
    for number, own in enumerate(heap.mutators):
        for register, word in own.registers:
            if word in heap.lines:
                yield Root("register", number, register), word
        for place, word in enumerate(own.queue if queues else ()):
            if word in heap.lines:
                yield Root("queue", number, place), word


def search(heap, queues=True):
    """For each object that strong fields lead to how it was found first, in the order in which they are found."""
    found, last = {}, []
    for root, name in roots(heap, queues):
        if name not in found:
            found[name] = Found(0, root)
            last.append(name)
    level = 0
    while last:
        level, following = level + 1, []
        for name in last:
            for field, target in heap.strong(name):
                if target not in found:
                    found[target] = Found(level, Step(name, field))
                    following.append(target)
        last = following
    return found


def spread(heap, found, sources):
    """Goes on from a search, along weak fields too: `sources` are names with how they are found, if they aren't yet."""
    pending = defaultdict(list)
    for name, how in sources:
        pending[how.level].append((name, how))
    while pending:
        for name, how in pending.pop(min(pending)):
            if name in found:
                continue
            found[name] = how
            for field, target in heap.node(name).references():
                if target not in found:
                    pending[how.level + 1].append((target, Found(how.level + 1, Step(name, field))))
    return found


def all_found(heap, found):
    """How every object is found: after the search by what weak pointers lead to, and at last those that nothing leads to."""
    every = dict(found)
    weak = [(name, how) for name, how in found.items() if heap.kind(name) == "weak"]
    spread(heap, every, [
        (target, Found(how.level + 1, Step(name, field))) for name, how in weak for field, target in heap.node(name).references()
    ])
    left = [name for name in heap.lines if name not in every]
    referred = {target for name in left for _, target in heap.node(name).references()}
    alive = set(heap.weaks()).intersection(left)
    for several in (alive - referred, set(left) - referred, alive, set(left)):
        for name in left:
            if name in several and name not in every:
                spread(heap, every, [(name, Found(0, Root("list" if name in alive else "none")))])
    return every


def path(found, name):
    """The path to an object that was found: the root, the first object, and each hop as a pair of field and object."""
    hops = []
    while isinstance(found[name].way, Step):
        hops.append((found[name].way.field, name))
        name = found[name].way.source
    return found[name].way, name, hops[::-1]


def path_text(found, name):
    """What `nmgc retain` writes of an object."""
    if name not in found:
        return "none\n"
    root, first, hops = path(found, name)
    told = "root shared" if root.kind == "shared" else f"root {root.kind} {root.mutator} {root.number}"
    lines = [told, f"object {first}"]
    for field, target in hops:
        lines += [f"field {field}", f"object {target}"]
    return "\n".join(lines + ["end"]) + "\n"


def _reach(heap, kept, names):
    """Adds what strong fields lead to from these names."""
    todo = [name for name in names if name not in kept]
    kept.update(todo)
    while todo:
        for _, target in heap.strong(todo.pop()):
            if target not in kept:
                kept.add(target)
                todo.append(target)


def _live(heap, live, weaks):
    """Adds what weak pointers with a live key keep, until it is no more; the weak pointers whose key isn't live."""
    waiting, before = weaks, None
    while before != len(waiting):
        before, still = len(waiting), []
        for name in waiting:
            key, *kept = heap.node(name).values
            if key in heap.lines and key not in live:
                still.append(name)
            else:
                _reach(heap, live, [name] + [word for word in kept if word in heap.lines])
        waiting = still
    return waiting


def live(heap, found, names, weak=True):
    """What is live where these are, beside those that were found: by strong fields, and by weak pointers whose key is live;
    and the weak pointers whose key isn't. Without `weak` by strong fields alone."""
    kept = set(found)
    _reach(heap, kept, names)
    return kept, _live(heap, kept, heap.weaks() if weak else [])


def keepers(heap, found):
    """For each object what keeps it: registers and g by strong fields, else a finaliser that waits or would be queued, else
    a weak pointer with a live key; or nothing."""
    held = search(heap, queues=False) if any(own.queue for own in heap.mutators) else found
    alive, dying = live(heap, found, [])
    kept = set(alive)
    _reach(heap, kept, [word for name in dying for word in heap.node(name).values[2:] if word in heap.lines])
    told = {}
    for name in heap.lines:
        if name in held:
            told[name] = STRONG
        elif name in found or (name in kept and name not in alive):
            told[name] = FINALISER
        else:
            told[name] = WEAK if name in alive else LOOSE
    return told
