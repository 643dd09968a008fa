"""The refused line of a trace: two worlds side by side, the snapshot and the heap at that line.

On the left a path leads through the snapshot to the name of which the refusal speaks: where it is due, by the very field or
weak pointer from which a command took it. On the right stand the same objects as they are at the refused line, and what
became of each field; and beside them what leads to the name there.
"""
from typing import NamedTuple, Optional

from .paths import Found, Root, Step, all_found, path, search, spread
from .svg import WIDTH, Sheet, fit
from .text import count, is_reference

PANEL, SPACE, TOP = 430, 16, 30
BOX, HEIGHT, PITCH = 168, 36, 72
ENDS = 4  # objects of a path that are shown at either end, where it is long
PARTS = ("key", "value", "finaliser")


class Hop(NamedTuple):
    """A hop of a path: the object, the field that leads there, whether it is a strong one, and from which object it comes."""

    name: str
    field: Optional[int]
    strong: bool
    source: Optional[str]


class Lead(NamedTuple):
    """A path: its root, and its hops, the first of which has no field. Where objects are left out, `gap` is before which hop."""

    root: Root
    hops: list
    gap: int
    left_out: int


def lead(world, name, extra=()):
    """A path to a name in a world: a shortest one by strong fields, else one from further roots, which `extra` has as pairs of a
    root and a name, else one through weak pointers; None where there is none."""
    heap = world.heap()
    if name not in heap.lines:
        return None
    found = search(heap)
    if name not in found:
        beside = spread(heap, {}, [(it, Found(0, root)) for root, it in extra if it in heap.lines])
        found = beside if name in beside else all_found(heap, found)
    root, source, hops = path(found, name)
    if root.kind == "none":
        return None
    told = [Hop(source, None, True, None)]
    for field, target in hops:
        told.append(Hop(target, field, heap.node(source).strong, source))
        source = target
    return shortened(root, told)


def shortened(root, hops):
    """The path with its middle left out, where it is long."""
    if len(hops) <= 2 * ENDS + 1:
        return Lead(root, hops, 0, 0)
    return Lead(root, hops[:ENDS] + hops[-ENDS:], ENDS, len(hops) - 2 * ENDS)


def broken_lead(watch):
    """The path through the snapshot to the name that is due, by the field or the weak pointer from which it went."""
    debt = watch.refusal.debt
    way = lead(watch.snapshot, debt.source)
    if debt.source == debt.name and debt.field is None:
        return way
    fields = dict(watch.snapshot.heap().node(debt.source).references()) if debt.source in watch.snapshot.lines else {}
    if way is None or fields.get(debt.field) != debt.name:
        return lead(watch.snapshot, debt.name)
    strong = watch.snapshot.heap().node(debt.source).strong
    last = Hop(debt.name, debt.field, strong, debt.source)
    return shortened(way.root, way.hops + [last]) if not way.gap else Lead(way.root, way.hops + [last], way.gap, way.left_out)


def value_now(world, source, field):
    """What a field holds in a world, or None where the object has no such field any more."""
    if source not in world.lines:
        return None
    node = world.heap().node(source)
    at = field - node.first
    return node.values[at] if 0 <= at < len(node.values) else None


def root_now(world, root, name):
    """What a root holds in a world; the name itself where it still refers to it."""
    if root.kind == "register":
        return world.registers[root.mutator][root.number]
    if root.kind == "queue":
        return name if name in world.queues[root.mutator] else "gone"
    return name


def root_words(root):
    """A root in two lines."""
    if root.kind in ("register", "queue"):
        sort = f"register {root.number}" if root.kind == "register" else f"queue, place {root.number}"
        return [f"mutator {root.mutator}", sort]
    words = {"shared": ["shared"], "pushed": ["pushed", "since the mark"], "read": ["read out of a", "weak pointer"]}
    return words.get(root.kind, ["a weak pointer", "in the list"])


class Panel:
    """One of the two worlds: where its paths stand, the snapshot's in its first column, another one in its second."""

    def __init__(self, sheet, world, left, top):
        self.sheet, self.world, self.left, self.top = sheet, world, left, top

    def y(self, row):
        """Where a row begins."""
        return self.top + TOP + row * PITCH

    def x(self, column):
        """Where a column begins."""
        return self.left + 16 + column * (BOX + 58)

    def root(self, root, row, column):
        """A root."""
        x, y = self.x(column), self.y(row)
        self.sheet.rect(x, y, BOX, HEIGHT, "#f0f0f0", more=' rx="10"')
        words = root_words(root)
        for at, line in enumerate(words):
            self.sheet.text(x + BOX / 2, y + (22 if len(words) == 1 else 15 + 14 * at), line, font_size=11)

    def object(self, name, row, column, marked):
        """An object, as it is in this world."""
        x, y = self.x(column), self.y(row)
        words = self.world.lines.get(name)
        node = self.world.heap().node(name) if words else None
        more = (' stroke-width="3"' if marked else "") + (' stroke-dasharray="5 4"' if node is None or node.kind == "weak" else "")
        self.sheet.rect(x, y, BOX, HEIGHT, "#fff", more=more)
        self.sheet.text(x + BOX / 2, y + 15, name, font_weight="bold")
        self.sheet.text(x + BOX / 2, y + 30, fit(node.note if node else "isn't there", BOX, 10), font_size=11)

    def gap(self, row, column, left_out):
        """Says how many objects are left out there."""
        self.sheet.text(self.x(column) + BOX / 2, self.y(row) + 22, f".. {count(left_out, 'more object')} ..", font_size=11)

    def arrow(self, row, column, words, strong=True, broken=False):
        """From the box of a row to the one below it."""
        x, y1, y2 = self.x(column) + BOX / 2, self.y(row) + HEIGHT, self.y(row + 1)
        dashes = "" if strong and not broken else ' stroke-dasharray="5 4"'
        self.sheet.line(x, y1, x, y2 - 7, "#8c8c8c" if broken else "#000", f' stroke-width="1.6"{dashes}')
        self.sheet.path(f"M{x:.1f},{y2:.1f} l-4,-8 h8 Z", "#8c8c8c" if broken else "#000", "none")
        self.sheet.text(x + 12, (y1 + y2) / 2 + 4, fit(words, BOX + 40, 10), "start", font_size=11)
        if broken:
            self.sheet.path(f"M{x - 8:.1f},{(y1 + y2) / 2 - 8:.1f} l16,16 m0,-16 l-16,16", "none", "#000", ' stroke-width="3"')

    def beside(self, row, words, strong):
        """From the second column's box of a row to the object of the first column in the row below it."""
        x, y1 = self.x(1) + BOX / 2, self.y(row) + HEIGHT
        y2, x2 = self.y(row + 1) + HEIGHT / 2, self.x(0) + BOX
        dashes = "" if strong else ' stroke-dasharray="5 4"'
        self.sheet.path(f"M{x:.1f},{y1:.1f} V{y2:.1f} H{x2 + 7:.1f}", "none", "#000", f' stroke-width="1.6"{dashes}')
        self.sheet.path(f"M{x2:.1f},{y2:.1f} l8,-4 v8 Z", "#000", "none")
        self.sheet.text(x + 8, y2 - 8, fit(words, BOX / 2, 10), "start", font_size=11)


def field_words(hop, value=None):
    """A field, and what it holds where it doesn't refer to the object any more."""
    words = f"field {hop.field}" if hop.strong else PARTS[hop.field]
    return words if value is None else f"{words}: {value}"


def draw_lead(panel, way, base, then, name):
    """A path downwards in the first column, its last object in the row `base`; `then` is whether this is the snapshot."""
    count = len(way.hops) + bool(way.gap)
    row = base - count
    held = way.hops[0].name if then else root_now(panel.world, way.root, way.hops[0].name)
    panel.root(way.root, row, 0)
    panel.arrow(row, 0, "" if held == way.hops[0].name else f"now: {held}", broken=held != way.hops[0].name)
    for at, hop in enumerate(way.hops):
        row += 1
        if way.gap and at == way.gap:
            panel.gap(row, 0, way.left_out)
            row += 1
        elif hop.field is not None:
            value = hop.name if then else value_now(panel.world, hop.source, hop.field)
            broken = value != hop.name
            panel.arrow(row - 1, 0, field_words(hop, ("gone" if value is None else value) if broken else None), hop.strong, broken)
        panel.object(hop.name, row, 0, hop.name == name)


def draw_other(panel, way, base):
    """A path downwards in the second column, whose last hop leads to the object of the first column in the row `base`."""
    row = base - len(way.hops) - bool(way.gap)
    panel.root(way.root, row, 1)
    for at, hop in enumerate(way.hops):
        row += 1
        if way.gap and at == way.gap:
            panel.gap(row, 1, way.left_out)
            row += 1
        last = at == len(way.hops) - 1
        words = "" if hop.field is None or (way.gap and at == way.gap) else field_words(hop)
        if last:
            panel.beside(row - 1, words, hop.strong)
        else:
            if not (way.gap and at == way.gap):
                panel.arrow(row - 1, 1, words, hop.strong)
            panel.object(hop.name, row, 1, False)


def subject(watch):
    """The object of which the picture speaks: of a weak pointer that isn't dead its key."""
    refusal = watch.refusal
    if refusal.sort == "dead" and refusal.name in watch.snapshot.lines:
        node = watch.snapshot.heap().node(refusal.name)
        if len(node.values) == 3 and is_reference(node.values[0]):
            return node.values[0]
    return refusal.name


def extra_roots(watch):
    """What counts as reached beside the snapshot's roots: names that were read out of weak pointers, and pushed ones."""
    return [(Root("read"), name) for name in watch.opened] + [(Root("pushed"), name) for name in sorted(watch.pushed)]


def events(sheet, watch):
    """The lines of the trace that matter, in order, each with what it did."""
    refusal, debt = watch.refusal, watch.refusal.debt
    rows = [(watch.mark_line, "mark", "the snapshot is taken")] if watch.snapshot else []
    if debt:
        word = "owed" if refusal.reason else "due"
        rows.append((debt.line, f"{debt.mutator} {debt.command}", f"from here on {debt.name} is {word}: {why_due(debt)}"))
    rows.append((refusal.line, refusal.words, "this line can't happen" + (f": the heap answers {refusal.answer}" if refusal.answer else "")))
    for number, words, what in rows:
        sheet.text(96, sheet.y, f"line {number}", "end", font_size=12)
        sheet.text(112, sheet.y, fit(words, 300, 12.5), "start", font_size=12, font_family="DejaVu Sans Mono, monospace")
        sheet.text(424, sheet.y, fit(what, 480, 11), "start", font_size=12)
        sheet.y += 19


def why_due(debt):
    """How a command made a name due."""
    if debt.field is None:
        return "it is finalised"
    if debt.stored:
        return f"it is stored in field {debt.field} of {debt.source}, before mutator {debt.mutator} was scanned"
    word = debt.command.partition(" ")[0]
    if word == "deref":
        return f"it is read out of {debt.source}"
    if word == "finalise":
        return f"{debt.source} kept it"
    return f"it goes from field {debt.field} of {debt.source}"


def told(watch, now):
    """What the two worlds show, in words."""
    refusal, name = watch.refusal, watch.refusal.name
    if refusal.reason:
        return refusal.reason + (f" Nothing leads to it any more at line {refusal.line}." if refusal.debt and not now else "")
    if refusal.sort == "due":
        gone = f"Nothing leads to it any more at line {refusal.line}; the rule asks for it all the same."
        held = f"Yet it can still be reached at line {refusal.line}." if now else gone
        source, line = refusal.debt.source, refusal.debt.line
        if refusal.debt.stored:
            return f"Line {line} stored {name} in {source}, which a marker may have read already, and nobody remembered it. {held}"
        if refusal.debt.command.startswith(("deref", "finalise")):
            return f"Line {line} took {name} out of the weak pointer {source}, which the marker doesn't follow, and nobody remembered it. {held}"
        return f"A marker that comes to {source} only after line {line} may not find {name} there, and nobody remembered it. {held}"
    is_there = watch.snapshot is not None and name in watch.snapshot.lines
    return {
        "answer": "The heap and the trace disagree before any barrier comes in.",
        "name": f"The heap has no {name}.",
        "take": f"{name} wasn't pushed since the mark." if is_there else f"The snapshot has no {name}: it was made later.",
        "dead": f"The weak pointer {name} lives as long as its key can be reached.",
        "told": f"What the snapshot leads to, what was read out of a weak pointer and what was pushed has to be marked: {name} among it.",
        "marked": f"Neither the snapshot nor a push leads to {name}.",
        "unscanned": "The registers of that mutator are roots, and nobody has read them.",
        "untaken": f"{name} was pushed, and it is told what the marker took: so {name} is still on its way, and marking can't end.",
        "new": f"The snapshot has no {name}: it was made later, so the cycle can't have found it to be garbage.",
        "needed": f"The snapshot or a weak pointer that was read leads to {name}, so it can't be freed.",
    }[refusal.sort]


def ways(watch, name):
    """The path through the snapshot, and another one at the refused line, where it isn't the same; None where there is none."""
    then = None
    if watch.snapshot:
        then = broken_lead(watch) if watch.refusal.debt else lead(watch.snapshot, name, extra_roots(watch))
    now = lead(watch.world, name)
    return then, None if now == then else now


def draw_worlds(sheet, watch, name, then, now):
    """Both worlds side by side, each in its panel."""
    rows = max([len(it.hops) + bool(it.gap) for it in (then, now) if it], default=0)
    top, line = sheet.y + 4, watch.refusal.line
    for at, world, words in ((0, watch.snapshot, f"the snapshot, line {watch.mark_line}"), (1, watch.world, f"the heap at line {line}")):
        left = 12 + at * (PANEL + SPACE)
        sheet.rect(left, top, PANEL, TOP + rows * PITCH + HEIGHT + 22, "none", "#bbb")
        sheet.text(left + 12, top + 20, words if world else "no cycle has begun", "start", font_weight="bold")
        if world is None or name is None:
            continue
        panel = Panel(sheet, world, left, top + 6)
        if then:
            draw_lead(panel, then, rows, at == 0, name)
        else:
            panel.object(name, rows, 0, True)
        if at == 1 and now:
            draw_other(panel, now, rows)
    sheet.y = top + TOP + rows * PITCH + HEIGHT + 44


def drawn(watch, title):
    """The picture of a refused line, as SVG text."""
    refusal, name = watch.refusal, subject(watch)
    sheet = Sheet("trace", ())
    sheet.text(12, 24, fit(title, WIDTH - 24, 15), "start", font_weight="bold", font_size=15)
    sheet.y = 48
    sheet.paragraph(refusal.told, 13)
    sheet.y += 6
    events(sheet, watch)
    then, now = ways(watch, name) if name else (None, None)
    draw_worlds(sheet, watch, name, then, now)
    words = told(watch, refusal.debt and lead(watch.world, name))
    sheet.paragraph(words, 12)
    return sheet.svg(title, f"{refusal.told}. {words}")
