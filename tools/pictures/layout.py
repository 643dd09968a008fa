"""Where the objects of a heap stand in its picture.

Levels stand in columns from left to right, that of the roots first, and the columns in strips from top to bottom, as words
stand in lines. A level of many objects has several columns. Beside its parent an object stands as high as that, if there
is room. A field is drawn as a line where it leads to the next column, so that no line runs behind a box; else the boxes
tell it in words. Where there are few objects, lines that lead back are drawn too: with more than two dozen, lines that cross
can't be followed.
"""
from collections import defaultdict
from typing import NamedTuple

from .paths import Step
from .svg import WIDTH

MARGIN, BOX, GAP, APART = 12, 112, 38, 10
ROOTS = 96  # width of a root's box
HEIGHT, WORDS = 36, 13  # of a box, and of each line of words below its name and kind
TALL = 24  # boxes in a column, before a level gets another one
TOLD = 4  # lines of words in a box
FEW = 24  # objects: with so few, fields that lead back are drawn too
LINES = 3000  # fields: of more only those are drawn by which an object was found


class Edge(NamedTuple):
    """Fields of one object that refer to another one, and whether the path goes along one of them."""

    source: str
    target: str
    fields: tuple
    strong: bool
    marked: bool


class Box:
    """An object or a root: where it stands, and its words below name and kind."""

    def __init__(self, name, level):
        self.name, self.level, self.words = name, level, []
        self.strip = self.column = self.x = self.y = 0
        self.width = BOX

    @property
    def height(self):
        """How high it is, with its words."""
        return HEIGHT + WORDS * len(self.words)

    @property
    def middle(self):
        """Half of its height, from the top of the picture."""
        return self.y + self.height / 2


class Layout:
    """The boxes of the objects by name, the boxes of the roots, the lines that are drawn, and for each strip its levels."""

    def __init__(self):
        self.boxes, self.roots, self.edges, self.strips = {}, [], [], []
        self.bottom = 0


def fields_told(fields):
    """`0`, `0, 3`, `0 to 7`: numbers of fields."""
    if len(fields) > 2 and fields[-1] - fields[0] == len(fields) - 1:
        return f"{fields[0]} to {fields[-1]}"
    return ", ".join(map(str, fields[:3])) + (" .." if len(fields) > 3 else "")


def edges_of(heap, names, marked):
    """The fields among the objects that are shown; `marked` has the source and the target of each hop of the path."""
    shown, edges = set(names), []
    for name in names:
        node, fields = heap.node(name), defaultdict(list)
        for field, target in node.references():
            if target in shown:
                fields[target].append(field)
        for target, numbers in fields.items():
            edges.append(Edge(name, target, tuple(numbers), node.strong, (name, target) in marked))
    return edges


def strips_of(levels):
    """The levels in strips: for each the level, its names, and in how many columns they stand."""
    strips, room = [[]], (WIDTH - 2 * MARGIN - ROOTS) // (BOX + GAP)
    for level, names in levels:
        if len(strips) > 1 and not strips[-1]:
            room = (WIDTH - 2 * MARGIN + GAP) // (BOX + GAP)
        most = (WIDTH - 2 * MARGIN + GAP) // (BOX + GAP)
        columns = min(-(-len(names) // TALL), most if level else room)
        if columns > room:
            strips.append([])
            room = most
        strips[-1].append((level, names, columns))
        room -= columns
    return strips


class Placer:
    """Gives each box its place."""

    def __init__(self, heap, every, names, edges):
        self.heap, self.every, self.layout = heap, every, Layout()
        self.names, self.edges = names, edges
        by_level = defaultdict(list)
        for name in names:
            by_level[every[name].level].append(name)
            self.layout.boxes[name] = Box(name, every[name].level)
        self.layout.strips = strips_of(sorted(by_level.items()))

    def columns(self):
        """Says of each box in which strip and column it stands, and at which x."""
        for number, strip in enumerate(self.layout.strips):
            column = 0
            left = MARGIN + (ROOTS + GAP if number == 0 else 0)
            for _, names, columns in strip:
                tall = -(-len(names) // columns)
                for at, name in enumerate(names):
                    box = self.layout.boxes[name]
                    box.strip, box.column = number, column + at // tall
                    box.x = left + box.column * (BOX + GAP)
                column += columns

    def is_found_by(self, edge):
        """Whether the object was found by this field."""
        way = self.every[edge.target].way
        return isinstance(way, Step) and way.source == edge.source

    def is_drawn(self, edge):
        """Whether a field is drawn as a line."""
        source, target = self.layout.boxes[edge.source], self.layout.boxes[edge.target]
        if source.strip != target.strip:
            return False
        if len(self.names) <= FEW:
            return source is not target
        return target.column == source.column + 1 and target.level > source.level and (len(self.edges) <= LINES or self.is_found_by(edge))

    def words(self):
        """What isn't drawn is told: at the target where it was found by this field, else at the source."""
        told = defaultdict(list)
        for edge in self.edges:
            if self.is_drawn(edge):
                self.layout.edges.append(edge)
            elif self.is_found_by(edge):
                self.layout.boxes[edge.target].words.append(f"field {fields_told(edge.fields)} of {edge.source}")
            else:
                told[edge.source].append(f"{fields_told(edge.fields)} → {edge.target}")
        for name, box in self.layout.boxes.items():
            lines, room = told[name], TOLD - len(box.words)
            box.words += lines if len(lines) <= room else lines[: room - 1] + [f"and {len(lines) - room + 1:,} more"]
            cut = sum(target not in self.layout.boxes for _, target in self.heap.node(name).references())
            if cut:
                box.words.append(f"{cut:,} cut off")

    def heights(self, top, roots):
        """Gives each box its y, strip by strip, from `top` on; the boxes of the roots are those of the first strip."""
        for number, strip in enumerate(self.layout.strips):
            begin = top + 22
            bottom, beside = begin, {}
            if number == 0:
                at = begin
                for box in roots:
                    box.x, box.y, box.width = MARGIN, at, ROOTS
                    at += box.height + 6
                    for name in box.targets:
                        beside.setdefault(name, box)
                bottom = at
            for _, names, columns in strip:
                bottom = max(bottom, self.column(names, -(-len(names) // columns), begin, beside))
            top = bottom + 16
        self.layout.roots, self.layout.bottom = roots, top

    def column(self, names, tall, begin, beside):
        """Gives the boxes of a level their y; how far down they come."""
        bottom = begin
        for at, name in enumerate(names):
            if at % tall == 0:
                free = begin
            box, way = self.layout.boxes[name], self.every[name].way
            parent = beside.get(name)
            if isinstance(way, Step) and way.source in self.layout.boxes and tall == len(names):
                parent = self.layout.boxes[way.source]
                parent = parent if parent.strip == box.strip else None
            box.y = max(free, parent.y) if parent and tall == len(names) else free
            free = box.y + box.height + APART
            bottom = max(bottom, free)
        return bottom


def placed(heap, every, names, marked, roots, top):
    """The layout of these objects, beginning at `top`."""
    placer = Placer(heap, every, names, edges_of(heap, names, marked))
    placer.columns()
    placer.words()
    placer.heights(top, roots)
    return placer.layout
