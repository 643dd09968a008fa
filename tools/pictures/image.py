"""The image of a heap (docs/FORMATS.md, "Images").

The line that is told of a text that is no image is the one that `nmgc retain` tells. A heap may have a million objects, so
of each the line's words are kept as they are, and taken apart when they are asked for.
"""
import re
from typing import NamedTuple

from .text import BELOW, MAKER, MOST_BYTES, NAME, NUMBER, SERIALS, VALUE, BadInput, is_number, is_reference, order

MUTATORS, REGISTERS, FIELDS, FREE, TAGS, SLOTS = 32, 64, 4094, 8, 256, 16
LONG = re.compile("[0-9]{10}")
VALUES = f"((?: {VALUE})*)"
NODE = re.compile(
    f"node ({NAME}) (?:(con) ({NUMBER}){VALUES}|(var) ({VALUE})|(arr){VALUES}|(thunk) free{VALUES}|(thunk) (result) ({VALUE})"
    f"|(weak) ({VALUE} {VALUE} {VALUE})|(weak) (dead)|(stack) ({NUMBER}){VALUES})"
)
KINDS = ("con", "var", "arr", "thunk", "weak", "stack")


class Node(NamedTuple):
    """An object: its kind, what else is told of it, the number of its first field, its values, and whether they are strong."""

    kind: str
    note: str
    first: int
    values: tuple
    strong: bool

    def references(self):
        """For each field that refers to an object its number and the object's name."""
        return [(self.first + at, word) for at, word in enumerate(self.values) if is_reference(word)]


class Mutator(NamedTuple):
    """What a mutator has in hand: its next serial, its registers as pairs of number and value, its queue of finalisers."""

    serial: int
    registers: list
    queue: list


def node_of(words):
    """The object of a node line's words after its name."""
    kind, _, rest = words.partition(" ")
    values = tuple(rest.split(" ")) if rest else ()
    if kind == "con":
        return Node(kind, f"con {values[0]}", 0, values[1:], True)
    if kind == "thunk":
        first = int(values[0] == "free")
        return Node(kind, "thunk, waits" if first else "thunk, done", first, values[1:], True)
    if kind == "weak":
        return Node(kind, "weak", 0, values, False) if len(values) == 3 else Node(kind, "weak, dead", 0, (), False)
    if kind == "stack":
        return Node(kind, f"stack, {len(values) - 1} of {values[0]}", 0, values[1:], True)
    return Node(kind, "var" if kind == "var" else f"arr of {len(values)}", 0, values, True)


class Heap:
    """What an image tells. `lines` has for each name, in order, the words of its node line after the name."""

    def __init__(self):
        self.mutators, self.lines = [], {}

    def node(self, name):
        """An object, taken apart."""
        return node_of(self.lines[name])

    def kind(self, name):
        """The kind of an object."""
        return self.lines[name].partition(" ")[0]

    def weaks(self):
        """The weak pointers that are alive, in order of their names."""
        return [name for name, words in self.lines.items() if words.startswith("weak ") and words != "weak dead"]

    def strong(self, name):
        """The strong fields of an object that refer to one: number and name."""
        node = self.node(name)
        return node.references() if node.strong else []


def is_writable(line):
    """Whether a node line says what an object can be, whatever stands round it; then its name, else None."""
    found = NODE.fullmatch(line)
    if found is None:
        return None
    name, words = found.group(1), line.split(" ")[2:]
    kind, values = words[0], words[1:]
    if LONG.search(line) and not all(_is_small(word) for word in [name] + words):
        return None
    small = {
        "con": lambda: int(values[0]) < TAGS and len(values) - 1 <= FIELDS,
        "arr": lambda: len(values) <= FIELDS,
        "thunk": lambda: len(values) - 1 <= FREE,
        "stack": lambda: len(values) - 1 <= int(values[0]) <= FIELDS,
    }.get(kind, lambda: True)
    return name if small() else None


def _is_small(word):
    """Whether a word that is spelled as one of an image is within its limits."""
    if "." in word:
        return int(word.partition(".")[2]) < SERIALS
    return not word.isdigit() or int(word) < BELOW


class _Reader:
    """Reads an image line by line; `number` is that of the line."""

    def __init__(self, data):
        lines = data.decode("latin-1").split("\n")
        self.rest, self.number, self.heap = lines[-1], 0, Heap()
        self.lines = lines[:-1]
        self.declared = {it for it in (is_writable(line) for line in self.lines if line.startswith("node ")) if it}
        self.next()

    def next(self):
        """Goes to the next line; behind the last one stands an empty one."""
        self.number += 1
        self.line = self.lines[self.number - 1] if self.number <= len(self.lines) else ""

    def bad(self):
        """The line is bad."""
        return BadInput(f"bad image line {self.number}")

    def words(self, form):
        """The words that the form has in the line, or None."""
        found = re.fullmatch(form, self.line)
        return found.groups() if found else None

    def value(self, word):
        """A value, whose name has a node line somewhere."""
        if not _is_small(word) or (is_reference(word) and word not in self.declared):
            raise self.bad()
        return word

    def head(self):
        """The first line; how many mutators there are."""
        words = self.words(f"image 1 ({NUMBER})")
        if not words or not 1 <= int(words[0]) <= MUTATORS:
            raise self.bad()
        self.next()
        return int(words[0])

    def mutator(self, number):
        """The lines of a mutator."""
        words = self.words(f"mutator {number} serial ({NUMBER})")
        if not words or not is_number(words[0], SERIALS):
            raise self.bad()
        own, last = Mutator(int(words[0]), [], []), -1
        self.next()
        while self.line.startswith("register "):
            words = self.words(f"register ({NUMBER}) ({VALUE})")
            if not words or words[1] == "nil" or not last < int(words[0]) < REGISTERS:
                raise self.bad()
            last = int(words[0])
            own.registers.append((last, self.value(words[1])))
            self.next()
        while self.line.startswith("queue "):
            words = self.words(f"queue ({VALUE})")
            if not words:
                raise self.bad()
            own.queue.append(self.value(words[0]))
            self.next()
        self.heap.mutators.append(own)

    def node(self, last):
        """An object after the one of this name; the object's name."""
        name = is_writable(self.line)
        if not name or (last and order(name) <= order(last)):
            raise self.bad()
        words = self.line.split(" ", 2)[2]
        if name == "g":
            if not words.startswith("arr") or words.count(" ") != SLOTS:
                raise self.bad()
        else:
            maker, serial = order(name)
            if maker >= len(self.heap.mutators) or serial >= self.heap.mutators[maker].serial:
                raise self.bad()
        if not all(word in self.declared for word in words.split(" ") if is_reference(word)):
            raise self.bad()
        self.heap.lines[name] = words
        return name


def read_image(stream):
    """The heap of an image, from a stream of bytes. `BadInput` tells its first bad line."""
    data = stream.read(MOST_BYTES + 1)
    if len(data) > MOST_BYTES:
        raise BadInput("too long")
    reader = _Reader(data)
    for number in range(reader.head()):
        reader.mutator(number)
    last = None
    while reader.line.startswith("node "):
        last = reader.node(last)
        reader.next()
    if reader.line != "end" or reader.number > len(reader.lines) or "g" not in reader.declared:
        raise reader.bad()
    reader.next()
    if reader.number <= len(reader.lines) or reader.rest:
        raise reader.bad()
    return reader.heap
