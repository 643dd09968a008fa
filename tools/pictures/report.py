"""The report of a run (docs/FORMATS.md, "The report"), read line by line.

A report may be long: one line for each command of each mutator, and one for each name that is freed. Of these only their
numbers are kept, so that memory grows with rounds and cycles alone.
"""
import re
from array import array
from functools import lru_cache
from typing import NamedTuple

from .text import BELOW, MAKER, NUMBER, SURE_NAME, SURE_VALUE, VALUE, Lines, is_name, is_value, several

LONGEST = 200  # bytes; no line of a report has as many
REPLIES = "ok yes no updated already nopointer nofield wrongkind notowner fixed dead none stackfull stackempty".split()
REPLY = re.compile(f"({MAKER}) (?:({'|'.join(REPLIES)})|({VALUE}))")
STOP = re.compile("stop N (idle|marking|sweeping) free N filled N sweep N promoted N".replace("N", f"({NUMBER})"))
CYCLE = re.compile("cycle N from N closed N swept N had N freed N kept N dead N".replace("N", f"({NUMBER})"))
END = re.compile("end (?:done|heapfull free N reserve N)".replace("N", f"({NUMBER})"))
MORE_NAMES = {word: several(f"{word} {SURE_NAME}") for word in ("dead", "freed")}
LONG = re.compile("[0-9]{19}")  # a number of fewer digits is never too large
NAMES = 2  # so many of a cycle's freed names are kept


@lru_cache(maxsize=None)
def more_replies(mutator):
    """The form of any number of replies of a mutator."""
    return several(f"{mutator} (?:{SURE_VALUE}|{'|'.join(REPLIES)})")


class Stop(NamedTuple):
    """A line `stop N PHASE free F filled L sweep W promoted P`."""

    number: int
    phase: str
    free: int
    filled: int
    waiting: int
    promoted: int


class Cycle(NamedTuple):
    """A line `cycle C from S closed T swept G had H freed Q kept P dead D`, the stop at which it ended, and first freed names."""

    number: int
    start: int
    closed: int
    swept: int
    had: int
    freed: int
    kept: int
    dead: int
    end: int
    names: tuple

    @property
    def stops(self):
        """Over how many stops it goes, from that of its snapshot on: 0 for a full cycle."""
        return self.end - self.start

    @property
    def is_full(self):
        """Whether it is a full cycle, which is done at one stop."""
        return self.start == self.end


class Run:
    """What a report tells of the rounds from `first` on, which is 1 but for a part of a run.

    `stops` has the stop before the first of these rounds, and then the one after each; `commands[m]` has for each round the
    number of commands that mutator m did. `segments` is how many the heap has; `end` has the words of the last line, and
    `left_out` says which rounds these are, where they aren't all.
    """

    def __init__(self):
        self.stops, self.commands, self.cycles, self.end = [], [], [], ""
        self.segments, self.first, self.left_out = 0, 1, ""

    @property
    def rounds(self):
        """How many rounds there are."""
        return len(self.stops) - 1

    @property
    def last(self):
        """The number of the last round, or of the stop before the first where there is none."""
        return self.first + self.rounds - 1

    def stop(self, number):
        """The stop of this number; stop n comes after round n."""
        return self.stops[number - self.first + 1]

    def part(self, first, last):
        """The rounds from the first to the last one alone, with the stop before them and the cycles that touch them."""
        first, last = max(first, self.first), min(last, self.last)
        if first == self.first and last == self.last:
            return self
        part = Run()
        part.segments, part.first, part.end = self.segments, first, self.end
        part.stops = self.stops[first - self.first : last - self.first + 2]
        part.commands = [row[first - self.first : last - self.first + 1] for row in self.commands]
        part.cycles = [cycle for cycle in self.cycles if cycle.start <= last and cycle.end >= first - 1]
        part.left_out = f"rounds {first:,} to {last:,} of {self.rounds:,}"
        return part


class _Reader:
    """Reads a report; each method takes the lines of its part, and leaves `line` at the one after them."""

    def __init__(self, stream):
        self.lines, self.run = Lines(stream, LONGEST), Run()
        self.next()

    def next(self):
        """Goes to the next line, which is None at the end."""
        self.line = self.lines.next()

    def bad(self, why):
        """The line is bad."""
        return self.lines.bad("the report ends too early" if self.line is None else why)

    def numbers(self, form, why):
        """The words that the form has in the line, numbers as such."""
        found = form.fullmatch(self.line or "")
        if found is None:
            raise self.bad(why)
        words = [int(word) if word and word.isdigit() else word for word in found.groups()]
        if LONG.search(self.line) and any(isinstance(word, int) and word >= BELOW for word in words):
            raise self.bad("a number is too large")
        return words

    def head(self):
        """The first line."""
        if self.line != "report 1":
            raise self.bad("this is no report of `nmgc run`")
        self.next()

    def round(self, number):
        """A round with its replies, which are counted."""
        if self.line != f"round {number}":
            raise self.bad(f"`round {number}` was to come")
        self.next()
        for row in self.run.commands:
            row.append(0)
        commands, mutator = self.run.commands, 0
        while self.line is not None and self.line[:1].isdigit():
            found = REPLY.fullmatch(self.line)
            if found is None or (found.group(3) and not is_value(found.group(3))):
                raise self.bad("this is no reply of a mutator")
            if int(found.group(1)) < mutator:
                raise self.bad("replies stand by mutators, from 0 on")
            mutator = int(found.group(1))
            while len(commands) <= mutator:
                commands.append(array("Q", bytes(8 * number)))
            commands[mutator][-1] += 1 + self.lines.skip(more_replies(mutator), BELOW)
            self.next()

    def stop(self, number):
        """A stop, with the cycles that end at it."""
        stop = Stop(*self.numbers(STOP, f"`stop {number} ..` was to come"))
        if stop.number != number:
            raise self.bad(f"`stop {number} ..` was to come")
        self.run.stops.append(stop)
        if number == 0:
            self.run.segments = stop.free
        if stop.free + stop.filled + stop.waiting > self.run.segments:
            raise self.bad(f"there are {self.run.segments} segments in all")
        self.next()
        while self.line is not None and self.line.startswith("cycle "):
            self.cycle(number)

    def cycle(self, stop):
        """A cycle that ends at this stop, with what died and was freed."""
        told = self.numbers(CYCLE, "a cycle's line isn't spelled so")
        number, start, closed, _, had, freed, _, dead = told
        if number != len(self.run.cycles) + 1 or not start <= closed <= stop or freed > had:
            raise self.bad("no such cycle can end there")
        self.next()
        self.names("dead", dead)
        self.run.cycles.append(Cycle(*told, stop, tuple(self.names("freed", freed))))

    def names(self, word, number):
        """So many lines of the word and a name; the first names."""
        first, at = [], 0
        while at < number:
            line = self.line or ""
            if not line.startswith(word + " ") or not is_name(line[len(word) + 1 :]):
                raise self.bad(f"`{word}` and a name was to come")
            at += 1
            if at <= NAMES:
                first.append(line[len(word) + 1 :])
            if at >= NAMES:
                at += self.lines.skip(MORE_NAMES[word], number - at)
            self.next()
        return first

    def end(self):
        """The last line."""
        self.numbers(END, "`round ..`, `end done` or `end heapfull ..` was to come")
        self.run.end = self.line[4:]
        self.next()
        if self.line is not None:
            raise self.bad("nothing comes after the end")


def read_report(stream):
    """The run of a report, from a stream of bytes. `BadInput` tells the first line that breaks its format."""
    reader = _Reader(stream)
    reader.head()
    reader.stop(0)
    number = 0
    while reader.line is not None and reader.line.startswith("round "):
        number += 1
        reader.round(number)
        reader.stop(number)
    reader.end()
    return reader.run
