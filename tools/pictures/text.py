"""What the formats share: lines, numbers, names and values; and the fault of a text that breaks its format."""
import re

NUMBER = "(?:0|[1-9][0-9]{0,18})"
MAKER = "(?:[12]?[0-9]|3[01])"
NAME = rf"(?:{MAKER}\.(?:0|[1-9][0-9]{{0,9}})|g)"
VALUE = rf"(?:nil|{NUMBER}|{NAME})"
BELOW = 1 << 62  # every number of a text is below this one
SERIALS = 1 << 32
SURE_NAME = rf"(?:{MAKER}\.(?:0|[1-9][0-9]{{0,8}})|g)"  # its serial has too few digits to be too large
SURE_VALUE = rf"(?:{SURE_NAME}|nil|0|[1-9][0-9]{{0,17}})"  # and so have its numbers
SURE = 10  # characters: a word of so many has no number that is too large
BLOCK = 1 << 16  # bytes of a text that are read at once
MOST_BYTES = 1 << 28  # of an image or a trace
WORD, NAMED = re.compile(VALUE), re.compile(NAME)


def several(line):
    """The form of as many lines as there are of this form."""
    return re.compile(f"(?:{line}\n)*".encode("ascii"))


class BadInput(Exception):
    """A text that breaks the rules of its format, told in one line. Nothing of the text itself is in its words."""


class Lines:
    """The lines of a stream of bytes, one after the other, without their line feeds; `number` is that of the last one."""

    def __init__(self, stream, longest):
        self.stream, self.longest, self.number = stream, longest, 0
        self.block, self.at = b"", 0  # what was read, and where in it the next line begins

    def next(self):
        """The next line, or None at the end. A line that is too long, or has no line feed at its end, is bad."""
        end = self.block.find(b"\n", self.at)
        if end < 0:
            self.block, self.at = self.block[self.at :] + self.stream.read(BLOCK), 0
            end = self.block.find(b"\n")
        line = self.block[self.at : end if end >= 0 else len(self.block)]
        self.number += 1
        if end < 0 and not line:
            return None
        if end < 0 or len(line) > self.longest:
            raise self.bad("it is too long" if len(line) > self.longest else "it has no line feed at its end")
        self.at = end + 1
        try:
            return line.decode("ascii")
        except UnicodeDecodeError:
            raise self.bad("it isn't ASCII") from None

    def skip(self, form, most):
        """Passes over as many of the next lines as a form of `several` takes, and over `most` at most; how many. Most lines
        of a long text are alike, and one match of many is faster than many of one."""
        end = form.match(self.block, self.at).end()
        lines = self.block.count(b"\n", self.at, end)
        if lines > most:
            end -= len(self.block[self.at : end].split(b"\n", most)[most])
            lines = most
        self.at, self.number = end, self.number + lines
        return lines

    def bad(self, why):
        """The last line is bad."""
        return BadInput(f"bad line {self.number}: {why}")


def is_number(word, below=BELOW):
    """Whether the word spells a number that is small enough."""
    return re.fullmatch(NUMBER, word) is not None and int(word) < below


def is_name(word):
    """Whether the word spells a name: `maker.serial`, or g."""
    if NAMED.fullmatch(word) is None:
        return False
    return len(word) <= SURE or int(word.partition(".")[2]) < SERIALS


def is_reference(word):
    """Whether a value's word refers to an object."""
    return word == "g" or "." in word


def is_value(word):
    """Whether the word spells nil, a number or a name."""
    if WORD.fullmatch(word) is None:
        return False
    return len(word) <= SURE or (is_name(word) if is_reference(word) else int(word) < BELOW)


def order(name):
    """The place of a name in the order of names: by maker, then by serial; g is last."""
    if name == "g":
        return (32, 0)
    maker, _, serial = name.partition(".")
    return (int(maker), int(serial))


def count(number, thing, things=None):
    """`1 stop`, `2,000 stops`."""
    return f"{number:,} {thing if number == 1 else things or thing + 's'}"
