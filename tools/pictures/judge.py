"""A trace of format 1 or 2, up to its end or to the first line that can't happen."""
from .core import Core
from .text import MOST_BYTES, BadInput
from .trace import HEAD, Refusal, Refused, Watch

WITHOUT_REGISTERS = "trace 3"


def lines_of(stream):
    """The lines of a text, from a stream of bytes."""
    data = stream.read(MOST_BYTES + 1)
    if len(data) > MOST_BYTES:
        raise BadInput("too long")
    lines = data.decode("utf-8", "replace").split("\n")
    return [line[:-1] if line.endswith("\r") else line for line in (lines[:-1] if lines[-1] == "" else lines)]


def watched(stream):
    """Watches a trace up to its end, or to the line that can't happen, which `refusal` of the watch then tells. `BadInput` tells
    a line that is none of a trace, or that can't stand where it stands, and refuses a trace of format 3."""
    lines = lines_of(stream)
    if lines[:1] == [WITHOUT_REGISTERS]:
        raise BadInput("a trace without registers has no picture")
    watch = Watch() if lines[:1] == [HEAD] else Core()
    for number, text in enumerate(lines, 1):
        try:
            watch.event(number, text)
        except Refused as why:
            if why.sort in ("words", "place"):
                raise BadInput(f"line {number} {why.told}") from None
            watch.refusal = Refusal(number, text, f"line {number} {why.told}", why.sort, why.name, why.debt, why.answer, why.reason)
            break
    return watch
