"""What tools/picture.py and tools/page do with their words.

A fault gets one line on standard error, after the usage if the words are wrong, and then nothing is written to standard
output. The exit status is that of the programs themselves (docs/FORMATS.md): 2 for wrong words, 3 and 4 if reading or
writing failed, 5 for a bad report or trace, 7 if there was no memory, 9 for a bad image; and 1 if there is nothing to draw.
If the reader of the output went away, the status is 4, and if the tool was interrupted, 130: then there is no line.
"""
import argparse
import contextlib
import os
import sys

from . import columns, dot, heap, judge, page, rounds, worlds
from .image import read_image
from .notice import Notice, say
from .report import read_report
from .text import BadInput, is_name

USAGE, NOTHING, READ, WRITE, BAD_REPORT, NO_MEMORY, BAD_IMAGE = 2, 1, 3, 4, 5, 7, 9
REPORT, IMAGE, TRACE = "a report of `nmgc run`", "an image of `nmgc image`", "a trace"


class Fault(Exception):
    """What is told in one line, the exit status, and the usage that is told before."""

    def __init__(self, status, words, usage=""):
        super().__init__(words)
        self.status, self.usage = status, usage


class Words(argparse.ArgumentParser):
    """Words of the command line, of which a fault is told in one line."""

    def error(self, message):
        """Words that are wrong."""
        raise Fault(USAGE, message, self.format_usage())


def whole(word):
    """A number of rounds or hops."""
    if not word.isdigit() or not word.isascii() or len(word) > 9:
        raise argparse.ArgumentTypeError("no number")
    return int(word)


def span(word):
    """`A-B`, rounds from the first to the last one."""
    first, minus, last = word.partition("-")
    if not minus or not 1 <= whole(first) <= whole(last):
        raise argparse.ArgumentTypeError("rounds are told as A-B")
    return int(first), int(last)


def run_picture(run, title, name="run"):
    """The picture of a run, or of a part of one: every round alone where there are few, else in columns."""
    return (rounds if run.rounds <= rounds.MOST else columns).drawn(run, title, name)


def read(given, what, stream):
    """What the reader of such texts makes of a stream."""
    reader, status = {REPORT: (read_report, BAD_REPORT), IMAGE: (read_image, BAD_IMAGE), TRACE: (judge.watched, BAD_REPORT)}[what]
    given.notice.reads(stream, what)
    try:
        found = reader(stream)
    except BadInput as bad:
        raise Fault(status, str(bad)) from None
    except OSError as fault:
        raise Fault(READ, f"read fault: {fault.strerror}") from None
    given.notice.draws()
    return found


def of_run(given, stream):
    """The picture of a run, or of some of its rounds."""
    run = read(given, REPORT, stream)
    first, last = given.rounds or (1, given.first or max(run.rounds, 1))
    if first > max(run.rounds, 1):
        raise Fault(USAGE, f"the run has {run.rounds:,} rounds")
    return run_picture(run.part(first, last), given.title or "A run, as its report tells it")


def _view(given, stream):
    """What is to be shown of a heap."""
    found = read(given, IMAGE, stream)
    if given.name is not None and given.name not in found.lines:
        told = f"the image has no object {given.name}" if is_name(given.name) else "the name of an object is maker.serial, or g"
        raise Fault(USAGE, told)
    return heap.View(found, given.name, given.hops)


def of_heap(given, stream):
    """The picture of a heap."""
    view = _view(given, stream)
    return heap.drawn(view, given.title or (f"What keeps {given.name}" if given.name else "A heap, as its image tells it"))


def of_dot(given, stream):
    """A heap for Graphviz."""
    return dot.written(_view(given, stream), given.title or "A heap, as its image tells it")


def of_trace(given, stream):
    """The picture of a trace's refused line."""
    watch = read(given, TRACE, stream)
    if watch.refusal is None:
        raise Fault(NOTHING, f"{watch.told()}: there is no refused line to draw")
    return worlds.drawn(watch, given.title or "The first line of a trace that can't happen")


def of_page(given, stdin):
    """The page of a run, and of a heap."""
    with opened(given.report, stdin) as stream:
        run = read(given, REPORT, stream)
    view = None
    if given.image:
        given.name, given.hops = given.path, None
        with opened(given.image, stdin) as stream:
            view = _view(given, stream)
    return page.written(run, view, given.title or os.path.basename(given.report), run_picture)


def opened(name, stdin):
    """The file of this name, or standard input for `-`."""
    if name == "-":
        return contextlib.nullcontext(stdin)
    try:
        return open(name, "rb")
    except OSError as fault:
        raise Fault(READ, f"read fault: {fault.strerror}") from None


def picture_words(tool):
    """The words of tools/picture.py."""
    about = "Draws a report of `nmgc run`, an image of `nmgc image`, or a trace that `nmgc_trace` refuses."
    words = Words(prog=tool, description=about)
    sorts = words.add_subparsers(dest="sort", metavar="run|heap|dot|trace", required=True)
    run = sorts.add_parser("run", help="a report on standard input: an SVG picture of the run")
    run.add_argument("--rounds", type=span, metavar="A-B", help="these rounds alone")
    run.add_argument("--first", type=whole, metavar="N", help="the first N rounds alone")
    for sort, what in (("heap", "an SVG picture"), ("dot", "a graph for Graphviz")):
        shown = sorts.add_parser(sort, help=f"an image on standard input: {what} of the heap")
        shown.add_argument("name", nargs="?", metavar="NAME", help="marks a shortest path to this object")
        shown.add_argument("--hops", type=whole, metavar="N", help="what lies within N hops of the roots, or of NAME")
        shown.add_argument("--title")
        shown.set_defaults(draw=of_heap if sort == "heap" else of_dot)
    refused = sorts.add_parser("trace", help="a trace on standard input: an SVG picture of the line that can't happen")
    for one, draw in ((run, of_run), (refused, of_trace)):
        one.add_argument("--title")
        one.set_defaults(draw=draw)
    return words


def page_words(tool):
    """The words of tools/page."""
    words = Words(prog=tool, description="Writes one HTML file about a run, with pictures and tables.")
    words.add_argument("report", metavar="REPORT", help="the report of a run; - is standard input")
    words.add_argument("image", metavar="IMAGE", nargs="?", help="the image of the heap that the run left")
    words.add_argument("--path", metavar="NAME", help="marks a shortest path to this object of the image")
    words.add_argument("--title")
    words.set_defaults(draw=of_page)
    return words


def written(tool, words, arguments):
    """Does what the words ask for, and writes what came out."""
    given = words.parse_args(arguments)
    if sys.stdin is None or sys.stdout is None:
        raise Fault(READ if sys.stdin is None else WRITE, "a standard stream is closed")
    with Notice(tool) as given.notice:
        text = given.draw(given, sys.stdin.buffer)
    sys.stdout.buffer.write(text.encode("utf-8", "replace"))
    sys.stdout.buffer.flush()


def told(tool, words, arguments):
    """Does what the words ask for, and tells a fault; the exit status."""
    try:
        written(tool, words, arguments)
        return 0
    except Fault as fault:
        for line in fault.usage.splitlines():
            say(line)
        status, said = fault.status, str(fault)
    except MemoryError:
        status, said = NO_MEMORY, "no memory"
    except OSError as fault:
        os.dup2(os.open(os.devnull, os.O_WRONLY), 1)
        status, said = WRITE, "" if isinstance(fault, BrokenPipeError) else f"write fault: {fault.strerror}"
    if said:
        say(f"{tool}: {said}")
    return status


def picture(arguments):
    """tools/picture.py; without a word it draws a run."""
    sorts = ("run", "heap", "dot", "trace", "-h", "--help")
    return told("picture.py", picture_words("picture.py"), arguments if arguments and arguments[0] in sorts else ["run"] + arguments)


def page_of(arguments):
    """tools/page."""
    return told("page", page_words("page"), arguments)
