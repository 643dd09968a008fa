"""The pictures that the documents show: what each is made of, and how it is made again (tools/doc_pictures).

Tests compare those that are stored with what is made now, so that no picture is older than its script. The two of the bench
want the program, for no report of it is stored; the tests have its reports from their own rules.
"""
import os
import shutil
import subprocess

from . import heap, judge, worlds
from .commands import BAD_REPORT, USAGE, Fault, Words, run_picture, told
from .image import read_image
from .report import read_report
from .text import BadInput

TOP = os.path.dirname(os.path.dirname(os.path.dirname(os.path.abspath(__file__))))
STORED = {
    "docs/cycle.svg": ("examples/cycle.report", "examples/cycle.nmgc: five rounds and two cycles"),
    "docs/kept.svg": ("examples/kept.image", "examples/kept.image: what keeps 0.0"),
    "docs/insertion_barrier.svg": (
        "examples/traces/insertion_barrier.trace",
        "examples/traces/insertion_barrier.trace: a barrier that looks at the new value",
    ),
}
KEPT = "0.0"  # of which docs/kept.svg shows the path
BENCHES = {
    "docs/bench.svg": ("8", "The script of nmgc bench 8: four mutators, each of which makes eight lists"),
    "docs/bench100.svg": ("100", "The script of nmgc bench 100: four mutators, each of which makes a hundred lists"),
}


def of_stored(name):
    """A picture of a stored file."""
    source, title = STORED[name]
    with open(os.path.join(TOP, source), "rb") as stream:
        if source.endswith(".report"):
            return run_picture(read_report(stream), title)
        if source.endswith(".image"):
            return heap.drawn(heap.View(read_image(stream), KEPT), title)
        return worlds.drawn(judge.watched(stream), title)


def of_bench(name, program):
    """A picture of the bench, whose script the program runs."""
    batches, title = BENCHES[name]
    with subprocess.Popen([os.path.join(TOP, "tools", "bench_script"), batches], stdout=subprocess.PIPE) as script:
        with subprocess.Popen([program, "run"], stdin=script.stdout, stdout=subprocess.PIPE) as run:
            script.stdout.close()
            try:
                return run_picture(read_report(run.stdout), title)
            except BadInput as bad:
                raise Fault(BAD_REPORT, f"the report of {program}: {bad}") from None


def every_picture(given, _):
    """Makes all pictures, and stores them once all are there; their names, a line for each."""
    if shutil.which(given.program) is None:
        raise Fault(USAGE, f"no program {given.program}")
    drawn = {name: of_stored(name) for name in STORED}
    for name in BENCHES:
        given.notice.doing = f"running the bench for {name}"
        drawn[name] = of_bench(name, given.program)
    for name, text in drawn.items():
        with open(os.path.join(TOP, name), "w", encoding="utf-8") as file:
            file.write(text)
    return "".join(f"{name}\n" for name in drawn)


def make_again(arguments):
    """tools/doc_pictures."""
    words = Words(prog="doc_pictures", description="Makes the pictures of README.md and docs/ again, and writes their names.")
    words.add_argument("program", metavar="PROGRAM", nargs="?", default=os.path.join(TOP, "nmgc"), help="runs the bench; ./nmgc if none is named")
    words.set_defaults(draw=every_picture)
    return told("doc_pictures", words, arguments)
