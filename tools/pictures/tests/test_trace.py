"""Traces are told as `nmgc_trace` tells them, and of a refused line both worlds are drawn."""
import os
import unittest

from ..judge import watched
from ..text import BadInput
from ..worlds import broken_lead, drawn, lead
from .support import HOSTILE, content, elements, ids_are_right, path, rows, stream, texts, too_wide

HEAD = "trace 2\nmutators 1\n"
CELL = HEAD + "0 num r1 5 = ok\n0 con r2 0 r1 = 0.0\n0 var r0 r2 = 0.1\n0 nil r2 = ok\n"
FIRST = CELL[len("trace 2\n") :]
# A weak pointer that is held, 0.2; neither its key 0.0 nor its value 0.1 is.
WEAK = HEAD + "0 con r2 0 = 0.0\n0 con r3 0 = 0.1\n0 weak r0 r2 r3 r1 = 0.2\n0 nil r2 = ok\n0 nil r3 = ok\n"
# Two that are held: the value of the second, 0.3, is the key of the first, 0.2.
CHAIN = HEAD + "0 con r2 0 = 0.0\n0 con r3 0 = 0.1\n0 weak r0 r2 r9 r9 = 0.2\n0 weak r1 r3 r2 r9 = 0.3\n0 nil r2 = ok\n0 nil r3 = ok\n"
# A trace, and what is told of it.
TOLD = [
    (HEAD, "nothing is marked"),
    (HEAD + "mark\n", "a cycle goes on"),
    (HEAD + "mark\nclose\n", "each line can happen, but there is no stop"),
    (HEAD + "mark\nclose\nstop\n", "each line can happen: 1 cycle, 0 commands, 0 pushes; nothing came due, so no barrier was tried"),
    (HEAD + "trace 2\n", "line 3 is none of a trace"),
    (HEAD + "stop\n", "line 3 can't stand there"),
    (HEAD + "mutators 1\n", "line 3 can't stand there"),
    ("trace 2\nmutators 33\n", "line 2 can't stand there"),
    ("trace 2\nmark\n", "line 2 can't stand there"),
    (HEAD + "0 num r64 5 = ok\n", "line 3 is none of a trace"),
    (HEAD + "0 num r1 4611686018427387904 = ok\n", "line 3 is none of a trace"),
    (HEAD + "1 copy r0 0 r0 0 0 via r1 = ok\n", "line 3 can't happen: there is no such mutator or register"),
    (HEAD + "1 fill r0 0 0 r1 = ok\n", "line 3 can't happen: there is no such mutator or register"),
    (HEAD + "0 copy r64 0 r0 0 1 via r1 = ok\n", "line 3 is none of a trace"),
    (HEAD + "0 copy r0 0 r0 0 1 via r64 = ok\n", "line 3 is none of a trace"),
    (HEAD + "0 fill r0 0 0 r64 = ok\n", "line 3 is none of a trace"),
    (HEAD + "1 swap r0 g 0 nil = nil\n", "line 3 can't happen: there is no such mutator or register"),
    (HEAD + "0 swap nil g 0 r0 = nil\n", "line 3 is none of a trace"),
    (HEAD + "0 swap r64 g 0 r0 = nil\n", "line 3 is none of a trace"),
    (HEAD + "0 swap r0 g 65536 r0 = nil\n", "line 3 is none of a trace"),
    (HEAD + "0 swap r0 g 0 r64 = nil\n", "line 3 is none of a trace"),
    (HEAD + "0 copy g 0 g 0 nil = ok\n", "line 3 is none of a trace"),
    (HEAD + "0 copy g 0 g 0 1 = nil\n", "line 3 is none of a trace"),
    (HEAD + "0 fill g 0 1 nil = nil\n", "line 3 is none of a trace"),
    (HEAD + "0 fill g 0 1 0.0 = ok\n", "line 3 is none of a trace"),
    (HEAD + "1 set g 0 5 = ok\n", "line 3 can't happen: there is no such mutator or register"),
    (HEAD + "0 set g 5 nil = nofield\n", "line 3 can't happen: the heap answers ok"),
    (HEAD + "0 set g nil 5 = ok\n", "line 3 is none of a trace"),
    (HEAD + "0 mov nil r1 = ok\n", "line 3 is none of a trace"),
    (HEAD + "0 con r0 nil 5 = 0.0\n", "line 3 is none of a trace"),
    (HEAD + "0 arr r0 nil 5 = 0.0\n", "line 3 is none of a trace"),
    (HEAD + "0 get r0 g nil = nil\n", "line 3 is none of a trace"),
    (HEAD + "0 show 0.0 = 0.0\n", "line 3 is none of a trace"),
    (HEAD + "0 stack r1 nil = 0.0\n", "line 3 is none of a trace"),
    (HEAD + "1 nil r0 = ok\n", "line 3 can't happen: there is no such mutator or register"),
    (HEAD + "0 nil r0 = nil\n", "line 3 can't happen: the heap answers ok"),
    (HEAD + "0 con r0 256 = 0.0\n", "line 3 is none of a trace"),
    (HEAD + "0 thread 1 = ok\n", "line 3 is none of a trace"),
    (HEAD + "mark g\nclose\n", "line 4 can't happen: mutator 0 wasn't scanned"),
    (HEAD + "0 con r0 0 = 0.0\nmark g\n0 set g 0 r0 = ok\nscan 0\nclose\n",
     "line 7 can't happen: 0.0 is due since line 5 (0 set g 0 r0 = ok), and nobody remembered it"),
    (HEAD + "mark\npush 0 0.5\n", "line 4 can't happen: the heap has no 0.5"),
    (HEAD + "mark\nsettle 1\n", "line 4 can't happen: there is no such mutator or register"),
    (HEAD + "mark\ntake g\n", "line 4 can't happen: g wasn't pushed, or was made since the cycle began"),
    (
        HEAD + "mark\npush - g\ntake g\nclose\nstop",
        "each line can happen: 1 cycle, 0 commands, 1 push; nothing came due, so no barrier was tried",
    ),
    (CELL + "mark\npush - 0.0\npush - 0.1\ntake 0.1\nclose\n", "line 11 can't happen: nobody took 0.0"),
    (CELL + "mark\n0 con r2 0 r1 = 0.2\nclose -\nfreed 0.2\n", "line 10 can't happen: 0.2 was made since the cycle began"),
    (CELL + "mark\n0 fill r0 0 2 r1 = ok\n", "line 8 can't happen: the heap answers nofield"),
    (CELL + "mark\n0 copy g 0 r0 0 1 via r9 = ok\n0 fill r0 0 1 g = ok\nsettle 0\n",
     "line 10 can't happen: 0.0 is due since line 9 (0 fill r0 0 1 g = ok), and nobody remembered it"),
    (CELL + "mark\nclose\nmarked 0.1 g\n", "line 9 can't happen: 0.0 has to be marked"),
    (CELL + "mark\nclose\nfreed 0.0\n", "line 9 can't happen: 0.0 is needed"),
    (CELL + "0 set r0 0 r1 = ok\nmark\nclose\nmarked 0.0 0.1 g\n", "line 10 can't happen: 0.0 isn't kept, or was made since the cycle began"),
    (
        CELL + "mark\n0 cas r0 0 r1 r1 = no\n0 set r0 0 r1 = ok\npush 0 0.0\nsettle 0\nclose\nmarked 0.0 0.1 g\nstop\n",
        "each line can happen: 1 cycle, 6 commands, 1 push; something came due once",
    ),
    (
        HEAD + "0 thunk r0 g g = 0.0\n0 var r1 r0 = 0.1\n0 thunk r2 r1 = 0.2\nmark\n0 update r2 r2 = updated\nclose\n",
        "line 8 can't happen: 0.1 is due since line 7 (0 update r2 r2 = updated), and nobody remembered it",
    ),
    (
        HEAD + "0 con r1 0 = 0.0\n0 stack r0 1 = 0.1\n0 push r0 r1 = ok\nmark\n0 pop r2 r0 = 0.0\nclose\n",
        "line 8 can't happen: 0.0 is due since line 7 (0 pop r2 r0 = 0.0), and nobody remembered it",
    ),
    (
        HEAD + "0 con r1 0 = 0.0\n0 weak r0 r1 r1 r1 = 0.1\nmark\n0 finalise r2 r0 = 0.0\nclose\n",
        "line 7 can't happen: 0.0 is due since line 6 (0 finalise r2 r0 = 0.0), and nobody remembered it",
    ),
    (
        HEAD + "0 con r1 0 = 0.0\n0 weak r0 r1 r1 r1 = 0.1\n0 nil r1 = ok\nmark\nclose 0.1\n0 nextfin r2 = 0.0\n0 deref r3 r0 = dead\nstop\n",
        "each line can happen: 1 cycle, 5 commands, 0 pushes; nothing came due, so no barrier was tried",
    ),
    (HEAD + "0 con r1 0 = 0.0\n0 weak r0 r1 r1 r1 = 0.1\nmark\nclose 0.1\n", "line 6 can't happen: 0.1 isn't dead"),
    (WEAK + "mark\nclose -\nfreed 0.1\n", "line 10 can't happen: 0.1 is needed"),
    (WEAK + "mark\nclose -\nfreed 0.0\n", "line 10 can't happen: 0.0 is needed"),
    (
        WEAK + "mark\npush - 0.1\nclose\nfreed 0.0 0.1\nstop\n",
        "each line can happen: 1 cycle, 5 commands, 1 push; nothing came due, so no barrier was tried",
    ),
    (CHAIN + "mark\nclose 0.2\n", "line 10 can't happen: 0.2 isn't dead"),
    (CHAIN + "mark\nclose 0.3\nstop\n", "each line can happen: 1 cycle, 6 commands, 0 pushes; nothing came due, so no barrier was tried"),
    (CHAIN + "mark\nclose 0.2 0.3\nfreed 0.0 0.1\nstop\n",
     "each line can happen: 1 cycle, 6 commands, 0 pushes; nothing came due, so no barrier was tried"),
]
TOLD += [
    ("", "nothing is marked"),
    ("mutators 1\ntrace 2\n", "line 2 is none of a trace"),
    ("mutators 1\nmark\nstop\n", "line 3 is none of a trace"),
    ("mutators 1\nmark\nmark\n", "line 3 can't happen"),
    ("mutators 1\nmark\nscan\n", "line 3 can't happen"),
    (FIRST + "mark\npush 0\n", "line 7 can't happen"),
    (FIRST + "mark\nclose\n", "line 7 can't happen"),
    (FIRST + "mark\nscan\ndrain\n", "marking goes on, marked 0.0 0.1 g"),
    (FIRST + "mark\n0 get r2 r0 0 = 0.1\n", "line 7 can't happen"),
    (FIRST + "mark\n0 set r0 0 r1 = ok\npush 0\ntake 0 0.1\n", "line 9 can't happen"),
    (FIRST + "mark\n0 set r0 0 r1 = ok\npush 0\ntake 0 0.0\ndrain\nclose\ndrain\n", "closed, kept 0.0 0.1 g"),
    (FIRST + "0 thunk r3 r0 g = 0.2\n0 nil r0 = ok\nmark\nscan\nscan\n0 update r3 g = updated\nscan\n", "marking goes on, marked 0.1 0.2 g"),
]


def told(text):
    try:
        watch = watched(stream(text))
    except BadInput as bad:
        return str(bad)
    return watch.refusal.told if watch.refusal else watch.told()


def stored():
    """The traces that the gate runs, each with what is told of it."""
    for line in content("crates", "nmgc_trace", "stdout").splitlines():
        name, _, words = line.partition(": ")
        if os.path.exists(path("examples", "traces", name)):
            yield name, content("examples", "traces", name), words


class Traces(unittest.TestCase):
    def test_what_the_gate_tells_of_the_stored_traces(self):
        self.assertGreaterEqual(len(list(stored())), 25)
        for name, text, words in stored():
            self.assertEqual(told(text), words, name)

    def test_what_is_told_of_the_rows(self):
        for words, text, written in rows("nmgc_trace"):
            if text.startswith("trace 3\n"):
                self.assertEqual(told(text), "a trace without registers has no picture")
            elif words == ["-"]:
                self.assertEqual(f"-: {told(text)}\n", written, text)

    def test_more_traces(self):
        for text, words in TOLD:
            self.assertEqual(told(text), words, text)

    def test_hostile_text_is_refused(self):
        self.assertEqual(told(HEAD + HOSTILE.encode("utf-8", "replace").decode() + "\n"), "line 3 is none of a trace")


class Worlds(unittest.TestCase):
    def test_the_path_that_breaks(self):
        watch = watched(stream(content("examples", "traces", "insertion_barrier.trace")))
        self.assertEqual((watch.refusal.debt.source, watch.refusal.debt.field, watch.mark_line), ("0.1", 0, 7))
        way = broken_lead(watch)
        self.assertEqual((way.root, [hop[:2] for hop in way.hops]), (("register", 0, 0), [("0.1", None), ("0.0", 0)]))
        self.assertEqual(lead(watch.world, "0.0").root, ("register", 0, 2))

    def test_the_picture_of_a_worked_trace(self):
        svg = drawn(watched(stream(content("examples", "traces", "insertion_barrier.trace"))), "A barrier")
        for words in ("line 10 can't happen: 0.0 is due since line 9 (0 set r0 0 r1 = ok), and nobody remembered it", "the snapshot, line 7",
                      "the heap at line 10", "mark", "0 set r0 0 r1",
                      "close", "from here on 0.0 is due: it goes from field 0 of 0.1", "field 0", "field 0: 5", "register 2"):
            self.assertIn(words, texts(svg))
        self.assertEqual(len([it for it in elements(svg, "path") if it.get("stroke-width") == "3"]), 1)

    def test_every_refusal_has_a_picture(self):
        traces = [text for _, text, _ in stored()] + [text for text, _ in TOLD]
        sorts = set()
        for text in traces:
            try:
                watch = watched(stream(text))
            except BadInput:
                continue
            if watch.refusal:
                sorts.add(watch.refusal.sort)
                svg = drawn(watch, HOSTILE)
                self.assertIn(watch.refusal.told, " ".join(texts(svg)))
                self.assertNotIn("<script", svg)
                self.assertEqual([words for words in too_wide(svg) if "script" not in words], [])
                self.assertTrue(ids_are_right(svg))
        self.assertEqual(sorts, {"due", "answer", "name", "take", "untaken", "unscanned", "told", "needed", "new", "marked", "dead", "other", "push", "scan", "queue"})

    def test_the_number_of_a_line_has_one_form(self):
        text = content("examples", "traces", "insertion_barrier.trace").replace("close", "#\n" * 10012 + "close")
        told = " ".join(texts(drawn(watched(stream(text)), "")))
        self.assertIn("line 10022 can't happen", told)
        self.assertGreaterEqual(told.count("line 10022"), 4)
        self.assertNotIn("10,022", told)

    def test_a_long_path_is_shortened(self):
        lines = ["0 con r0 0 = 0.0"] + [f"0 con r0 0 r0 = 0.{at}" for at in range(1, 100)] + ["0 var r0 r0 = 0.100", "mark", "0 set r0 0 g = ok", "close"]
        svg = drawn(watched(stream(HEAD + "\n".join(lines) + "\n")), "")
        self.assertIn("line 106 can't happen: 0.99 is due since line 105 (0 set r0 0 g = ok), and nobody remembered it", texts(svg))
        lines = ["0 var r1 g = 0.0", "0 var r0 r1 = 0.1", "0 nil r1 = ok"] + [f"0 con r0 0 r0 = 0.{at}" for at in range(2, 100)]
        lines += ["mark", "0 nil r0 = ok", "close", "marked g"]
        svg = drawn(watched(stream(HEAD + "\n".join(lines) + "\n")), "")
        self.assertIn(".. 92 more objects ..", texts(svg))
        self.assertIn("now: nil", texts(svg))
