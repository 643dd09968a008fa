"""Reports are read as docs/FORMATS.md says, and the first line that breaks their format is told."""
import glob
import os
import unittest

from ..report import read_report
from ..text import BadInput
from .reports import full_heap, short_cycles
from .support import HOSTILE, content, path, stream

GOOD = content("examples", "cycle.report")
# What is put in the place of a line of examples/cycle.report, and the line that is told.
BAD = [
    (1, "report 2", 1), (1, "", 1), (2, "stop 1 idle free 32 filled 0 sweep 0 promoted 0", 2),
    (2, "stop 0 busy free 32 filled 0 sweep 0 promoted 0", 2), (2, "stop 0 idle free 032 filled 0 sweep 0 promoted 0", 2),
    (2, "stop 0 idle free 9999999999999999999 filled 0 sweep 0 promoted 0", 2), (3, "round 2", 3), (4, "0 fine", 4),
    (4, "32 ok", 4), (4, "0  ok", 4), (4, "0 0.4294967296", 4), (4, "0 4611686018427387904", 4), (5, "0 <b>", 5),
    (22, "1 ok\n0 ok", 23), (23, "stop 1 marking free 31 filled 1 sweep 1 promoted 16", 23),
    (30, "cycle 2 from 1 closed 2 swept 1 had 16 freed 0 kept 16 dead 0", 30),
    (30, "cycle 1 from 2 closed 1 swept 1 had 16 freed 0 kept 16 dead 0", 30),
    (30, "cycle 1 from 1 closed 2 swept 1 had 16 freed 1 kept 16 dead 0", 31),
    (30, "cycle 1 from 1 closed 2 swept 1 had 16 freed 17 kept 16 dead 0", 30),
    (30, "cycle 1 from 1 closed 2 swept 1 had 16 freed 0 kept 16 dead 1", 31), (36, "freed <script>", 36),
    (36, "freed 0.0\nfreed 0.1", 37), (37, "end doné", 37), (37, "end done\nend done", 38), (37, "end " + "x" * 300, 37),
]


class Reports(unittest.TestCase):
    def test_a_worked_report_to_its_numbers(self):
        run = read_report(stream(GOOD))
        self.assertEqual((run.rounds, run.segments, run.end, [list(row) for row in run.commands]), (5, 32, "done", [[19, 2, 0, 0, 0]]))
        self.assertEqual([stop.phase for stop in run.stops], ["idle", "marking", "sweeping", "marking", "sweeping", "idle"])
        self.assertEqual(run.cycles[1], (2, 3, 4, 1, 16, 1, 15, 0, 5, ("0.0",)))
        self.assertEqual((run.cycles[1].stops, run.cycles[1].is_full), (2, False))

    def test_every_example_is_read(self):
        for name in glob.glob(path("examples", "*.report")):
            if os.path.basename(name) != "bad.report":
                with open(name, "rb") as file:
                    self.assertGreaterEqual(read_report(file).rounds, 1, name)

    def test_the_first_bad_line_is_told(self):
        for at, words, told in BAD:
            lines = GOOD.splitlines()
            lines[at - 1] = words
            with self.assertRaises(BadInput, msg=words) as caught:
                read_report(stream("\n".join(lines) + "\n"))
            self.assertTrue(str(caught.exception).startswith(f"bad line {told}: "), (words, str(caught.exception)))

    def test_a_report_that_is_cut_off(self):
        for lines in range(len(GOOD.splitlines())):
            with self.assertRaises(BadInput) as caught:
                read_report(stream("".join(GOOD.splitlines(True)[:lines])))
            self.assertIn(f"bad line {lines + 1}: ", str(caught.exception))
        with self.assertRaises(BadInput):
            read_report(stream(GOOD[:-1]))

    def test_hostile_text_is_no_report(self):
        for text in (HOSTILE, GOOD.replace("freed 0.0", "freed " + HOSTILE), "\0" * 1000, "report 1\n" + "9" * 100000):
            with self.assertRaises(BadInput) as caught:
                read_report(stream(text.encode("utf-8", "replace").decode()))
            self.assertTrue(str(caught.exception).isprintable())

    def test_many_lines_alike(self):
        # They are read many at once; a long one among them, or one that isn't alike, is read as it would be alone.
        lines = ["report 1", "stop 0 idle free 9 filled 0 sweep 0 promoted 0", "round 1"] + [f"7 7.{at}" for at in range(9000)]
        rest = ["stop 1 idle free 9 filled 0 sweep 0 promoted 0", "cycle 1 from 1 closed 1 swept 0 had 9000 freed 9000 kept 0 dead 0"]
        rest += [f"freed 7.{at}" for at in range(9000)] + ["end done", ""]
        run = read_report(stream("\n".join(lines + ["7 4294967295", "7 7.4294967295", "8 ok"] + rest)))
        self.assertEqual((run.commands[7][0], run.commands[8][0], run.cycles[0].names), (9002, 1, ("7.0", "7.1")))
        for at, words in ((8500, "7 7.4294967296"), (8501, "6 ok"), (8502, "7 ok "), (17500, "freed 7.04"), (18006, "freed 7.1")):
            bad = lines + rest
            bad[at - 1] = words
            with self.assertRaises(BadInput) as caught:
                read_report(stream("\n".join(bad)))
            self.assertTrue(str(caught.exception).startswith(f"bad line {at}: "), (at, str(caught.exception)))

    def test_a_part_of_a_run(self):
        run = read_report(stream(short_cycles(50)))
        part = run.part(11, 20)
        self.assertEqual((part.first, part.last, part.rounds, part.left_out), (11, 20, 10, "rounds 11 to 20 of 50"))
        self.assertEqual([part.stop(number) for number in range(10, 21)], [run.stop(number) for number in range(10, 21)])
        self.assertEqual([list(row) for row in part.commands], [list(row[10:20]) for row in run.commands])
        self.assertTrue(all(cycle.end >= 10 and cycle.start <= 20 for cycle in part.cycles))
        self.assertIs(run.part(1, 500), run)

    def test_a_run_without_a_round(self):
        text = "report 1\nstop 0 idle free 1 filled 0 sweep 0 promoted 0\n"
        text += "cycle 1 from 0 closed 0 swept 0 had 0 freed 0 kept 1 dead 0\nend heapfull free 1 reserve 15\n"
        run = read_report(stream(text))
        self.assertEqual((run.rounds, run.cycles[0].is_full, run.end), (0, True, "heapfull free 1 reserve 15"))

    def test_generated_reports_are_read(self):
        run = read_report(stream(full_heap(200)))
        self.assertEqual((run.rounds, run.end, all(cycle.is_full for cycle in run.cycles)), (200, "heapfull free 3 reserve 17", True))
