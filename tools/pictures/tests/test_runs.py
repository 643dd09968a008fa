"""Pictures of runs: numbers of worked reports stand in them, and long runs stay small and within the width."""
import unittest

from .. import columns, rounds
from ..commands import run_picture
from ..report import Cycle, Run, Stop, read_report
from .reports import Maker, bench, full_heap, long_cycles, short_cycles
from .support import HOSTILE, content, elements, ids_are_right, stream, texts, too_wide


def picture(text, title="A run"):
    return run_picture(read_report(stream(text)), title)


class FewRounds(unittest.TestCase):
    def test_numbers_of_a_worked_report(self):
        svg = picture(content("examples", "cycle.report"))
        for words in ("round 5", "stop 5", "19", "2", "cycle 1", "freed 0, kept 16", "freed 1 (0.0), kept 15", "16"):
            self.assertIn(words, texts(svg))
        for words in ("32 free", "31 free", "end done", "segments in use", "at most 1", "of 32"):
            self.assertIn(words, texts(svg))
        self.assertEqual((texts(svg).count("marks"), texts(svg).count("sweeps"), texts(svg).count("31 free")), (2, 2, 4))

    def test_a_full_cycle_and_a_full_heap(self):
        svg = picture(content("examples", "heap_full.report"))
        self.assertIn("end heapfull free 14 reserve 15", texts(svg))
        self.assertIn("full cycle 1", texts(svg))
        self.assertIn("kept 4", texts(svg))
        self.assertIn("freed 1 (0.0)", texts(picture(content("examples", "full.report"))))
        self.assertEqual(too_wide(svg), [])

    def test_numbers_of_a_row_have_one_form(self):
        svg = content("docs", "bench.svg")  # ten rounds: no room for "round 10"
        told = texts(svg)
        at = told.index("rounds")
        self.assertEqual(told[at : at + 12], ["rounds", *map(str, range(1, 11)), "stops"])
        self.assertEqual([told.count(words) for words in ("1,026", "1026", "freed 4,096", "128 free", "112 free")], [24, 0, 1, 1, 2])
        maker = Maker(1, 99)
        for at in range(16):
            maker.round(1234 + at)  # no room for a comma
        self.assertEqual([texts(picture(maker.text())).count(words) for words in ("1234", "1249", "1,249")], [1, 1, 0])

    def test_many_mutators(self):
        maker = Maker(32, 256)
        for _ in range(3):
            maker.round(list(range(32)))
        svg = picture(maker.text())
        self.assertEqual([words for words in texts(svg) if words.startswith("mutator ")], [f"mutator {at}" for at in range(32)])
        self.assertEqual(texts(svg).count("31"), 3)
        self.assertEqual(too_wide(svg), [])

    def test_no_round_at_all(self):
        svg = picture("report 1\nstop 0 idle free 1 filled 0 sweep 0 promoted 0\nend heapfull free 1 reserve 15\n")
        self.assertIn("end heapfull free 1 reserve 15", texts(svg))

    def test_hostile_text_is_escaped(self):
        run = Run()
        run.stops, run.segments, run.end = [Stop(0, "idle", 9, 0, 0, 0), Stop(1, HOSTILE, 9, 0, 0, 0)], 9, HOSTILE
        run.commands, run.cycles = [[1]], [Cycle(1, 0, 1, 0, 1, 1, 0, 0, 1, (HOSTILE,))]
        for draw in (rounds.drawn, columns.drawn):
            svg = draw(run, HOSTILE)
            self.assertNotIn("<script", svg)
            self.assertNotIn("\x01", svg)
            self.assertTrue(any("<script>" in words for words in texts(svg)))


class ManyRounds(unittest.TestCase):
    def test_the_bench(self):
        # Numbers of docs/FORMATS.md, "The bench and its summary": commands, rounds, cycles, promoted, freed, kept.
        for batches, told in ((1, (4104, 1, 0, 4096, 0, 0)), (2, (8208, 4, 1, 8192, 4096, 4096)), (10, (41040, 12, 5, 40960, 36864, 4096))):
            run = read_report(stream(bench(batches)))
            promoted, freed = sum(stop.promoted for stop in run.stops), sum(cycle.freed for cycle in run.cycles)
            self.assertEqual((sum(map(sum, run.commands)), run.rounds, len(run.cycles), promoted, freed, run.cycles[-1].kept if run.cycles else 0), told)
        svg = content("docs", "bench100.svg")  # which is what is made of bench(100): test_documents.py
        for words in ("102 rounds, 50 cycles; the longest is cycle 1, over 2 stops", "commands done: at most 1,027 by a mutator in a column",
                      "at most 8,192", "at most 4,096", "at most 16", "of 128", "end done"):
            self.assertIn(words, texts(svg))
        self.assertEqual(too_wide(svg), [])

    def test_a_run_of_a_hundred_thousand_stops(self):
        maker = Maker(32, 512)
        for at in range(100000):
            maker.round(1 if at % 100 == 0 else 0, at % 5 == 0, at % 5 == 1, 99 if at % 5 == 2 else 0, at % 3, 0, 0, at % 1000 == 4)
        svg = picture(maker.text())
        self.assertLess(len(svg), 2000000)
        self.assertEqual(too_wide(svg), [])
        self.assertIn("100,000 rounds, 20,100 cycles; the longest is cycle 1, over 2 stops", texts(svg))
        self.assertIn("A column is 530 rounds and the stops after them", texts(svg))
        self.assertIn("full cycles: 100", texts(svg))
        self.assertIn("commands done: at most 6 by a mutator in a column", texts(svg))
        self.assertTrue(ids_are_right(svg))

    def test_sums_over_columns(self):
        maker = Maker(1, 64)
        for at in range(400):
            maker.round(2 if at < 3 else 0)
        sheet = columns.Columns(read_report(stream(maker.text())), "run")
        self.assertEqual((sheet.gathered, sheet.columns, sheet.sums(sheet.run.commands[0])[:3]), (3, 134, [6, 0, 0]))
        self.assertEqual([sheet.column(stop) for stop in (0, 1, 3, 4, 400)], [0, 0, 0, 1, 133])
        self.assertEqual((sheet.x(0), round(sheet.x(400), 3)), (128, 884))

    def test_a_cycle_over_hundreds_of_rounds(self):
        svg = picture(long_cycles(5000, 700))
        self.assertIn("cycle 3", texts(svg))
        self.assertIn("5,000 rounds, 7 cycles; the longest is cycle 2, over 525 stops", texts(svg))
        self.assertEqual(too_wide(svg), [])

    def test_gathered_cycles_tell_their_number(self):
        run = read_report(stream(short_cycles(3000, 2, 2)))
        sheet = columns.Columns(run, "run")
        boxes = columns.boxes(sheet, run.cycles)
        self.assertEqual(sum(map(len, boxes)), len(run.cycles))
        self.assertIn(f"{len(boxes[0]):,}", " ".join(texts(columns.drawn(run, ""))))

    def test_a_full_heap(self):
        svg = picture(full_heap(200))
        self.assertIn("end heapfull free 3 reserve 17", texts(svg))
        self.assertIn("200 rounds, 159 cycles", texts(svg))
        self.assertIn("full cycles: 159", texts(svg))

    def test_no_column_is_lost_in_the_segments(self):
        maker = Maker(1, 64)
        for at in range(1000):
            maker.round(0)
        lines = maker.text().splitlines()
        at = next(at for at, line in enumerate(lines) if line.startswith("stop 777 "))
        lines[at] = "stop 777 idle free 5 filled 50 sweep 9 promoted 0"
        self.assertIn("at most 59", texts(picture("\n".join(lines) + "\n")))

    def test_parts_and_every_length(self):
        run = read_report(stream(long_cycles(60, 25)))
        for first, last in ((1, 60), (5, 55), (30, 40), (60, 60)):
            svg = run_picture(run.part(first, last), "part")
            self.assertEqual(too_wide(svg), [])
        for length in (1, 2, 19, 20, 21, 188, 189, 190):
            svg = picture(short_cycles(length, 3, 9))
            self.assertEqual(len(elements(svg, "svg")) + len(elements(svg, "defs")), 1 + 1, length)
            self.assertEqual(too_wide(svg), [])
