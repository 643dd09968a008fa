"""Pictures of heaps: roots, objects by levels, fields by number; the path; and what was cut."""
import re
import shutil
import subprocess
import unittest

from .. import dot, heap
from ..image import read_image
from .images import arrays, drawn, image, listed, shared, tree
from .support import HOSTILE, content, elements, ids_are_right, stream, texts, too_wide


def view(text, name=None, hops=None):
    return heap.View(read_image(stream(text)), name, hops)


def kept():
    return content("examples", "kept.image")


class Pictures(unittest.TestCase):
    def test_the_worked_image(self):
        svg = heap.drawn(view(kept(), "0.0"), "What keeps 0.0")
        told = texts(svg)
        for words in ("shared", "mutator 1", "r41", "r46", "queue 0", "level 0", "level 4", "0.0", "con 7, 1 field"):
            self.assertIn(words, told)
        for words in ("thunk, waits", "thunk, done", "weak, dead", "stack, 2 of 3", "arr of 16"):
            self.assertIn(words, told)
        self.assertIn("11 objects: 4 con, 1 var, 1 arr, 2 thunk, 2 weak, 1 stack. 2 mutators. 2 registers have a number.", told)
        self.assertIn("A shortest path to 0.0, of 4 hops: the shared array: g, field 3: 0.4, field 0: 0.3, field 1: 0.1, field 0: 0.0.", told)
        self.assertEqual((told.count("kept by a finaliser alone"), told.count("kept by nothing")), (1, 0))

    def test_the_path_is_marked(self):
        svg = heap.drawn(view(kept(), "0.0"), "")
        thick = [it for it in elements(svg, "rect") if it.get("stroke-width") == "3"]
        lines = [it for it in elements(svg, "path") if it.get("stroke-width") == "3"]
        self.assertEqual((len(thick), len(lines)), (1 + 5, 1 + 4))
        self.assertNotIn('stroke-width="3"', heap.drawn(view(kept()), "").replace('stroke="#fff" stroke-width="3"', ""))

    def test_the_lines_of_weak_pointers_are_dashed(self):
        svg = heap.drawn(view(image({"0.0": "con 0", "0.1": "weak 5 0.0 nil"}, [(0, 0, "0.1")])), "")
        self.assertEqual(len([it for it in elements(svg, "path") if it.get("stroke-dasharray")]), 1)
        self.assertEqual(len([it for it in elements(svg, "rect") if it.get("stroke-dasharray")]), 1)
        self.assertIn('fill="url(#heap-weak)"', svg)

    def test_fields_have_their_numbers(self):
        svg = heap.drawn(view(image({"0.0": "con 0", "0.1": "arr nil 0.0 7 0.2 0.2", "0.2": "var g"}, [(0, 0, "0.1")])), "")
        for words in ("1", "3, 4"):
            self.assertIn(words, texts(svg))

    def test_no_number_of_a_field_lies_on_an_arrow(self):
        for text in (kept(), drawn(24, 3), tree(4)):
            svg = heap.drawn(view(text), "")
            heads = [tuple(map(float, re.match(r"M([\d.]+),([\d.]+) l(-?[\d.]+)", it.get("d")).groups())) for it in elements(svg, "path") if it.get("stroke") == "none"]
            numbers = [(float(it.get("x")), float(it.get("y")) - 3.5, "".join(it.itertext())) for it in elements(svg, "text") if it.get("paint-order")]
            self.assertTrue(numbers)
            for x, y, words in numbers:
                if len(words) == 1:
                    for tip, middle, back in heads:
                        self.assertFalse(min(tip, tip + back) - 2 < x < max(tip, tip + back) + 2 and abs(y - middle) < 5, (words, x, y, tip, middle))

    def test_a_loose_object_has_no_path(self):
        svg = heap.drawn(view(image({"0.0": "con 0", "0.1": "var 0.0"}), "0.0"), "")
        self.assertIn("No path of strong fields leads to 0.0 from g, a register or a queue of finalisers: `nmgc retain` tells none.", texts(svg))
        self.assertIn("kept by nothing", texts(svg))

    def test_every_object_stands_in_the_picture_once(self):
        for seed in range(12):
            text = drawn(80, seed)
            shown = view(text)
            bold = [words for words in texts(heap.drawn(shown, "")) if words in shown.heap.lines]
            self.assertEqual(sorted(bold), sorted(shown.heap.lines))

    def test_no_box_covers_another(self):
        for text in (drawn(80, 1), listed(30, 16), tree(9), arrays(16, 60), kept()):
            layout = heap.layout_of(view(text))
            boxes = list(layout.boxes.values()) + layout.roots
            for at, one in enumerate(boxes):
                for other in boxes[at + 1 :]:
                    apart = one.x + one.width <= other.x or other.x + other.width <= one.x or one.y + one.height <= other.y or other.y + other.height <= one.y
                    self.assertTrue(apart, (one.name, other.name))

    def test_words_stay_within_the_width_and_ids_are_right(self):
        for text, name in ((kept(), "0.0"), (listed(300), "0.7"), (drawn(400, 3), None), (arrays(16, 100), "0.50"), (tree(10), None)):
            svg = heap.drawn(view(text, name), "A heap")
            self.assertEqual(too_wide(svg), [])
            self.assertTrue(ids_are_right(svg))
            self.assertLess(len(svg), 2000000)

    def test_a_dense_heap_stays_small(self):
        nodes = {f"0.{at}": "arr " + " ".join(f"0.{16 + it}" for it in range(1900)) for at in range(16)}
        nodes.update({f"0.{16 + it}": f"var 0.{it % 16}" for it in range(1900)})
        svg = heap.drawn(view(image({**nodes, "g": shared(*[f"0.{at}" for at in range(16)])})), "")
        self.assertLess(len(svg), 2000000)

    def test_hostile_text_is_escaped(self):
        svg = heap.drawn(view(kept()), HOSTILE)
        self.assertNotIn("<script", svg)
        self.assertTrue(texts(svg)[0].startswith("<script>alert"))


class Cuts(unittest.TestCase):
    def test_a_large_heap_is_cut_by_hops_from_the_roots(self):
        shown = view(arrays(16, 200))
        self.assertEqual(shown.cut, "Cut: shown are 17 of 3,217 objects, what lies within 1 hop of the roots. Left out are 3,200: 3,200 var.")
        self.assertIn("200 cut off", texts(heap.drawn(shown, "")))
        told = "Cut: shown are 1 of 3,217 objects, what lies within 0 hops of the roots. Left out are 3,216: 3,200 var, 16 arr."
        self.assertEqual(view(arrays(16, 200), None, 0).cut, told)

    def test_a_heap_of_two_thousand_objects_is_whole(self):
        self.assertEqual((view(listed(1999)).cut, len(view(listed(1999)).names)), ("", 2000))
        self.assertEqual(view(listed(2000)).cut, "Cut: shown are 2,000 of 2,001 objects, what lies within 1,999 hops of the roots. Left out are 1: 1 con.")

    def test_many_objects_at_the_roots(self):
        text = image({f"0.{at}": "con 0" for at in range(3000)}, (), [(0, f"0.{at}") for at in range(3000)])
        shown = view(text)
        self.assertEqual(len(shown.names), 2000)
        self.assertIn("2,000 of 3,001 objects, the first of what lies within 0 hops of the roots. Left out are 1,001: 1,001 con.", shown.cut)
        self.assertLess(len(heap.drawn(shown, "")), 2000000)

    def test_a_large_heap_is_cut_round_an_object(self):
        shown = view(listed(5000), "0.2500")
        self.assertLessEqual(len(shown.names), 2000)
        self.assertIn("hops of 0.2500, and its path but for", shown.cut)
        svg = heap.drawn(shown, "")
        self.assertIn("A shortest path to 0.2500, of 2,500 hops: the shared array: g, field 0: 0.4999,", " ".join(texts(svg)))
        near = view(arrays(16, 200), "0.20", 1)
        self.assertEqual(sorted(near.names), ["0.0", "0.20", "g"])
        self.assertEqual(near.cut, "Cut: shown are 3 of 3,217 objects, what lies within 1 hop of 0.20, and its path. Left out are 3,214: 3,199 var, 15 arr.")


class Graphs(unittest.TestCase):
    def test_the_worked_image(self):
        graph = dot.written(view(kept(), "0.0"), 'A "heap" \\')
        for line in ('"g" -> "0.4" [label="3", penwidth=3];', '"0.3" -> "0.2" [label="0"];', '"1.3" -> "1.0" [label="1", style=dashed];',
                     '"0.0" [label="0.0\\ncon 7", penwidth=3];', '"1.3" [label="1.3\\nweak", style="dashed"];'):
            self.assertIn(line, graph.splitlines())
        self.assertIn('label="A \\"heap\\" \\\\\\n11 objects', graph)
        self.assertRegex(graph, r'"1\.1" \[label="1\.1\\nthunk, waits", fillcolor="[^"]+", style="striped"\];')

    def test_strings_are_closed(self):
        graph = dot.written(view(kept()), HOSTILE + '"; evil -> "\n\\')
        for line in graph.splitlines():
            self.assertEqual(len(re.findall(r'(?<!\\)(?:\\\\)*"', line)) % 2, 0, line)

    @unittest.skipUnless(shutil.which("dot"), "there is no Graphviz")
    def test_graphviz_takes_it(self):
        for text, name in ((kept(), "0.0"), (drawn(40, 2), None)):
            done = subprocess.run(["dot", "-Tplain"], input=dot.written(view(text, name), HOSTILE).encode(), capture_output=True)
            self.assertEqual((done.returncode, done.stderr), (0, b""))
