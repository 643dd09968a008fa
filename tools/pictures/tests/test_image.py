"""Images are read as docs/FORMATS.md says; of a bad one the line is told that `nmgc retain` tells."""
import random
import unittest

from ..image import read_image
from ..text import BadInput
from .images import arrays, drawn, image
from .support import HOSTILE, content, stream

GOOD = content("examples", "kept.image")
# What is put in the place of a line of examples/kept.image, and the line that is told.
BAD = [
    (1, "image 2 2", 1), (1, "image 1 0", 1), (1, "image 1 33", 1), (1, "image 1 3", 11), (1, "image 1 1", 4),
    (2, "mutator 0 serial 4", 15), (2, "mutator 0 serial 4294967296", 2), (3, "register 1 nil", 3), (3, "register 64 5", 3),
    (3, "register 01 5", 3), (3, "register 1 4611686018427387904", 3), (3, "register 1 9.9", 3), (3, "register 1 5 ", 3),
    (6, "register 40 1.0", 6), (8, "register 43 1.2\nregister 43 1.2", 8), (10, "queue 9.0", 10),
    (11, "node 0.0 con 256 5", 11), (11, "node 0.0 con 7 5 5.", 11), (11, "node 0.1 con 7 5", 12), (11, "node 0.9 con 7 5", 11),
    (11, "node 2.0 con 7 5", 11), (12, "node 0.1 var", 12), (12, "node 0.1 var 0.0 5", 12), (12, "node 0.1 var 0.5", 12),
    (16, "node 1.0 thunk result", 6), (16, "node 1.0 thunk free 1 2 3 4 5 6 7 8 9", 6), (18, "node 1.2 stack 1 1.0 6", 7),
    (18, "node 1.2 stack 4095", 7), (19, "node 1.3 weak 6 1.0", 8), (21, "node g arr nil", 21), (21, "node g con 0", 21),
    (21, "node g arr" + " nil" * 17, 21), (21, "", 17), (22, "end ", 22), (22, "end\nend", 23), (22, "", 22),
    (12, HOSTILE.encode("utf-8", "replace").decode(), 12),
]


def told(text):
    """What is told of a text: an empty text where it is an image."""
    try:
        read_image(stream(text))
    except BadInput as bad:
        return str(bad)
    return ""


class Images(unittest.TestCase):
    def test_a_worked_image(self):
        heap = read_image(stream(GOOD))
        self.assertEqual([own.serial for own in heap.mutators], [5, 7])
        self.assertEqual(heap.mutators[1].registers, [(40, "6"), (41, "1.0"), (43, "1.2"), (44, "1.3"), (46, "1.4")])
        self.assertEqual((heap.mutators[1].queue, len(heap.lines)), (["1.1"], 11))
        notes = {name: heap.node(name).note for name in heap.lines}
        self.assertEqual([notes[name] for name in ("0.0", "0.1", "1.0", "1.1", "1.2", "1.3", "1.4", "g")],
                         ["con 7", "var", "thunk, done", "thunk, waits", "stack, 2 of 3", "weak", "weak, dead", "arr of 16"])
        self.assertEqual(heap.node("1.1").references(), [(1, "g")])
        self.assertEqual((heap.node("1.3").references(), heap.strong("1.3"), heap.strong("0.3")), ([(1, "1.0")], [], [(0, "0.2"), (1, "0.1")]))

    def test_the_first_bad_line_is_told(self):
        for at, words, line in BAD:
            lines = GOOD.splitlines()
            lines[at - 1] = words
            self.assertEqual(told("\n".join(lines) + "\n"), f"bad image line {line}", (at, words))

    def test_an_image_that_is_cut_off(self):
        lines = GOOD.splitlines(True)
        self.assertEqual(told(GOOD[:-1]), "bad image line 22")
        self.assertEqual(told(GOOD + "x"), "bad image line 23")
        self.assertEqual([told("".join(lines[:at])) for at in (0, 1, 2)], ["bad image line 1", "bad image line 2", "bad image line 3"])
        self.assertEqual(told("".join(lines[:21])), "bad image line 22")

    def test_the_stored_bad_image(self):
        self.assertEqual(told(content("examples", "bad_image.image")) + "\n", content("examples", "bad_image.path"))

    def test_a_name_may_have_its_line_later_and_behind_a_bad_one(self):
        self.assertEqual(told(GOOD.replace("node 0.4 con 0 0.3 5", "node 0.4 con 0 0.3 05")), "bad image line 15")
        self.assertEqual(told(GOOD.replace("node g ", "end\nnode g ")), "bad image line 22")
        self.assertEqual(told(image({"0.0": "var 1.0", "1.0": "var 0.0"})), "")

    def test_images_of_every_kind(self):
        for seed in range(30):
            self.assertEqual(told(drawn(60, seed)), "")
        self.assertEqual(told(arrays(16, 400)), "")

    def test_no_text_does_harm(self):
        draw = random.Random(5)
        for _ in range(300):
            lines = GOOD.splitlines()
            at = draw.randrange(len(lines))
            words = list(lines[at])
            words[draw.randrange(len(words))] = draw.choice("0123456789 .g-x\x00é")
            lines[at] = "".join(words)
            self.assertIn(told("\n".join(lines) + "\n")[:15], ("", "bad image line "))
