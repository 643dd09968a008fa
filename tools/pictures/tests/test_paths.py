"""Shortest paths and what keeps an object, compared with slow definitions."""
import unittest

from ..image import read_image
from ..paths import FINALISER, LOOSE, STRONG, WEAK, all_found, keepers, path, path_text, roots, search
from ..text import BadInput
from ..world import is_told_name
from .images import drawn, image, listed, shared
from .support import content, rows, stream


def heap_of(text):
    return read_image(stream(text))


def closure(heap, names, fields):
    """The least set with these names and what their fields lead to."""
    kept = set(names)
    while True:
        more = {target for name in kept for target in fields(heap, name)} - kept
        if not more:
            return kept
        kept |= more


def strong(heap, name):
    return [target for _, target in heap.strong(name)]


def slow_keepers(heap):
    """What keeps each object, by the rules as they stand in docs/FORMATS.md."""
    held = closure(heap, {name for root, name in roots(heap) if root.kind != "queue"}, strong)
    found = closure(heap, {name for _, name in roots(heap)}, strong)
    weak = {name: heap.node(name).values for name in heap.lines if heap.node(name).note == "weak"}
    live, before = found, None
    while live != before:
        before = live
        kept = {it for name, (key, value, finaliser) in weak.items() if key not in heap.lines or key in live for it in (name, value, finaliser)}
        live = closure(heap, live | (kept & set(heap.lines)), strong)
    dying = {finaliser for key, value, finaliser in weak.values() if key in heap.lines and key not in live} & set(heap.lines)
    queued = closure(heap, live | dying, strong) - live
    return {
        name: STRONG if name in held else FINALISER if name in found | queued else WEAK if name in live else LOOSE for name in heap.lines
    }


class Paths(unittest.TestCase):
    def test_the_stored_path(self):
        heap = heap_of(content("examples", "kept.image"))
        self.assertEqual(path_text(search(heap), "0.0"), content("examples", "kept.path"))

    def test_the_paths_of_the_rows(self):
        for words, text, written in rows("nmgc"):
            if words[:1] == ["retain"] and len(words) == 2 and is_told_name(words[1]):
                try:
                    told = path_text(search(heap_of(text)), words[1])
                except BadInput as bad:
                    told = f"{bad}\n"
                self.assertEqual(told, written, text)

    def test_no_path_is_shorter(self):
        for seed in range(40):
            heap = heap_of(drawn(50, seed))
            found, ring, level = search(heap), {name for _, name in roots(heap)}, 0
            seen = set(ring)
            while ring:
                self.assertEqual(ring, {name for name, how in found.items() if how.level == level})
                ring, level = {target for name in ring for target in strong(heap, name)} - seen, level + 1
                seen |= ring
            self.assertEqual(seen, set(found))

    def test_each_hop_is_a_field(self):
        for seed in range(20):
            heap = heap_of(drawn(50, seed))
            found = search(heap)
            for name in found:
                root, at, hops = path(found, name)
                self.assertIn((root, at), list(roots(heap)))
                for field, target in hops:
                    self.assertIn((field, target), heap.strong(at))
                    at = target
                self.assertEqual(at, name)

    def test_what_keeps_an_object(self):
        for seed in range(60):
            heap = heap_of(drawn(40, seed))
            self.assertEqual(keepers(heap, search(heap)), slow_keepers(heap), seed)

    def test_every_object_has_a_place(self):
        for seed in range(20):
            heap = heap_of(drawn(60, seed))
            every = all_found(heap, search(heap))
            self.assertEqual(set(every), set(heap.lines))

    def test_a_weak_pointer_holds_nothing(self):
        text = image({"0.0": "con 0", "0.1": "con 0", "0.2": "weak 0.0 0.1 0.3", "0.3": "con 0", "0.4": "weak 0.5 nil 0.6", "0.5": "con 0", "0.6": "con 0"},
                     [(0, 0, "0.0")], [(1, "0.0")])
        heap = heap_of(text)
        found = search(heap)
        self.assertEqual((path_text(found, "0.1"), path_text(found, "9.9")), ("none\n", "none\n"))
        kept = {"0.0": STRONG, "0.1": WEAK, "0.2": WEAK, "0.3": WEAK, "0.4": LOOSE, "0.5": LOOSE, "0.6": FINALISER, "g": STRONG}
        self.assertEqual(keepers(heap, found), kept)

    def test_a_long_list(self):
        heap = heap_of(listed(20000))
        self.assertEqual(len(path(search(heap), "0.0")[2]), 20000)
        heap = heap_of(image({"0.0": "var g", "g": shared("0.0", "0.0")}))
        self.assertEqual(path_text(search(heap), "0.0"), "root shared\nobject g\nfield 0\nobject 0.0\nend\n")
