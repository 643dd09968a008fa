"""The page: one file that loads nothing, with the cycles sorted, and everything escaped."""
import base64
import hashlib
import json
import re
import unittest
from html.parser import HTMLParser

from .. import heap, page
from ..commands import run_picture
from ..image import read_image
from ..report import read_report
from .reports import long_cycles, short_cycles
from .support import HOSTILE, content, ids_are_right, stream

OPEN = {"meta", "br", "rect", "line", "path", "circle"}  # elements without an end


class Outline(HTMLParser):
    """The elements of a page, whether they are closed in order, and its words by element."""

    def __init__(self, text):
        super().__init__()
        self.open, self.elements, self.wrong = [], [], []
        self.feed(text)
        self.close()

    def handle_starttag(self, name, attributes):
        self.elements.append((name, dict(attributes)))
        if name not in OPEN:
            self.open.append(name)

    def handle_startendtag(self, name, attributes):
        self.elements.append((name, dict(attributes)))

    def handle_endtag(self, name):
        if not self.open or self.open.pop() != name:
            self.wrong.append(name)

    def named(self, name):
        return [attributes for element, attributes in self.elements if element == name]


def written(report, image=None, name=None, title="a.report"):
    view = heap.View(read_image(stream(image)), name) if image else None
    return page.written(read_report(stream(report)), view, title, run_picture)


def kept():
    return written(content("examples", "kept.report"), content("examples", "kept.image"), "0.0")


class Pages(unittest.TestCase):
    def test_elements_are_closed_and_ids_right(self):
        for text in (kept(), written(short_cycles(300)), written(long_cycles(300, 29)), written(content("examples", "tutorial.report"))):
            outline = Outline(text)
            self.assertEqual((outline.open, outline.wrong), ([], []))
            self.assertTrue(ids_are_right(text))

    def test_nothing_is_loaded(self):
        outline = Outline(kept())
        for name, attributes in outline.elements:
            self.assertFalse({"src", "srcset", "data", "action", "style"} & set(attributes), name)
            self.assertTrue(attributes.get("href", "#").startswith("#"), name)
            self.assertFalse([it for it in attributes if it.startswith("on")], name)
        self.assertEqual([name for name, _ in outline.elements if name in ("link", "img", "iframe", "object", "form", "base")], [])
        self.assertEqual(set(re.findall(r"https?://[^\"' <)]+", kept())), {"http://www.w3.org/2000/svg"})

    def test_only_its_own_script_may_run(self):
        text = kept()
        policy = Outline(text).named("meta")[1]["content"]
        self.assertIn("default-src 'none'", policy)
        for name in ("script", "style"):
            inner = re.search(f"<{name}>(.*?)</{name}>", text, re.DOTALL).group(1)
            digest = base64.b64encode(hashlib.sha256(inner.encode()).digest()).decode()
            self.assertIn(f"{name}-src 'sha256-{digest}'", policy)
        self.assertEqual([it.get("type") for it in Outline(text).named("script")], ["application/json", None])

    def test_the_longest_cycles_come_first(self):
        text = written(long_cycles(300, 29))
        rows = json.loads(re.search(r'id="cycles-data">(.*?)</script>', text).group(1))
        self.assertEqual([row[0] for row in rows], [2, 3, 4, 5, 6, 7, 8, 9, 10, 1])
        self.assertEqual(rows, sorted(rows, key=lambda row: (-row[4], row[0])))
        self.assertIn("<tr><th scope=\"row\">2</th><td>30</td><td>44</td><td>52</td><td>22</td>", text)
        sorts = [it["aria-sort"] for it in Outline(text).named("th") if "aria-sort" in it]
        self.assertEqual((len(sorts), sorts.index("descending"), sorts.count("none")), (10, 4, 9))

    def test_many_cycles(self):
        text = written(short_cycles(20000, 1))
        rows = json.loads(re.search(r'id="cycles-data">(.*?)</script>', text).group(1))
        self.assertGreater(len(rows), 4000)
        self.assertEqual(text.split('id="cycles"')[1].split("</table>")[0].count("<tr>"), 1 + page.LEAF)
        self.assertIn("The longest cycle, number 1: over 2 stops", text)

    def test_numbers_of_the_worked_files(self):
        text = kept()
        for words in ("<dt>commands</dt><dd>27, by 2 mutators</dd>", "<dt>promoted</dt><dd>12 objects</dd>",
                      "<dt>kept</dt><dd>10 objects, by the last cycle</dd>",
                      "<dt>heap left</dt><dd>11 objects</dd>", '<th scope="row">mutator 1</th><td>15</td><td>1</td><td>15</td>',
                      '<th scope="row">thunk</th><td>1</td><td>1</td><td>0</td><td>0</td><td>2</td>', "and what keeps 0.0"):
            self.assertIn(words, text)
        self.assertIn("<p>No cycle ended.</p>", written(content("examples", "tutorial.report")))

    def test_one_is_not_told_as_many(self):
        text = written(content("examples", "cycle.report"))
        self.assertIn("<dt>freed</dt><dd>1 object</dd>", text)
        for words in ("freed", "kept", "promoted"):
            self.assertNotRegex(text, rf"<dt>{words}</dt><dd>1 objects")

    def test_captions_stand_outside_of_what_scrolls(self):
        outline = Outline(kept())
        self.assertEqual(outline.named("caption"), [])
        self.assertEqual([it["class"] for it in outline.named("p") if it["class"] == "caption"], ["caption"] * len(outline.named("table")))

    def test_buttons_say_what_they_do(self):
        script = page.own("page.js")
        self.assertIn("turner(`Previous ${size} cycles`, -size)", script)
        self.assertIn("turner(`Next ${size} cycles`, size)", script)

    def test_whatever_scrolls_can_be_reached_by_keys(self):
        for attributes in Outline(kept()).named("div"):
            self.assertEqual((attributes.get("tabindex"), attributes.get("role")), ("0", "region"))
            self.assertTrue(attributes.get("aria-label"))

    def test_hostile_text_is_escaped(self):
        text = written(content("examples", "cycle.report"), title=HOSTILE)
        self.assertEqual(len(Outline(text).named("script")), 2)
        self.assertEqual(text.count("<script>"), 1)
        self.assertIn("&lt;script&gt;alert(&quot;1&quot;)&lt;/script&gt; &amp; &#x27; \ufffd \ufffd", text)
