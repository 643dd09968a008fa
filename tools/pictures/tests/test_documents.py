"""The pictures in the documents are what tools/doc_pictures makes, and the documents show them."""
import re
import subprocess
import sys
import unittest

from .. import documents
from ..commands import run_picture
from ..report import read_report
from .reports import bench
from .support import content, ids_are_right, path, stream, too_wide


class Documents(unittest.TestCase):
    def test_pictures_of_stored_files_are_up_to_date(self):
        for name in documents.STORED:
            self.assertEqual(content(name), documents.of_stored(name), f"{name}: tools/doc_pictures makes it again")

    def test_pictures_of_the_bench_are_up_to_date(self):
        # The reports that the program writes are the same, byte for byte; they are too long to be stored.
        for name, (batches, title) in documents.BENCHES.items():
            drawn = run_picture(read_report(stream(bench(int(batches)))), title)
            self.assertEqual(content(name), drawn, f"{name}: tools/doc_pictures makes it again")

    def test_nothing_is_stored_unless_all_can_be_made(self):
        before = [content(name) for name in documents.STORED]
        for program, status, said in (("no such program", 2, "doc_pictures: no program no such program\n"), ("true", 5, "doc_pictures: the report of true: bad line 1: the report ends too early\n")):
            done = subprocess.run([sys.executable, path("tools", "doc_pictures"), program], capture_output=True, encoding="utf-8")
            self.assertEqual((done.returncode, done.stdout, done.stderr[-len(said):]), (status, "", said))
        self.assertEqual([content(name) for name in documents.STORED], before)

    def test_stored_pictures_are_shown_and_sound(self):
        documents_there = "".join(content(name) for name in ("README.md", "docs/TUTORIAL.md", "docs/GUIDE.md"))
        shown = {"docs/" + name.rpartition("/")[2] for name in re.findall(r"\]\(([^)]+\.svg)\)", documents_there)}
        for name in [*documents.STORED, *documents.BENCHES]:
            self.assertIn(name, shown)
            self.assertTrue(ids_are_right(content(name)), name)
            self.assertEqual(too_wide(content(name)), [], name)
