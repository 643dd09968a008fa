"""tools/picture.py and tools/page: what they write, and the one line and the status of a fault."""
import io
import os
import pty
import signal
import subprocess
import sys
import tempfile
import unittest
from unittest import mock

from .. import commands, notice
from .support import content, path


def ran(tool, *words, given=b""):
    """Status, output and what is said of a tool that is called with these words."""
    streams = [io.TextIOWrapper(io.BytesIO(it)) for it in (given if isinstance(given, bytes) else given.encode(), b"", b"")]
    with mock.patch.multiple(sys, stdin=streams[0], stdout=streams[1], stderr=streams[2]):
        status = {"picture.py": commands.picture, "page": commands.page_of}[tool](list(words))
    return (status, *(stream.buffer.getvalue().decode() for stream in streams[1:]))


def started(tool, *words, given=""):
    """The same of the tool itself."""
    done = subprocess.run([sys.executable, path("tools", tool), *words], input=given.encode(), capture_output=True)
    return done.returncode, done.stdout.decode(), done.stderr.decode()


class Started(subprocess.Popen):
    """tools/picture.py, with this standard input."""

    def __init__(self, stdin):
        super().__init__([sys.executable, path("tools", "picture.py")], stdin=stdin, stdout=subprocess.PIPE, stderr=subprocess.PIPE)


REPORT, IMAGE = content("examples", "cycle.report"), content("examples", "kept.image")
TRACE = content("examples", "traces", "settled.trace")
FAULTS = [
    (["run"], "report 1\nstop", 5, "picture.py: bad line 2: it has no line feed at its end"),
    ([], content("examples", "bad.report"), 5, "picture.py: bad line 1: this is no report of `nmgc run`"),
    ([], b"report 1\nstop \xff\n", 5, "picture.py: bad line 2: it isn't ASCII"),
    (["heap"], content("examples", "bad_image.image"), 9, "picture.py: bad image line 11"),
    (["dot", "0.0"], IMAGE.replace("end", "ende"), 9, "picture.py: bad image line 22"),
    (["heap", "9.9"], IMAGE, 2, "picture.py: the image has no object 9.9"),
    (["heap", "\x1b[31m<b>"], IMAGE, 2, "picture.py: the name of an object is maker.serial, or g"),
    (["trace"], "trace 2\nmutator 1\n", 5, "picture.py: line 2 is none of a trace"),
    (["trace"], content("examples", "traces", "two_cycles.trace"), 1, "picture.py: each line can happen: 2 cycles, 15 commands, 2 pushes; something came due 2 times: there is no refused line to draw"),
    (["run", "--rounds", "7-9"], REPORT, 2, "picture.py: the run has 5 rounds"),
]


class Tools(unittest.TestCase):
    def test_pictures_are_written(self):
        for words, given, begins in (
            (["run"], REPORT, "<svg "),
            ([], REPORT, "<svg "),
            (["heap", "0.0"], IMAGE, "<svg "),
            (["dot"], IMAGE, "digraph heap {\n"),
            (["trace"], TRACE, "<svg "),
        ):
            status, out, said = ran("picture.py", *words, given=given)
            self.assertEqual((status, said), (0, ""))
            self.assertTrue(out.startswith(begins))

    def test_the_tools_themselves(self):
        self.assertEqual(started("picture.py", given=REPORT), ran("picture.py", given=REPORT))
        self.assertEqual(started("picture.py", "heap", given=REPORT), (9, "", "picture.py: bad image line 1\n"))
        self.assertEqual(started("page", "-", given=REPORT), ran("page", "-", given=REPORT))
        self.assertIn("run|heap|dot|trace", started("picture.py", "--help")[1])

    def test_a_fault_gets_one_line_and_nothing_is_written(self):
        for words, given, status, line in FAULTS:
            self.assertEqual(ran("picture.py", *words, given=given), (status, "", line + "\n"), words)

    def test_wrong_words_get_the_usage_and_one_line(self):
        for tool, words in (("picture.py", ["run", "--rounds", "3-2"]), ("picture.py", ["--what"]), ("picture.py", ["heap", "--hops", "-1"]), ("page", [])):
            status, out, said = ran(tool, *words, given=REPORT)
            lines = said.splitlines()
            self.assertEqual((status, out, lines[0].startswith(f"usage: {tool}"), lines[-1].startswith(tool + ": ")), (2, "", True, True), words)

    def test_every_tool_has_its_usage(self):
        before = content("docs", "kept.svg")
        for tool in ("picture.py", "page", "doc_pictures", "costs", "documents", "statement", "bench_script"):
            for words, status in (["-h"], 0), (["--what", "7"], 2):
                interpreter = [] if tool == "bench_script" else [sys.executable]
                done = subprocess.run([*interpreter, path("tools", tool), *words], stdin=subprocess.DEVNULL, capture_output=True)
                told, other = (done.stderr, done.stdout) if status else (done.stdout, done.stderr)
                self.assertEqual((done.returncode, told[:7], other), (status, b"usage: ", b""), (tool, words))
        self.assertEqual(content("docs", "kept.svg"), before)

    def test_parts_of_a_run(self):
        self.assertIn("rounds 2 to 3 of 5", ran("picture.py", "--rounds", "2-3", given=REPORT)[1])
        self.assertIn("rounds 1 to 2 of 5", ran("picture.py", "--first", "2", "--title", "A <b> title", given=REPORT)[1])

    def test_pages(self):
        report, image = path("examples", "kept.report"), path("examples", "kept.image")
        for words in ([report], [report, image], [report, image, "--path", "0.0"], ["-"]):
            status, out, said = ran("page", *words, given=REPORT)
            self.assertEqual((status, said, out[:15]), (0, "", "<!DOCTYPE html>"))

    def test_faults_of_pages(self):
        report = path("examples", "kept.report")
        for words, status, line in (
            (["no such file"], 3, "page: read fault: No such file or directory"),
            ([path("examples")], 3, "page: read fault: Is a directory"),
            ([path("examples", "bad.report")], 5, "page: bad line 1: this is no report of `nmgc run`"),
            ([report, report], 9, "page: bad image line 1"),
            ([report, path("examples", "kept.image"), "--path", "7"], 2, "page: the name of an object is maker.serial, or g"),
        ):
            self.assertEqual(ran("page", *words), (status, "", line + "\n"), words)

    def test_a_hostile_file_name(self):
        with tempfile.TemporaryDirectory() as folder:
            name = os.path.join(folder, "<img src=x onerror=alert(1)>\udcff.report")
            with open(name, "w", encoding="ascii") as file:
                file.write(REPORT)
            status, out, said = ran("page", name)
        self.assertEqual((status, said), (0, ""))
        self.assertNotIn("<img", out)
        self.assertIn("&lt;img src=x onerror=alert(1)&gt;", out)

    def test_a_reader_that_goes_away(self):
        with Started(subprocess.PIPE) as tool:
            tool.stdout.close()
            tool.stdin.write(REPORT.encode())
            tool.stdin.close()
            self.assertEqual((tool.stderr.read(), tool.wait()), (b"", 4))

    def test_a_terminal_is_waited_for_and_an_interrupt_makes_no_noise(self):
        terminal, stdin = pty.openpty()
        with Started(stdin) as tool:
            self.assertEqual(tool.stderr.readline(), b"picture.py: waiting for a report of `nmgc run` on standard input\n")
            tool.send_signal(signal.SIGINT)
            self.assertEqual((tool.stdout.read(), tool.stderr.read(), tool.wait()), (b"", b"", 130))
        os.close(terminal)
        os.close(stdin)

    def test_what_takes_long_is_told_on_a_terminal(self):
        for is_terminal in (True, False):
            told = io.TextIOWrapper(io.BytesIO())
            with mock.patch.object(sys, "stderr", told), mock.patch.object(notice, "LONG", 0.01), mock.patch.object(told, "isatty", lambda: is_terminal, create=True):
                with notice.Notice("page") as sign:
                    sign.reads(io.BytesIO(), "a report")
                    sign.over.wait(0.1)
            self.assertEqual(told.buffer.getvalue(), b"page: reading a report; this takes a while\n" if is_terminal else b"")
