"""What a tool says on standard error, beside its output: faults, what it waits for, and what it does when that takes long."""
import sys
import threading

LONG, AGAIN = 2, 10  # seconds until a tool says what it does, and until it says so again


def say(words):
    """A line on standard error, if there is one. Nothing in it moves a terminal's cursor."""
    if sys.stderr is None:
        return
    line = "".join(it if it.isprintable() else "?" for it in words)
    sys.stderr.buffer.write(line.encode("utf-8", "replace") + b"\n")
    sys.stderr.buffer.flush()


def is_terminal(stream):
    """Whether somebody sits at the other end of a stream."""
    try:
        return stream is not None and stream.isatty()
    except ValueError:  # it is closed
        return False


class Notice:
    """Says on a terminal what the tool does, when it has taken long: `doing`, which is empty while the tool waits for input."""

    def __init__(self, tool):
        self.tool, self.doing, self.over = tool, "", threading.Event()

    def __enter__(self):
        if is_terminal(sys.stderr):
            threading.Thread(target=self._watch, daemon=True).start()
        return self

    def __exit__(self, *_):
        self.over.set()

    def _watch(self):
        pause = LONG
        while not self.over.wait(pause):
            if self.doing:
                say(f"{self.tool}: {self.doing}; this takes a while")
                pause = AGAIN

    def reads(self, stream, what):
        """The tool begins to read; somebody who has to write the input by hand, or forgot to name a file, learns it at once."""
        self.doing = f"reading {what}"
        if is_terminal(stream):
            self.doing = ""
            say(f"{self.tool}: waiting for {what} on standard input")

    def draws(self):
        """The tool has read its input."""
        self.doing = "drawing"
