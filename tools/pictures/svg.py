"""A sheet of SVG that grows downwards: texts, boxes, lines and areas, in black and grey.

Nothing of a picture needs colour: fills are greys and patterns, and what patterns mean stands in each picture's key. All
that comes from outside is escaped here, as it is put on the sheet.
"""
import re
from html import escape

WIDTH = 900
SIZE = 13  # of text, in pixels
FONT = "DejaVu Sans, Verdana, Arial, sans-serif"
NARROW = "<style>@media (max-width: 900px) { svg { width: 100%; height: auto; } }</style>\n"  # a picture fits into a narrow window
LEFT_OUT = re.compile("[^\t\n\x20-\ud7ff\ue000-\ufffd\U00010000-\U0010ffff]")
PATTERNS = {
    "marks": (7, 45, '<line x1="0" y1="0" x2="0" y2="7" stroke="#000" stroke-width="2.4"/>'),
    "sweeps": (6, 0, '<circle cx="2" cy="2" r="1.2" fill="#000"/>'),
    "waiting": (6, 0, '<path d="M0,3 H6" stroke="#000" stroke-width="1.6"/>'),
    "weak": (8, 45, '<line x1="0" y1="0" x2="0" y2="8" stroke="#9a9a9a" stroke-width="2.4"/>'),
    "finaliser": (7, 0, '<circle cx="2" cy="2" r="1.3" fill="#8a8a8a"/>'),
    "loose": (7, 0, '<path d="M0,0 L7,7 M7,0 L0,7" stroke="#c4c4c4" stroke-width="1"/>'),
}


def clean(words):
    """The words without what no SVG or HTML may have, escaped."""
    return escape(LEFT_OUT.sub("\ufffd", str(words)))


def fit(words, width, size=SIZE):
    """The words, cut off with dots where they are wider."""
    most = max(int(width / (size * 0.6)), 1)
    return words if len(words) <= most else words[: most - 1] + "…"


def first_fitting(width, choices, size=SIZE):
    """The first of the texts that fits into this width, or an empty one."""
    return next((it for it in choices if len(it) * size * 0.6 <= width), "")


def alike(width, *forms, size=SIZE):
    """Texts that stand in a row, all in one form: the first form whose texts all fit into this width, else what fits of the last."""
    fitting = [[first_fitting(width, (it,), size) for it in form] for form in forms]
    return next((form for form, shown in zip(forms, fitting) if form == shown), fitting[-1])


class Sheet:
    """An SVG text; `y` is where the next part begins. `name` is the beginning of its ids, so that a page may hold several."""

    def __init__(self, name, patterns):
        self.name, self.patterns, self.out, self.y = name, patterns, [], 0

    def put(self, text):
        """Puts down a piece of SVG as it is."""
        self.out.append(text)

    def fill(self, pattern):
        """The fill of a pattern."""
        return f"url(#{self.name}-{pattern})"

    def text(self, x, y, words, anchor="middle", **more):
        """Words; `more` are further attributes, with _ for -. No words put down nothing."""
        if words == "":
            return
        rest = "".join(f' {name.replace("_", "-")}="{value}"' for name, value in more.items())
        self.put(f'<text x="{x:.1f}" y="{y:.1f}" text-anchor="{anchor}"{rest}>{clean(words)}</text>')

    def rect(self, x, y, width, height, fill, stroke="#000", more=""):
        """A box; `more` are further attributes as they stand."""
        self.put(f'<rect x="{x:.1f}" y="{y:.1f}" width="{width:.1f}" height="{height:.1f}" fill="{fill}" stroke="{stroke}"{more}/>')

    def line(self, x1, y1, x2, y2, stroke="#999", more=""):
        """A straight line."""
        self.put(f'<line x1="{x1:.1f}" x2="{x2:.1f}" y1="{y1:.1f}" y2="{y2:.1f}" stroke="{stroke}"{more}/>')

    def path(self, points, fill="none", stroke="#000", more=""):
        """A path of these points."""
        self.put(f'<path d="{points}" fill="{fill}" stroke="{stroke}"{more}/>')

    def label(self, x, y, width, *choices, size=SIZE):
        """The first of the texts that fits, in the middle of a box, on white so that it is read on every pattern."""
        words = first_fitting(width - 4, choices, size)
        if words:
            half = len(words) * size * 0.28 + 2
            self.rect(x - half, y - size + 1, 2 * half, size + 3, "#fff", "none")
            self.text(x, y, words, **({} if size == SIZE else {"font_size": size}))

    def paragraph(self, words, size=11, width=WIDTH - 24, x=12):
        """Words over as many lines as they need; the sheet grows by these."""
        line = ""
        for word in words.split(" "):
            if line and len(line) + 1 + len(word) > width / (size * 0.56):
                self.text(x, self.y, line, "start", font_size=size)
                self.y += size + 4
                line = word
            else:
                line = f"{line} {word}" if line else word
        self.text(x, self.y, line, "start", font_size=size)
        self.y += size + 4

    def svg(self, title, about):
        """The whole picture."""
        height = f"{self.y:.0f}"
        head = f'<svg xmlns="http://www.w3.org/2000/svg" viewBox="0 0 {WIDTH} {height}" width="{WIDTH}" height="{height}"'
        head += f' font-family="{FONT}" font-size="{SIZE}" role="img" aria-labelledby="{self.name}-title {self.name}-desc">'
        told = f'<title id="{self.name}-title">{clean(title)}</title>\n<desc id="{self.name}-desc">{clean(about)}</desc>'
        ground = f'<rect width="{WIDTH}" height="{height}" fill="#fff"/>'
        return "\n".join([head, told, self._defs(), ground, *self.out, "</svg>"]) + "\n"

    def _defs(self):
        defs = [f"{NARROW}<defs>"]
        for name in self.patterns:
            size, turn, mark = PATTERNS[name]
            turned = f' patternTransform="rotate({turn})"' if turn else ""
            defs.append(f'<pattern id="{self.name}-{name}" width="{size}" height="{size}" patternUnits="userSpaceOnUse"{turned}>')
            defs.append(f'<rect width="{size}" height="{size}" fill="#fff"/>{mark}</pattern>')
        return "\n".join(defs + ["</defs>"])
