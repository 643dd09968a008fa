"""What the tests share: files of the repository, pictures as trees, and pictures as their texts."""
import io
import os
import re
import subprocess
import tempfile
import xml.etree.ElementTree as tree

TOP = os.path.dirname(os.path.dirname(os.path.dirname(os.path.dirname(os.path.abspath(__file__)))))
SVG = "{http://www.w3.org/2000/svg}"
HOSTILE = "<script>alert(\"1\")</script> & ' \x01 \ud800"


def path(*names):
    return os.path.join(TOP, *names)


def content(*names):
    with open(path(*names), encoding="utf-8") as file:
        return file.read()


def rows(program):
    """The rows of a program (examples/rows): its words, all that it reads, and all that it writes."""
    with tempfile.TemporaryDirectory() as room:
        subprocess.run([path("examples", "rows", "cases"), room], check=True)
        for line in content(room, program + ".list").splitlines():
            case = path(room, program, line.split(" ")[0])
            yield content(case + ".args").split("\n")[:-1], content(case), content(case + ".stdout")


def stream(text):
    """A text as a stream of bytes."""
    return io.BytesIO(text.encode("utf-8", "surrogateescape"))


def texts(svg):
    """The texts of a picture, in order; the picture is read as XML on the way."""
    return ["".join(it.itertext()) for it in tree.fromstring(svg).iter(SVG + "text")]


def elements(svg, name):
    return list(tree.fromstring(svg).iter(SVG + name))


def length_of(words, size):
    """How long words are, about, in the font of the pictures."""
    widths = {**dict.fromkeys("0123456789", 0.64), **dict.fromkeys(" ,.:;'", 0.32), **dict.fromkeys("ilj", 0.29), **dict.fromkeys("tfr", 0.4)}
    return size * sum(widths.get(it, 0.9 if it in "mw" else 0.62) for it in words)


def too_wide(svg, width=900):
    """The texts that reach beyond a picture's sides."""
    wide = []
    for it in elements(svg, "text"):
        words, size = "".join(it.itertext()), float(it.get("font-size", 13))
        x, length = float(it.get("x")), length_of(words, size)
        left = x - {"start": 0, "middle": length / 2, "end": length}[it.get("text-anchor")]
        if left < 0 or left + length > width:
            wide.append(words)
    return wide


def ids_are_right(text):
    """Whether no id stands twice, and each pattern that is used is there."""
    ids = re.findall(r'\bid="([^"]+)"', text)
    return len(ids) == len(set(ids)) and set(re.findall(r"url\(#([^)]+)\)", text)) <= set(ids)
