"""A heap for Graphviz: the same objects, roots, fields and path as in its picture. `dot -Tsvg` draws it."""
from .cut import kinds_told
from .heap import KEEPS, root_boxes
from .layout import edges_of, fields_told
from .paths import STRONG
from .text import count

STRIPES = {"finaliser": "white:gray85:white:gray85:white:gray85:white", "weak": "white:gray70:white", "loose": "gray80:white:gray80"}


def quoted(words):
    """The words as a string of DOT, on one line."""
    words = "".join(it if it.isprintable() else "\ufffd" for it in words)
    return '"' + words.replace("\\", "\\\\").replace('"', '\\"') + '"'


def lines(several):
    """Several lines as one string of DOT."""
    return '"' + "\\n".join(quoted(words)[1:-1] for words in several if words) + '"'


def written(view, title):
    """The text of the graph."""
    heap, boxes = view.heap, root_boxes(view)
    told = [title, f"{count(len(heap.lines), 'object')}: {kinds_told(heap, heap.lines)}", view.cut, view.path_told()]
    told += [f"{pattern} stripes: {KEEPS[keeper]}" for keeper, pattern in (("finaliser", "many"), ("weak", "few"), ("loose", "grey")) if _has(view, keeper)]
    out = ["digraph heap {", "rankdir=LR;", f"label={lines(told)};", 'node [shape=box, fontname="DejaVu Sans"];']
    for number, box in enumerate(boxes):
        words = " ".join(box.lines())
        out.append(f"root{number} [label={quoted(words)}, style={quoted('rounded')}];")
        for name in box.targets:
            is_marked = bool(view.root) and name == view.first and (view.root.kind, view.root.mutator) == (box.root.kind, box.root.mutator)
            style = ["style=dashed"] if box.root.kind == "list" else ["style=dotted"] if box.root.kind == "none" else []
            out.append(f"root{number} -> {quoted(name)}{_listed(style + (['penwidth=3'] if is_marked else []))};")
    for name in view.names:
        out.append(f"{quoted(name)}{_listed(_object(view, name))};")
    for edge in edges_of(heap, view.names, view.marked):
        more = ([] if edge.strong else ["style=dashed"]) + (["penwidth=3"] if edge.marked else [])
        out.append(f"{quoted(edge.source)} -> {quoted(edge.target)}{_listed([f'label={quoted(fields_told(edge.fields))}'] + more)};")
    levels = {}
    for name in view.names:
        levels.setdefault(view.every[name].level, []).append(name)
    for level in sorted(levels):
        out.append("{ rank=same; " + " ".join(quoted(name) for name in levels[level]) + " }")
    return "\n".join(out + ["}"]) + "\n"


def _has(view, keeper):
    return any(view.keeper[name] == keeper for name in view.names)


def _listed(parts):
    return f" [{', '.join(parts)}]" if parts else ""


def _object(view, name):
    """The attributes of an object: name and kind, stripes for what keeps it, thick where it is on the path."""
    node = view.heap.node(name)
    parts = [f"label={lines([name, node.note])}"]
    styles = ["striped"] if view.keeper[name] != STRONG else []
    if styles:
        parts.append(f"fillcolor={quoted(STRIPES[view.keeper[name]])}")
    if node.kind == "weak":
        styles.append("dashed")
    if styles:
        parts.append(f"style={quoted(','.join(styles))}")
    if name in view.way or name == view.name:
        parts.append("penwidth=3")
    return parts
