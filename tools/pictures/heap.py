"""The picture of a heap: its roots, and its objects by levels from the roots.

A box is an object with its name and kind, and a line a field with its number. The lines of weak pointers are dashed. What
registers and g don't keep by strong fields has a pattern. The path to an object is drawn thick.
"""
from .cut import kinds_told, near_object, near_roots
from .layout import Box, fields_told, placed
from .paths import FINALISER, LOOSE, STRONG, WEAK, Root, Step, all_found, keepers, path, roots, search
from .svg import WIDTH, Sheet, fit
from .text import count

FILLS = {STRONG: None, FINALISER: "finaliser", WEAK: "weak", LOOSE: "loose"}
KEEPS = {FINALISER: "kept by a finaliser alone", WEAK: "kept by a weak pointer alone", LOOSE: "kept by nothing"}
GREY = "#8c8c8c"
HOPS = 12  # of a path that are told in words
ROOT_HEIGHT = 34


class View:
    """What is shown of a heap: how each object was found, what keeps it, the names that are shown, and the path to one of them."""

    def __init__(self, heap, name=None, hops=None):
        self.heap, self.name = heap, name
        self.found = search(heap)
        self.every = all_found(heap, self.found)
        self.keeper = keepers(heap, self.found)
        self.root, self.first, self.hops = path(self.found, name) if name in self.found else (None, None, [])
        self.way = [self.first] + [target for _, target in self.hops] if self.root else []
        if name is None:
            self.names, self.cut = near_roots(heap, self.every, hops)
        else:
            self.names, self.cut = near_object(heap, self.every, name, self.way, hops)
        self.marked = set(zip(self.way, self.way[1:]))

    def path_told(self):
        """The path in words."""
        if self.name is None:
            return ""
        if not self.root:
            return f"No path of strong fields leads to {self.name} from g, a register or a queue of finalisers: `nmgc retain` tells none."
        parts = [f"field {field}: {target}" for field, target in self.hops]
        if len(parts) > HOPS:
            parts = parts[: HOPS // 2] + [f".. {len(parts) - HOPS:,} more .."] + parts[-HOPS // 2 :]
        return f"A shortest path to {self.name}, of {count(len(self.hops), 'hop')}: " + ", ".join([f"{root_told(self.root)}: {self.first}"] + parts) + "."


def root_told(root):
    """A root in words."""
    if root.kind == "shared":
        return "the shared array"
    if root.kind == "register":
        return f"register {root.number} of mutator {root.mutator}"
    return f"place {root.number} in the queue of mutator {root.mutator}"


class RootBox(Box):
    """Roots of one sort and mutator that refer to the same object."""

    def __init__(self, root, target):
        super().__init__("", -1)
        self.root, self.targets, self.numbers = root, [target], [root.number]

    @property
    def height(self):
        """How high it is."""
        return 24 if self.root.kind == "shared" else ROOT_HEIGHT

    def lines(self):
        """Its words: whose, and which."""
        if self.root.kind == "shared":
            return ["shared"]
        if self.root.kind == "list":
            return ["weak pointers", "in the list"]
        if self.root.kind == "none":
            return ["nothing", "refers to"]
        sort = "r" if self.root.kind == "register" else "queue "
        words = ", ".join(f"{sort if at == 0 or sort == 'r' else ''}{number}" for at, number in enumerate(self.numbers))
        return [f"mutator {self.root.mutator}", fit(words, 92, 11)]


def root_boxes(view):
    """The boxes of the roots, in the order of the search; then of what the search didn't find."""
    shown, boxes = set(view.names), {}
    extra = [(how.way, name) for name, how in view.every.items() if isinstance(how.way, Root) and how.way.kind in ("list", "none")]
    for root, name in list(roots(view.heap)) + extra:
        if name not in shown:
            continue
        key = (root.kind, root.mutator, name if root.kind in ("register", "queue") else "")
        if key not in boxes:
            boxes[key] = RootBox(root, name)
        else:
            boxes[key].numbers.append(root.number)
            if name not in boxes[key].targets:
                boxes[key].targets.append(name)
    return list(boxes.values())


def ports(layout):
    """For each field that is drawn how high it leaves and how high it arrives. Of each side of a box the ends stand beside each
    other, in the order of the other ends: those that leave, and those that come from the same column, on the right."""
    sides = {}
    for edge in layout.edges:
        source, target = layout.boxes[edge.source], layout.boxes[edge.target]
        if target.x >= source.x:
            sides.setdefault((edge.source, "right"), []).append((target.x == source.x, target.middle, edge, "leaves"))
            side = "right" if target.x == source.x else "left"
            sides.setdefault((edge.target, side), []).append((target.x == source.x, source.middle, edge, "arrives"))
    at = {}
    for (name, _), ends in sides.items():
        box = layout.boxes[name]
        for place, (_, _, edge, end) in enumerate(sorted(ends, key=lambda it: it[:2])):
            at[edge, end] = box.y + (place + 1) * box.height / (len(ends) + 1)
    return at


def curve(source, target, y1, y2):
    """The four points of the curve from the right side of one box to another one: to its left side, or if it doesn't stand
    further right, round the boxes."""
    x1 = source.x + source.width
    if target.x > source.x:
        bend = max((target.x - x1) / 2, 12)
        return (x1, y1), (x1 + bend, y1), (target.x - bend - 6, y2), (target.x - 6, y2)
    if target.x == source.x:
        x2 = target.x + target.width
        bend = 16 + min(abs(y2 - y1) / 14, 16)
        return (x1, y1), (x1 + bend, y1), (x2 + bend + 6, y2), (x2 + 6, y2)
    x1, x2 = source.x + source.width / 2, target.x + target.width / 2
    y1, y2 = source.y + source.height, target.y + target.height + 6
    low = max(y1, y2) + 22
    return (x1, y1), (x1, low), (x2, low), (x2, y2)


def drawn_curve(points):
    """A curve as a path of SVG."""
    start, *rest = (f"{x:.1f},{y:.1f}" for x, y in points)
    return f"M{start} C{' '.join(rest)}"


def point(points, part):
    """Where a curve is after this part of it."""
    shares = (1 - part) ** 3, 3 * part * (1 - part) ** 2, 3 * part**2 * (1 - part), part**3
    return tuple(sum(share * it[axis] for share, it in zip(shares, points)) for axis in (0, 1))


class Numbers:
    """The numbers of fields, which come on top of lines and boxes. Each stands near the end of its line, clear of the arrow's head."""

    def __init__(self):
        self.out, self.used = [], {}  # `used` has for each box how much of the space below it is taken

    def add(self, source, target, points, words):
        """The number of a field that is drawn along these points."""
        width = len(words) * 6
        if target.x < source.x:  # the lines of all such fields end at one place: their numbers stand beside it
            x = target.x + target.width / 2 + 7 + self.used.get(target.name, 0)
            self.used[target.name] = self.used.get(target.name, 0) + width + 4
            self.out.append((x + width / 2, points[3][1] - 0.5, words))
            return
        end, beside = points[3], target.x == source.x
        for part in range(31, 15, -1):
            x, y = point(points, part / 32)
            if abs(y - end[1]) >= 6 if beside else abs(x - end[0]) >= max(14, 3 + width / 2):
                break
        self.out.append((x + (max(width / 2 - 4, 0) if beside else 0), y, words))

    def draw(self, sheet):
        """Puts them down, each readable on its line."""
        for x, y, words in self.out:
            sheet.text(x, y + 3.5, words, font_size=10, paint_order="stroke", stroke="#fff", stroke_width=3)


def head(sheet, source, target, y, stroke):
    """The arrow's head."""
    if target.x > source.x:
        sheet.path(f"M{target.x:.1f},{y:.1f} l-7,-3.5 v7 Z", stroke, "none")
    elif target.x == source.x:
        sheet.path(f"M{target.x + target.width:.1f},{y:.1f} l7,-3.5 v7 Z", stroke, "none")
    else:
        sheet.path(f"M{target.x + target.width / 2:.1f},{target.y + target.height:.1f} l-3.5,7 h7 Z", stroke, "none")


def draw_edges(sheet, layout):
    """The fields, each as a line; their numbers."""
    boxes, at, numbers = layout.boxes, ports(layout), Numbers()
    for edge in sorted(layout.edges, key=lambda edge: edge.marked):
        source, target = boxes[edge.source], boxes[edge.target]
        y1, y2 = at.get((edge, "leaves"), source.middle), at.get((edge, "arrives"), target.middle)
        stroke = "#000" if edge.marked else GREY
        more = ' stroke-width="3"' if edge.marked else ""
        points, words = curve(source, target, y1, y2), fields_told(edge.fields)
        sheet.path(drawn_curve(points), "none", stroke, more + ("" if edge.strong else ' stroke-dasharray="5 4"'))
        head(sheet, source, target, y2, stroke)
        numbers.add(source, target, points, words)
    return numbers


def draw_roots(sheet, view, layout):
    """The roots, with lines to the objects to which they refer."""
    for box in layout.roots:
        for name in box.targets:
            target = layout.boxes[name]
            is_marked = view.root is not None and name == view.first and (view.root.kind, view.root.mutator) == (box.root.kind, box.root.mutator)
            if target.strip == 0 and target.column == 0:
                stroke = "#000" if is_marked else GREY
                dashes = ' stroke-dasharray="5 4"' if box.root.kind == "list" else ""
                if box.root.kind != "none":
                    sheet.path(drawn_curve(curve(box, target, box.middle, target.middle)), "none", stroke, (' stroke-width="3"' if is_marked else "") + dashes)
                    head(sheet, box, target, target.middle, stroke)
            more = ' rx="9"' + (' stroke-width="3"' if is_marked else "")
            if is_marked or name == box.targets[0]:
                sheet.rect(box.x, box.y, box.width, box.height, "#f0f0f0", more=more)
        for at, words in enumerate(box.lines()):
            sheet.text(box.x + box.width / 2, box.y + 15 + 13 * at, words, font_size=11)


def draw_box(sheet, view, box):
    """An object: its name, its kind, and what is told in words."""
    pattern = FILLS[view.keeper[box.name]]
    node = view.heap.node(box.name)
    is_marked = box.name in view.way or box.name == view.name
    more = (' stroke-width="3"' if is_marked else "") + ("" if node.kind != "weak" else ' stroke-dasharray="5 4"')
    sheet.rect(box.x, box.y, box.width, box.height, "#fff", "none")
    sheet.rect(box.x, box.y, box.width, box.height, sheet.fill(pattern) if pattern else "#fff", more=more)
    rows = [(box.name, 12.5), (node.note if node.kind != "con" else f"{node.note}, {count(len(node.values), 'field')}", 11)]
    for at, (words, size) in enumerate(rows + [(words, 10) for words in box.words]):
        words = fit(words, box.width, size * 0.92)
        y = box.y + 15 + 14 * min(at, 1) + 13 * max(at - 1, 0)
        if pattern:
            half = len(words) * size * 0.29 + 3
            sheet.rect(box.x + box.width / 2 - half, y - size + 1, 2 * half, size + 3, "#fff", "none")
        sheet.text(box.x + box.width / 2, y, words, font_size=size, **({"font_weight": "bold"} if at == 0 else {}))


def draw_levels(sheet, layout):
    """The number of each level above its first column."""
    if layout.roots:
        sheet.text(layout.roots[0].x + 48, layout.roots[0].y - 9, "roots", font_size=11, fill="#555")
    for strip in layout.strips:
        top = min((layout.boxes[name].y for _, names, _ in strip for name in names), default=0)
        for level, names, _ in strip:
            first = layout.boxes[names[0]]
            sheet.text(first.x + first.width / 2, top - 9, f"level {level}", font_size=11, fill="#555")


def key(sheet, view):
    """What patterns and lines mean, as far as they are there."""
    kept = {view.keeper[name] for name in view.names}
    rows = [(KEEPS[it], FILLS[it], "", 1) for it in (FINALISER, WEAK, LOOSE) if it in kept]
    if any(view.heap.kind(name) == "weak" for name in view.names):
        rows.append(("of a weak pointer: 0 is the key, 1 the value, 2 the finaliser", None, ' stroke-dasharray="5 4"', 1))
    if view.way:
        rows.append(("the path", None, "", 3))
    x = 12
    sheet.y += 6 if rows else 0
    for words, pattern, dashes, wide in rows:
        if x + 30 + len(words) * 6.4 > WIDTH - 12:
            x, sheet.y = 12, sheet.y + 20
        if pattern:
            sheet.rect(x, sheet.y - 12, 24, 14, sheet.fill(pattern))
        else:
            sheet.line(x, sheet.y - 5, x + 24, sheet.y - 5, "#000", f' stroke-width="{wide}"{dashes}')
        sheet.text(x + 30, sheet.y, words, "start", font_size=11)
        x += 30 + len(words) * 6.4 + 18
    sheet.y += 18 if rows else 0


def heading(sheet, view, title):
    """Title, how much there is, what was cut, and the path in words."""
    heap = view.heap
    sheet.text(12, 24, fit(title, WIDTH - 24, 15), "start", font_weight="bold", font_size=15)
    plain = sum(word not in heap.lines for own in heap.mutators for _, word in own.registers)
    told = f"{count(len(heap.lines), 'object')}: {kinds_told(heap, heap.lines)}. {count(len(heap.mutators), 'mutator')}."
    if plain:
        told += f" {count(plain, 'register has', 'registers have')} a number."
    sheet.y = 44
    for words in (told, view.cut, view.path_told()):
        if words:
            sheet.paragraph(words, 12)


def layout_of(view, top=0):
    """Where everything stands, from `top` on."""
    return placed(view.heap, view.every, view.names, view.marked, root_boxes(view), top)


def drawn(view, title):
    """The picture, as SVG text."""
    sheet = Sheet("heap", ("finaliser", "weak", "loose"))
    heading(sheet, view, title)
    key(sheet, view)
    layout = layout_of(view, sheet.y)
    numbers = draw_edges(sheet, layout)
    draw_roots(sheet, view, layout)
    for box in layout.boxes.values():
        draw_box(sheet, view, box)
    numbers.draw(sheet)
    draw_levels(sheet, layout)
    sheet.y = layout.bottom
    return sheet.svg(title, " ".join(it for it in (count(len(view.heap.lines), "object"), view.cut, view.path_told()) if it))
