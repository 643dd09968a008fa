"""A run of few rounds: each round and each stop has a place of its own, and says its numbers.

Time goes from left to right, and every round has the same width. Grey bands are stops, at which all mutators stand still.
There is a lane for each mutator (the commands that it did in each round), one for the collector (whether it marked or
swept beside them), one for the cycles (from snapshot over closing to end), one for what was promoted, and an area for the
segments.
"""
from .svg import SIZE, WIDTH, Sheet, alike, first_fitting, fit
from .text import count

LEFT, RIGHT = 128, 16
MOST = 20  # rounds; of more no numbers can be read
GREY, DARK, LIGHT = "#bdbdbd", "#666", "#d9d9d9"


class Rounds(Sheet):
    """The sheet of such a picture: where each stop and each round is."""

    def __init__(self, run, name):
        super().__init__(name, ("marks", "sweeps", "waiting"))
        rounds = max(run.rounds, 1)
        self.run = run
        self.stop_width = min(46, (WIDTH - LEFT - RIGHT) * 0.3 / (rounds + 1))
        self.round_width = (WIDTH - LEFT - RIGHT - self.stop_width * (rounds + 1)) / rounds

    def numbers(self):
        """The numbers of the rounds."""
        return range(self.run.first, self.run.last + 1)

    def stop_left(self, stop):
        """Where the band of a stop begins."""
        return LEFT + (stop - self.run.first + 1) * (self.stop_width + self.round_width)

    def middle(self, stop):
        """Where the middle of a stop's band is."""
        return self.stop_left(stop) + self.stop_width / 2

    def round_left(self, number):
        """Where a round begins."""
        return self.stop_left(number) - self.round_width

    def lane(self, words, *below):
        """The name of the lane that begins at `y`."""
        self.text(LEFT - 12, self.y + 15, words, "end")
        for at, line in enumerate(below):
            self.text(LEFT - 12, self.y + 31 + 13 * at, line, "end", font_size=11)

    def row(self, places, texts, down=15):
        """Texts beside each other, each in the middle of its place."""
        for x, words in zip(places, texts):
            self.text(x, self.y + down, words)


def numbered(numbers):
    """Numbers with commas, and if these are too wide without."""
    return [f"{it:,}" for it in numbers], [str(it) for it in numbers]


def heading(sheet, title):
    """Title, and the numbers of rounds and stops."""
    run = sheet.run
    end = run.left_out or f"end {run.end}"
    sheet.text(12, 24, fit(title, WIDTH - 60 - len(end) * 8, 15), "start", font_weight="bold", font_size=15)
    sheet.text(WIDTH - RIGHT, 24, end, "end")
    sheet.y = 40
    sheet.lane("rounds")
    wide, numbers = sheet.round_width, sheet.numbers()
    told = alike(wide + 8, [f"round {it:,}" for it in numbers], *numbered(numbers))
    sheet.row([sheet.round_left(it) + wide / 2 for it in numbers], told)
    sheet.y += 20
    sheet.lane("stops")
    stops = [stop.number for stop in run.stops]
    told = alike(sheet.stop_width + 12, [f"stop {it:,}" for it in stops], *numbered(stops))
    sheet.row(map(sheet.middle, stops), told)
    sheet.y += 24


def mutators(sheet):
    """A lane for each mutator: a box for each round, as high as it did commands, with their number."""
    run = sheet.run
    height, apart = (30, 12) if len(run.commands) <= 8 else (16, 4)
    every = [commands for row in run.commands for commands in row]
    most, wide = max(every, default=1) or 1, sheet.round_width
    told = iter(alike(wide - 4, *numbered(every), size=10))
    for mutator, row in enumerate(run.commands):
        sheet.lane(f"mutator {mutator}", *(["commands done"] if mutator == 0 and height == 30 else []))
        base = sheet.y + height
        for number, commands, words in zip(sheet.numbers(), row, told):
            left = sheet.round_left(number)
            if commands:
                tall = max(4, height * commands / most)
                sheet.rect(left, base - tall, wide, tall, GREY)
                size = SIZE if height == 30 and first_fitting(wide - 4, (words,)) else 10
                sheet.label(left + wide / 2, base - (9 if height == 30 else 4), wide, words, size=size)
            else:
                sheet.line(left, base, left + wide, base)
        sheet.y += height + apart


def collector(sheet):
    """What the collector did in each round, beside the mutators: the phase that the stop before it told."""
    sheet.lane("collector", "beside them")
    for number in sheet.numbers():
        phase = sheet.run.stop(number - 1).phase
        does = {"marking": "marks", "sweeping": "sweeps"}.get(phase)
        left, wide = sheet.round_left(number), sheet.round_width
        if does:
            sheet.rect(left, sheet.y, wide, 28, sheet.fill(does))
            sheet.label(left + wide / 2, sheet.y + 19, wide, does)
        else:
            sheet.line(left, sheet.y + 28, left + wide, sheet.y + 28)
    sheet.y += 44


def sign(sheet, x, y, shape):
    """The sign of a snapshot (a triangle), a closing (a diamond) or an end (a square)."""
    path = {"snapshot": "-7,-7 H7 L0,7 Z", "closing": "0,-8 L8,0 L0,8 L-8,0 Z", "end": "-6,-6 H6 V6 H-6 Z"}[shape]
    fill = {"snapshot": "#000", "closing": "#fff", "end": "#000"}[shape]
    sheet.put(f'<path d="M{path}" transform="translate({x:.1f},{y:.1f})" fill="{fill}" stroke="#000" stroke-width="1.5"/>')


def places(sheet, cycle):
    """Where a cycle's snapshot, closing and end are drawn: beside each other where they are at one stop."""
    middle, apart = sheet.middle, min(9, sheet.stop_width * 0.45)
    start, closed, end = middle(cycle.start) + apart, middle(cycle.closed), middle(cycle.end) - apart
    if cycle.is_full:
        return closed - 1.6 * apart, closed, closed + 1.6 * apart
    if cycle.closed == cycle.end:
        return start, closed - apart, closed + apart * 0.8
    return start, closed, end


def told(cycle, wide):
    """What a cycle freed and kept, and how many weak pointers died, in one line where it fits, else in two."""
    freed, kept = f"freed {cycle.freed:,}", f"kept {cycle.kept:,}" + (f", dead {cycle.dead:,}" if cycle.dead else "")
    named = freed + (f" ({' '.join(cycle.names)})" if 0 < cycle.freed <= len(cycle.names) else "")
    one = first_fitting(wide - 6, (f"{named}, {kept}", f"{freed}, {kept}"))
    return [one] if one else [first_fitting(wide + 12, (named,)) or freed, kept]


class Bar:
    """A cycle's bar with its words: where its snapshot, closing and end are, and from where to where all of it goes."""

    def __init__(self, sheet, cycle):
        before, after = sheet.middle(sheet.run.first - 1), sheet.middle(sheet.run.last)
        self.cycle = cycle
        self.ways = [min(max(x, before - 23), after + 23) for x in places(sheet, cycle)]
        wide = max(self.ways[2] - self.ways[0], sheet.stop_width + 46 * cycle.is_full)
        kind = "full cycle" if cycle.is_full else "cycle"
        self.title = first_fitting(wide + 8, (f"{kind} {cycle.number:,}", f"cycle {cycle.number:,}")) or f"{cycle.number:,}"
        self.words = told(cycle, wide) if cycle.end <= sheet.run.last else []
        half = max([wide / 2] + [len(words) * SIZE * 0.3 for words in [self.title] + self.words])
        self.middle = min((self.ways[0] + self.ways[2]) / 2, WIDTH - 4 - half)
        self.left, self.right = self.middle - half, self.middle + half

    def draw(self, sheet, top, height):
        """Draws it so high."""
        start, closed, end = self.ways
        sheet.rect(start, top, closed - start, height, sheet.fill("marks"))
        sheet.rect(closed, top, end - closed, height, sheet.fill("sweeps"))
        sheet.text(self.middle, top - 8, self.title, font_weight="bold")
        for at, words in enumerate(self.words):
            sheet.text(self.middle, top + height + 17 + 15 * at, words)
        for x, shape, stop in zip(self.ways, ("snapshot", "closing", "end"), (self.cycle.start, self.cycle.closed, self.cycle.end)):
            if sheet.run.first - 1 <= stop <= sheet.run.last:
                sign(sheet, x, top + height / 2, shape)


def cycles(sheet):
    """Each cycle as a bar from its snapshot to its end, with what it freed and kept; in several rows where words would meet."""
    if not sheet.run.cycles:
        sheet.lane("cycles", "none")
        sheet.y += 44
        return
    sheet.lane("cycles", "snapshot to end")
    top, height, apart, rows = sheet.y + 22, 22, 82, []
    for cycle in sheet.run.cycles:
        bar = Bar(sheet, cycle)
        row = next((at for at, right in enumerate(rows) if bar.left >= right), len(rows))
        rows[row : row + 1] = [bar.right + 4]
        bar.draw(sheet, top + apart * row, height)
    sheet.y = top + height + 48 + apart * max(len(rows) - 1, 0)


def promoted(sheet):
    """How many objects each stop moved from the nurseries into segments."""
    sheet.lane("promoted", "nursery to segment")
    stops = sheet.run.stops
    told = alike(sheet.stop_width + sheet.round_width - 4, *numbered([stop.promoted for stop in stops]))
    sheet.row([sheet.middle(stop.number) for stop in stops], told, 16)
    sheet.y += 44


def area(sheet, base, unit, below, counts, fill):
    """One of the areas on top of each other: a path with a step at the middle of each stop, closed along what lies below."""
    if not any(counts):
        return
    edges = [sheet.middle(stop.number) for stop in sheet.run.stops] + [WIDTH - RIGHT]
    upper, lower = [], []
    for at, (under, height) in enumerate(zip(below, counts)):
        for x in edges[at : at + 2]:
            upper.append(f"{x:.1f},{base - unit * (under + height):.1f}")
            lower.append(f"{x:.1f},{base - unit * under:.1f}")
    sheet.path(f"M{' L'.join(upper + lower[::-1])} Z", fill, more=' stroke-width="0.8"')


def segments_used(run, stops):
    """How many segments are in use at each of these stops, how many the height of their lane stands for, and its words. If few
    are in use, the lane is one higher than the most of them, else as high as all that the heap has."""
    used = [run.segments - stop.free for stop in stops]
    most = max(used)
    top = run.segments if most * 4 >= run.segments else most + 1
    return used, max(top, 1), (f"at most {most:,}", f"of {run.segments:,}")


def segments(sheet):
    """The segments in use as areas, from below: filled, waiting for a sweep, with room."""
    run, height = sheet.run, 96
    used, top, told = segments_used(run, run.stops)
    sheet.lane("segments in use", *told)
    base, unit = sheet.y + 18 + height, height / top
    filled = [stop.filled for stop in run.stops]
    waiting = [stop.waiting for stop in run.stops]
    taken = [a + b for a, b in zip(filled, waiting)]
    area(sheet, base, unit, [0] * len(used), filled, DARK)
    area(sheet, base, unit, filled, waiting, sheet.fill("waiting"))
    area(sheet, base, unit, taken, [a - b for a, b in zip(used, taken)], LIGHT)
    wide = sheet.stop_width + sheet.round_width
    stops = run.stops[: run.rounds]
    told = alike(wide - 4, [f"{stop.free:,} free" for stop in stops], *numbered([stop.free for stop in stops]))
    sheet.row([sheet.middle(stop.number) + wide / 2 for stop in stops], told, 12)
    sheet.path(f"M{LEFT},{base - height:.1f} V{base:.1f} H{WIDTH - RIGHT}")
    sheet.y = base + 30


def key(sheet):
    """What the signs and patterns mean."""
    x, y = 12, sheet.y
    for shape in ("snapshot", "closing", "end"):
        sign(sheet, x + 8, y - 5, shape)
        sheet.text(x + 22, y, shape, "start")
        x += 22 + len(shape) * 8 + 16
    for fill, words in ((DARK, "filled"), (sheet.fill("waiting"), "waiting for a sweep"), (LIGHT, "in use, with room")):
        sheet.rect(x, y - 13, 22, 15, fill)
        sheet.text(x + 28, y, words, "start")
        x += 28 + len(words) * 7.6 + 16
    sheet.rect(x, y - 13, 22, 15, "#ececec", "none")
    sheet.text(x + 28, y, "stop: all stand still", "start")
    sheet.y += 14


def drawn(run, title, name="run"):
    """The picture of a run of `MOST` rounds at most, as SVG text."""
    sheet = Rounds(run, name)
    heading(sheet, title)
    top, behind = sheet.y - 4, len(sheet.out)
    for lane in (mutators, collector, cycles, promoted, segments):
        lane(sheet)
    bands = Sheet("", ())
    for stop in run.stops:
        bands.rect(sheet.stop_left(stop.number), top, sheet.stop_width, sheet.y - 30 - top, "#ececec", "none")
    sheet.out[behind:behind] = bands.out
    key(sheet)
    told = f"{count(run.rounds, 'round')}, {count(len(run.stops), 'stop')}, {count(len(run.cycles), 'cycle')}; end {run.end}"
    return sheet.svg(title, told)
