"""A long run: its rounds gathered into columns, so that 100,000 of them fit into the width of a page.

A column has so many rounds, each with the stop after it; the first one has stop 0 too. What is counted is summed over a
column: commands, promoted and freed objects. Of what is a state at a stop, the segments, the stop with the fewest free
ones is shown, so that no peak is lost; of what the collector did, in how many of the column's rounds it did it.

A cycle that is wide enough is drawn as a bar of its own. Of narrower ones, neighbours are gathered in a box with their
number. How much they freed and kept is in lanes below, column by column.
"""
from .rounds import DARK, GREY, LIGHT, segments_used, sign
from .svg import SIZE, WIDTH, Sheet, first_fitting, fit
from .text import count

LEFT, RIGHT = 128, 16
LEAST = 4  # pixels of a column
BAR = 9  # pixels: a narrower cycle is gathered with its neighbours
BOX = 46  # pixels that a box of gathered cycles is to have


class Columns(Sheet):
    """The sheet of such a picture: which rounds are in which column, and where a stop is."""

    def __init__(self, run, name):
        super().__init__(name, ("marks", "sweeps", "waiting"))
        room = (WIDTH - LEFT - RIGHT) // LEAST
        self.run, self.labelled = run, 0  # up to where cycles have a label
        self.gathered = -(-run.rounds // room)
        self.columns = -(-run.rounds // self.gathered)
        self.width = (WIDTH - LEFT - RIGHT) / (run.rounds / self.gathered)

    def x(self, stop):
        """Where a stop is: at the end of its round."""
        at = (stop - self.run.first + 1) / self.gathered * self.width
        return LEFT + min(max(at, 0), WIDTH - LEFT - RIGHT)

    def column(self, stop):
        """The column of a stop, which is that of its round."""
        return max(stop - self.run.first, 0) // self.gathered

    def edges(self):
        """Where each column begins, and where the last one ends."""
        return [min(LEFT + at * self.width, WIDTH - RIGHT) for at in range(self.columns + 1)]

    def rounds_of(self, column):
        """The places of the column's rounds among those of the run."""
        return range(column * self.gathered, min((column + 1) * self.gathered, self.run.rounds))

    def sums(self, row):
        """For each column the sum of what there is for its rounds."""
        return [sum(row[at * self.gathered : (at + 1) * self.gathered]) for at in range(self.columns)]

    def lane(self, words, *below):
        """The name of the lane that begins at `y`."""
        self.text(LEFT - 12, self.y + 13, words, "end")
        for at, line in enumerate(below):
            self.text(LEFT - 12, self.y + 27 + 13 * at, line, "end", font_size=11)

    def area(self, base, unit, below, counts, fill):
        """Counts of the columns as an area with steps, on what lies below; columns without any leave a gap."""
        edges, parts, at = self.edges(), [], 0
        while at < len(counts):
            if not counts[at]:
                at += 1
                continue
            upper, lower = [], []
            while at < len(counts) and counts[at]:
                for x in edges[at : at + 2]:
                    upper.append(f"{x:.1f},{base - unit * (below[at] + counts[at]):.1f}")
                    lower.append(f"{x:.1f},{base - unit * below[at]:.1f}")
                at += 1
            parts.append(f"M{' L'.join(upper + lower[::-1])} Z")
        if parts:
            self.path(" ".join(parts), fill, more=' stroke-width="0.6"')

    def bars(self, name, counts, height, fill=GREY, what=""):
        """A lane of counts, with its name and how many there are at most."""
        most = max(counts, default=0)
        self.lane(name, *((what,) if what else ()), f"at most {most:,}")
        base = self.y + height
        self.area(base, height / max(most, 1), [0] * len(counts), [max(it, most / height) if it else 0 for it in counts], fill)
        self.line(LEFT, base, WIDTH - RIGHT, base)
        self.y = base + 14


def step(rounds, width, apart=64):
    """A round number of rounds, so that as many are at least so far apart."""
    least, unit = apart * rounds / width, 1
    while True:
        for times in (1, 2, 5):
            if unit * times >= least:
                return unit * times
        unit *= 10


def heading(sheet, title):
    """Title, what a column is, and the numbers of rounds."""
    run = sheet.run
    end = run.left_out or f"end {run.end}"
    sheet.text(12, 24, fit(title, WIDTH - 60 - len(end) * 8, 15), "start", font_weight="bold", font_size=15)
    sheet.text(WIDTH - RIGHT, 24, end, "end")
    gathered = f"{count(sheet.gathered, 'round')} and the {'stop after it' if sheet.gathered == 1 else 'stops after them'}"
    longest = max(run.cycles, key=lambda cycle: cycle.stops, default=None)
    most = f"; the longest is cycle {longest.number:,}, over {count(longest.stops, 'stop')}" if longest and longest.stops else ""
    sheet.text(12, 44, f"{count(run.rounds, 'round')}, {count(len(run.cycles), 'cycle')}{most}", "start")
    sheet.text(12, 62, f"A column is {gathered}", "start")
    sheet.y = 72
    sheet.lane("rounds")
    apart = step(run.rounds, WIDTH - LEFT - RIGHT)
    for number in range(-(-(run.first - 1) // apart) * apart, run.last + 1, apart):
        x = sheet.x(number)
        sheet.line(x, sheet.y + 18, x, sheet.y + 24, "#000")
        words = f"{number:,}"
        if x + len(words) * SIZE * 0.3 < WIDTH - 4:
            sheet.text(x, sheet.y + 13, words)
    sheet.line(LEFT, sheet.y + 24, WIDTH - RIGHT, sheet.y + 24, "#000")
    sheet.y += 34


def mutators(sheet):
    """A lane for each mutator: how many commands it did in each column."""
    rows = [sheet.sums(row) for row in sheet.run.commands]
    if not rows:
        return
    most = max(max(row) for row in rows) or 1
    height, apart = (26, 10) if len(rows) <= 8 else (13, 4)
    for mutator, row in enumerate(rows):
        sheet.lane(f"mutator {mutator}")
        base = sheet.y + height
        sheet.area(base, height / most, [0] * len(row), [max(it, most / height) if it else 0 for it in row], GREY)
        sheet.line(LEFT, base, WIDTH - RIGHT, base)
        sheet.y = base + apart
    sheet.text(LEFT, base + 15, f"commands done: at most {most:,} by a mutator in a column", "start", font_size=11)
    sheet.y = base + 26


def collector(sheet):
    """In how many rounds of each column the collector marked, and in how many it swept."""
    sheet.lane("collector", "beside them")
    phases = [stop.phase for stop in sheet.run.stops]
    counts = {phase: sheet.sums([phase == it for it in phases[:-1]]) for phase in ("marking", "sweeping")}
    height, base = 28, sheet.y + 28
    sizes = [len(sheet.rounds_of(at)) for at in range(sheet.columns)]
    marks, sweeps = ([height * it / size for it, size in zip(counts[phase], sizes)] for phase in ("marking", "sweeping"))
    sheet.area(base, 1, [0] * len(sizes), marks, sheet.fill("marks"))
    sheet.area(base, 1, marks, sweeps, sheet.fill("sweeps"))
    sheet.line(LEFT, base, WIDTH - RIGHT, base)
    sheet.y = base + 14


def boxes(sheet, cycles):
    """Cycles in order, each alone in a list, or with its neighbours where it is too narrow."""
    found, narrow = [], []
    for cycle in cycles:
        if sheet.x(cycle.end) - sheet.x(cycle.start) >= BAR:
            found += [narrow, [cycle]] if narrow else [[cycle]]
            narrow = []
        else:
            narrow.append(cycle)
            if sheet.x(narrow[-1].end) - sheet.x(narrow[0].start) >= BOX:
                found.append(narrow)
                narrow = []
    return found + ([narrow] if narrow else [])


def bar(sheet, cycle, top, height):
    """A cycle that is wide enough: from its snapshot on it marks, and from its closing on it sweeps."""
    start, closed, end = sheet.x(cycle.start), sheet.x(cycle.closed), sheet.x(cycle.end)
    sheet.rect(start, top, closed - start, height, sheet.fill("marks"))
    sheet.rect(closed, top, end - closed, height, sheet.fill("sweeps"))
    words = first_fitting(end - start, (f"cycle {cycle.number:,}",), 11) or f"{cycle.number}"
    middle, half = (start + end) / 2, len(words) * 3.6
    if middle - half >= sheet.labelled:
        sheet.text(middle, top - 5, words, font_size=11, font_weight="bold")
        sheet.labelled = middle + half + 5
    if end - start >= 44:
        for x, shape, stop in ((start, "snapshot", cycle.start), (closed, "closing", cycle.closed), (end, "end", cycle.end)):
            if sheet.run.first - 1 <= stop <= sheet.run.last:
                sign(sheet, x, top + height / 2, shape)
    else:
        sheet.path(f"M{start - 3:.1f},{top - 3:.1f} h6 l-3,5 Z", "#000")


def full_sign(sheet, x, top, height):
    """The sign of a full cycle, which is done at one stop."""
    sheet.path(f"M{x - 3:.1f},{top - 5:.1f} h6 v6 h-2 v{height} h-2 v-{height} h-2 Z", "#000", "none")


def box(sheet, cycles, top, height):
    """Cycles that are too narrow, as one box with their number; full cycles alone are a line each."""
    start, end = sheet.x(cycles[0].start), sheet.x(cycles[-1].end)
    full = sum(cycle.is_full for cycle in cycles)
    if full == len(cycles) and end - start < BAR:
        full_sign(sheet, end, top, height)
        return
    sheet.rect(start, top, max(end - start, 2), height, LIGHT)
    words = (f"{len(cycles):,} {'full' if full == len(cycles) else 'cycles'}", f"{len(cycles):,}")
    sheet.label((start + end) / 2, top + height / 2 + 4, end - start + 6, *words, size=11)


def cycles(sheet):
    """The cycles, one by one or gathered; and what they freed, kept and found dead, by the columns in which they ended."""
    run = sheet.run
    if not run.cycles:
        return
    sheet.lane("cycles", "snapshot to end")
    top, height = sheet.y + 16, 22
    for gathered in boxes(sheet, run.cycles):
        if len(gathered) == 1 and sheet.x(gathered[0].end) - sheet.x(gathered[0].start) >= BAR:
            bar(sheet, gathered[0], top, height)
        else:
            box(sheet, gathered, top, height)
    sheet.y = top + height + 16
    freed, dead, kept = [0] * sheet.columns, [0] * sheet.columns, [0] * sheet.columns
    ended = [cycle for cycle in run.cycles if run.first - 1 <= cycle.end <= run.last]
    for cycle in ended:
        at = sheet.column(cycle.end)
        freed[at] += cycle.freed
        dead[at] += cycle.dead
    for cycle, after in zip(ended, ended[1:] + [None]):
        until = sheet.column(after.end) if after else sheet.columns
        for at in range(sheet.column(cycle.end), max(until, sheet.column(cycle.end) + 1)):
            kept[at] = cycle.kept
    sheet.bars("freed", freed, 34, what="as cycles end")
    sheet.bars("kept", kept, 34, LIGHT, what="by the last cycle")
    if any(dead):
        sheet.bars("weak pointers", dead, 34, what="that died")


def promoted(sheet):
    """How many objects moved from the nurseries into segments."""
    counts = sheet.sums([stop.promoted for stop in sheet.run.stops[1:]])
    counts[0] += sheet.run.stops[0].promoted if sheet.run.first == 1 else 0
    sheet.bars("promoted", counts, 34, what="into segments")


def segments(sheet):
    """The segments at that stop of each column at which the fewest are free: filled, waiting, in use with room."""
    run, height = sheet.run, 96
    shown = [min((run.stops[at + 1] for at in sheet.rounds_of(column)), key=lambda stop: stop.free) for column in range(sheet.columns)]
    used, top, told = segments_used(run, shown)
    sheet.lane("segments in use", *told)
    base, unit = sheet.y + 4 + height, height / top
    filled, waiting = [stop.filled for stop in shown], [stop.waiting for stop in shown]
    taken = [a + b for a, b in zip(filled, waiting)]
    sheet.area(base, unit, [0] * len(used), filled, DARK)
    sheet.area(base, unit, filled, waiting, sheet.fill("waiting"))
    sheet.area(base, unit, taken, [a - b for a, b in zip(used, taken)], LIGHT)
    sheet.path(f"M{LEFT},{base - height:.1f} V{base:.1f} H{WIDTH - RIGHT}")
    sheet.y = base + 30


def key(sheet):
    """What the patterns mean, and what was gathered."""
    x, y = 12, sheet.y
    fills = (("marks", "marks"), ("sweeps", "sweeps"), (DARK, "filled"), ("waiting", "waiting for a sweep"), (LIGHT, "in use, with room"))
    for fill, words in fills:
        sheet.rect(x, y - 13, 22, 15, fill if fill.startswith("#") else sheet.fill(fill))
        sheet.text(x + 28, y, words, "start")
        x += 28 + len(words) * 7.6 + 16
    full = sum(cycle.is_full for cycle in sheet.run.cycles)
    if full:
        full_sign(sheet, x + 6, y - 11, 14)
        sheet.text(x + 14, y, f"full cycles: {full:,}", "start")
    sheet.y += 22
    if sheet.gathered > 1:
        told = "Commands, promoted, freed and dead are sums over a column. Of the segments that stop of a column is shown at which the"
        sheet.paragraph(told + " fewest are free. Cycles that are too narrow for a bar stand in boxes, with how many they are.")
    sheet.y -= 4


def drawn(run, title, name="run"):
    """The picture of a run of any length but without no round at all, as SVG text."""
    sheet = Columns(run, name)
    heading(sheet, title)
    for lane in (mutators, collector, cycles, promoted, segments, key):
        lane(sheet)
    told = ", ".join(count(number, thing) for number, thing in ((run.rounds, "round"), (len(run.stops), "stop"), (len(run.cycles), "cycle")))
    told += f"; {count(sheet.gathered, 'round')} in a column; end {run.end}"
    return sheet.svg(title, told)
