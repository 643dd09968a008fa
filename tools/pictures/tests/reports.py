"""Reports for tests, of any length, written by the rules of their format: phases, cycles and segments agree."""
import random


class Maker:
    """Writes a report round by round: `round` does one, and `text` is the report."""

    def __init__(self, mutators=4, segments=128, seed=1):
        self.mutators, self.segments, self.draw = mutators, segments, random.Random(seed)
        self.lines, self.number, self.phase, self.serials = ["report 1"], 0, "idle", [0] * mutators
        self.filled, self.waiting, self.cycles, self.start, self.closed, self.kept = 0, 0, 0, 0, 0, 0
        self._stop(0)

    def _stop(self, promoted):
        free = max(self.segments - self.filled - self.waiting - min(self.mutators, self.segments // 4), 0) if self.number else self.segments
        self.lines.append(f"stop {self.number} {self.phase} free {free} filled {self.filled} sweep {self.waiting} promoted {promoted}")

    def _ended(self, start, closed, swept, freed, dead=0):
        self.cycles += 1
        told = f"swept {swept} had {freed + self.kept} freed {freed} kept {self.kept} dead {int(dead)}"
        self.lines.append(f"cycle {self.cycles} from {start} closed {closed} {told}")
        self.lines += [f"dead 0.{at}" for at in range(dead)] + [f"freed 0.{at}" for at in range(freed)]

    def round(self, commands, begins=False, closes=False, sweeps=0, fills=0, freed=0, dead=0, full=False, keeps=None):
        """A round of so many commands for each mutator; at its stop a cycle begins, is closed, or a full one is done."""
        self.number += 1
        self.lines.append(f"round {self.number}")
        for mutator in range(self.mutators):
            for _ in range(commands if isinstance(commands, int) else commands[mutator]):
                self.serials[mutator] += 1
                self.lines.append(f"{mutator} {mutator}.{self.serials[mutator]}")
        self.filled = min(self.filled + fills, self.segments * 3 // 4 - self.waiting)
        self.waiting = max(self.waiting - sweeps, 0)
        ended = self.phase == "sweeping" and self.waiting == 0
        self.kept = self.kept if keeps is None else keeps
        if begins and self.phase == "idle":
            self.phase, self.start, self.waiting, self.filled = "marking", self.number, self.filled, 0
        elif closes and self.phase == "marking":
            self.phase, self.closed = "sweeping", self.number
        if ended:
            self.phase = "idle"
        self._stop(min(fills * 8, 1000))
        if ended:
            self._ended(self.start, self.closed, 0, freed, dead)
        if full and self.phase == "idle":
            self._ended(self.number, self.number, self.filled, freed, dead)

    def text(self, end="done"):
        return "\n".join(self.lines + [f"end {end}"]) + "\n"


def short_cycles(rounds, mutators=4, commands=1, seed=1):
    """A run of so many rounds, in which a cycle goes over three of them, and every 97th round has a full cycle."""
    maker = Maker(mutators, 4096, seed)
    for at in range(rounds):
        step = at % 5
        drawn = maker.draw.randrange(commands + 1)
        maker.round(drawn, step == 0, step == 1, 9 if step in (2, 3) else 0, 1, drawn, step == 3 and at % 3 == 0, at % 97 == 4, at // 5 + 40)
    return maker.text()


def long_cycles(rounds, each, mutators=2):
    """A run of so many rounds, in which each cycle goes over so many: half of them it marks, and then it sweeps."""
    maker = Maker(mutators, 1024)
    for at in range(rounds):
        step = at % each
        maker.round(step % 3, step == 0, step == each // 2, 1 if step > each // 2 else 0, 1 if step % 4 == 0 else 0, 5, 0, False, 100 + at % 1000)
        if step == each - 2:
            maker.waiting = 0
    return maker.text()


def full_heap(rounds):
    """A run that ends with a full heap, after full cycles that freed less and less."""
    maker = Maker(1, 64)
    for at in range(rounds):
        maker.round(3, fills=1 if maker.filled < 60 else 0, full=maker.filled > 40, freed=max(0, 80 - at), keeps=at * 4)
    return maker.text("heapfull free 3 reserve 17")


def bench(batches):
    """The report of the script of `nmgc bench N` (docs/FORMATS.md), as its rules tell it.

    In a round each of four mutators fills a segment with a list, and drops the list before. A cycle begins with every eighth
    segment that is filled; it marks in the round after, and sweeps in the next one.
    """
    cells, lines, filled, waiting = 1024, ["report 1", "stop 0 idle free 128 filled 0 sweep 0 promoted 0"], [], []
    number, phase, start, fresh, cycles, used = 0, "idle", 0, 0, 0, 0
    while number < batches or phase != "idle":
        number += 1
        lines.append(f"round {number}")
        for mutator in range(4 if number <= batches else 0):
            lines += [f"{mutator} ok"] * (number == 1)
            lines += [f"{mutator} {mutator}.{serial}" for serial in range((number - 1) * cells, number * cells)]
            lines += [f"{mutator} ok"] * (1 + (number < batches))
        if number <= batches:
            filled.append(number)
            fresh, used = fresh + 4, used + 4
        told = []
        if phase == "marking":
            phase = "sweeping"
        elif phase == "sweeping":
            freed, cycles, phase = [it for it in waiting if it < start], cycles + 1, "idle"
            had = 4 * cells * len(waiting)
            told = [f"cycle {cycles} from {start} closed {start + 1} swept {4 * len(waiting)} had {had} freed {had - 4 * cells} kept {4 * cells} dead 0"]
            told += [f"freed {mutator}.{serial}" for mutator in range(4) for it in freed for serial in range((it - 1) * cells, it * cells)]
            filled, waiting, used = [it for it in waiting if it == start] + filled, [], used - 4 * len(freed)
        if phase == "idle" and fresh >= 8:
            phase, start, fresh, filled, waiting = "marking", number, 0, [], filled
        promoted = 4 * cells if number <= batches else 0
        lines.append(f"stop {number} {phase} free {128 - used} filled {4 * len(filled)} sweep {4 * len(waiting)} promoted {promoted}")
        lines += told
    return "\n".join(lines + ["end done"]) + "\n"
