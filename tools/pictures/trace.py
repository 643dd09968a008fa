"""A trace of format 2 (docs/GUIDE.md, "Check a barrier by a trace"), watched event by event.

It tells the same as `nmgc_trace`, and keeps what a picture of the refused line needs: the snapshot, the heap as it is there,
and for a name that is due the field or the weak pointer from which it went.
"""
from typing import NamedTuple, Optional

from .paths import search
from .paths import live as live_by
from .text import is_number, order
from .world import BELOW, REGISTER, World, command_of, is_answer, is_told_name

HEAD = "trace 2"
MUTATORS = 32
# The answers of commands that weren't done.
REFUSALS = ("nopointer", "nofield", "wrongkind", "notowner", "fixed", "dead", "none", "stackfull", "stackempty", "already", "no", "yes", "updated")
# The operands that a command reads: the place of the first after the verb, from 0 on, and the place of an index among them.
OPERANDS = {
    "set": (0, 1), "cas": (0, 1), "get": (1, 2), "con": (2, None), "arr": (2, None), "update": (0, None), "push": (0, None),
    "show": (0, None), "same": (0, None), "force": (1, None), "pop": (1, None), "deref": (1, None), "finalise": (1, None),
    "tag": (1, None), "mov": (1, None), "var": (1, None), "rec": (1, None), "thunk": (1, None), "weak": (1, None),
}


class Debt(NamedTuple):
    """A name that is due since a line: by which command, from which object it went, from which of its fields, the line's text, and
    whether it went into that field instead."""

    name: str
    line: int
    mutator: int
    command: str
    source: str
    field: Optional[int]
    text: str = ""
    stored: bool = False


class Refusal(NamedTuple):
    """The line that can't happen: its number and words, why, of which sort the reason is, and the name that it speaks of."""

    line: int
    words: str
    told: str
    sort: str
    name: Optional[str]
    debt: Optional[Debt]
    answer: Optional[str]
    reason: Optional[str]


class Refused(Exception):
    """Ends the watch at a line: the sort of the reason, its words, its name, its debt, what the heap answers, and for a trace of
    the first format what stands against it."""

    def __init__(self, sort, told, name=None, debt=None, answer=None, reason=None):
        super().__init__(told)
        self.sort, self.told, self.name, self.debt, self.answer, self.reason = sort, told, name, debt, answer, reason


class Watch:
    """How far a trace has come. `phase` is nothing, between, marking, ended or stopped."""

    def __init__(self):
        self.phase, self.world, self.snapshot, self.mark_line = "nothing", None, None, 0
        self.debts, self.pushed, self.told_taken, self.opened, self.finalised = [], {}, set(), [], set()
        self.kept, self.needed, self.unscanned, self.refusal = set(), set(), set(), None
        self.text, self.cycles, self.commands, self.pushes, self.dues = "", 0, 0, 0, 0

    def event(self, number, text):
        """Does a line; raises `Refused` where it can't happen."""
        word, _, rest = text.partition(" ")
        if text == "" or text.startswith("#") or (number == 1 and text == HEAD):
            return
        self.text = text
        event = getattr(self, f"_{word}", None) if word.isalpha() else None
        if event is None:
            self.command(number, word, rest)
        else:
            event(number, rest, " " in text)

    def in_phase(self, *phases):
        """Refuses a line that can't stand there."""
        if self.phase not in phases:
            raise Refused("place", "can't stand there")

    def command(self, number, word, rest):
        """`M COMMAND = ANSWER`."""
        rows = rows_of(rest) if is_number(word, 256) else None
        hand = hand_of(rest) if is_number(word, 256) else None
        if hand is not None:
            self.in_phase("between", "marking", "ended")
            self.hand(number, int(word), *hand)
            self.commands += 1
            return
        if rows is not None:
            self.in_phase("between", "marking", "ended")
            self.has_mutator(int(word))
            self.tasks(number, int(word), *rows)
            self.commands += 1
            return
        mutator, words = self.words_of(word, rest)
        self.in_phase("between", "marking", "ended")
        self.give(number, mutator, words, rest.partition(" = ")[2])
        self.commands += 1

    def words_of(self, word, rest):
        """The mutator and the words of a command that has an answer."""
        command, equals, answer = rest.partition(" = ")
        words = command_of(command) if is_number(word, 256) and equals else None
        if words is None or not is_answer(answer):
            raise unknown()
        return int(word), words

    def has_mutator(self, mutator):
        """Refuses a line of a mutator that isn't there."""
        if mutator >= len(self.world.serials):
            raise Refused("words", "can't happen: there is no such mutator or register")

    def give(self, number, mutator, words, answer):
        """A mutator gives a command, with this answer, or with any that is no refusal."""
        if not self.world.can_apply(mutator):
            raise Refused("words", "can't happen: there is no such mutator or register")
        effect = self.world.effect(mutator, words)
        if effect.reply in REFUSALS if answer is None else effect.reply != answer:
            raise Refused("answer", f"can't happen: the heap answers {effect.reply}", self.world.object_of(mutator, words), None, effect.reply)
        if self.phase == "marking":
            self.due(number, mutator, words, effect)
        self.world.apply(mutator, effect)

    def tasks(self, number, mutator, borrowed, tasks):
        """A mutator gives several commands, each with its answer, if it has one. Then borrowed registers get their values back."""
        registers = self.world.registers[mutator]
        held = [registers[at] for at in borrowed]
        try:
            for words, answer in tasks:
                self.give(number, mutator, words, answer)
        finally:
            for at, value in zip(borrowed, held):
                registers[at] = value

    def hand(self, number, mutator, value, taker, register, answer):
        """A mutator's value goes into a register of another, past all objects."""
        if not self.world.can_apply(mutator) or taker >= len(self.world.serials):
            raise Refused("words", "can't happen: there is no such mutator or register")
        if answer != "ok":
            raise Refused("answer", "can't happen: the heap answers ok", None, None, "ok")
        target = self.world.value(mutator, value)
        if self.phase == "marking" and mutator in self.unscanned and taker not in self.unscanned and self.may_be_due(target):
            self.opened.append(target)
            self.dues += 1
            self.debts.append(Debt(target, number, mutator, f"hand {value} {taker} {register}", None, None, self.text, True))
        self.world.registers[taker][int(register[1:])] = target

    def due(self, number, mutator, words, effect):
        """Notes what a command makes due, opens and finalises, before it is done."""
        command, name = " ".join(words), self.world.object_of(mutator, words)
        lost = self.lost(name, effect) if effect.words is not None and name in self.world.lines else []
        parts = self.world.lines.get(name, "").split(" ")
        opens = []
        if words[0] in ("deref", "finalise") and parts[0] == "weak" and len(parts) == 4:
            opens = [(parts[2], name, 1)] + ([(parts[3], name, 2)] if words[0] == "finalise" else [])
            self.opened += [value for value, _, _ in opens if "." in value or value == "g"]
        then = self.snapshot.lines.get(name, "").split(" ")
        kept = []
        if words[0] == "finalise" and len(parts) == 4 and parts[0] == "weak":
            self.finalised.add(name)
            if len(then) == 4 and then[0] == "weak":
                kept = [(name, name, None), (then[2], name, 1), (then[3], name, 2)]
        stored = [it for it in _stored(self.world.lines.get(effect.name), effect) if self.may_be_due(it[0])] if mutator in self.unscanned else []
        self.opened += [target for target, _, _ in stored]
        came = lost + opens + kept + stored
        self.dues += len({target for target, _, _ in came if self.may_be_due(target)})
        for at, (target, source, field) in enumerate(came):
            if self.may_be_due(target):
                is_stored = at >= len(lost + opens + kept)
                self.debts.append(Debt(target, number, mutator, command, source, field, self.text, is_stored))

    def may_be_due(self, target):
        """Whether a value is an object of the snapshot, and not g."""
        return target != "g" and target in self.snapshot.lines

    def lost(self, name, effect):
        """The fields of the snapshot that stand in the object, and don't once it has other words."""
        then, now = _strong(self.snapshot.lines.get(name)), _strong(self.world.lines[name])
        after = _strong(effect.words)
        return [(target, name, field) for field, target in sorted(then.items()) if now.get(field) == target and after.get(field) != target]

    def unpaid(self, mutator=None):
        """The earliest debt that nobody remembered: of the least line and, of that line, of the first name. Those that are paid
        leave the list."""
        self.debts = [it for it in self.debts if it.name not in self.pushed]
        left = [it for it in self.debts if mutator in (None, it.mutator)]
        return min(left, key=lambda it: (it.line, order(it.name)), default=None)

    def pay(self, mutator=None):
        """Refuses a line where something is due."""
        debt = self.unpaid(mutator)
        if debt:
            told = f"can't happen: {debt.name} is due since line {debt.line} ({debt.text}), and nobody remembered it"
            raise Refused("due", told, debt.name, debt)

    def _mutators(self, number, rest, more):
        if not is_number(rest, 256):
            raise unknown()
        if self.phase != "nothing" or not 1 <= int(rest) <= MUTATORS:
            raise Refused("place", "can't stand there")
        self.phase, self.world = "between", World(int(rest))

    def _mark(self, number, rest, more):
        if more and rest != "g":
            raise unknown()
        self.in_phase("between", "ended")
        self.phase, self.mark_line, self.snapshot = "marking", number, self.world.copy()
        self.unscanned = set(range(len(self.world.serials))) if more else set()
        if more:
            self.snapshot.registers = [["nil"] * len(row) for row in self.world.registers]
        self.debts, self.pushed, self.told_taken, self.opened, self.finalised = [], {}, set(), [], set()

    def _scan(self, number, rest, more):
        if not is_number(rest, 256):
            raise unknown()
        self.in_phase("marking")
        self.has_mutator(int(rest))
        if int(rest) not in self.unscanned:
            raise Refused("place", "can't stand there")
        self.unscanned.discard(int(rest))
        self.opened += [value for value in self.world.registers[int(rest)] if value in self.snapshot.lines]

    def _ended(self, number, rest, more):
        if not is_number(rest, 256):
            raise unknown()
        self.in_phase("between", "marking", "ended")
        self.has_mutator(int(rest))
        if not self.world.can_apply(int(rest)):
            raise Refused("words", "can't happen: there is no such mutator or register")
        self.world.registers[int(rest)] = ["nil"] * len(self.world.registers[int(rest)])
        self.unscanned.discard(int(rest))

    def _push(self, number, rest, more):
        who, _, name = rest.partition(" ")
        if not (who == "-" or is_number(who, 256)) or not is_told_name(name):
            raise unknown()
        self.in_phase("marking")
        if name not in self.world.lines:
            raise Refused("name", f"can't happen: the heap has no {name}", name)
        self.pushed[name] = number
        self.pushes += 1

    def _settle(self, number, rest, more):
        if not is_number(rest, 256):
            raise unknown()
        self.in_phase("marking")
        self.has_mutator(int(rest))
        self.pay(int(rest))

    def _take(self, number, rest, more):
        if not is_told_name(rest):
            raise unknown()
        self.in_phase("marking")
        if rest not in self.pushed or rest not in self.snapshot.lines:
            raise Refused("take", f"can't happen: {rest} wasn't pushed, or was made since the cycle began", rest)
        self.told_taken.add(rest)

    def _close(self, number, rest, more):
        told = _names(rest) if more else None
        self.in_phase("marking")
        if self.unscanned:
            raise Refused("unscanned", f"can't happen: mutator {min(self.unscanned)} wasn't scanned")
        self.pay()
        flying = [name for name in self.pushed if name in self.snapshot.lines and name != "g" and name not in self.told_taken]
        if self.told_taken and flying:
            first = min(flying, key=order)
            raise Refused("untaken", f"can't happen: nobody took {first}", first)
        live, dead = self.outcome(self.opened + sorted(self.pushed))
        dead = dead if told is None else set(told)
        needed, sure = self.outcome(self.opened + self.keys_left(dead))
        wrong = next((name for name in told or [] if name not in sure), None)
        if wrong:
            raise Refused("dead", f"can't happen: {wrong} isn't dead", wrong)
        self.kept, self.needed = live, needed
        for name in sorted(dead, key=order):
            self.world.kill(name)
        self.phase = "ended"
        self.cycles += 1

    def outcome(self, extra):
        """What the snapshot keeps with these names beside its roots, and which of its weak pointers die."""
        heap = self.snapshot.heap()
        live, dying = live_by(heap, search(heap), [name for name in extra if name in heap.lines])
        dead = [name for name in dying if name not in self.finalised]
        kept = live_by(heap, live, [heap.node(name).values[2] for name in dead if heap.node(name).values[2] in heap.lines], False)[0]
        return kept, set(dead)

    def keys_left(self, dead):
        """The keys of the snapshot's weak pointers that live on where these die."""
        parts = {name: words.split(" ") for name, words in self.snapshot.lines.items() if words.startswith("weak ")}
        return [it[1] for name, it in parts.items() if len(it) == 4 and name not in dead and name not in self.finalised]

    def _black(self, number, rest, more):
        names = _names(rest)
        self.in_phase("ended")
        unknown_name = next((name for name in names if name not in self.world.lines), None)
        if unknown_name:
            raise Refused("name", f"can't happen: the heap has no {unknown_name}", unknown_name)
        self.compare([name for name in names if name in self.snapshot.lines])

    def _marked(self, number, rest, more):
        names = _names(rest)
        self.in_phase("ended")
        self.compare(names)

    def compare(self, names):
        """Refuses names that aren't exactly those that the cycle kept."""
        told = set(names)
        missing = min(self.kept - told, key=order, default=None)
        if missing:
            raise Refused("told", f"can't happen: {missing} has to be marked", missing)
        wrong = next((name for name in names if name not in self.kept), None)
        if wrong:
            raise Refused("marked", f"can't happen: {wrong} isn't kept, or was made since the cycle began", wrong)

    def _freed(self, number, rest, more):
        names = _names(rest)
        self.in_phase("ended")
        for name in names:
            if name not in self.world.lines:
                raise Refused("name", f"can't happen: the heap has no {name}", name)
            if name not in self.snapshot.lines:
                raise Refused("new", f"can't happen: {name} was made since the cycle began", name)
            if name in self.needed:
                raise Refused("needed", f"can't happen: {name} is needed", name)

    def _stop(self, number, rest, more):
        if more:
            raise unknown()
        self.in_phase("ended")
        self.phase = "stopped"

    def told(self):
        """What a trace comes to whose lines can all happen."""
        if self.phase == "marking":
            return "a cycle goes on"
        if self.phase == "ended":
            return "each line can happen, but there is no stop"
        return f"each line can happen: {self.counts()}" if self.phase == "stopped" else "nothing is marked"

    def counts(self):
        """How much the trace tells, and how often something came due."""
        due = "once" if self.dues == 1 else f"{self.dues} times"
        tried = f"something came due {due}" if self.dues else "nothing came due, so no barrier was tried"
        push = "push" if self.pushes == 1 else "pushes"
        return f"{_count(self.cycles, 'cycle')}, {_count(self.commands, 'command')}, {self.pushes} {push}; {tried}"


def unknown():
    """The line is none of a trace."""
    return Refused("words", "is none of a trace")


def rows_of(rest):
    """The registers that a line borrows, and its commands with their answers, if it is a copy, a fill, an exchange, or a command with
    numbers or nil as operands."""
    command, equals, answer = rest.partition(" = ")
    words = command.split(" ")
    if not equals or not is_answer(answer):
        return None
    if words[0] == "swap" and len(words) == 5:
        return swap_of(*words[1:], answer)
    if command_of(command) is None and words[0] in OPERANDS:
        return immediates_of(words[0], words[1:], answer)
    if answer != "ok":
        return None
    if words[0] == "copy" and len(words) == 8 and words[6] == "via":
        return copy_of(*words[1:6], words[7], [])
    if words[0] == "copy" and len(words) == 6 and _are_operands(words[1], words[3]):
        register = spare(words[1], words[3])
        return copy_of(*words[1:], f"r{register}", [register])
    if words[0] == "fill" and len(words) == 5:
        return fill_of(*words[1:])
    return None


def swap_of(dest, source, index, value, answer):
    """An exchange. A refused one is a store that is refused."""
    if not (REGISTER.fullmatch(dest) and _are_operands(source) and _are_indices(index)):
        return None
    lender = spare(dest, source)
    borrowed, tasks = load_of(lender, value)
    stored = f"r{lender}" if borrowed else value
    if not _are_operands(stored):
        return None
    via = spare(dest, source, stored)
    if answer in ("nopointer", "nofield", "wrongkind", "fixed"):
        return borrowed + [via], tasks + [(["set", source, index, stored], answer)]
    tasks += [(["get", f"r{via}", source, index], answer), (["set", source, index, stored], None), (["mov", dest, f"r{via}"], None)]
    return borrowed + [via], tasks


def immediates_of(verb, words, answer):
    """A command with a register for each number or nil that is an operand."""
    spared = [at for at in range(64) if f"r{at}" not in words]
    borrowed, tasks, written = [], [], [verb]
    for place, word in enumerate(words):
        register, loads = load_of(spared[-1], word) if spared and is_read(verb, place) else ([], [])
        written.append(f"r{spared.pop()}" if register else word)
        borrowed += register
        tasks += loads
    command = command_of(" ".join(written))
    return None if command is None else (borrowed, tasks + [(command, answer)])


def is_read(verb, place):
    """Whether the word at this place after the verb is an operand that is read; the first place is 0."""
    first, index = OPERANDS[verb]
    return place >= first and place != index


def copy_of(to, place, source, first, count, register, borrowed):
    """A copy through a register: downwards if the fields move up."""
    if not (_are_operands(to, source) and REGISTER.fullmatch(register) and _are_indices(place, first, count)):
        return None
    turns = range(int(count))
    tasks = []
    for at in reversed(turns) if int(place) > int(first) else turns:
        tasks.append((["get", register, source, str(int(first) + at)], None))
        tasks.append((["set", to, str(int(place) + at), register], None))
    return borrowed, tasks


def fill_of(to, first, count, value):
    """A fill with an operand, a number or nil."""
    if not (_are_operands(to) and _are_indices(first, count)):
        return None
    lender = spare(to)
    borrowed, tasks = load_of(lender, value)
    stored = f"r{lender}" if borrowed else value
    if not _are_operands(stored):
        return None
    return borrowed, tasks + [(["set", to, str(int(first) + at), stored], None) for at in range(int(count))]


def spare(*named):
    """The last register that isn't among these operands."""
    return next(at for at in range(63, -1, -1) if f"r{at}" not in named)


def load_of(register, word):
    """The registers and commands by which a register gets a number or nil; none for any other word."""
    if word == "nil":
        return [register], [(["nil", f"r{register}"], None)]
    if is_number(word, BELOW):
        return [register], [(["num", f"r{register}", word], None)]
    return [], []


def hand_of(rest):
    """The value, the mutator, the register and the answer of a value that is handed over, if the line tells one."""
    command, equals, answer = rest.partition(" = ")
    words = command.split(" ")
    if not equals or len(words) != 4 or words[0] != "hand" or not is_answer(answer):
        return None
    if not (_are_operands(words[1]) and is_number(words[2], 256) and REGISTER.fullmatch(words[3])):
        return None
    return words[1], int(words[2]), words[3], answer


def _are_operands(*words):
    return all(word == "g" or REGISTER.fullmatch(word) for word in words)


def _are_indices(*words):
    return all(is_number(word, 65536) for word in words)


def _count(number, what):
    return f"{number} {what}" if number == 1 else f"{number} {what}s"


def _names(rest):
    if rest == "-":
        return []
    names = rest.split(" ")
    if not all(is_told_name(name) for name in names):
        raise unknown()
    return names


def _stored(before, effect):
    """The references that a command stores, each with its object and field; `before` has the words of the object, or None."""
    if effect.words is None:
        return []
    then = _strong(before)
    now = _strong(effect.words) if before is not None or not effect.words.startswith("weak") else dict(enumerate(effect.words.split(" ")[1:]))
    return [(target, effect.name, field) for field, target in sorted(now.items()) if then.get(field) != target]


def _strong(words):
    """The strong fields of an object that refer to one, by number; words are those of its node line, or None."""
    if not words or words.startswith("weak"):
        return {}
    kind, *values = words.split(" ")
    first = 0
    if kind in ("con", "stack", "thunk"):
        first = int(kind == "thunk" and values[0] == "free")
        values = values[1:]
    return {first + at: word for at, word in enumerate(values) if "." in word or word == "g"}
