"""The heap that is never collected: what each command does to it, and what it answers (docs/FORMATS.md, "Commands").

Objects are the words of their node lines in an image, so that a world is a heap of `image` as it stands.
"""
import re
from typing import NamedTuple, Optional

from .image import FIELDS, FREE, REGISTERS, SLOTS, TAGS, Heap, Mutator
from .text import BELOW, SERIALS, is_number, is_reference

REGISTER = re.compile("r(?:[0-9]|[1-5][0-9]|6[0-3])")
# The operands of each command: D and V are registers, V may be g; N a number, T a tag, I an index, C a count; * is any number.
FORMS = {
    "num": "DN", "nil": "D", "mov": "DV", "con": "DT*", "var": "DV", "arr": "DCV", "rec": "D*", "thunk": "D*", "weak": "DVVV", "stack": "DC",
    "get": "DVI", "tag": "DV", "set": "VIV", "cas": "VIVV", "update": "VV", "force": "DV", "push": "VV", "pop": "DV", "deref": "DV",
    "finalise": "DV", "nextfin": "D", "show": "V", "same": "VV", "yield": "", "collect": "", "full": "",
}
LIMITS = {"N": BELOW, "T": TAGS, "I": 1 << 16, "C": FIELDS + 1}


class Effect(NamedTuple):
    """What a command answers and does: an object has other words, a register takes a value, the queue loses its first."""

    reply: str
    name: Optional[str] = None
    words: Optional[str] = None
    register: Optional[int] = None
    value: Optional[str] = None
    takes: bool = False


def command_of(line):
    """The words of a command, if the line is one."""
    words = line.split(" ")
    form = FORMS.get(words[0])
    if form is None:
        return None
    operands = words[1:]
    if form.endswith("*"):
        form = form[:-1] + "V" * (len(operands) - len(form) + 1)
        if len(operands) - 1 > {"thunk": FREE, "rec": FIELDS}.get(words[0], FIELDS + 1):
            return None
    if len(form) != len(operands):
        return None
    for sort, word in zip(form, operands):
        if sort in LIMITS:
            if not is_number(word, LIMITS[sort]):
                return None
        elif not REGISTER.fullmatch(word) and (sort == "D" or word != "g"):
            return None
    return words


class World:
    """Registers, queues and serials of each mutator, and the words of each object."""

    def __init__(self, mutators):
        self.registers = [["nil"] * REGISTERS for _ in range(mutators)]
        self.queues = [[] for _ in range(mutators)]
        self.serials = [0] * mutators
        self.lines = {"g": "arr" + " nil" * SLOTS}

    def copy(self):
        """Another world with the same in it."""
        other = World(0)
        other.registers = [list(row) for row in self.registers]
        other.queues = [list(row) for row in self.queues]
        other.serials, other.lines = list(self.serials), dict(self.lines)
        return other

    def heap(self):
        """The same as the heap of an image."""
        heap = Heap()
        for serial, row, queue in zip(self.serials, self.registers, self.queues):
            heap.mutators.append(Mutator(serial, [(at, word) for at, word in enumerate(row) if word != "nil"], queue))
        heap.lines = self.lines
        return heap

    def can_apply(self, mutator):
        """Whether there is such a mutator, and one more object still has a serial."""
        return mutator < len(self.serials) and self.serials[mutator] < SERIALS - 1

    def value(self, mutator, operand):
        """What an operand stands for."""
        return "g" if operand == "g" else self.registers[mutator][int(operand[1:])]

    def object_of(self, mutator, words):
        """The object that a command reads or changes: its name, or None."""
        at = FORMS[words[0]].find("V")
        if words[0] in ("get", "tag", "set", "cas", "update", "force", "push", "pop", "deref", "finalise"):
            value = self.value(mutator, words[1 + at])
            return value if is_reference(value) else None
        return None

    def effect(self, mutator, words):
        """What a command would answer and do."""
        name, *operands = words
        values = [self.value(mutator, it) if sort == "V" else it for sort, it in zip(_form(words), operands)]
        register = int(operands[0][1:]) if FORMS[name].startswith("D") else None
        done = getattr(self, f"_{name}", None)
        if name in MAKES:
            return self._made(mutator, register, MAKES[name](values[1:]))
        if done is None:
            return Effect("ok")
        target = self.object_of(mutator, words)
        if target is None and name in NEEDS:
            return Effect("nopointer")
        return done(mutator, register, target, values[1:] if register is not None else values)

    def apply(self, mutator, effect):
        """Does what a command does."""
        if effect.words is not None:
            if effect.name not in self.lines:
                self.serials[mutator] += 1
            self.lines[effect.name] = effect.words
        if effect.register is not None:
            self.registers[mutator][effect.register] = effect.value
        if effect.takes:
            del self.queues[mutator][0]

    def kill(self, weak):
        """A weak pointer dies: its finaliser joins the queue of its maker."""
        words = self.lines.get(weak, "").split(" ")
        if words[0] == "weak" and len(words) == 4:
            self.lines[weak] = "weak dead"
            if words[3] != "nil":
                self.queues[int(weak.partition(".")[0])].append(words[3])

    def _made(self, mutator, register, words):
        name = f"{mutator}.{self.serials[mutator]}"
        return Effect(name, name, words, register, name)

    def _gives(self, register, value):
        return Effect(value, register=register, value=value)

    def _num(self, mutator, register, target, values):
        return Effect("ok", register=register, value=values[0])

    _mov = _num

    def _nil(self, mutator, register, target, values):
        return Effect("ok", register=register, value="nil")

    def _get(self, mutator, register, target, values):
        fields = self.fields(target)
        if fields is None:
            return Effect("wrongkind")
        at = int(values[1])
        return self._gives(register, fields[at]) if at < len(fields) else Effect("nofield")

    def _tag(self, mutator, register, target, values):
        kind, *rest = self.lines[target].split(" ")
        return self._gives(register, rest[0]) if kind == "con" else Effect("wrongkind")

    def fields(self, name):
        """The fields of a constructor, a variable or an array, or None."""
        kind, *values = self.lines[name].split(" ")
        return values[1:] if kind == "con" else values if kind in ("var", "arr") else None

    def _written(self, target, index, value, reply):
        kind, *values = self.lines[target].split(" ")
        values[index] = value
        return Effect(reply, target, " ".join([kind] + values))

    def _refused(self, target, index):
        """Why a field can't be written, or None."""
        kind, *values = self.lines[target].split(" ")
        if kind == "con":
            return "fixed"
        if kind not in ("var", "arr"):
            return "wrongkind"
        return None if index < len(values) else "nofield"

    def _set(self, mutator, register, target, values):
        index = int(values[1])
        refused = self._refused(target, index)
        return Effect(refused) if refused else self._written(target, index, values[2], "ok")

    def _cas(self, mutator, register, target, values):
        index = int(values[1])
        refused = self._refused(target, index)
        if refused:
            return Effect(refused)
        return self._written(target, index, values[3], "yes") if self.fields(target)[index] == values[2] else Effect("no")

    def _update(self, mutator, register, target, values):
        kind, *rest = self.lines[target].split(" ")
        if kind != "thunk":
            return Effect("wrongkind")
        return Effect("updated", target, f"thunk result {values[1]}") if rest[0] == "free" else Effect("already")

    def _force(self, mutator, register, target, values):
        kind, *rest = self.lines[target].split(" ")
        if kind != "thunk":
            return Effect("wrongkind")
        return self._gives(register, rest[1]) if rest[0] == "result" else Effect("none")

    def _push(self, mutator, register, target, values):
        kind, *rest = self.lines[target].split(" ")
        if kind != "stack":
            return Effect("wrongkind")
        if target.partition(".")[0] != str(mutator):
            return Effect("notowner")
        full = len(rest) - 1 >= int(rest[0])
        return Effect("stackfull") if full else Effect("ok", target, f"{self.lines[target]} {values[1]}")

    def _pop(self, mutator, register, target, values):
        kind, *rest = self.lines[target].split(" ")
        if kind != "stack":
            return Effect("wrongkind")
        if target.partition(".")[0] != str(mutator):
            return Effect("notowner")
        if len(rest) == 1:
            return Effect("stackempty")
        return Effect(rest[-1], target, " ".join([kind] + rest[:-1]), register, rest[-1])

    def _deref(self, mutator, register, target, values):
        kind, *rest = self.lines[target].split(" ")
        if kind != "weak":
            return Effect("wrongkind")
        return self._gives(register, rest[1]) if len(rest) == 3 else Effect("dead")

    def _finalise(self, mutator, register, target, values):
        kind, *rest = self.lines[target].split(" ")
        if kind != "weak":
            return Effect("wrongkind")
        return Effect(rest[2], target, "weak dead", register, rest[2]) if len(rest) == 3 else Effect("dead")

    def _nextfin(self, mutator, register, target, values):
        queue = self.queues[mutator]
        return Effect(queue[0], register=register, value=queue[0], takes=True) if queue else Effect("none")

    def _show(self, mutator, register, target, values):
        return Effect(values[0])

    def _same(self, mutator, register, target, values):
        return Effect("yes" if values[0] == values[1] else "no")


NEEDS = ("get", "tag", "set", "cas", "update", "force", "push", "pop", "deref", "finalise")  # these want an object
MAKES = {
    "con": lambda values: " ".join(["con"] + values),
    "var": lambda values: f"var {values[0]}",
    "arr": lambda values: " ".join(["arr"] + [values[1]] * int(values[0])),
    "rec": lambda values: " ".join(["arr"] + values),
    "thunk": lambda values: " ".join(["thunk free"] + values),
    "weak": lambda values: " ".join(["weak"] + values),
    "stack": lambda values: f"stack {values[0]}",
}


def _form(words):
    """The form of a command's operands, one letter each."""
    form = FORMS[words[0]]
    return form[:-1] + "V" * (len(words) - len(form)) if form.endswith("*") else form


def is_answer(word):
    """Whether the word can be an answer: a refusal, or a value, whether or not a heap can have it."""
    replies = "ok yes no updated already nopointer nofield wrongkind notowner fixed dead none stackfull stackempty nil"
    if word in replies.split() or is_told_name(word):
        return True
    return re.fullmatch("0|[1-9][0-9]{0,19}", word) is not None and int(word) < 1 << 64


def is_told_name(word):
    """Whether a word of a trace spells a name, of an object that there may not be."""
    found = re.fullmatch("(0|[1-9][0-9]{0,2})[.](0|[1-9][0-9]{0,9})", word)
    return word == "g" or (found is not None and int(found.group(1)) < 256 and found.group(1) != "32" and int(found.group(2)) < SERIALS)
