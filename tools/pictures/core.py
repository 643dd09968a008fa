"""A trace of the first format (docs/GUIDE.md, "A trace with its marker"): the marker is in it, scan by scan.

It tells the same as `nmgc_trace`. That says of a refused line no more than that it can't happen; what stands against it is
told here besides, for its picture.
"""
from .text import is_number, is_reference, order
from .trace import Debt, Refused, Watch, unknown
from .world import is_told_name


class Core(Watch):
    """How far such a trace has come. `marked` are the marked names, `queue` has pairs of a name and the position that is read
    next, and for each mutator `owed` and `kept_back` are the debts that it hasn't pushed, and those that weren't taken yet."""

    def __init__(self):
        super().__init__()
        self.marked, self.queue, self.owed, self.kept_back, self.free = {}, [], [], [], {}

    def in_phase(self, *phases):
        """Refuses a line that can't stand there."""
        if self.phase not in phases:
            raise refused("place", "No line of this kind can stand there.")

    def event(self, number, text):
        """Does a line; raises `Refused` where it can't happen."""
        word, _, rest = text.partition(" ")
        if text == "" or text.startswith("#"):
            return
        event = getattr(self, f"_{word}", None) if word in ("mutators", "mark", "push", "take", "scan", "drain", "close") else None
        if event is None:
            self.command(number, word, rest)
        else:
            event(number, rest, " " in text)

    def command(self, number, word, rest):
        """`M COMMAND = ANSWER`."""
        mutator, words = self.words_of(word, rest)
        self.in_phase("between", "marking")
        try:
            self.give(number, mutator, words, rest.partition(" = ")[2])
        except Refused as why:
            raise Refused(why.sort, "can't happen", why.name, None, why.answer, "The heap has another answer.") from None

    def due(self, number, mutator, words, effect):
        """Notes what a command owes, opens and finalises, before it is done."""
        name = self.world.object_of(mutator, words)
        if name is None:
            return
        owed = self.taken(mutator, name, words)
        parts = self.world.lines[name].split(" ")
        if words[0] in ("deref", "finalise") and parts[0] == "weak" and len(parts) == 4:
            self.opened += [it for it in parts[2 : 3 if words[0] == "deref" else 4] if is_reference(it)]
        if words[0] == "finalise" and effect.words:
            self.finalised.add(name)
        if words[0] == "update" and effect.words:
            self.free[name] = self.world.heap().node(name).values
        command = " ".join(words)
        self.owed[mutator] += [Debt(it, number, mutator, command, name, field) for field, it in owed if is_reference(it)]

    def taken(self, mutator, name, words):
        """What a command takes out of the object, or reads out of a weak pointer: pairs of a field and its value."""
        node, word = self.world.heap().node(name), words[0]
        fields = list(enumerate(node.values, node.first))
        if word in ("set", "cas") and node.kind in ("var", "arr"):
            at = int(words[2])
            same = word == "set" or (at < len(fields) and node.values[at] == self.world.value(mutator, words[3]))
            return fields[at : at + 1] if same else []
        if word == "update" and node.kind == "thunk":
            return fields if node.first else []
        if word == "pop" and node.kind == "stack" and name.partition(".")[0] == str(mutator):
            return fields[-1:]
        if word == "deref" and fields and node.kind == "weak":
            return fields[1:2]
        if word == "finalise" and fields and node.kind == "weak":
            return [(None, name)] + fields[1:]
        return []

    def mark(self, value):
        """Marks and queues a name of the snapshot, once."""
        if value in self.snapshot.lines and value not in self.marked:
            self.marked[value] = True
            self.queue.append((value, 0))

    def _mark(self, number, rest, more):
        if more:
            raise unknown()
        self.in_phase("between")
        self.phase, self.mark_line, self.snapshot = "marking", number, self.world.copy()
        self.owed, self.kept_back = ([[] for _ in self.world.serials] for _ in range(2))
        self.marked = {"g": True}
        for row in self.world.registers + self.world.queues + [self.world.heap().node("g").values]:
            for value in row:
                self.mark(value)

    def _push(self, number, rest, more):
        mutator = self.mutator(rest)
        if mutator >= len(self.owed) or not self.owed[mutator]:
            raise refused("push", f"Mutator {mutator} owes nothing.")
        debt = self.owed[mutator].pop(0)
        if debt.name in self.snapshot.lines and debt.name != "g":
            self.kept_back[mutator].append(debt)
            self.pushed[debt.name] = debt.line

    def mutator(self, word):
        """The mutator of a push or a take, in a cycle."""
        if not is_number(word, 256):
            raise unknown()
        self.in_phase("marking")
        return int(word)

    def _take(self, number, rest, more):
        who, _, name = rest.partition(" ")
        if not is_number(who, 256) or not is_told_name(name):
            raise unknown()
        mutator = self.mutator(who)
        waiting = self.kept_back[mutator] if mutator < len(self.kept_back) else []
        if not waiting:
            raise refused("take", f"Of what mutator {mutator} pushed nothing is left that the snapshot has.", name)
        debt = waiting[0]
        if name != debt.name and (name not in self.marked or debt.name not in self.marked):
            raise refused("other", f"The first that is left of what mutator {mutator} pushed is {debt.name}, not {name}.", debt.name, debt)
        waiting.pop(0)
        self.mark(debt.name)

    def _scan(self, number, rest, more):
        if more:
            raise unknown()
        self.in_phase("marking")
        if not self.queue:
            raise refused("scan", "Nothing is left to scan.")
        self.scan()

    def scan(self):
        """Reads the next word of the first object that waits: its header, then field after field."""
        name, position = self.queue[0]
        fields, size, is_done = self.fields(name)
        if position and position - 1 < len(fields):
            self.mark(fields[position - 1])
        last = size <= position or (position == 1 and is_done)
        self.queue[:1] = [] if last else [(name, position + 1)]

    def fields(self, name):
        """What can be read of an object, how many fields it has, and whether it is a thunk with its result."""
        node = self.world.heap().node(name)
        if node.kind == "weak":
            return (), 0, False
        if node.kind == "stack":
            return node.values, int(self.world.lines[name].split(" ")[1]), False
        if node.kind == "thunk":
            done = not node.first
            fields = (node.values + tuple(self.free.get(name, ()))) if done else ("nil",) + node.values
            return fields, len(fields), done
        return node.values, len(node.values), False

    def _drain(self, number, rest, more):
        if more:
            raise unknown()
        self.in_phase("marking", "ended")
        while self.phase == "marking" and self.queue:
            self.scan()

    def _close(self, number, rest, more):
        if more:
            raise unknown()
        self.in_phase("marking")
        debt = next((it for row in self.owed for it in row), None)
        if debt:
            raise refused("due", f"{debt.name} is owed since line {debt.line}, and wasn't pushed.", debt.name, debt)
        debt = next((it for row in self.kept_back for it in row), None)
        if debt:
            raise refused("other", f"{debt.name} was pushed, and nobody took it.", debt.name, debt)
        if self.queue:
            name = self.queue[0][0]
            raise refused("queue", f"{name} is still to be scanned.", name)
        self.end()

    def end(self):
        """Marks what weak pointers keep, has the others die, and marks what their finalisers lead to."""
        now, then = self.world.heap(), self.snapshot.heap()
        waiting = [name for name in then.weaks() if name not in self.finalised]
        marked = set(self.marked)
        while True:
            kept = {it for name in waiting for it in self.kept_by(then.node(name).values, name, marked)} - marked
            if not kept:
                break
            marked = self.reached(now, then, marked, kept)
        dead = [name for name in waiting if is_reference(then.node(name).values[0]) and then.node(name).values[0] not in marked]
        marked = self.reached(now, then, marked, {then.node(name).values[2] for name in dead})
        for name in dead:
            self.world.kill(name)
        self.phase, self.kept = "ended", marked

    def kept_by(self, parts, weak, marked):
        """What a weak pointer of the snapshot keeps, if its key is marked."""
        if is_reference(parts[0]) and parts[0] not in marked:
            return []
        return [it for it in (weak, parts[1], parts[2]) if it in self.snapshot.lines]

    def reached(self, now, then, marked, names):
        """What is marked once these are, and what strong fields lead to from them as they are now."""
        marked, todo = set(marked), [name for name in names if name in then.lines and name not in marked]
        marked.update(todo)
        while todo:
            for _, target in now.strong(todo.pop()):
                if target in then.lines and target not in marked:
                    marked.add(target)
                    todo.append(target)
        return marked

    def told(self):
        """What a trace comes to whose lines can all happen."""
        if self.phase in ("nothing", "between"):
            return "nothing is marked"
        names = self.kept if self.phase == "ended" else self.marked
        return " ".join(["closed, kept" if self.phase == "ended" else "marking goes on, marked"] + sorted(names, key=order))


def refused(sort, reason, name=None, debt=None):
    """A line can't happen, for this reason."""
    return Refused(sort, "can't happen", name, debt, reason=reason)
