"""Images for tests, of any size, written by the rules of their format."""
import random


def image(nodes, registers=(), queues=(), mutators=2):
    """The image of these objects, a dictionary from names to the words of their node lines; `g` is added where it isn't there.

    Registers are triples of mutator, register and value, queues pairs of mutator and value.
    """
    nodes = {"g": "arr" + " nil" * 16, **nodes}
    serials = [0] * mutators
    for name in nodes:
        if name != "g":
            maker, serial = map(int, name.split("."))
            serials[maker] = max(serials[maker], serial + 1)
    lines = [f"image 1 {mutators}"]
    for mutator in range(mutators):
        lines.append(f"mutator {mutator} serial {serials[mutator]}")
        lines += [f"register {register} {value}" for maker, register, value in sorted(registers) if maker == mutator]
        lines += [f"queue {value}" for maker, value in queues if maker == mutator]
    for name in sorted(nodes, key=lambda name: (32, 0) if name == "g" else tuple(map(int, name.split(".")))):
        lines.append(f"node {name} {nodes[name]}")
    return "\n".join(lines + ["end"]) + "\n"


def shared(*values):
    """The words of g with these values first."""
    return "arr " + " ".join(list(values) + ["nil"] * (16 - len(values)))


def listed(length, lists=1):
    """Lists of so many cells, each in a slot of g; a cell's field 0 is the next one."""
    nodes, heads = {}, []
    for number in range(lists):
        for at in range(length):
            serial = number * length + at
            nodes[f"0.{serial}"] = f"con 0 {'nil' if at == 0 else f'0.{serial - 1}'} {at}"
        heads.append(f"0.{number * length + length - 1}")
    return image({**nodes, "g": shared(*heads)})


def tree(depth):
    """A binary tree of constructors in register 0 of mutator 0."""
    size = 2**depth - 1
    nodes = {}
    for at in range(size):
        below = [f"0.{it}" if it < size else "nil" for it in (2 * at + 1, 2 * at + 2)]
        nodes[f"0.{at}"] = f"con 1 {' '.join(below)}"
    return image(nodes, [(0, 0, "0.0")])


def arrays(number, length):
    """So many arrays in the slots of g, each of so many variables."""
    nodes, serial = {}, number
    for at in range(number):
        nodes[f"0.{at}"] = "arr " + " ".join(f"0.{serial + it}" for it in range(length))
        for it in range(length):
            nodes[f"0.{serial + it}"] = f"var {it}"
        serial += length
    return image({**nodes, "g": shared(*[f"0.{at}" for at in range(number)])})


def drawn(objects, seed, mutators=3):
    """Objects of all kinds with fields drawn at random, of which registers and g hold a few."""
    draw = random.Random(seed)
    names = [f"{at % mutators}.{at // mutators}" for at in range(objects)]

    def value():
        return draw.choice([draw.choice(names), draw.choice(names), "nil", str(draw.randrange(1 << 40)), "g"])

    def words():
        values = [value() for _ in range(draw.randrange(4))]
        return draw.choice([
            lambda: " ".join([f"con {draw.randrange(256)}"] + values), lambda: f"var {value()}", lambda: " ".join(["arr"] + values),
            lambda: " ".join(["thunk free"] + values), lambda: f"thunk result {value()}", lambda: f"weak {value()} {value()} {value()}",
            lambda: "weak dead", lambda: " ".join([f"stack {len(values) + draw.randrange(3)}"] + values)])()

    nodes = {name: words() for name in names}
    registers = [(draw.randrange(mutators), at, draw.choice(names)) for at in range(5)]
    queues = [(draw.randrange(mutators), draw.choice(names)) for _ in range(2)]
    return image({**nodes, "g": shared(draw.choice(names), draw.choice(names))}, registers, queues, mutators)
