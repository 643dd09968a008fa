#!/usr/bin/env python3
"""Makes a trace of format 3 of a log that a program wrote: fields.py LOG > TRACE. Standard error has the counts.

Names are addresses. At each mark the log has the whole heap, of which the trace gets what changed since the last cycle."""
import mmap
import struct
import sys

(MADE, FIELD, UNSEEN, STANDS, ROOT, MARK, WRITE, HAND, BORN, GONE, HELD, SCAN, PUSH, CLOSE, BLACK, FREED) = range(1, 17)


def name(address):
    """An object's name; `-` is no object."""
    return f'{address:x}' if address else '-'


def names(addresses):
    """Names, or `-` if there are none."""
    return ' '.join(map(name, addresses)) or '-'


def actor(goroutine):
    """A mutator, or the runtime itself."""
    return str(goroutine) if goroutine else '-'


class Heap:
    """The heap as the trace has it, and how it is written at a mark."""

    def __init__(self):
        self.words, self.fields, self.globals = {}, {}, set()

    def free(self, addresses):
        """Objects are freed: fields that refer to them refer to nothing."""
        gone = set(addresses)
        for address in gone:
            self.words.pop(address, None)
            self.fields.pop(address, None)
        for fields in self.fields.values():
            for index in [index for index, target in fields.items() if target in gone]:
                del fields[index]

    def lines_to(self, words, fields):
        """The lines that lead to another heap, which has all objects of this one."""
        lost = self.words.keys() - words.keys()
        if lost:
            sys.exit(f'{len(lost)} objects are gone and were not freed, {name(min(lost))} among them')
        for address, count in words.items():
            if self.words.setdefault(address, count) != count:
                sys.exit(f'{name(address)} has another size')
            if address not in self.fields:
                self.fields[address] = {}
                yield f'- new {name(address)} {count}'
        for address, after in fields.items():
            before = self.fields[address]
            changed = sorted(index for index in before.keys() | after.keys() if before.get(index) != after.get(index))
            yield from runs('-', address, [(index, after.get(index, 0)) for index in changed])
        for address in [address for address in self.fields if address not in fields and self.fields[address]]:
            yield from runs('-', address, [(index, 0) for index in sorted(self.fields[address])])
            fields[address] = {}
        self.fields.update(fields)


def runs(who, address, stores):
    """A `write` for each run of neighbouring fields."""
    begin = 0
    for end in range(1, len(stores) + 1):
        if end == len(stores) or stores[end][0] != stores[end - 1][0] + 1:
            yield f'{who} write {name(address)} {stores[begin][0]} {names_of(stores[begin:end])}'
            begin = end


def names_of(stores):
    """The values of neighbouring fields."""
    return ' '.join(name(target) for _, target in stores)


class Converter:
    """Goes through a log, and writes the trace's lines."""

    def __init__(self, out):
        self.out, self.heap = out, Heap()
        self.words, self.fields, self.unseen = {}, {}, set()
        self.roots, self.stands, self.there, self.unscanned = [], set(), set(), set()
        self.held, self.pushed, self.black, self.freed = {}, set(), [], []
        self.in_cycle = self.has_ended = False
        self.writes = None
        self.counts = dict.fromkeys('cycles lines objects made writes hands scans pushes black freed'.split(), 0)

    def put(self, line):
        """Writes a line."""
        self.counts['lines'] += 1
        self.out.write(line + '\n')

    def flush(self):
        """Writes the stores that were gathered: by one goroutine into neighbouring fields of one object."""
        if self.writes:
            who, address, stores = self.writes
            self.writes = None
            for line in runs(actor(who), address, stores):
                self.put(line)

    def end_cycle(self):
        """Writes what was marked and freed in the cycle that ended last."""
        if self.has_ended:
            self.put(f'black {names(self.black + sorted(self.heap.globals))}')
            self.put(f'freed {names(self.freed)}')
            self.heap.free(self.freed)
            self.counts['black'] += len(self.black)
            self.counts['freed'] += len(self.freed)
        self.black, self.freed, self.has_ended = [], [], False

    def mark(self):
        """Writes the heap, the mutators and the roots of a cycle that begins."""
        self.end_cycle()
        for address, index in self.unseen:
            self.fields.get(address, {}).pop(index, None)
        self.heap.globals = {root for root in self.roots if root < 1 << 32}
        self.counts['objects'] = len(self.words)
        for line in self.heap.lines_to(self.words, self.fields):
            self.put(line)
        for goroutine in sorted(self.there - self.stands):
            self.put(f'ended {goroutine}')
        for goroutine in sorted(self.stands - self.there):
            self.put(f'began {goroutine}')
        self.put(f'mark {names(sorted(set(self.roots)))}')
        self.there, self.stands = self.stands, set()
        self.unscanned = set(self.there)
        self.words, self.fields, self.roots, self.pushed = {}, {}, [], set()
        self.in_cycle = True

    def store(self, who, address, index, target):
        """Gathers a store."""
        if (address, index) in self.unseen:
            return
        self.counts['writes'] += 1
        fields = self.heap.fields[address]
        if target:
            fields[index] = target
        else:
            fields.pop(index, None)
        if self.writes and self.writes[:2] == (who, address) and self.writes[2][-1][0] + 1 == index:
            self.writes[2].append((index, target))
        else:
            self.flush()
            self.writes = (who, address, [(index, target)])

    def dump(self, kind, a, b, c):
        """Takes a record of the heap at a mark. Returns whether it was one."""
        if kind == FIELD:
            self.fields.setdefault(a, {})[b] = c
        elif kind == UNSEEN:
            self.unseen.add((a, b))
        elif kind == STANDS:
            self.stands.add(a)
        elif kind == ROOT:
            self.roots.append(a)
        elif kind == MADE and not self.in_cycle:
            self.words[a] = b
        else:
            return False
        return True

    def make(self, who, address, count):
        """Writes a new object."""
        self.counts['made'] += 1
        self.heap.words[address], self.heap.fields[address] = count, {}
        self.put(f'{actor(who)} new {name(address)} {count}')

    def push(self, address):
        """Writes an object that was remembered, once in a cycle."""
        if address not in self.pushed:
            self.pushed.add(address)
            self.counts['pushes'] += 1
            self.put(f'push - {name(address)}')

    def scan(self, scan, goroutine):
        """Writes the roots of a stack. Of a goroutine that began in the cycle they count as pushed."""
        self.counts['scans'] += 1
        held = sorted(self.held.pop(scan, ()))
        if goroutine in self.unscanned:
            self.unscanned.discard(goroutine)
            self.put(f'scan {goroutine} {names(held)}')
        else:
            for address in held:
                self.push(address)

    def born(self, parent, goroutine, closure):
        """Writes a goroutine that begins, with its closure."""
        self.there.add(goroutine)
        self.put(f'began {goroutine}')
        if closure and parent:
            self.put(f'{parent} hand {name(closure)} {goroutine}')

    def close(self):
        """Writes the end of the marking."""
        self.counts['cycles'] += 1
        self.put('close')
        self.in_cycle, self.has_ended = False, True

    def record(self, kind, who, a, b, c):
        """Does one record."""
        if kind == WRITE:
            self.store(who, a, b, c)
            return
        if self.dump(kind, a, b, c):
            return
        self.flush()
        if kind == MARK:
            self.mark()
        elif kind == MADE:
            self.make(who, a, b)
        elif kind == HAND:
            self.counts['hands'] += 1
            self.put(f'{b} hand {name(a)} {c}')
        elif kind == BORN:
            self.born(who, a, b)
        elif kind == GONE:
            self.there.discard(a)
            self.unscanned.discard(a)
            self.put(f'ended {a}')
        elif kind == HELD:
            self.held.setdefault(a, set()).add(b)
        elif kind == SCAN:
            self.scan(a, b)
        elif kind == PUSH:
            self.push(a)
        elif kind == CLOSE:
            self.close()
        elif kind == BLACK:
            self.black.append(a)
        elif kind == FREED:
            self.freed.append(a)


def main():
    converter = Converter(sys.stdout)
    converter.put('trace 3')
    with open(sys.argv[1], 'rb') as file, mmap.mmap(file.fileno(), 0, access=mmap.ACCESS_READ) as log:
        if log[-32:] != bytes(32):
            sys.exit('the log is full: begin at another cycle, or trace a smaller heap')
        for at in range(0, len(log), 32):
            kind, a, b, c = struct.unpack_from('<4Q', log, at)
            if kind == 0:
                break
            converter.record(kind & 255, kind >> 8, a, b, c)
    if converter.in_cycle or not converter.counts['cycles']:
        sys.exit('the program ended in a cycle, or before one began')
    converter.flush()
    converter.end_cycle()
    converter.put('stop')
    print(' '.join(f'{what} {count}' for what, count in converter.counts.items()), file=sys.stderr)


if __name__ == '__main__':
    main()
