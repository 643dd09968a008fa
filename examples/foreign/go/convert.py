#!/usr/bin/env python3
"""Makes a trace of format 2 of a driver's log: convert.py LOG MUTATORS > TRACE. Standard error has the counts.

Commands after the last cycle are left out, and so is a cycle that the program didn't end."""
import struct
import sys

COMMAND, MARK, SCAN, FOUND, OLD, NEW, CLOSE, BLACK, FREED, BEGIN, END = range(1, 12)
NIL, MOV, PAIR, VARIABLE, ARRAY, GET, SET, CAS, SWAP, COPY, CLEAR, SEND, RECEIVE = range(1, 14)
MAGIC = 0x6E6D
SHARED = 255


def name_of(word):
    """The name of an object, of the lower half of its head."""
    return f'{word >> 27}.{word & (1 << 27) - 1}'


def names_of(words, besides=()):
    """Names in order, without repeats."""
    return ' '.join([*(name_of(word) for word in sorted(set(words))), *besides]) or '-'


def operand(number):
    """A register, or g."""
    return 'g' if number == SHARED else f'r{number}'


def lines_of(packed, word, magic):
    """The lines of a command."""
    op, m = packed & 255, packed >> 8 & 255
    a, b, c, d, e = (packed >> 16 + 8 * i & 255 for i in range(5))
    answer = name_of(word) if magic == MAGIC else 'nil'
    if op == NIL:
        return [f'{m} nil r{a} = ok']
    if op == MOV:
        return [f'{m} mov r{a} r{b} = ok']
    if op == PAIR:
        return [f'{m} con r{a} 0 r{b} r{c} = {answer}']
    if op == VARIABLE:
        return [f'{m} var r{a} r{b} = {answer}']
    if op == ARRAY:
        return [f'{m} arr r{a} {b} r{c} = {answer}']
    if op == GET:
        return [f'{m} get r{a} {operand(b)} {c} = {answer}']
    if op == SET:
        return [f'{m} set {operand(a)} {b} r{c} = ok']
    if op == CAS:
        return [f'{m} cas {operand(a)} {b} r{c} r{d} = {"yes" if word else "no"}']
    if op == SWAP:
        return [f'{m} get r62 {operand(b)} {c} = {answer}', f'{m} set {operand(b)} {c} r{d} = ok',
                f'{m} mov r{a} r62 = ok', f'{m} nil r62 = ok']
    if op == COPY:
        return [f'{m} copy {operand(a)} {b} r{c} {d} {e} via r63 = ok', f'{m} nil r63 = ok']
    if op == CLEAR:
        return [f'{m} fill {operand(a)} {b} {c} r61 = ok']
    if op == SEND:
        return [f'{m} hand r{b} {a} r60 = ok', f'{m} nil r{b} = ok']
    if op == RECEIVE and magic == MAGIC:
        return [f'{m} mov r{a} r60 = ok', f'{m} nil r60 = ok']
    return [f'{m} nil r{a} = ok']


class Converter:
    """Goes through a log, and has the trace's lines so far."""

    def __init__(self, mutators):
        self.lines = ['trace 2', f'mutators {mutators}']
        self.whole = 0
        self.mutator_of = {}
        self.pushed = set()
        self.black, self.freed = None, []
        self.counts = dict.fromkeys(('cycles', 'commands', 'scans', 'old', 'new', 'found', 'black', 'freed'), 0)

    def end_cycle(self):
        """Writes what was marked and freed in the cycle that ended last."""
        if self.black is not None:
            self.lines.append(f'black {names_of(self.black, ["g"])}')
            self.lines.append(f'freed {names_of(self.freed)}')
            self.counts['black'] += len(self.black)
            self.counts['freed'] += len(self.freed)
            self.whole = len(self.lines)
        self.black, self.freed = None, []

    def push(self, kind, word):
        """Writes an object that the barrier or the scan of a stack remembered, once in a cycle."""
        self.counts[kind] += 1
        if word not in self.pushed:
            self.pushed.add(word)
            self.lines.append(f'push - {name_of(word)}')

    def record(self, kind, a, b, c):
        """Does one record."""
        if kind == COMMAND:
            self.counts['commands'] += 1
            self.lines += lines_of(a, b, c)
        elif kind == MARK:
            self.end_cycle()
            self.pushed = set()
            self.lines.append('mark g')
        elif kind == SCAN and a in self.mutator_of:
            self.counts['scans'] += 1
            self.lines.append(f'scan {self.mutator_of[a]}')
        elif kind in (OLD, NEW, FOUND):
            self.push({OLD: 'old', NEW: 'new', FOUND: 'found'}[kind], a)
        elif kind == CLOSE:
            self.counts['cycles'] += 1
            self.lines.append('close')
            self.black = []
        elif kind == BLACK:
            self.black.append(a)
        elif kind == FREED:
            self.freed.append(a)
        elif kind == BEGIN:
            self.mutator_of[b] = a


def main():
    log, mutators = sys.argv[1:]
    converter = Converter(int(mutators))
    with open(log, 'rb') as file:
        while True:
            record = struct.unpack('<4Q', file.read(32).ljust(32, b'\0'))
            if record[0] == 0:
                break
            converter.record(*record)
    converter.end_cycle()
    print('\n'.join(converter.lines[:converter.whole] + ['stop']))
    print(' '.join(f'{what} {count}' for what, count in converter.counts.items()), file=sys.stderr)


if __name__ == '__main__':
    main()
