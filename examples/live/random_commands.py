#!/usr/bin/env python3
"""Drives a live session of two mutators with random commands, and compares each reply with a model of its own.

    random_commands.py [-n COMMANDS] [-s SEED] [PROGRAM..]

Without words, 10^6 commands go to ./nmgc of the checkout. A failure names the seed that brings it about again.

The model has mutable variables, constructors, numbers and the registers of each mutator. In a round only one mutator has
commands, so the order of all commands is known. At the end the names that were freed are compared with those that the model
can't reach.
"""
import os, random, subprocess, sys

arguments = sys.argv[1:]
count, seed = 1_000_000, random.randrange(1 << 32)
while arguments[:1] in (['-n'], ['-s']):
    if arguments[0] == '-n':
        count = int(arguments[1])
    else:
        seed = int(arguments[1])
    arguments = arguments[2:]
random.seed(seed)
program = arguments or [os.path.join(os.path.dirname(os.path.realpath(__file__)), '../../nmgc')]
nmgc = subprocess.Popen([*program, 'live'], stdin=subprocess.PIPE, stdout=subprocess.PIPE, text=True, bufsize=1 << 16)
REGISTERS = 8
registers = [[None] * REGISTERS for _ in range(2)]
shared = [None] * 16
fields = {}     # of each object, by its name: the kind and a list
serials = [0, 0]
freed = set()


def say(lines):
    """Writes lines, and returns the answer's lines up to `ready`, or up to the end."""
    nmgc.stdin.write(''.join(line + '\n' for line in lines))
    nmgc.stdin.flush()
    answer = []
    for line in nmgc.stdout:
        if line == 'ready\n':
            break
        answer.append(line.split())
    return answer


def text(value):
    return 'nil' if value is None else str(value)


def make(mutator, dest, kind, values):
    """Makes an object in the model. Returns its name, which is the reply."""
    name = f'{mutator}.{serials[mutator]}'
    serials[mutator] += 1
    fields[name] = (kind, values)
    registers[mutator][dest] = name
    return name


def command(mutator):
    """Returns a random command and the reply to it, after doing it in the model."""
    own = registers[mutator]
    dest, a, b = (random.randrange(REGISTERS) for _ in range(3))
    slot = random.randrange(16)
    form = random.choice(['num', 'con', 'var', 'show', 'get', 'set', 'write', 'read', 'drop'])
    if form == 'num':
        own[dest] = random.randrange(1000)
        return f'num r{dest} {own[dest]}', 'ok'
    if form == 'con':
        return f'con r{dest} 1 r{a} r{b}', make(mutator, dest, 'con', [own[a], own[b]])
    if form == 'var':
        return f'var r{dest} r{a}', make(mutator, dest, 'var', [own[a]])
    if form == 'show':
        return f'show r{a}', text(own[a])
    if form == 'get':
        if own[a] not in fields:
            return f'get r{dest} r{a} 0', 'nopointer'
        own[dest] = fields[own[a]][1][0]
        return f'get r{dest} r{a} 0', text(own[dest])
    if form == 'set':
        if own[a] not in fields:
            return f'set r{a} 0 r{b}', 'nopointer'
        if fields[own[a]][0] != 'var':
            return f'set r{a} 0 r{b}', 'fixed'
        fields[own[a]][1][0] = own[b]
        return f'set r{a} 0 r{b}', 'ok'
    if form == 'write':
        shared[slot] = own[a]
        return f'set g {slot} r{a}', 'ok'
    if form == 'read':
        own[dest] = shared[slot]
        return f'get r{dest} g {slot}', text(own[dest])
    own[dest] = None
    return f'nil r{dest}', 'ok'


def reachable():
    """Returns the names that the model reaches from registers and from g."""
    found, left = set(), [value for values in [*registers, shared] for value in values]
    while left:
        value = left.pop()
        if value in fields and value not in found:
            found.add(value)
            left.extend(fields[value][1])
    return found


def do_round(lines, mutator, expected):
    """Does a round, and compares the mutator's replies. The other one has its `yield` alone."""
    answer = say([*lines, 'round'])
    replies = [line[1] for line in answer if line[0] == str(mutator)]
    assert replies[:len(expected)] == expected, (seed, lines, expected, answer)
    assert len(replies) in (len(expected), len(expected) + 1), (seed, answer)
    for line in answer:
        if line[0] == 'freed':
            assert line[1] not in freed, (seed, line)
            freed.add(line[1])


say(['nmgc 3', 'heap 4096 64 256 64 64 8', 'thread 0', 'thread 1', 'begin'])
done = 0
while done < count:
    mutator = random.randrange(2)
    commands = [command(mutator) for _ in range(random.randrange(1, 20))]
    do_round([f'{mutator} {line}' for line, _ in commands], mutator, [reply for _, reply in commands])
    done += len(commands)
kept = reachable()
do_round(['0 full'], 0, ['ok'])
assert freed <= set(fields) - kept, (seed, freed & kept)
print(f'{done} commands, {len(fields)} objects, {len(freed)} freed from segments, {len(kept)} reachable')
assert say(['end'])[-1] == ['end', 'done'] and nmgc.wait() == 0
