#!/usr/bin/env python3
"""Builds a list of ten cells in a live session, lets go of it, and prints the names that a full cycle freed.

    list.py [PROGRAM..]     the program is ./nmgc of the checkout, if no other is named
"""
import os, subprocess, sys
program = sys.argv[1:] or [os.path.join(os.path.dirname(os.path.realpath(__file__)), '../../nmgc')]
nmgc = subprocess.Popen([*program, 'live'], stdin=subprocess.PIPE, stdout=subprocess.PIPE, text=True, bufsize=1)

def say(*lines):
    """Writes lines, and returns the answer's lines up to `ready`, or up to the end."""
    nmgc.stdin.write(''.join(line + '\n' for line in lines))
    answer = []
    for line in nmgc.stdout:
        if line == 'ready\n':
            break
        answer.append(line.split())
    return answer

say('nmgc 3', 'heap 64 64 64 8 16 0', 'thread 0', 'begin')
for number in range(10):
    say(f'0 num r1 {number}', '0 con r0 0 r1 r0', 'round')
say('0 nil r0', 'round')
freed = [line[1] for line in say('0 full', 'round') if line[0] == 'freed']
print(' '.join(freed))
assert freed == [f'0.{number}' for number in range(10)], freed
assert say('end')[-1] == ['end', 'done'] and nmgc.wait() == 0
