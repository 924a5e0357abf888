#!/usr/bin/env python3
"""stack.py OURS PROGRAM: the stack that each entry uses, in bytes: read off the object code of PROGRAM, and measured in a run.

A function's frame is what its code takes off the stack pointer, or uses below it, with the pushed registers and the return address. An entry's stack is the
sum of the frames along the deepest path of calls from it. Lent arrays and the caller's own records are not in it; records passed or
returned by value are, where the entry copies them.
Measured is what a run with one call takes more than a run with none (valgrind's drd, by the command OURS): nothing where reading the request and printing the
sum, which every run does, go deeper than the call.
"""
import re, shlex, subprocess, sys
from table import ROWS

def frames(program):
    text = subprocess.run(['objdump', '-d', '-C', '--no-show-raw-insn', program], capture_output=True, text=True, check=True).stdout
    frame, calls, below, name = {}, {}, {}, None
    for line in text.splitlines():
        m = re.match(r'^[0-9a-f]+ <(.*)>:$', line)
        if m:
            name = m[1]
            frame[name], calls[name] = 8, set()
            continue
        if name is None:
            continue
        if re.search(r'\tpush ', line):
            frame[name] += 8
        m = re.search(r'\tsub +\$0x([0-9a-f]+),%rsp', line)
        if m:
            frame[name] += int(m[1], 16)
        # a large frame: its pages are taken one by one in a loop, which ends at %r11
        m = re.search(r'\tsub +\$0x([0-9a-f]+),%r11', line)
        if m:
            frame[name] += int(m[1], 16) - 0x1000
        m = re.search(r'-0x([0-9a-f]+)\(%rsp[,)]', line)
        if m:
            below[name] = max(below.get(name, 0), int(m[1], 16))
        m = re.search(r'\t(?:call|jmp) +[0-9a-f]+ <([^>+]*)>', line)
        if m and m[1] != name:
            calls[name].add(m[1])
    return {n: frame[n] + below.get(n, 0) for n in frame}, calls

def deepest(frame, calls, name, seen=()):
    if name not in frame or name in seen:
        return 0, ()
    below = max((deepest(frame, calls, c, seen + (name,)) for c in calls[name]), default=(0, ()))
    return frame[name] + below[0], (name,) + below[1]

def measured(ours, make):
    def used(n):
        r = subprocess.run(['valgrind', '--tool=drd', '--show-stack-usage=yes'] + ours, input=make(n), capture_output=True, check=True)
        return int(re.search(rb'used (\d+) bytes', r.stderr)[1])
    return used(1) - used(0)

ENTRIES = (('pass', 'begin_pass$', 'pass, 64 events'),
           ('insertion', 'inserts::next_step$|insert::decide$', 'insertion, 16 widgets in 1, moved to top'),
           ('interact', 'interact::interact$|interacts::call', 'interact, 64 hits'),
           ('30 questions', 'asks::asked$|asks::of_', None))

def main():
    ours = shlex.split(sys.argv[1])
    frame, calls = frames(sys.argv[2])
    for title, pattern, row in ENTRIES:
        names = [n for n in frame if re.search(pattern, n)]
        if not names:
            print(f'{title}: no function of its own in the program')
        for n in names:
            size, path = deepest(frame, calls, n)
            print(f'{title}: {size:,} bytes ({" > ".join(path)})')
        for name, _, _, per, make, _ in ROWS:
            if name == row:
                more = measured(ours, lambda n, make=make: make(n))
                print(f'{title}, measured: ' + (f'{more:,} bytes' if more else 'no deeper than reading and printing'))

main()
