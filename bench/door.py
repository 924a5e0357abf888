#!/usr/bin/env python3
"""door.py DOOR EGUI: the table of calls through the linked library, from Rust, beside egui called from Rust; bench/door.sh runs it.

DOOR is compare/linked's bin door, EGUI compare's bin bench: both take the requests of table.py. Instructions are callgrind's, as there. The numbers that
insertions and interacts print must agree; a pass's answers are compared by compare/linked.
"""
import shlex, sys
import table

WANTED = ('pass, no event', 'pass, 8 events', 'pass, 64 events', 'insertion, 128 widgets in 4, new', 'insertion, 128 widgets in 4, known',
          'insertion, 128 widgets in 4, moved to top', 'interact, 3 hits', 'interact, 64 hits', '30 questions')

door, egui = shlex.split(sys.argv[1]), shlex.split(sys.argv[2])
print('| call through the door | instructions, ours : egui : with the checks | ratio | with the checks |')
print('|---|---|---|---|')
differ = False
for name, _, n, per, make, less in table.ROWS:
    if name not in WANTED:
        continue
    if name.startswith(('insertion', 'interact')) and table.answer(door, make(n)) != table.answer(egui, make(n)):
        differ = True
        print(f'answers differ in {name}', file=sys.stderr)
    i, j, k = (table.count(x, n, per, make, less) for x in (door, egui, egui + ['checked']))
    print(f'| {name} | {i:,.0f} : {j:,.0f} : {k:,.0f} | {i / j:.2f} | {i / k:.2f} |', flush=True)
sys.exit(differ)
