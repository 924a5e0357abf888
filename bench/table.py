#!/usr/bin/env python3
"""table.py OURS EGUI: the table of ratios that run.sh prints.

OURS is the command of the program bench_calls, EGUI that of compare's bin bench. Both read one request on standard input
(crates/bench_calls/src/main.rt says what stands where) and print a number that depends on every answer: the two must agree.
Instructions are callgrind's: the difference of a run of 2N calls and one of N, over N. Time is the same difference by the wall clock,
the least of some runs. `egui` has its events and hits ready; `with the checks` also decodes the feed, checks the domain and writes the id
sets as ascending lists, as the calls here do.
An insertion's lent slots go through the program by value: a run that only copies them is taken off. The questions are asked after a
pass of 8 events, which is taken off too. Of both the time would say nothing: what is taken off is far more than what is left.
Beside a root egui's column is the processor's own instruction.
Beside the factor of an exponent egui's column is Rust's `f32::exp`, and the number is how many factors lie above 1.
Beside parking and restoring egui's column is a plain copy of as many words. A full panel has 1,000 samples, 64 pointer events and 40 touches.
"""
import shlex, struct, subprocess, sys, time

f = lambda x: struct.unpack('<I', struct.pack('<f', x))[0]
KINDS = {
    'key down': lambda i: [0x10000100 | (20 + i % 8)],
    'key up': lambda i: [0x10000000 | (20 + i % 8)],
    'modifiers': lambda i: [0x20000000 | i % 2],
    'moved': lambda i: [0x30000000, f(10 + i), f(20 + 2 * i)],
    'motion': lambda i: [0x40000000, f(1), f(2)],
    'press': lambda i: [0x50000100, f(10), f(20)],
    'release': lambda i: [0x50000000, f(10), f(20)],
    'gone': lambda i: [0x60000000],
    'zoom': lambda i: [0x70000000, f(1.0)],
    'rotate': lambda i: [0x80000000, f(0.125)],
    'touch': lambda i: [0x90000000 | i, 1, 0, 7, 0, f(5 + i), f(5)],
    'wheel': lambda i: [0xA0000000 | 1 << 7 | 1 << 9, f(0), f(8)],
    'focus': lambda i: [0xB0000001],
    'other': lambda i: [0xC0000000],
}

def mixed(n):
    """n events of every kind in turn; a touch starts, moves and ends."""
    feed, touches = [], [0, 1, 1, 2]
    names = ['moved', 'press', 'touch', 'key down', 'wheel', 'release', 'modifiers', 'moved',
             'touch', 'motion', 'zoom', 'key up', 'touch', 'rotate', 'other', 'touch', 'focus', 'gone']
    if n == 8:
        names = ['moved', 'press', 'touch', 'key down', 'wheel', 'release', 'touch', 'key up']
        touches = [0, 2]
    t = 0
    for i in range(n):
        name = names[i % len(names)]
        k = i
        if name == 'touch':
            k = touches[t % len(touches)]
            t += 1
        feed += KINDS[name](k)
    return feed

def hits(n):
    """n entries, the bottom one first, with ids in no order; every fourth senses clicks."""
    words = []
    for i in range(n):
        words += [(i + 1) * 0x9E3779B1 % 2**32, 1 if i % 4 == 1 else 0]
    return words

PASS, INSERT, INTERACT, ASK, ROOT32, ROOT64, EXPONENT, PARK = range(8)
def request(kind, n, a=0, b=0, c=0, words=()):
    return struct.pack(f'<{6 + len(words)}I', kind, n, a, b, c, len(words), *words)

# 96: the pointer hovers, and moved once. Name, bar, N, what one call divides by, the request of n calls, and one that is taken off it
ROWS = []
def row(name, bar, n, make, per=1, less=None):
    ROWS.append((name, bar, n, per, make, less))

row('pass, no event', 2.0, 2000, lambda n: request(PASS, n))
row('pass, 8 events', 2.0, 1000, lambda n: request(PASS, n, words=mixed(8)))
row('pass, 64 events', 1.0, 300, lambda n: request(PASS, n, words=mixed(64)))
pressed = KINDS['press'](0) + sum((KINDS['moved'](i) for i in range(63)), [])
row('pass, press and 63 moves', None, 300, lambda n: request(PASS, n, words=pressed))
released = KINDS['press'](0) + sum((KINDS['release'](i) for i in range(63)), [])
row('pass, press and 63 releases', None, 300, lambda n: request(PASS, n, words=released))
for w, l in ((16, 1), (128, 1), (128, 4), (1024, 1), (1024, 32)):
    for c, what in enumerate(('new', 'known', 'moved to top')):
        row(f'insertion, {w} widgets in {l}, {what}', 2.0, max(1, 256 // w), lambda n, w=w, l=l, c=c: request(INSERT, n * w, w, l, c), w,
            lambda n, w=w, l=l: request(INSERT, n * w, w, l, 3))
row('interact, 3 hits', 2.0, 2000, lambda n: request(INTERACT, n, 2, 2, 96, hits(3)))
row('interact, 64 hits', 1.0, 300, lambda n: request(INTERACT, n, 6, 2, 96, hits(64)))
row('root of an f32', None, 20000, lambda n: request(ROOT32, n))
row('root of an f64', None, 20000, lambda n: request(ROOT64, n))
row('factor of an exponent', None, 20000, lambda n: request(EXPONENT, n))
touched = sum(([0x90000000, device, 0, touch, 0, f(5 + touch), f(5)] for device in range(1, 5) for touch in range(10)), [])
moved = sum((KINDS['moved'](i) for i in range(64)), [])
for b, what in enumerate(('park', 'restore')):
    row(f'{what} a fresh panel, 246 words', None, 1000, lambda n, b=b: request(PARK, n, 0, b, 246))
    row(f'{what} a full panel, 4,974 words', None, 100, lambda n, b=b: request(PARK, n, len(touched), b, 4974, touched + moved))
row('30 questions', 2.0, 1000, lambda n: request(ASK, n, words=mixed(8)), 1, lambda n: request(PASS, n, words=mixed(8)))

def answer(cmd, data):
    return subprocess.run(cmd, input=data, capture_output=True, check=True).stdout
def instructions(cmd, data):
    r = subprocess.run(['valgrind', '--tool=callgrind', '--callgrind-out-file=/dev/null'] + cmd, input=data, capture_output=True, check=True)
    return int([l for l in r.stderr.decode().splitlines() if 'Collected' in l][0].split()[-1])
def count(cmd, n, per, make, less):
    one = lambda m: (instructions(cmd, m(2 * n)) - instructions(cmd, m(n))) / n / per
    return one(make) - (one(less) if less else 0)
def seconds(cmd, data):
    best = 1e9
    for _ in range(20):
        t = time.perf_counter()
        answer(cmd, data)
        best = min(best, time.perf_counter() - t)
    return best
def nanoseconds(cmd, n, make):
    k = 50 * n
    return (seconds(cmd, make(2 * k)) - seconds(cmd, make(k))) / k * 1e9

def main():
    ours, egui = shlex.split(sys.argv[1]), shlex.split(sys.argv[2])
    only = sys.argv[3] if len(sys.argv) > 3 else ''
    print('| call | instructions, ours : egui | ratio | bar | egui with the checks | ratio | ns, ours : egui : with the checks |')
    print('|---|---|---|---|---|---|---|')
    differ = False
    for name, bar, n, per, make, less in ROWS:
        if only not in name:
            continue
        a, b, c = answer(ours, make(n)), answer(egui, make(n)), answer(egui + ['checked'], make(n))
        if not a == b == c:
            differ = True
            print(f'answers differ in {name}: {a} {b} {c}', file=sys.stderr)
        i, j, k = (count(x, n, per, make, less) for x in (ours, egui, egui + ['checked']))
        ns = ''
        if not less:
            t, u, v = (nanoseconds(x, n, make) for x in (ours, egui, egui + ['checked']))
            ns = f'{t:,.0f} : {u:,.0f} : {v:,.0f}'
        above = ' **above**' if bar and i / j > bar else ''
        print(f'| {name} | {i:,.0f} : {j:,.0f} | {i / j:.2f}{above} | {bar or ""} | {k:,.0f} | {i / k:.2f} | {ns} |', flush=True)
    sys.exit(differ)

if __name__ == '__main__':
    main()
