#!/usr/bin/env python3
"""Records calls of egui and writes them as the tables of crates/model_calls.

    EGUI_ORACLE=/path/to/oracle compare/vectors/model_calls.py

EGUI_ORACLE is the program that runs egui itself on words (its FORMAT.md has the words of each call). Each scenario below starts from a fresh
panel and ends with DUMP; every pass is followed by ASK, but for the passes between interacts.
"""
import os, pathlib, random, struct, subprocess

RESET, PASS, INSERT, CLEAR, INTERACT, ASK, DUMP, SET_TALLY = 0, 1, 2, 3, 4, 5, 6, 8
OUT = pathlib.Path(__file__).resolve().parents[2] / "crates/model_calls"
INF, NAN = float("inf"), float("nan")


# ---- words
def f32(x):
    return struct.unpack("<I", struct.pack("<f", x))[0]


def f64(x):
    return list(struct.unpack("<II", struct.pack("<d", x)))


def u64(n):
    return [n & 0xFFFFFFFF, n >> 32]


# ---- events
ALT, CTRL, SHIFT, MAC, COMMAND = 1, 2, 4, 8, 16
START, MOVE, END, CANCEL = 0, 1, 2, 3
POINT, LINE, PAGE = 0, 1, 2
UNKNOWN, WHEEL, TRACKPAD, MOMENTUM = 0, 1, 2, 3
ESCAPE = 4


def word(kind, low=0):
    return kind << 28 | low


def key(k, down=True):
    return [word(1, k | down << 8)]


def mods(flags):
    return [word(2, flags)]


def move(x, y):
    return [word(3), f32(x), f32(y)]


def motion(x, y):
    return [word(4), f32(x), f32(y)]


def button(down, x, y, b=0, flags=0):
    return [word(5, flags | b << 5 | down << 8), f32(x), f32(y)]


def press(x, y, b=0, flags=0):
    return button(1, x, y, b, flags)


def release(x, y, b=0, flags=0):
    return button(0, x, y, b, flags)


GONE = [word(6)]
OTHER = [word(12)]


def zoom(x):
    return [word(7), f32(x)]


def rotate(x):
    return [word(8), f32(x)]


def touch(phase, i, x, y, force=None, device=1):
    given = [] if force is None else [f32(force)]
    return [word(9, phase | len(given) << 2)] + u64(device) + u64(i) + [f32(x), f32(y)] + given


def wheel(x, y, unit=POINT, phase=MOVE, source=UNKNOWN, flags=0):
    return [word(10, flags | unit << 5 | phase << 7 | source << 9), f32(x), f32(y)]


def focus(b):
    return [word(11, b)]


# ---- a widget's record, 17 words
def record(i, sense, enabled=True, visible=True, order=1, layer=1, parent=1, rect=(0, 0, 100, 100), inner=(1, 1, 99, 99)):
    return u64(i) + u64(parent) + [order] + u64(layer) + [f32(x) for x in (*rect, *inner)] + [sense, enabled | visible << 1]


# ---- a scenario is a list of requests: call, words, comment
class Scenario:
    def __init__(self, name, about, asks):
        self.name, self.about, self.asks, self.requests = name, about, asks, [(RESET, [])]

    def ask(self):
        self.requests.append((ASK, []))
        return self

    def dump(self):
        self.requests.append((DUMP, []))
        return self

    def at(self, time, *events, rect=(0, 0, 640, 480), dt=1 / 60, factor=0.5, ppp=1.0, focused=True, repaint=False,
           line=40.0, speed=1 / 200, dist=6.0, duration=0.8, delay=0.3, zooms=COMMAND, horizontal=SHIFT, vertical=ALT, ask=True):
        bits = (time is not None) | (rect is not None) << 1 | focused << 2 | repaint << 3
        words = [bits] + f64(0.0 if time is None else time) + [f32(dt), f32(factor), f32(ppp)] + [f32(x) for x in rect or (0, 0, 0, 0)]
        words += [f32(line), f32(speed), f32(dist)] + f64(duration) + f64(delay) + [zooms | horizontal << 5 | vertical << 10]
        self.requests.append((PASS, words + [w for e in events for w in e]))
        return self.ask() if ask and self.asks else self

    # a pass that is refused: nothing is asked after it
    def refuses(self, time, *events, **options):
        return self.at(time, *events, ask=False, **options)

    # lent: contents of the slice's first places, as records
    def widget(self, i, sense, enabled=True, visible=True, to_top=False, order=1, layer=1, parent=1, rect=(0, 0, 100, 100), inner=(1, 1, 99, 99), places=64, lent=()):
        words = record(i, sense, enabled, visible, order, layer, parent, rect, inner)
        words[16] |= to_top << 2
        self.requests.append((INSERT, words + [places] + [w for r in lent for w in r]))
        return self

    def clear(self):
        self.requests.append((CLEAR, []))
        return self

    def interact(self, close=(), contains=(), click=None, drag=None, places=(66, 66)):
        words = [places[0], places[1], len(close), len(contains), (click is not None) | (drag is not None) << 1]
        for i, sense in list(close) + list(contains) + [h for h in (click, drag) if h is not None]:
            words += u64(i) + [sense]
        self.requests.append((INTERACT, words))
        return self

    def tally(self, n):
        self.requests.append((SET_TALLY, [n]))
        return self


TABLES = {}


def scenario(table, name, about):
    s = Scenario(name, about, table != "Interacts")
    TABLES.setdefault(table, []).append(s)
    return s


# ---- pointer: clicks
s = scenario("Clicks", "one-click", "a click over two passes, with modifiers; then nothing")
s.at(1.0, press(10, 20, flags=CTRL | COMMAND)).at(1.1, release(11, 20, flags=SHIFT)).at(1.2).at(5.0)

s = scenario("Clicks", "many-clicks", "double, triple, and what follows; the delay of 0.3 s runs out")
for k in range(4):
    s.at(1 + 0.2 * k, press(10, 10), release(10, 10))
s.at(1.95, press(10, 10), release(10, 10)).at(2.1, press(10, 10), release(10, 10)).at(2.41, press(10, 10), release(10, 10))

s = scenario("Clicks", "two-in-a-pass", "two clicks in one pass, then a third; by other buttons as well")
s.at(1.0, press(10, 10), release(10, 10), press(10, 10), release(10, 10)).at(1.01, press(10, 10), release(10, 10))
s.at(1.02, press(10, 10, 1), release(10, 10, 1), press(10, 10, 2), release(10, 10, 2, ALT)).at(2.0, press(9, 9, 3), press(9, 9, 4)).at(2.1, release(9, 9, 3)).at(2.2, release(9, 9, 4))

s = scenario("Clicks", "second-far", "a second click 5, 6 and 7 away, with and without a delay that allows it")
s.at(1.0, press(0, 0), release(0, 0)).at(1.1, press(3, 4), release(3, 4)).at(1.2, press(3, 10), release(3, 10)).at(1.3, press(10, 10), release(10, 10))
s.at(1.4, press(10, 10), release(10, 10), delay=0.0).at(1.5, press(10, 10), release(10, 10), dist=0.0).at(1.6, press(10, 10), release(10, 10), delay=3600.0, duration=-0.0, dist=-0.0)

s = scenario("Clicks", "moved", "moves of the click distance and over it; back again is too late")
s.at(1.0, press(10, 10), move(16, 10)).at(1.1, release(16, 10)).at(2.0, press(10, 10)).at(2.1, move(16.001, 10)).at(2.2, move(10, 10)).at(2.3, release(10, 10))
s.at(3.0, press(10, 10), move(14, 14.5), release(10, 10)).at(4.0, move(90, 90), press(10, 10), release(90, 90))
# the root rounds to 5, the square is over 25
s.at(5.0, press(0, 0), move(3.0000002384185791, 4), release(3, 4), dist=5.0)

s = scenario("Clicks", "held", "held 0.8 s, and longer; decidedly dragging once it is over")
s.at(1.0, press(10, 10)).at(1.5).at(1.8).at(1.81).at(1.9).at(2.0, release(10, 10)).at(2.1)
s.at(3.0, press(10, 10), duration=0.75).at(3.75, release(10, 10), duration=0.75).at(4.0, press(10, 10), duration=0.75).at(4.8125, release(10, 10), duration=0.75)

s = scenario("Clicks", "options-change", "the options of the release's pass decide, and those of the pass asked before")
s.at(1.0, press(10, 10), move(30, 10), dist=100.0).at(1.1, release(30, 10)).at(2.0, press(10, 10), move(30, 10)).at(2.1, dist=100.0).at(2.2, release(30, 10), dist=100.0)
s.at(3.0, press(10, 10), duration=0.1).at(3.5, duration=0.1).at(3.6, duration=3600.0).at(3.7, release(10, 10), duration=3600.0).at(4.0, press(1, 1), duration=0.0).at(4.0, duration=0.0).at(4.1, release(1, 1), duration=0.0)

s = scenario("Clicks", "two-buttons", "a second button pressed and released while the first is held")
s.at(1.0, press(10, 10)).at(1.1, press(12, 10, 1)).at(1.2, release(12, 10, 1)).at(1.3, move(50, 50)).at(1.4, release(50, 50))
s.at(2.0, press(10, 10), press(40, 40, 2), move(10, 10)).at(2.1, release(10, 10)).at(2.2, release(10, 10, 2))

s = scenario("Clicks", "releases-alone", "releases with no button down: the second of a pass clicks")
s.at(1.0, release(10, 10)).at(1.1, release(10, 10), release(11, 10)).at(1.2, release(10, 10, 4)).at(1.3, move(90, 90), release(10, 10), release(10, 10, 1), release(10, 10, 2))

s = scenario("Clicks", "at-time-zero", "clicks at time 0, and at the largest time")
s.at(0.0, press(1, 1), release(1, 1)).at(0.0, press(1, 1), release(1, 1)).at(4294967296.0, press(1, 1), release(1, 1)).at(4294967296.0, press(1, 1), release(1, 1))

# ---- pointer: place, velocity, motion
s = scenario("Places", "velocity", "samples come, age and go; three samples over more than 0.01 s are needed")
for k in range(6):
    s.at(1 + k / 60, move(10 * k, 5 * k * k))
s.at(1.15).at(1.2).at(1.3, move(7, 7)).at(1.301, move(8, 7)).at(1.302, move(9, 7)).at(1.31, move(9, 9)).at(1.32, move(9, 9)).at(2.0)

s = scenario("Places", "press-clears", "a press clears the history; a release does not")
s.at(1.0, move(0, 0)).at(1.02, move(5, 0)).at(1.04, move(10, 0)).at(1.06, press(20, 0)).at(1.08, move(30, 0)).at(1.1, move(40, 1)).at(1.12, release(50, 2)).at(1.14, move(60, 3)).at(1.16)

s = scenario("Places", "same-time", "passes at one time, and history of no duration")
s.at(1.0, move(0, 0)).at(1.0, move(5, 5)).at(1.0, move(9, 5)).at(1.005, move(10, 5)).at(1.02, move(10, 5)).at(1.02, move(10, 5), GONE)

s = scenario("Places", "gone-and-back", "the pointer is gone and comes back; its interact position lasts one pass more")
s.at(1.0, move(10, 10)).at(1.02, move(20, 10)).at(1.04, move(30, 10), GONE).at(1.06).at(1.08, move(40, 10)).at(1.1, GONE, move(50, 10)).at(1.12, move(60, 10)).at(1.14, GONE)
s.at(1.16, press(9, 9)).at(1.18, GONE).at(1.2).at(1.22, move(40, 40)).at(1.24, release(40, 40), GONE)

s = scenario("Places", "relative-motion", "motions sum in a pass, and are zero in the next one")
s.at(1.0).at(1.1, motion(1, 2), motion(0.1, -0.25)).at(1.2).at(1.3, motion(-0.0, 65536)).at(1.4, motion(1e-40, -65536), OTHER)

s = scenario("Places", "drags-apart", "the drag's delta from its press; signed zeros")
s.at(1.0, press(100, 100)).at(1.02, move(120, 90)).at(1.04, move(-120.5, -0.0)).at(1.06, GONE).at(1.08, move(-0.0, 0)).at(1.1, move(0, -0.0)).at(1.12, move(0, -0.0)).at(1.14, release(0, 0))

# ---- clock, screen, keys, zoom, rotation
s = scenario("Inputs", "clock", "times given and absent, a repaint asked for, dt narrowed")
s.ask().at(-0.0).at(None, dt=-0.0).at(None).at(None, dt=1.0).at(5.1, repaint=True).at(5.1, repaint=True, dt=0.0).at(None, dt=0.25, repaint=True).at(1000000.1).at(1000000.2, repaint=True).at(4294967295.5).at(None, dt=0.5)

s = scenario("Inputs", "screen", "the rectangle stays where none is given; focus, pixels per point")
s.at(1.0, rect=None, focused=False).at(1.1, rect=(-5, 7.5, 65536, -65536), ppp=1.5).at(1.2, rect=None, ppp=0.0).at(1.3, ppp=1024.0, focused=False).at(1.4, ppp=3.0).at(1.5, ppp=1e-40).at(1.6, ppp=-0.0)

s = scenario("Inputs", "keys", "keys go down, again, up; presses are counted; lost focus clears keys and modifiers")
s.at(1.0, key(0), key(144), key(31), key(32)).at(1.1, key(0), key(0), key(0, False), key(0)).at(1.2, key(31, False), key(31, False), mods(CTRL | COMMAND)).at(1.3)
s.at(1.4, key(7), focus(0), key(8)).at(1.5, focus(1), mods(31)).at(1.6, focus(0)).at(1.7, mods(MAC), focus(1), OTHER)
s.at(1.8, *[key(60) for _ in range(64)])

s = scenario("Inputs", "zooms", "factors multiply, radians add; a modifier suppresses an axis")
s.at(1.0, zoom(1.5), zoom(0.7), rotate(0.1), rotate(-0.35)).at(1.1, mods(SHIFT), zoom(1024), zoom(1024), zoom(1e-30)).at(1.2, mods(ALT), zoom(3), rotate(64), rotate(-64))
s.at(1.3, mods(ALT | SHIFT), zoom(1.1)).at(1.4, mods(CTRL), zoom(1e-40), zoom(1e-10)).at(1.5, zoom(2), horizontal=COMMAND).at(1.6, zoom(2), vertical=CTRL | ALT).at(1.7, *[zoom(1024) for _ in range(14)]).at(1.8, rotate(-0.0))

# ---- wheel
s = scenario("Wheels", "units", "a delta by points, by lines, by pages of the pass's own rectangle; smoothed over passes")
s.at(1.0, wheel(0, 8)).at(1.02).at(1.04).at(1.06).at(1.08).at(1.1)
s.at(2.0, wheel(3, -2, LINE), factor=0.3).at(2.02, factor=0.3).at(2.04, wheel(0.1, 0.02, LINE), factor=0.3).at(2.06, factor=0.3, line=7.5)
s.at(3.0, wheel(0, -1, PAGE), rect=(0, 10, 640, 310)).at(3.02, wheel(1, 0, PAGE), rect=None).at(3.04, factor=0.0).at(3.06, factor=1.0).at(3.08)

s = scenario("Wheels", "small", "under 8 points it is smooth at once: by its length, after the axis swap")
s.at(1.0, wheel(0, 7.5)).at(1.02, wheel(5, 6)).at(1.04, wheel(5.7, 5.7)).at(1.06, wheel(5, 5, flags=SHIFT)).at(1.08, wheel(9, -9, flags=SHIFT)).at(1.1, wheel(-5, -5, flags=ALT)).at(1.12, wheel(5, 5, flags=ALT | SHIFT)).at(1.14, wheel(4, 4), wheel(4, 4), wheel(-4, 4))
s.at(1.5, wheel(0, 1)).at(1.51, wheel(0, 1, flags=ALT), horizontal=ALT | SHIFT, vertical=SHIFT).at(1.52, wheel(-65536, 65536)).at(1.54)

s = scenario("Wheels", "in-touch", "from Start to End: no smoothing, modifiers add up, a Trackpad may rest for a second")
s.at(1.0, wheel(0, 0, phase=START, source=TRACKPAD)).at(1.1, wheel(0, 20, source=TRACKPAD)).at(1.2, wheel(3, 20, LINE, source=TRACKPAD, flags=SHIFT)).at(1.3, wheel(3, 20, source=TRACKPAD)).at(2.3).at(2.301).at(2.302, wheel(0, 20, source=TRACKPAD))
s.at(3.0, wheel(9, 9, phase=START, source=WHEEL)).at(3.1, wheel(0, 30, source=WHEEL)).at(3.25).at(3.26).at(4.0, wheel(0, 0, phase=START, source=TRACKPAD)).at(4.1, wheel(0, 30), wheel(1, 1, phase=END, source=MOMENTUM)).at(4.2)
s.at(5.0, wheel(0, 0, phase=START, source=UNKNOWN, flags=SHIFT)).at(5.1, wheel(0, 30, phase=CANCEL, flags=ALT)).at(5.2, wheel(0, 30, source=MOMENTUM)).at(5.3, wheel(0, 0, phase=END)).at(5.4)

s = scenario("Wheels", "timeouts", "smoothing lasts 0.15 s from the last event; an event after it begins anew")
s.at(1.0, wheel(0, 1)).at(1.125).at(1.15).at(1.1500001).at(1.25).at(2.0, wheel(0, 1, flags=SHIFT)).at(2.3, wheel(0, 20, flags=0)).at(2.31).at(2.32).at(2.33).at(2.34).at(2.48).at(2.49)
s.at(3.0, wheel(0, 0, phase=START, source=TRACKPAD, flags=SHIFT)).at(4.01, wheel(0, 5, source=TRACKPAD)).at(4.1, wheel(0, 0)).at(4.3, wheel(0, 0, phase=START)).at(4.4, wheel(0, 0, phase=START, source=TRACKPAD, flags=ALT))

s = scenario("Wheels", "resting", "only a finger on a trackpad may rest: in touch by a wheel, and smoothing from a trackpad, end after 0.15 s")
s.at(1.0, wheel(0, 0, phase=START, source=WHEEL, flags=SHIFT)).at(1.125).at(1.1875).dump().at(2.0, wheel(0, 1, source=TRACKPAD, flags=ALT)).at(2.125).at(2.25).dump().at(3.0, wheel(0, 0.01, PAGE)).at(3.1)

s = scenario("Wheels", "zooms-by-wheel", "the wheel zooms where its modifiers match, at its own speed")
s.at(1.0, wheel(0, 20, flags=CTRL)).at(1.02, wheel(0, 20, flags=COMMAND), speed=0.5).at(1.04, wheel(3, 4, flags=MAC), speed=1.0, zooms=ALT).at(1.06, wheel(3, 4, flags=ALT), speed=0.0, zooms=ALT).at(1.08, mods(CTRL)).at(1.1, wheel(0, 8, flags=CTRL | SHIFT), mods(SHIFT), zoom(2)).at(1.12, mods(ALT)).at(1.5).at(2.0, wheel(0, 20, flags=CTRL), speed=-0.0).at(2.1, wheel(1, 2, LINE), line=-0.0)

# ---- touch
s = scenario("Touches", "pinch", "two fingers, moved, turned and pinched; a third comes and goes")
s.at(1.0, move(50, 60)).at(1.1, touch(START, 1, 0, 0), touch(START, 2, 4, 0)).at(1.2, touch(MOVE, 2, 8, 0)).at(1.3, touch(MOVE, 1, 1, 3), touch(MOVE, 2, 7, 5)).at(1.4)
s.at(1.5, touch(START, 3, 20, 20, 0.5)).at(1.6, touch(MOVE, 3, 22, 25, 0.75)).at(1.7, touch(END, 1, 1, 3)).at(1.8, touch(MOVE, 2, 8, 5.5)).at(1.9, touch(CANCEL, 2, 0, 0)).at(2.0).at(2.1, touch(END, 3, 0, 0))

s = scenario("Touches", "pinch-kinds", "horizontal, vertical and proportional: 3 times the other is not enough")
for x, y in ((3, 1), (3.01, 1), (1, 3), (1, 3.01), (0, 0), (-7, 0)):
    s.at(None, move(5, 5)).at(None, touch(START, 1, 0, 0), touch(START, 2, x, y)).at(None, touch(MOVE, 2, 2 * x, 3 * y)).at(None, touch(END, 1, 0, 0), touch(END, 2, 0, 0))

s = scenario("Touches", "start-position", "a gesture starts at the interact position of the pass before; with none there is no gesture")
s.at(1.0, touch(START, 1, 0, 0), touch(START, 2, 4, 0), move(9, 9)).at(1.1, move(19, 19)).at(1.2, touch(END, 1, 0, 0)).at(1.3, GONE, touch(START, 1, 1, 1)).at(1.4).at(1.5, touch(END, 1, 0, 0)).at(1.6, touch(START, 1, 3, 3)).at(1.7, move(1, 2)).at(1.8)

s = scenario("Touches", "coincident", "two fingers in one place, still and then apart")
s.at(1.0, move(0, 0)).at(1.1, touch(START, 1, 4, 4), touch(START, 2, 4, 4)).at(1.2).at(1.3, touch(MOVE, 2, 5, 4)).at(1.4, touch(MOVE, 2, 4, 4)).at(1.5)

s = scenario("Touches", "replaced", "Start of a held id replaces it; Move and End of one that is not held do nothing but make the device known")
s.at(1.0, move(5, 5), touch(MOVE, 7, 1, 1, device=3)).at(1.1, touch(START, 7, 1, 1, 1.0, device=3), touch(START, 7, 2, 2, device=3)).at(1.2, touch(START, 1 << 63, 9, 9, 0.25, device=3)).at(1.3, touch(START, 7, 3, 3, 0.0, device=3)).at(1.4, touch(MOVE, 8, 5, 5, device=3)).at(1.5, touch(END, 8, 5, 5, device=3)).at(1.6, touch(MOVE, 7, 4, 4, -0.0, device=3)).at(1.7, touch(CANCEL, 9, 0, 0, device=2))

s = scenario("Touches", "two-devices", "of two devices with a gesture the first by id answers; ids of 64 bits")
s.at(1.0, move(5, 5)).at(1.1, touch(START, 1, 0, 0, device=1 << 40), touch(START, 2, 8, 0, device=1 << 40)).at(1.2, touch(START, 1, 0, 0, device=5), touch(START, 2, 0, 8, device=5), touch(MOVE, 2, 16, 0, device=1 << 40)).at(1.3, touch(MOVE, 2, 0, 9, device=5)).at(1.4, touch(END, 2, 0, 9, device=5)).at(1.5, touch(MOVE, 2, 20, 3, device=1 << 40), zoom(3), rotate(1), wheel(0, 3))

s = scenario("Touches", "ten-fingers", "ten touches and averages of many; an ended one frees its place in the same pass")
s.at(1.0, move(5, 5)).at(1.1, *[touch(START, 20 - k, 3.3 * k, 100 / (k + 1), 0.1 * k) for k in range(10)]).at(1.2, *[touch(MOVE, 20 - k, 3.7 * k, 90 / (k + 1)) for k in range(9)]).at(1.3, touch(END, 11, 0, 0), touch(START, 99, 1, 1), touch(START, 20, 2, 2)).refuses(1.4, touch(START, 50, 0, 0)).at(1.5)

s = scenario("Touches", "long-touch", "a finger that presses and stays: the wait for a menu, then a long touch, once")
s.at(1.0, touch(START, 1, 9, 9), press(9, 9)).at(1.1).at(1.5).at(1.79).at(1.81).at(1.9).at(2.0, touch(END, 1, 9, 9), release(9, 9)).at(2.1)
s.at(3.0, touch(START, 1, 9, 9), press(9, 9)).at(3.1, touch(MOVE, 1, 30, 9), move(30, 9)).at(3.2).at(3.9).at(4.0, touch(END, 1, 9, 9))
s.at(5.0, touch(START, 1, 9, 9), press(9, 9), duration=0.75).at(5.75, duration=0.75).at(5.76, duration=0.75).at(6.0, release(9, 9)).at(7.0, press(9, 9)).at(8.0, move(90, 9)).at(8.1)

# ---- refusals of a pass
s = scenario("Refusals", "own-numbers", "the pass's own numbers outside the domain, by one each; then a time below; all left as before")
s.at(5.0, press(1, 1))
for options in ({"dt": 1.0001}, {"dt": -0.0001}, {"dt": NAN}, {"factor": 1.5}, {"factor": -1e-45}, {"factor": INF}, {"ppp": 1024.1}, {"ppp": -1.0}, {"ppp": NAN},
                {"rect": (65537, 0, 0, 0)}, {"rect": (0, NAN, 0, 0)}, {"rect": (0, 0, -65537, 0)}, {"rect": (0, 0, 0, INF)}, {"line": 65537.0}, {"line": -1.0},
                {"speed": 1.1}, {"speed": NAN}, {"dist": -1.0}, {"dist": INF}, {"duration": 3600.1}, {"duration": NAN}, {"delay": -0.1}, {"delay": INF}):
    s.refuses(6.0, **options)
for t in (-1.0, NAN, INF, 4294967296.5, 4.999, 0.0, -0.0):
    s.refuses(t)
s.refuses(4.0, [0]).refuses(-1.0, [0]).refuses(4.0, dt=2.0).ask().at(5.0, dt=1.0, factor=-0.0, ppp=1024.0, rect=(65536, -65536, -0.0, 0), line=65536.0, speed=1.0, dist=65536.0, duration=3600.0, delay=0.0)
s.at(4294967296.0).refuses(None).at(None, dt=0.0)

s = scenario("Refusals", "shapes", "unknown kinds, stray bits, unknown fields, events cut short")
for kind in (0, 13, 14, 15):
    s.refuses(1.0, OTHER, [word(kind)])
for low in (145, 255, 512 | 3, 1 << 27):
    s.refuses(1.0, [word(1, low)])
for w in (word(2, 32), word(3, 1), word(4, 1 << 20), word(5, 5 << 5), word(5, 7 << 5), word(5, 512), word(6, 1), word(7, 1), word(8, 2), word(9, 8), word(10, 3 << 5), word(10, 1 << 11), word(11, 2), word(12, 1)):
    s.refuses(1.0, key(1), zoom(1), [w] + [0] * 7)
for e in (move(1, 1), motion(1, 1), press(1, 1), zoom(1), rotate(1), touch(START, 1, 1, 1), touch(START, 1, 1, 1, 0.5), wheel(1, 1)):
    s.refuses(1.0, OTHER, e[:-1])
s.refuses(1.0, touch(START, 1, 1, 1)[:1]).refuses(1.0, [word(9, 4)] + [0] * 6).ask().at(1.0, touch(START, 1, 1, 1, 0.0), key(144, False), mods(31), press(0, 0, 4, 31))

s = scenario("Refusals", "floats", "floats at the domain's ends and past them")
for bad in (move(65536.01, 0), move(0, NAN), motion(INF, 0), press(0, -65537), release(NAN, 0), zoom(0), zoom(-0.0), zoom(-1), zoom(1024.1), zoom(NAN), rotate(64.1), rotate(-64.1), rotate(NAN), rotate(INF),
            touch(END, 1, 0, 70000), touch(MOVE, 1, NAN, 0), touch(START, 1, 0, 0, 1.001), touch(START, 1, 0, 0, -0.1), touch(START, 1, 0, 0, NAN), wheel(0, 65537), wheel(-INF, 0)):
    s.refuses(1.0, zoom(2), bad)
s.at(1.0, move(65536, -65536), motion(-65536, 65536), zoom(1024), zoom(1e-45), rotate(64), rotate(-64), touch(START, 1, 65536, 65536, 1.0), wheel(65536, -65536))
s.refuses(1.1, zoom(2), [word(5, 512), 0x7FC00000, 0]).refuses(1.1, [word(3), 0x7FC00000]).refuses(1.1, move(INF, 0), [0])

s = scenario("Refusals", "too-many", "event 65 whatever it is, 64 pass; what comes first is told")
s.at(1.0, *[zoom(1.01)] * 64).refuses(1.1, *[zoom(1.01)] * 65).refuses(1.1, *[OTHER] * 64, [0]).refuses(1.1, *[OTHER] * 64, move(INF, 0)).refuses(1.1, *[OTHER] * 63, [0], OTHER).refuses(1.1, *[OTHER] * 10, [0], *[OTHER] * 60)
s.refuses(1.1, *[touch(START, k, 0, 0, device=k) for k in range(1, 6)], *[OTHER] * 60)

s = scenario("Refusals", "no-place", "a fifth device by any phase, an eleventh touch; judged event by event")
s.at(1.0, *[touch(START, 1, 0, 0, device=10 * d) for d in range(1, 5)]).refuses(1.1, touch(END, 1, 0, 0, device=5)).refuses(1.1, OTHER, touch(MOVE, 1, 0, 0, device=50)).refuses(1.1, touch(CANCEL, 1, 0, 0, device=15), [0])
s.refuses(1.1, touch(START, 1, 0, NAN, device=15)).at(1.1, *[touch(START, k, k, 0, device=20) for k in range(10)]).refuses(1.2, touch(START, 10, 0, 0, device=20)).at(1.2, touch(END, 3, 0, 0, device=20), touch(START, 10, 0, 0, device=20), touch(START, 10, 1, 0, device=20), touch(MOVE, 77, 1, 1, device=20))
s.refuses(1.3, touch(START, 3, 0, 0, device=20), touch(END, 4, 0, 0, device=20)).ask()

s = scenario("Refusals", "no-place-in-one-pass", "the fifth device and the eleventh touch within one feed of a fresh panel")
s.refuses(1.0, *[touch(START, 1, 0, 0, device=d) for d in range(5)]).refuses(1.0, *[touch(START, k, 0, 0) for k in range(11)]).ask().at(1.0, *[touch(END, 1, 0, 0, device=d) for d in range(4)]).refuses(1.1, touch(END, 1, 0, 0, device=4))

# ---- interact: senses are 1 click, 2 drag, 4 focusable
C, D, F = 1, 2, 4
s = scenario("Interacts", "clicked", "a click on a widget over two passes and in one; on one that is disabled; on none")
s.widget(7, C).widget(8, C, enabled=False).interact()
on = {"close": [(7, C)], "contains": [(7, C)], "click": (7, C)}
s.at(1.0, press(5, 5)).interact(**on).dump().at(1.1, release(5, 5)).interact(**on).interact(**on).at(1.2, press(5, 5), release(5, 5)).interact(**on).at(1.3, press(5, 5)).interact().at(1.4, release(5, 5)).interact(**on)
s.at(2.0, press(5, 5)).interact(contains=[(8, C)], click=(8, C)).at(2.1, release(5, 5)).interact(contains=[(8, C)], click=(8, C)).at(3.0, press(5, 5), press(5, 5, 1)).interact(**on).at(3.1, release(5, 5, 1)).interact(**on).at(3.2, release(5, 5)).interact(**on)

s = scenario("Interacts", "click-spoilt", "held too long or moved too far, the click is none; a click by another button meanwhile")
s.widget(7, C)
s.at(1.0, press(5, 5)).interact(**on).at(2.0).interact(**on).dump().at(2.1, release(5, 5)).interact(**on).at(3.0, press(5, 5)).interact(**on).at(3.1, move(90, 90)).interact().at(3.2, release(90, 90)).interact()
s.at(4.0, press(5, 5)).interact(**on).at(4.1, press(5, 5, 1), release(5, 5, 1)).interact(**on).at(4.2, release(5, 5), press(5, 5), release(5, 5)).interact(**on)
s.at(5.0, press(5, 5)).interact(**on).at(5.1, release(5, 5), release(5, 5)).interact(**on)

s = scenario("Interacts", "dragged", "a drag-only widget: starts at its press, stops at the release; release and press in one pass")
s.widget(7, D)
on = {"close": [(7, D)], "contains": [(7, D)], "drag": (7, D)}
s.at(1.0, press(5, 5)).interact(**on).at(1.1, move(50, 50)).interact(**on).interact().at(1.2, release(5, 5), press(5, 5)).interact(**on).at(1.3, release(5, 5)).interact(**on).interact(**on)
s.at(2.0, press(5, 5), release(5, 5)).interact(**on).at(2.1, press(5, 5), release(5, 5), press(5, 5)).interact(**on).at(2.2, release(5, 5)).interact().at(2.3).interact(**on)

s = scenario("Interacts", "click-and-drag", "a widget that senses both is dragged once that is decided, or once the pointer leaves it")
s.widget(7, C | D).widget(8, C | D | F)
on = {"close": [(7, 3)], "contains": [(7, 3)], "click": (7, 3), "drag": (7, 3)}
s.at(1.0, press(5, 5)).interact(**on).at(1.1, move(9, 5)).interact(**on).at(1.2, move(20, 5)).interact(**on).at(1.3, release(20, 5)).interact(**on)
s.at(2.0, press(5, 5)).interact(**on).at(2.1, move(6, 5)).interact(close=[(7, 3)]).at(2.2, release(6, 5)).interact(**on)
s.at(3.0, press(5, 5)).interact(**on).at(3.9).interact(**on).at(4.0, release(5, 5)).interact(**on).at(5.0, press(5, 5)).interact(contains=[(8, 7)], drag=(8, 7)).at(5.1).interact(click=(8, 7)).at(5.2).interact(contains=[(7, 3)], click=(7, 3)).at(5.3, release(5, 5)).interact()

s = scenario("Interacts", "drag-disabled", "a widget that is disabled, unknown, or senses no drag is not dragged")
s.widget(7, D, enabled=False).widget(8, C).widget(9, F)
for i in (7, 8, 9, 10):
    s.at(None, press(5, 5)).interact(contains=[(i, D)], drag=(i, D)).dump().at(None, release(5, 5)).interact()

s = scenario("Interacts", "escape", "Escape aborts a drag, but not one that a press of the same pass starts")
s.widget(7, D).widget(6, C)
on = {"contains": [(7, D)], "drag": (7, D), "click": (6, C)}
s.at(1.0, press(5, 5)).interact(**on).at(1.1, key(ESCAPE)).interact(**on).at(1.2, key(ESCAPE, False)).interact(**on).at(1.3, release(5, 5)).interact(**on).at(1.4, key(ESCAPE), press(5, 5)).interact(**on).interact(**on).at(1.5, key(5)).interact(**on).at(1.6, key(ESCAPE), release(5, 5)).interact(**on)

s = scenario("Interacts", "long-touched", "a long touch clicks the widget once, and ends its drag")
s.widget(7, C).widget(6, D)
on = {"contains": [(7, C)], "click": (7, C), "drag": (6, D)}
s.at(1.0, touch(START, 1, 5, 5), press(5, 5)).interact(**on).at(1.5).interact(**on).at(1.9).interact(**on).interact(**on).at(2.0).interact(**on).at(2.1, touch(END, 1, 5, 5), release(5, 5)).interact(**on)
s.at(3.0, press(5, 5)).interact(**on).at(3.9).interact(**on).at(4.0, release(5, 5)).interact(**on).at(5.0, touch(START, 1, 5, 5), press(5, 5)).interact(contains=[(9, C)], click=(9, C)).at(6.0).interact(**on).at(6.1, touch(END, 1, 5, 5), release(5, 5)).interact()

s = scenario("Interacts", "vanished", "the widget that might be clicked is gone, and so is the click; a drag goes on without its widget")
s.widget(7, C).widget(6, D)
s.at(1.0, press(5, 5)).interact(**on).clear().at(1.1).interact(**on).dump().widget(7, C).widget(6, D).at(1.2, release(5, 5)).interact(**on)
s.at(2.0, press(5, 5)).interact(**on).clear().widget(6, D).at(2.1, release(5, 5)).interact(**on).widget(7, C).at(3.0, press(5, 5)).clear().interact(**on).widget(7, C).widget(6, D).interact(**on).at(3.1).interact(**on).at(3.2, release(5, 5)).interact(**on)

s = scenario("Interacts", "pointer-gone", "gone while it drags: no potential ids, and the drag lasts to the release")
s.widget(7, C).widget(6, D)
s.at(1.0, press(5, 5)).interact(**on).dump().at(1.1, GONE).interact(**on).dump().at(1.2, move(5, 5)).interact(**on).at(1.3, release(5, 5)).interact(**on).dump().at(2.0, press(5, 5), GONE).interact(**on).dump().at(2.1, release(5, 5)).interact(**on)

s = scenario("Interacts", "hovered", "what lies on top and senses nothing hovers too; ids ascend without repeats")
s.widget(7, C).widget(6, D).widget(5, 0).widget(4, F).at(1.0, move(5, 5))
s.interact(close=[(7, C), (5, 0), (6, D), (4, F), (3, 0)], contains=[(7, C), (5, 0), (6, D), (4, F), (3, 0)], click=(7, C), drag=(6, D))
s.interact(close=[(5, 0), (7, C), (4, F)], contains=[(4, F), (5, 0), (5, 0), (2, 0)], click=(7, C)).interact(close=[(5, 0)], contains=[(5, 0), (1, C), (1 << 63, 0)]).interact(close=[(6, D), (5, 0), (6, D)], contains=[(5, 0), (6, D)], drag=(6, D)).interact(contains=[(9, 0), (8, 4), (9, 0)], click=(3, C), drag=(3, D))
s.at(1.1, press(5, 5)).interact(close=[(7, C), (6, D), (4, F)], contains=[(4, F), (6, D)], click=(7, C), drag=(6, D)).at(1.2, release(5, 5)).interact(close=[(7, C), (6, D), (4, F)], contains=[(4, F)], click=(7, C), drag=(6, D))
s.interact(close=[(k, 0) for k in range(64, 0, -1)], contains=[(k, 0) for k in range(100, 164)], click=(200, C), drag=(201, D))

s = scenario("Interacts", "interact-refusals", "short buffers, too many entries, unnamed senses, ids of 0; by list and entry")
s.at(1.0, press(5, 5)).interact(places=(65, 66)).interact(places=(66, 0)).interact(close=[(k, 0) for k in range(1, 66)]).interact(contains=[(k, 0) for k in range(1, 70)]).interact(close=[(1, 0)] * 64 + [(0, 9)], contains=[(0, 0)])
s.interact(close=[(1, 0), (1, 8)], contains=[(0, 0)]).interact(close=[(1, 0), (0, 0)]).interact(close=[(0, 8)]).interact(close=[(1, 0), (0, 7)], contains=[(1, 9)]).interact(contains=[(1, 0), (2, 7), (3, 1 << 31)]).interact(contains=[(1, 0), (0, 0), (1, 8)])
s.interact(click=(0, 0)).interact(click=(1, 16)).interact(drag=(1, 8)).interact(drag=(0, 1)).interact(click=(1, 8), drag=(0, 0)).interact(click=(0, 0), drag=(1, 8)).interact(close=[(0, 0)], places=(66, 65)).dump()

s = scenario("Interacts", "tally", "the tally counts drag starts; full, a start is refused and all else is taken")
s.widget(7, D).widget(8, C)
on = {"contains": [(7, D)], "drag": (7, D)}
s.tally(4294967294).at(1.0, press(5, 5)).interact(**on).at(1.1, release(5, 5)).interact(**on).at(1.2, press(5, 5)).interact(**on).dump().interact(**on).interact(contains=[(8, C)], click=(8, C)).at(1.3, release(5, 5)).interact(**on)


# ---- widget sets
s = scenario("Widgets", "moved-to-top", "a, b, c; a moved to top, then c, then the top itself; a new one moved to top goes last anyway")
s.widget(11, C).widget(12, D, places=2).widget(13, 0, places=3).widget(11, 0, to_top=True, places=3).dump().widget(13, F, to_top=True).dump().widget(13, F, to_top=True).widget(14, 7, to_top=True).dump().widget(12, C)

s = scenario("Widgets", "updated", "a known id takes new rectangles and the union of sense, enabled and visible; it keeps its parent")
s.widget(11, C, False, False).widget(11, D, False, True, rect=(-1, -2, 3, 4), inner=(0, 0, 0, 0), parent=9).widget(11, F, True, False, rect=(65536, -65536, -0.0, 0.5)).widget(11, 0, False, False).widget(1 << 63, 5, parent=1 << 40).widget(1 << 63, 2, visible=False)

s = scenario("Widgets", "layers", "layers by order and id, each with its own positions; emptied, all is forgotten")
s.widget(1, 0, order=4, layer=2).widget(2, 0, order=0, layer=7).widget(3, 0, order=4, layer=2).widget(4, 0, order=4, layer=1).widget(6, 0, order=4, layer=1).widget(5, 0, order=4, layer=2).widget(1, 0, order=4, layer=2, to_top=True).dump().clear().dump().widget(1, C, order=0, layer=7, places=1)

s = scenario("Widgets", "lent-contents", "a slice that holds something else: the set's own record is what counts")
s.widget(1, C).widget(2, D).widget(1, F, lent=[record(50, 7), record(51, 7)]).dump().widget(3, 0, lent=[record(9, 1, order=2)]).dump().widget(2, C, enabled=False, lent=[record(50, 0)] * 5)

s = scenario("Widgets", "insert-refusals", "each refusal of an insertion, and which comes first")
s.widget(1, C).widget(2, C).widget(3, 8).widget(3, 1 << 31).widget(3, 0, order=5).widget(0, 0).widget(3, 0, parent=0).widget(3, 0, layer=0).widget(0, 8).widget(0, 0, order=9, rect=(NAN, 0, 0, 0))
s.widget(3, 0, rect=(0, 65537, 0, 0)).widget(3, 0, rect=(NAN, 0, 0, 0)).widget(3, 0, inner=(0, 0, INF, 0)).widget(3, 0, inner=(0, 0, 0, -65537)).widget(0, 0, rect=(INF, 0, 0, 0)).widget(1, 0, layer=2).widget(1, 0, order=2).widget(1, 0, layer=2, places=0).widget(1, 0, layer=2, rect=(NAN, 0, 0, 0))
s.widget(1, 0, places=1).widget(1, 0, places=2).widget(3, 0, places=2).widget(3, 0, places=0).widget(4, 0, layer=9, places=0).widget(3, 0, places=3).dump()

s = scenario("Widgets", "full-of-layers", "layer 33 is refused, a known layer is not")
for k in range(32):
    s.widget(100 + k, 0, layer=1 + k, places=1)
s.widget(200, 0, layer=50).widget(200, 0, layer=50, places=0).widget(200, 0, layer=3, places=2).widget(100, 0, layer=50).clear().widget(200, 0, layer=50)


# ---- calls by chance, from a small world of widgets, fingers and times
def by_chance(name, seed, calls):
    r = random.Random(seed)
    s = scenario("Chances", name, f"{calls} calls by chance, seed {seed}")
    x = lambda: r.choice((0.0, -0.0, 5.0, 8.25, 30.0, r.uniform(-50, 50), r.uniform(-2, 2), 65536.0))
    event = lambda: r.choice((
        lambda: key(r.choice((ESCAPE, 1, 2)), r.random() < 0.7), lambda: mods(r.choice((0, r.randrange(32)))), lambda: move(x(), x()), lambda: move(5, 5), lambda: motion(x(), x()),
        lambda: press(x(), x(), r.choice((0, 0, 1, 4)), r.randrange(32)), lambda: press(5, 5), lambda: release(x(), x(), r.choice((0, 0, 1, 4)), r.randrange(32)), lambda: release(5, 5), lambda: GONE,
        lambda: zoom(r.choice((0.5, 2.0, r.uniform(0.1, 3)))), lambda: rotate(r.uniform(-2, 2)), lambda: touch(r.choice((0, 1, 1, 2, 3)), r.randrange(3), x(), x(), r.choice((None, r.random())), r.randrange(2)),
        lambda: touch(MOVE, r.randrange(3), x(), x()), lambda: wheel(x(), x(), r.randrange(3), r.choice((0, 1, 1, 1, 2, 3)), r.randrange(4), r.choice((0, 0, r.randrange(32)))), lambda: focus(r.randrange(2)), lambda: OTHER))()
    t = 0.0
    for _ in range(calls):
        if r.random() < 0.3:
            hit = lambda: (r.randrange(1, 6), r.randrange(8))
            s.interact([hit() for _ in range(r.randrange(4))], [hit() for _ in range(r.randrange(4))], r.choice((None, hit())), r.choice((None, hit())))
        elif r.random() < 0.1:
            i = r.randrange(1, 6)
            s.widget(i, r.randrange(8), r.random() < 0.8, r.random() < 0.5, r.random() < 0.3, layer=r.choice((1, 1, 1, i)), rect=(0, 0, 5, x()), places=r.choice((64, 64, 2)))
        else:
            t += r.choice((0, 0.01, 0.02, 0.1, r.uniform(0, 0.5), 1.2))
            s.at(r.choice((t, t, None)), *[event() for _ in range(r.choice((0, 1, 2, 4)))], factor=r.choice((0.5, 0.3, 0.0, 1.0)), repaint=r.random() < 0.3, dt=0.0, duration=r.choice((0.8, 0.8, 0.1)),
                 rect=r.choice((None, (0, 0, x(), x()))), zooms=r.choice((COMMAND, COMMAND, r.randrange(32))))
    s.dump()


CHANCES = int(os.environ.get("CHANCES", "4"))
SEED = int(os.environ.get("SEED", "0"))
for k in range(SEED, SEED + CHANCES):
    by_chance(f"chance-{k}", k, 30)


# ---- egui's answers
def answers(requests):
    out = b"".join(struct.pack("<I", call << 24 | len(words)) + struct.pack(f"<{len(words)}I", *words) for call, words in requests)
    back = subprocess.run([os.environ["EGUI_ORACLE"]], input=out, stdout=subprocess.PIPE, check=True).stdout
    words = struct.unpack(f"<{len(back) // 4}I", back)
    at, result = 0, []
    for _ in requests:
        n = words[at] & 0xFFFFFF
        result.append(list(words[at:at + 1 + n]))
        at += 1 + n
    assert at == len(words)
    return result


# ---- as antt
def listed(words):
    text, k = "", 0
    while k < len(words):
        n = k
        while n < len(words) and words[n] == 0:
            n += 1
        if n - k >= 3:
            text += f"{n - k} zeros "
            k = n
        else:
            text += (str(words[k]) if words[k] < 1000 else f"0x{words[k]:x}") + " ∷ "
            k += 1
    return text + "[]"


NAMES = {RESET: "resets", CLEAR: "clears-widgets", PASS: "passes", INSERT: "inserts", INTERACT: "interacts", ASK: "asks", DUMP: "dumps", SET_TALLY: "sets-tally"}


def exchange(call, words, answer):
    if call in (RESET, CLEAR):
        return NAMES[call]
    if call == SET_TALLY:
        return f"{NAMES[call]} {words[0]}"
    if call in (ASK, DUMP):
        return f"{NAMES[call]} ({listed(answer)})"
    return f"{NAMES[call]} ({listed(words)}) ({listed(answer)})"


def main():
    counts = {}
    for table, scenarios in TABLES.items():
        text = "-- Written by compare/vectors/model_calls.py: calls of egui, with its answers.\n"
        text += "use mathlib.Core.List.{List, [], _∷_, _++_}\n"
        text += "use Rattle·model_calls·specs.specs.Exchanges.{Exchange, resets, passes, inserts, clears-widgets, interacts, asks, dumps, sets-tally, _zeros_}\n"
        for s in scenarios:
            if s.requests[-1][0] != DUMP:
                s.dump()
            rows = []
            for (call, words), answer in zip(s.requests, answers(s.requests)):
                assert answer[0] >> 24 < 254, (s.name, call, words)
                refused = "refused " if answer[0] >> 24 else ""
                counts[refused + NAMES[call]] = counts.get(refused + NAMES[call], 0) + 1
                rows.append(exchange(call, words, answer))
            text += f"\n-- {s.about}\nunfoldable pub {s.name} : List Exchange\n{s.name} =\n    " + "\n    ∷ ".join(rows) + " ∷ []\n"
        text += f"\nunfoldable pub table : List Exchange\ntable = " + " ++ ".join(f"({s.name}" for s in scenarios[:-1]) + (" ++ " if scenarios[1:] else "") + scenarios[-1].name + ")" * (len(scenarios) - 1) + "\n"
        (OUT / "specs" / f"{table}.antt").write_text(text)
    (OUT / "specs/Lib.antt").write_text("".join(f"pub mod {m}\n" for m in ["Ask", "Dump", "Exchanges", *TABLES, "Recorded"]))
    uses = "".join(f"use Rattle·model_calls·specs.specs.{t} as {t}\n" for t in TABLES)
    (OUT / "specs/Recorded.antt").write_text(
        "-- Written by compare/vectors/model_calls.py: on every recorded call the model answers egui's words. proofs/Recorded.antt shows it by evaluation.\n"
        "use mathlib.Core.Path.{_≡_}\nuse mathlib.Core.Bool.{true}\n" + uses + "use Rattle·model_calls·specs.specs.Exchanges.{check-all}\n\n"
        "pub record Recorded : Type 0 where\n" + "".join(f"  pub {t.lower()} : check-all {t}.table ≡ true\n" for t in TABLES))
    # a theorem for each table, since one declaration has a limit of steps
    (OUT / "proofs/Recorded.antt").write_text(
        "use mathlib.Core.Path.{_≡_, refl}\nuse mathlib.Core.Bool.{true}\n" + uses + "use Rattle·model_calls·specs.specs.Exchanges.{check-all}\n"
        "use Rattle·model_calls·specs.specs.Recorded.{Recorded}\nuse Rattle·model_calls·proofs.proofs.Opened.{opened}\n\n"
        + "".join(f"{t.lower()}-recorded : check-all {t}.table ≡ true\nunfolding opened\n{t.lower()}-recorded = refl\n\n" for t in TABLES)
        + "pub recorded : Recorded\nrecorded = record { " + "; ".join(f"{t.lower()} = {t.lower()}-recorded" for t in TABLES) + " }\n")
    (OUT / "proofs/Lib.antt").write_text("pub mod Opened\npub mod Recorded\n")
    print(", ".join(f"{n} {k}" for k, n in sorted(counts.items())))


main()
