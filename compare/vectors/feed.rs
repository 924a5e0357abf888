//! Writes the cases that crates/feed_vectors replays: its stdin. They are made with the decoder of the comparison with
//! egui, `domain::decode_feed`, which is written from the scope alone and gives egui's own `Event`, and with egui's own
//! modifiers.rs. Both are in the library of the package compare/, so this file is run as an example of it. In compare/,
//! after its build.sh:
//!
//!     mkdir -p examples && cp vectors/feed.rs examples/
//!     cargo run --release --offline --example feed > ../crates/feed_vectors/stdin
//!
//! A case is 32 words of 32 bits, the low byte first.
//!
//! An event: word 0 is 1; 1 the number of the feed's words, at most 12; 2 the place of the event's first word; 3 the
//! refusal, 1 or 2, or 0; 4 the place after the event; 5 to 15 the event as `fields` has it; 16 to 27 the feed.
//!
//! Modifiers: word 0 is 2; 1 the flags of `self`; 2 has bit p where `self.matches_any(p)`; 3 to 7 have bit p where
//! `self | p` has alt, ctrl, shift, mac_cmd, command.
use fivvarul_compare::domain::{self, LENGTHS, Limits};
use fivvarul_compare::{Event, LEVEL, Modifiers, MouseWheelSource, MouseWheelUnit, PointerButton, TouchPhase};
use std::io::Write;

/// Marsaglia's xorshift64: the same cases at each run.
struct Random(u64);
impl Random {
    fn next(&mut self) -> u64 {
        self.0 ^= self.0 << 13;
        self.0 ^= self.0 >> 7;
        self.0 ^= self.0 << 17;
        self.0
    }
    fn below(&mut self, n: u64) -> u64 {
        (self.next() >> 16) % n
    }
    fn word(&mut self) -> u32 {
        (self.next() >> 16) as u32
    }
}

fn phase(p: TouchPhase) -> u32 {
    match p {
        TouchPhase::Start => 0,
        TouchPhase::Move => 1,
        TouchPhase::End => 2,
        TouchPhase::Cancel => 3,
    }
}

fn flags(m: &Modifiers) -> u32 {
    m.alt as u32
        | (m.ctrl as u32) << 1
        | (m.shift as u32) << 2
        | (m.mac_cmd as u32) << 3
        | (m.command as u32) << 4
}

/// Kind; place, button, phase or unit; pressed, focused, force present or the wheel's phase; flags; the two floats;
/// device low, high; touch low, high; force or the wheel's source.
fn fields(e: &Event) -> [u32; 11] {
    let mut w = [0; 11];
    let mut floats = |x: f32, y: f32| (w[4], w[5]) = (x.to_bits(), y.to_bits());
    match e {
        Event::Key { key, pressed, .. } => (w[0], w[1], w[2]) = (1, u32::from(key.0), *pressed as u32),
        Event::ModifiersChanged(m) => (w[0], w[3]) = (2, flags(m)),
        Event::PointerMoved(p) => {
            floats(p.x, p.y);
            w[0] = 3;
        }
        Event::MouseMoved(v) => {
            floats(v.x, v.y);
            w[0] = 4;
        }
        Event::PointerButton { pos, button, pressed, modifiers } => {
            floats(pos.x, pos.y);
            let b = match button {
                PointerButton::Primary => 0,
                PointerButton::Secondary => 1,
                PointerButton::Middle => 2,
                PointerButton::Extra1 => 3,
                PointerButton::Extra2 => 4,
            };
            (w[0], w[1], w[2], w[3]) = (5, b, *pressed as u32, flags(modifiers));
        }
        Event::PointerGone => w[0] = 6,
        Event::Zoom(x) => {
            floats(*x, 0.0);
            w[0] = 7;
        }
        Event::Rotate(x) => {
            floats(*x, 0.0);
            w[0] = 8;
        }
        Event::Touch { device_id, id, phase: p, pos, force } => {
            floats(pos.x, pos.y);
            (w[0], w[1], w[2]) = (9, phase(*p), force.is_some() as u32);
            (w[6], w[7]) = (device_id.0 as u32, (device_id.0 >> 32) as u32);
            (w[8], w[9]) = (id.0 as u32, (id.0 >> 32) as u32);
            w[10] = force.map_or(0, f32::to_bits);
        }
        Event::MouseWheel { unit, delta, phase: p, source, modifiers } => {
            floats(delta.x, delta.y);
            let u = match unit {
                MouseWheelUnit::Point => 0,
                MouseWheelUnit::Line => 1,
                MouseWheelUnit::Page => 2,
            };
            let s = match source {
                MouseWheelSource::Unknown => 0,
                MouseWheelSource::Wheel => 1,
                MouseWheelSource::Trackpad => 2,
                MouseWheelSource::Momentum => 3,
            };
            (w[0], w[1], w[2], w[3], w[10]) = (10, u, phase(*p), flags(modifiers), s);
        }
        Event::WindowFocused(b) => (w[0], w[2]) = (11, *b as u32),
        _ => w[0] = 12,
    }
    w
}

struct Cases(Vec<u8>);
impl Cases {
    fn put(&mut self, words: &[u32]) {
        let mut all = [0u32; 32];
        all[..words.len()].copy_from_slice(words);
        all.iter().for_each(|w| self.0.extend(w.to_le_bytes()));
    }

    /// The event at `at`: its words, as far as they are there, are decoded as a feed of their own.
    fn event(&mut self, feed: &[u32], at: usize) {
        let head = feed[at];
        let kind = (head >> 28) as usize;
        let len = 1 + LENGTHS[kind] + (kind == 9 && head & 4 != 0) as usize;
        let end = feed.len().min(at + len);
        let (refusal, next, event) = match domain::decode_feed(&feed[at..end], Vec::new(), Limits::at(LEVEL)) {
            Ok(events) => (0, at + len, fields(&events[0])),
            Err(r) => (r.number, 0, [0; 11]),
        };
        let mut w = vec![1, feed.len() as u32, at as u32, refusal, next as u32];
        w.extend(event);
        w.extend(feed);
        self.put(&w);
    }

    fn one(&mut self, feed: &[u32]) {
        self.event(feed, 0);
    }
}

/// A whole event of a kind: its words after the first, in the domain.
fn after(kind: u32, head: u32) -> Vec<u32> {
    match kind {
        3 | 4 | 5 | 10 => vec![0x4120_0000, 0xc1a0_0000],
        7 | 8 => vec![0x3fc0_0000],
        9 => {
            let mut w = vec![7, 0x8000_0000, 0xffff_ffff, 3, 0x4300_0000, 0x4380_0000];
            if head & 4 != 0 {
                w.push(0x3f00_0000);
            }
            w
        }
        _ => Vec::new(),
    }
}

fn whole(head: u32) -> Vec<u32> {
    let mut w = vec![head];
    w.extend(after(head >> 28, head));
    w
}

fn main() {
    let mut c = Cases(Vec::new());
    // the scope's own example
    c.one(&[0x5000_0100, 0x4120_0000, 0x41a0_0000]);
    // every kind, alone and with each bit; and cut short at each length
    for kind in 0..16u32 {
        c.one(&whole(kind << 28));
        for bit in 0..28 {
            c.one(&whole(kind << 28 | 1 << bit));
        }
        for low in [0, 4, 7] {
            let w = whole(kind << 28 | low);
            for n in 1..w.len() {
                c.one(&w[..n]);
            }
        }
    }
    // every place of a key, every button with every flag, every unit, phase and source
    for low in 0..512 {
        c.one(&whole(0x1000_0000 | low));
        c.one(&whole(0x5000_0000 | low));
    }
    for low in 0..2048u32 {
        if [0, 1, 2, 4, 8, 16, 31].contains(&(low & 31)) {
            c.one(&whole(0xa000_0000 | low));
        }
    }
    for low in 0..32 {
        c.one(&whole(0x2000_0000 | low));
        c.one(&whole(0x9000_0000 | low));
    }
    // every float field at the domain's limits, beside them, and at infinities, NaNs and zeros
    let mut edges = vec![0, 1, 0x7f_ffff, 0x80_0000, 0x7f7f_ffff, 0x7f80_0000, 0x7f80_0001, 0x7fa0_0000, 0x7fc0_0000, 0x7fff_ffff];
    for limit in [65_536.0f32, 1_024.0, 64.0, 1.0] {
        let b = limit.to_bits();
        edges.extend([b - 1, b, b + 1]);
    }
    for (head, first, floats) in [
        (0x3000_0000, 1, 2),
        (0x4000_0000, 1, 2),
        (0x5000_0100, 1, 2),
        (0x7000_0000, 1, 1),
        (0x8000_0000, 1, 1),
        (0x9000_0001, 5, 2),
        (0x9000_0006, 5, 3),
        (0xa000_0280, 1, 2),
    ] {
        for k in 0..floats {
            for e in &edges {
                for sign in [0, 0x8000_0000] {
                    let mut w = whole(head);
                    w[first + k] = e | sign;
                    c.one(&w);
                }
            }
        }
    }
    // later places: some events in a row, sometimes with a bit changed or the end missing
    let mut r = Random(0x9e37_79b9_7f4a_7c15);
    for _ in 0..400 {
        let mut feed = Vec::new();
        let mut places = Vec::new();
        loop {
            let kind = 1 + r.below(12) as u32;
            let bits = [0, 9, 5, 0, 0, 9, 0, 0, 0, 3, 11, 1, 0][kind as usize];
            let mut w = whole(kind << 28 | r.word() & ((1u32 << bits) - 1));
            for f in w.iter_mut().skip(1) {
                if r.below(4) == 0 {
                    *f = r.word();
                }
            }
            if feed.len() + w.len() > 12 {
                break;
            }
            places.push(feed.len());
            feed.extend(w);
        }
        if r.below(3) == 0 {
            let last = places[places.len() - 1];
            feed.truncate(last + 1 + r.below((feed.len() - last) as u64) as usize);
        }
        for at in places {
            if r.below(6) == 0 {
                feed[at] ^= 1 << r.below(32);
            }
            c.event(&feed, at);
        }
    }
    // every pair of modifiers
    for a in 0..32 {
        let mut w = [0u32; 8];
        (w[0], w[1]) = (2, a);
        for p in 0..32 {
            let (m, n) = (domain::flags(a), domain::flags(p));
            w[2] |= (m.matches_any(n) as u32) << p;
            let or = m | n;
            for (k, b) in [or.alt, or.ctrl, or.shift, or.mac_cmd, or.command].into_iter().enumerate() {
                w[3 + k] |= (b as u32) << p;
            }
        }
        c.put(&w);
    }
    std::io::stdout().write_all(&c.0).unwrap();
}
