//! Writes the cases that crates/emath_vectors replays: its stdin. They are made with the stand-ins for crate emath that
//! egui is compared with, with the length of A.3; one file of Rust whose path is in EMATH_TYPES (compare/src/shim/emath_types.rs). From the root of the repository:
//!
//!     mkdir -p target/vectors && cp compare/vectors/main.rs target/vectors/ && cp "$EMATH_TYPES" target/vectors/emath_types.rs
//!     rustc -O --edition 2021 -o target/vectors/vectors target/vectors/main.rs
//!     target/vectors/vectors > crates/emath_vectors/stdin
//!
//! A case is sixteen 32-bit words, the low byte first; crates/emath_vectors/src/cases.rt says what stands where.
#[allow(dead_code)]
mod emath_types;

use emath_types::{pos2, vec2, History, Pos2, Rect, Vec2};
use std::io::Write;

/// Marsaglia's xorshift64: the same cases at each run.
struct Random(u64);
impl Random {
    fn next(&mut self) -> u64 {
        self.0 ^= self.0 << 13;
        self.0 ^= self.0 >> 7;
        self.0 ^= self.0 << 17;
        self.0
    }
    fn below(&mut self, n: u64) -> u64 {
        (self.next() >> 16) % n
    }
    /// any pattern
    fn bits(&mut self) -> f32 {
        f32::from_bits((self.next() >> 16) as u32)
    }
    /// on a screen, a sixteenth of a point apart
    fn screen(&mut self) -> f32 {
        self.below(2 * 65_536 * 16 + 1) as f32 / 16.0 - 65_536.0
    }
    /// whose square is near the least or the greatest f32
    fn square_edge(&mut self) -> f32 {
        let exponent = if self.below(2) == 0 { 127 - 77 + self.below(16) } else { 127 + 60 + self.below(6) };
        f32::from_bits(((self.below(2) << 31) + (exponent << 23) + self.below(1 << 23)) as u32)
    }
}

const NAMED: [f32; 34] = [
    0.0, -0.0, 1.0, -1.0, 3.0, 4.0, -5.0, 0.1, 0.5, 6.0, 65536.0, -65536.0, 1.0e-45, -1.0e-45, 1.1754942e-38, 1.17549435e-38,
    2.6469778e-23, 3.7433924e-23, 2.0e-23, 1.0e-22, 1.0842022e-19, 1.3e19, 1.30438165e19, 1.8446743e19, 1.8446744e19, -1.8446746e19,
    2.0e19, 3.4028235e38, -3.4028235e38, 1.7014118e38, 2.4061596e38, f32::INFINITY, f32::NEG_INFINITY, f32::NAN,
];

fn word(x: f32) -> u32 {
    if x.is_nan() { 0x7fc0_0000 } else { x.to_bits() }
}

fn put(out: &mut Vec<u8>, words: &[u32]) {
    for i in 0..16 {
        out.extend(words.get(i).copied().unwrap_or(0).to_le_bytes());
    }
}

fn vector(out: &mut Vec<u8>, v: Vec2, w: Vec2) {
    let (p, q) = (pos2(v.x, v.y), pos2(w.x, w.y));
    let (n, a) = (v.normalized(), v.abs());
    let floats = [v.x, v.y, w.x, w.y, v.length(), v.length_sq(), n.x, n.y, a.x, a.y, v.max_elem(), p.distance(q), p.distance_sq(q)];
    let mut words = vec![0];
    words.extend(floats.map(word));
    words.push((v != w) as u32);
    put(out, &words);
}

fn arithmetic(out: &mut Vec<u8>, v: Vec2, w: Vec2, k: f32) {
    let (p, q) = (pos2(v.x, v.y), pos2(w.x, w.y));
    let (s, m, d, t) = (v + w, v * k, v / k, p - q);
    let h = Rect::from_min_max(p, q).height();
    let mut words = vec![1];
    words.extend([v.x, v.y, w.x, w.y, k, s.x, s.y, m.x, m.y, d.x, d.y, t.x, t.y, h].map(word));
    put(out, &words);
}

struct Track<'a> {
    out: &'a mut Vec<u8>,
    history: History<Pos2>,
}
impl Track<'_> {
    /// An empty history whose samples begin at that place of the ring.
    fn begin(&mut self, place: u32) {
        self.history = History::new(2..1000, 0.1);
        self.answers(&[2, 0, 0, 0, 0, 0, place]);
    }
    fn add(&mut self, now: f64, pos: Pos2) {
        self.history.add(now, pos);
        let t = now.to_bits();
        self.answers(&[2, 1, t as u32, (t >> 32) as u32, word(pos.x), word(pos.y), 0]);
    }
    fn flush(&mut self, now: f64) {
        self.history.flush(now);
        let t = now.to_bits();
        self.answers(&[2, 2, t as u32, (t >> 32) as u32, 0, 0, 0]);
    }
    fn clear(&mut self) {
        self.history.clear();
        self.answers(&[2, 3, 0, 0, 0, 0, 0]);
    }
    fn answers(&mut self, given: &[u32]) {
        let velocity = self.history.velocity();
        let v = velocity.unwrap_or(Vec2::ZERO);
        let mut words = given.to_vec();
        words.extend([self.history.len() as u32, word(self.history.duration()), velocity.is_some() as u32, word(v.x), word(v.y)]);
        put(self.out, &words);
    }
}

fn histories(out: &mut Vec<u8>, r: &mut Random) {
    let mut t = Track { out, history: History::new(2..1000, 0.1) };
    // over 1,000 within the age, twice around the ring, then all but two too old
    t.begin(0);
    for i in 0..1_250 {
        t.add(1.0 + i as f64 * 2.0f64.powi(-14), pos2(i as f32, -0.25 * i as f32));
    }
    t.flush(1.125);
    t.flush(9.0);
    t.add(9.0, pos2(1.0, 2.0));
    // from places near the ring's end and beyond it, at a display's pace
    for place in [990, 999, 1000, 1999, 65_536, u32::MAX] {
        t.begin(place);
        for i in 0..40 {
            t.add(i as f64 / 60.0, pos2(r.screen(), r.screen()));
            if r.below(8) == 0 {
                t.flush(i as f64 / 60.0 + 0.05 * r.below(4) as f64);
            }
        }
        t.clear();
        t.flush(3.0);
        t.add(4.0, pos2(r.screen(), r.screen()));
    }
    // the age's edge: a front time at now - age stays, the one below it goes
    let age = 0.1f32 as f64;
    for now in [age, 1.0, 1.0 + age, 4_294_967_296.0] {
        t.begin(500);
        let edge = now - age;
        for time in [edge.next_down(), edge, edge.next_up()] {
            t.add(time, pos2(1.0, 1.0));
        }
        t.flush(now.next_down());
        t.flush(now);
        t.flush(now.next_up());
    }
    // durations that narrow to 0, to a subnormal, to an infinity; times that stand still, go back, or are no numbers
    let spans = [
        0.0, -0.0, 1.0e-320, 7.0e-46, 7.006492e-46, 7.1e-46, 1.4e-45, 2.2e-45, 1.0e-40, 1.1754943e-38, 1.0e-3, 0.05, 3.4028235e38,
        3.5e38, 1.0e300, f64::INFINITY, f64::NEG_INFINITY, f64::NAN, -0.05, -1.0e-44,
    ];
    for span in spans {
        for base in [0.0, -0.0, 1.0, -2.0] {
            t.begin(998);
            t.add(base, pos2(r.screen(), -0.0));
            t.add(base + span, pos2(r.bits(), r.screen()));
            t.add(base + span, pos2(r.screen(), r.bits()));
            t.add(base, pos2(1.0e-30, 3.0e38));
            t.flush(base + span + 0.2);
        }
    }
    // anything
    for place in [0, 997] {
        t.begin(place);
        let mut now = 0.0f64;
        for _ in 0..500 {
            now += [0.0, 0.001, 0.004, 0.03, 0.11, -0.02][r.below(6) as usize];
            let named = NAMED[r.below(NAMED.len() as u64) as usize];
            match r.below(20) {
                0 => t.clear(),
                1 | 2 => t.flush(now),
                3 => t.add(now, pos2(named, r.bits())),
                _ => t.add(now, pos2(r.screen(), r.screen())),
            }
        }
    }
}

fn main() {
    emath_types::set_level(3);
    let mut out = Vec::new();
    let mut r = Random(0x9e37_79b9_7f4a_7c15);
    for (i, x) in NAMED.iter().enumerate() {
        for (j, y) in NAMED.iter().enumerate() {
            let other = vec2(NAMED[(i * 7 + j) % NAMED.len()], NAMED[(i + j * 5) % NAMED.len()]);
            vector(&mut out, vec2(*x, *y), other);
        }
    }
    for _ in 0..1_500 {
        vector(&mut out, vec2(r.bits(), r.bits()), vec2(r.bits(), r.bits()));
    }
    for _ in 0..1_500 {
        vector(&mut out, vec2(r.screen(), r.screen()), vec2(r.screen(), r.screen()));
    }
    for _ in 0..1_000 {
        vector(&mut out, vec2(r.square_edge(), r.square_edge()), vec2(r.square_edge(), r.screen()));
    }
    // at the rims of 12.87, 6 and 8, where a length in f32 lies on the other side; and about rims of any size
    for (x, y) in [(0x4137_b7a7, 0x40b9_d8c9), (0x3e04_0000, 0x40bf_f4a8), (0x3b00_0000, 0x40ff_ffff), (0x40d4_9d8a, 0x408e_95f3)] {
        vector(&mut out, vec2(f32::from_bits(x), f32::from_bits(y)), Vec2::ZERO);
    }
    for _ in 0..500 {
        let d = 0.25 * (1 + r.below(256)) as f64;
        let x = (d * r.below(1 << 24) as f64 / f64::from(1 << 24)) as f32;
        let y = (d * d - f64::from(x) * f64::from(x)).sqrt() as f32;
        vector(&mut out, vec2(x, f32::from_bits(y.to_bits() + r.below(7) as u32 - 3)), Vec2::ZERO);
    }
    for i in 0..500 {
        let named = NAMED[i % NAMED.len()];
        arithmetic(&mut out, vec2(r.bits(), r.screen()), vec2(r.bits(), r.screen()), named);
        arithmetic(&mut out, vec2(r.screen(), named), vec2(r.square_edge(), r.bits()), r.bits());
    }
    histories(&mut out, &mut r);
    std::io::stdout().write_all(&out).unwrap();
}
