//! The calls of 02's requests with words in their form. Below the level from which a call exists it answers 255; from there
//! on the same words are what the comparison meets first.
use crate::aimed::nudge;
use crate::maker::{Maker, any_float};
use crate::parking::is_form_1;
use crate::words::*;

const CALLS_OF_02: [u32; 16] =
    [SET_TALLY, KERNEL, RESTED, EXP, PARK, RESTORE_LAST, RESTORE, SURVEY, SHORTEN, BOX, REG_PUSH, REG_READ, REG_WRITE, REG_LINE, COMPOSE, COUNTS];
/// The words of a clearing pass when no touch is held.
const CLEARING_WORDS: u32 = 23;

impl Maker {
    pub fn later_calls(&mut self) {
        for _ in 0..8 {
            let call = self.rng().pick(&CALLS_OF_02);
            // an exponent is one word: several at once
            for _ in 0..if call == EXP { 6 } else { 1 } {
                let w = self.later_words(call);
                self.call(call, &w);
            }
            // from A.8 on: a foreign image that a program takes leaves a panel that egui doesn't know
            let level = self.s.stream.panel.level;
            if call == RESTORE && exists(call, level) && !is_form_1(level) {
                self.call(RESET, &[]);
            }
        }
    }

    fn later_words(&mut self, call: u32) -> Vec<u32> {
        match call {
            SET_TALLY => vec![10 + self.rng().below(5) as u32, 0, self.rng().pick(&[0, 1, 5, u32::MAX - 1, u32::MAX])],
            KERNEL => self.kernel_words(),
            EXP => vec![self.exponent().to_bits(); self.rng().pick(&[1, 1, 1, 1, 1, 1, 1, 1, 1, 1, 0, 2])],
            PARK if is_form_1(self.s.stream.panel.level) => vec![self.park_places(); self.rng().pick(&[1, 1, 1, 1, 0, 2])],
            PARK => vec![self.rng().pick(&[0, ENOUGH_PLACES, ENOUGH_PLACES])],
            RESTORE_LAST => vec![0; self.rng().pick(&[0, 0, 0, 1])],
            RESTORE => self.image(),
            SURVEY => self.odd_feed(),
            SHORTEN => {
                let feed = self.odd_feed();
                let places = feed.len() as u32;
                let mut w = vec![self.rng().pick(&[places, places, places + 1, places.saturating_sub(1), 0])];
                w.extend(feed);
                w
            }
            BOX => self.finger_box(),
            REG_PUSH => self.pushed(),
            REG_READ => vec![self.rng().below(18) as u32],
            REG_WRITE => vec![self.rng().pick(&[1, 1, 2, 2, 0, 3, 15, 16]), self.rng().pick(&[0, 1, 2, 4, 7, 255, 0x107])],
            COMPOSE => self.to_compose(),
            _ => Vec::new(),
        }
    }

    /// A touch panel's records, call after call; what they give goes into passes now and then.
    pub fn kernel(&mut self) {
        self.fresh(12);
        for _ in 0..self.rng().pick(&[2, 6, 20]) {
            let w = self.kernel_words();
            let at = self.record(KERNEL, &w);
            let a = self.answers.get(at..).unwrap_or(&[]);
            if a.len() > 3 && a[0] >> 24 == 0 && self.s.rng.once_in(8) {
                let feed = a[3..].to_vec();
                self.soon(&feed);
            }
        }
    }

    /// Device, places, bytes; then records of 24 bytes, six words each: a time, type and code, the value.
    fn kernel_words(&mut self) -> Vec<u32> {
        let mut w = vec![self.rng().pick(&[1, 1, 7, u32::MAX]), self.rng().pick(&[0, 0, 0, 1]), 0, 0];
        let records = self.rng().pick(&[0, 1, 2, 3, 5, 8, 13, 30]);
        let damaged = self.rng().once_in(4);
        for _ in 0..records {
            let (kind, code, value) = if damaged { self.kernel_record() } else { self.finger_record() };
            w.extend([self.s.rng.word() as u32, 0, 5, 0, kind | code << 16, value as u32]);
        }
        w[3] = 24 * records;
        w[2] = self.kernel_places(&w);
        // a slot outside, after all that the places are for
        if self.rng().once_in(12) {
            w.extend([0, 0, 5, 0, 3 | 0x2F << 16, 10]);
            w[3] += 24;
        }
        if self.rng().once_in(12) {
            self.damage_length(&mut w);
        }
        w
    }

    /// Places about those that the records take; or some number.
    fn kernel_places(&mut self, w: &[u32]) -> u32 {
        let (slots, mut k) = (self.s.stream.panel.limits().slots, self.s.stream.kernel.clone());
        let bytes: Vec<u8> = w[4..].iter().flat_map(|x| x.to_le_bytes()).collect();
        let n = k.convert(slots, 1, usize::MAX, &bytes).map_or(14, |c| c.feed.len() as u32);
        self.rng().pick(&[n, n, n, n + 1, n.saturating_sub(1), n.saturating_sub(7), 448, 448, 1000, 0, 7, 13, 14, u32::MAX])
    }

    /// A length that is no multiple of 24, or words that are too many or too few.
    fn damage_length(&mut self, w: &mut Vec<u32>) {
        match self.rng().below(6) {
            0 => {
                w[3] += 4;
                w.push(0);
            }
            1 => {
                w[3] += 1;
                w.push(0x7F);
            }
            2 if w[3] > 0 => w[3] -= 1,
            3 => w[3] = self.rng().pick(&[4_294_967_295, 98_305, 24]),
            4 => w.push(0),
            _ => {
                w.pop();
            }
        }
    }

    /// Fingers on a few slots; now and then a 'dropped' or a record that is skipped.
    fn finger_record(&mut self) -> (u32, u32, i32) {
        let rng = self.rng();
        match rng.below(16) {
            0..=2 => (3, 0x2F, rng.pick(&[0, 0, 1, 1, 2, 9])),
            3..=5 => (3, 0x35, rng.pick(&[0, 1, 100, 640, -1, 65_536, -65_536])),
            6 | 7 => (3, 0x36, rng.pick(&[0, 1, 100, 480, -1, 65_536, -65_536])),
            8..=10 => (3, 0x39, rng.pick(&[0, 1, 2, 40, -1, -1, -1, i32::MAX])),
            11 if rng.once_in(2) => (0, 3, 0),
            12 => (rng.pick(&[0, 1, 2, 3, 3, 4, 0x103]), rng.pick(&[1, 2, 0x30, 0x37, 0x3A, 0x14A, 0x135]), 70_000),
            _ => (0, 0, rng.pick(&[0, 0, 1, -1])),
        }
    }

    fn kernel_record(&mut self) -> (u32, u32, i32) {
        let rng = self.rng();
        match rng.below(12) {
            0 | 1 => (3, 0x2F, rng.pick(&[0, 0, 1, 2, 9, 9, 10, 15, 16, -1])),
            2 | 3 => (3, 0x35, rng.pick(&[0, 100, 640, -1, 65_536, -65_536, 65_537, i32::MIN])),
            4 | 5 => (3, 0x36, rng.pick(&[0, 100, 480, -1, 65_536, -65_536, -65_537, i32::MAX])),
            6 | 7 => (3, 0x39, rng.pick(&[0, 1, 2, 40, -1, -1, i32::MAX, -2, i32::MIN])),
            8 => (rng.pick(&[1, 3]), rng.pick(&[0x14A, 0x3A]), 1),
            9 if rng.once_in(3) => (0, 3, 0),
            _ => (0, 0, rng.pick(&[0, 0, 1])),
        }
    }

    fn exponent(&mut self) -> f32 {
        let (unit, any) = (self.rng().unit(), any_float(self.rng()));
        let past = f32::from_bits(1.0f32.to_bits() + 1);
        self.rng().pick(&[0.0, -0.0, 1.0, -1.0, 0.5, unit, -unit, any, past, -past, f32::NAN, f32::INFINITY, f32::from_bits(1)])
    }

    /// A first word, right or not, alone or with foreign words after it.
    fn image(&mut self) -> Vec<u32> {
        let first = self.rng().pick(&[13 << 28 | 1, 13 << 28 | 1, 13 << 28 | 2, 13 << 28 | 3, 13 << 28 | 4, 13 << 28, 12 << 28 | 1, 0]);
        let mut w = vec![first; self.rng().pick(&[1, 1, 1, 0])];
        for _ in 0..self.rng().pick(&[0, 0, 1, 20]) {
            w.push(self.s.rng.word() as u32 >> self.s.rng.below(32));
        }
        w
    }

    /// Some events, one of them perhaps damaged.
    fn odd_feed(&mut self) -> Vec<u32> {
        let mut feed = Vec::new();
        for _ in 0..self.rng().pick(&[0, 1, 2, 5, 66]) {
            self.s.event(&mut feed);
        }
        if self.rng().once_in(2) {
            let mut e = self.whole_event();
            let last = self.damage(&mut e);
            feed.extend(e);
            if !last {
                self.s.event(&mut feed);
            }
        }
        feed
    }

    /// A press, and a box about the click distance from it; now and then inside out.
    fn finger_box(&mut self) -> Vec<u32> {
        let press = self.place();
        let distance = self.s.options.max_click_dist;
        let (a, b) = (self.around(press, distance), self.around(press, distance));
        let corner = if self.rng().once_in(4) { a } else { b };
        let mut floats = [press.x, press.y, a.x.min(corner.x), a.y.min(corner.y), a.x.max(corner.x), a.y.max(corner.y), distance];
        if self.rng().once_in(6) {
            floats.swap(2, 4);
        }
        if self.rng().once_in(8) {
            let k = self.rng().below(7) as usize;
            floats[k] = self.rng().pick(&[f32::NAN, f32::INFINITY, -65_537.0]);
        }
        floats.iter().map(|v| v.to_bits()).collect()
    }

    /// An event, whole, damaged or with one after it; or nothing.
    fn pushed(&mut self) -> Vec<u32> {
        let mut e = self.whole_event();
        match self.rng().below(8) {
            0 => e.clear(),
            1 => {
                self.damage(&mut e);
            }
            2 => e.push(12 << 28),
            _ => {}
        }
        e
    }

    /// Position, time, rectangle, places.
    fn to_compose(&mut self) -> Vec<u32> {
        let (at, now) = (self.place(), self.now());
        let time = self.rng().pick(&[now, now, now + 1.0, nudge(now, -1), f64::NAN]).to_bits();
        let mut w = vec![at.x.to_bits(), at.y.to_bits(), time as u32, (time >> 32) as u32];
        w.extend([0.0f32, 0.0, 800.0, self.rng().pick(&[480.0, 480.0, 480.0, -480.0, 65_537.0])].map(f32::to_bits));
        w.push(self.rng().pick(&[448, 448, CLEARING_WORDS, CLEARING_WORDS - 1, 0]));
        w
    }
}
