//! Parking at random places of a trace, and images that are damaged (A.6).
use crate::aimed::put;
use crate::maker::Maker;
use crate::parking::{self, FIRST_WORD, Field, LONGEST};
use crate::words::{self, ASK, DUMP, ENOUGH_PLACES, PARK, RESET, RESTORE, RESTORE_LAST};

/// Leading words of the twelve groups.
const GROUPS: usize = 12;

impl Maker {
    fn parks(&self) -> bool {
        let level = self.s.stream.panel.level;
        words::exists(PARK, level) && parking::is_form_1(level)
    }

    /// Now and then between two calls: the panel is parked, the last parked one restored, or an image sent.
    pub(crate) fn some_parking(&mut self) {
        if self.list || self.twin.is_some() || !self.parks() {
            return;
        }
        match self.rng().below(72) {
            0 | 1 => self.park(),
            2 => self.restore_last(),
            3 => self.send_image(),
            _ => {}
        }
    }

    /// Places about those that the image takes.
    pub(crate) fn park_places(&mut self) -> u32 {
        let n = self.s.stream.image().len() as u32;
        self.rng().pick(&[n, n, n, n, n + 1, n.saturating_sub(1), 0, LONGEST as u32, ENOUGH_PLACES, u32::MAX])
    }

    fn park(&mut self) {
        let places = self.park_places();
        self.record(PARK, &[places]);
    }

    fn restore_last(&mut self) {
        self.record(RESTORE_LAST, &[]);
        self.leave_foreign();
        self.record(ASK, &[]);
        if self.rng().once_in(4) {
            self.record(DUMP, &[]);
        }
    }

    /// An image, and what it leaves: refused, the panel is dumped; taken, the panel is parked, and is the same image.
    pub(crate) fn send_image(&mut self) {
        let image = self.damaged();
        let at = self.record(RESTORE, &image);
        if self.full {
            return;
        }
        if self.answers[at] >> 24 != 0 {
            self.record(DUMP, &[]);
        } else {
            self.record(PARK, &[image.len() as u32]);
            self.leave_foreign();
        }
    }

    /// A panel that no parking wrote is unknown to egui: on to one that is known.
    pub(crate) fn leave_foreign(&mut self) {
        if self.s.stream.foreign.is_none() {
            return;
        }
        if self.rng().once_in(6) {
            self.record(RESET, &[]);
        } else {
            let own = parking::image(&self.s.stream.panel);
            self.record(RESTORE, &own);
        }
    }

    /// The image of the panel, of the last parked one, or one of these with something changed.
    fn damaged(&mut self) -> Vec<u32> {
        let own = self.s.stream.image();
        let last = self.s.stream.parked.as_ref().map(|p| p.image.clone());
        let mut w = if self.rng().once_in(3) { last.unwrap_or(own) } else { own };
        match self.rng().below(24) {
            0 => {}
            1 => self.damage_first(&mut w),
            2 => w.truncate(self.s.rng.below(w.len() as u64 + 1) as usize),
            3 => {
                for _ in 0..self.rng().pick(&[1, 1, 2, 6, 86]) {
                    let word = self.some_word();
                    w.push(word);
                }
            }
            4 => self.exchange_groups(&mut w),
            5 | 6 => self.damage_leading(&mut w),
            7..=10 => self.other_form(&mut w),
            11 | 12 => self.damage_ids(&mut w),
            13 | 14 => self.damage_field(&mut w, Field::Zero),
            15 | 16 => self.damage_field(&mut w, Field::Flag),
            17 | 18 => self.damage_field(&mut w, Field::Word),
            19 | 20 => self.damage_field(&mut w, Field::Single),
            21 => self.damage_field(&mut w, Field::Double),
            _ => {
                let at = self.rng().below(w.len() as u64) as usize;
                w[at] = self.some_word();
            }
        }
        w
    }

    fn some_word(&mut self) -> u32 {
        let any = self.rng().word() as u32;
        let small = any % 300;
        self.rng().pick(&[0, 1, 2, 3, 4, 5, 10, 11, 31, 32, 255, 256, 131_071, 131_072, small, any, any >> 16, u32::MAX, 1 << 31, 0x3F80_0000, 0x3F80_0001, 0x4780_0000, 0x4780_0001, 0x7F80_0000, 0xFF80_0000, 0x7FC0_0000])
    }

    fn damage_first(&mut self, w: &mut Vec<u32>) {
        match self.rng().below(6) {
            0 => w.clear(),
            1 => w[0] = FIRST_WORD - 1,
            2 => w[0] = FIRST_WORD + 1,
            3 => w[0] = 12 << 28,
            4 => w[0] = self.some_word(),
            _ => {
                w.remove(0);
            }
        }
    }

    fn fields_of(w: &[u32], kind: Field) -> Vec<usize> {
        parking::fields(w).into_iter().filter(|(_, k)| *k == kind).map(|(at, _)| at).collect()
    }

    /// Two groups that follow each other.
    fn exchange_groups(&mut self, w: &mut Vec<u32>) {
        let mut ends = Self::fields_of(w, Field::Leading);
        ends.push(w.len());
        let k = self.rng().below(GROUPS as u64 - 1) as usize;
        let middle = ends[k + 1] - ends[k];
        w[ends[k]..ends[k + 2]].rotate_left(middle);
    }

    /// Another name or length: one word, an entry or a device more or less, or some other.
    fn damage_leading(&mut self, w: &mut [u32]) {
        let places = Self::fields_of(w, Field::Leading);
        let at = self.rng().pick(&places);
        let by = self.rng().pick(&[1, 4, 6, 86, 1 << 28]);
        w[at] = match self.rng().below(5) {
            0 => self.some_word(),
            1 | 2 => w[at].wrapping_add(by),
            3 => w[at].wrapping_sub(by),
            _ => w[at] & 0xF000_0000 | self.rng().pick(&[0, 4_000, 4_004, 384, 390, 344, 430]),
        };
    }

    /// A not-a-number, in its one form or another, in any float.
    fn other_form(&mut self, w: &mut [u32]) {
        let double = self.rng().once_in(3);
        let places = Self::fields_of(w, if double { Field::Double } else { Field::Single });
        let at = self.rng().pick(&places);
        if double {
            w[at] = self.rng().pick(&[0x7FF8_0000, 0x7FF8_0001, 0xFFF8_0000, 0x7FF0_0000, 0x7FFF_FFFF]);
            w[at + 1] = self.rng().pick(&[0, 0, 1, u32::MAX]);
        } else {
            w[at] = self.rng().pick(&[0x7FC0_0000, 0x7FC0_0001, 0xFFC0_0000, 0x7F80_0001, 0x7FFF_FFFF]);
        }
    }

    /// One id made that of another place, or just above or below it.
    fn damage_ids(&mut self, w: &mut [u32]) {
        let places = Self::fields_of(w, Field::Id);
        if places.is_empty() {
            return self.damage_leading(w);
        }
        let k = self.rng().below(places.len() as u64) as usize;
        let next = places[(k + 1) % places.len()];
        let id = u64::from(w[next]) << 32 | u64::from(w[next + 1]);
        let some = self.rng().word();
        let id = self.rng().pick(&[id, id, id.wrapping_add(1), id.wrapping_sub(1), id.rotate_left(32), 0, u64::MAX, some]);
        w[places[k]] = (id >> 32) as u32;
        w[places[k] + 1] = id as u32;
    }

    fn damage_field(&mut self, w: &mut [u32], kind: Field) {
        let places = Self::fields_of(w, kind);
        // a panel may have every value
        if places.is_empty() {
            return self.damage_leading(w);
        }
        let at = self.rng().pick(&places);
        w[at] = self.some_word();
    }

    /// As many pointer events as a pass takes, and their image.
    pub fn full_events(&mut self) {
        let mut feed = Vec::new();
        for _ in 0..self.s.stream.panel.limits().events {
            let at = self.place();
            match self.rng().below(3) {
                0 => put(&mut feed, 3, 0, &[at.x, at.y]),
                k => self.button(&mut feed, k as u32, k == 1, at),
            }
        }
        self.soon(&feed);
        let places = self.park_places();
        self.call(PARK, &[places]);
    }

    /// Hands at work, and images of what they leave.
    pub fn images(&mut self) {
        for _ in 0..self.rng().pick(&[1, 2, 4]) {
            self.scene();
        }
        for _ in 0..30 {
            self.send_image();
        }
    }
}
