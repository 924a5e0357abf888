//! Scenes of a cable and a careless host: damaged feeds, numbers past their ends, full sets, records out of form.
use crate::aimed::{DEVICES, Rng, nudge, nudge32, put};
use crate::hands::finger_id;
use crate::maker::{Maker, touch};
use crate::panel::{Hit, Hits, Pass, Widget};
use crate::words::{self, ASK, CLEAR, DUMP, INSERT, INTERACT, PASS, RESET, RESTED, SET_TALLY};
use crate::{Pos2, Rect, domain};

impl Maker {
    /// One event of each kind cut short, with a stray bit, with a field or a float outside its range; good ones before, others after.
    pub fn damaged_event(&mut self) {
        self.fresh(6);
        for _ in 0..6 {
            let mut feed = Vec::new();
            for _ in 0..self.rng().below(4) {
                self.s.event(&mut feed);
            }
            let mut e = self.whole_event();
            let last = self.damage(&mut e);
            feed.extend(e);
            if !last {
                for _ in 0..self.rng().below(3) {
                    self.s.event(&mut feed);
                }
                if self.rng().once_in(3) {
                    let mut e = self.whole_event();
                    self.damage(&mut e);
                    feed.extend(e);
                }
            }
            self.soon(&feed);
        }
    }

    pub(crate) fn whole_event(&mut self) -> Vec<u32> {
        let kind = 1 + self.rng().below(12) as u32;
        let mut e = Vec::new();
        let (flags, p) = (self.s.flags(), self.place());
        let rng = self.rng();
        match kind {
            1 => put(&mut e, 1, rng.below(145) as u32 | (rng.below(2) as u32) << 8, &[]),
            2 => put(&mut e, 2, flags, &[]),
            5 => put(&mut e, 5, flags | (rng.below(5) as u32) << 5 | (rng.below(2) as u32) << 8, &[p.x, p.y]),
            7 => put(&mut e, 7, 0, &[rng.pick(&[1.0, 1024.0, 0.5])]),
            8 => put(&mut e, 8, 0, &[rng.pick(&[0.5, 64.0, -64.0])]),
            9 => {
                let force = self.force();
                let (d, k, phase) = (self.rng().pick(&DEVICES), self.rng().below(11), self.rng().below(4) as u32);
                touch(&mut e, d, finger_id(k), phase, p, force);
            }
            10 => put(&mut e, 10, flags | (rng.below(3) as u32) << 5 | (rng.below(4) as u32) << 7 | (rng.below(4) as u32) << 9, &[p.x, p.y]),
            11 => put(&mut e, 11, rng.below(2) as u32, &[]),
            3 | 4 => put(&mut e, kind, 0, &[p.x, p.y]),
            _ => put(&mut e, kind, 0, &[]),
        }
        e
    }

    /// True: the feed must end here.
    pub(crate) fn damage(&mut self, e: &mut Vec<u32>) -> bool {
        let kind = e[0] >> 28;
        match self.rng().below(7) {
            0 if e.len() > 1 => {
                let keep = 1 + self.rng().below(e.len() as u64 - 1) as usize;
                e.truncate(keep);
                return true;
            }
            1 => e[0] |= 1 << self.rng().below(28),
            2 => e[0] = self.rng().pick(&[0, 13, 14, 15]) << 28 | self.rng().pick(&[0, 0, 1, 0x0FFF_FFFF]),
            3 => match kind {
                1 => e[0] = e[0] & !0xFF | self.rng().pick(&[145, 146, 255]),
                5 => e[0] = e[0] & !0xE0 | self.rng().pick(&[5, 6, 7]) << 5,
                10 => e[0] |= 3 << 5,
                _ => e[0] |= 1 << 27,
            },
            _ => {
                let floats: &[usize] = match kind {
                    3 | 4 | 5 | 10 => &[1, 2],
                    7 | 8 => &[1],
                    9 if e.len() == 8 => &[5, 6, 7],
                    9 => &[5, 6],
                    _ => &[],
                };
                if !floats.is_empty() {
                    let k = self.rng().pick(floats);
                    e[k] = self.odd_float();
                }
            }
        }
        false
    }

    /// Ends of the ranges, one unit in the last place past them, and what is no number.
    fn odd_float(&mut self) -> u32 {
        let end = self.rng().pick(&[65_536.0f32, 1024.0, 64.0, 1.0, 0.0]);
        let n = self.rng().pick(&[-1, 0, 1, 1]);
        let end = if end == 0.0 && n < 0 { -f32::from_bits(1) } else { nudge32(end, n) };
        let rng = self.rng();
        rng.pick(&[end.to_bits(), end.to_bits(), (-end).to_bits(), 0x7FC0_0000, 0xFFC0_0001, 0x7F80_0001, 0x7F80_0000, 0xFF80_0000, 0x7F7F_FFFF, 0x8000_0000, 1, 0x8000_0001])
    }

    /// 63 to 66 events; event 65 may itself be damaged.
    pub fn many_events(&mut self) {
        let n = 63 + self.rng().below(3);
        let mut feed = Vec::new();
        let small = self.rng().once_in(2);
        for _ in 0..n {
            if small {
                put(&mut feed, self.s.rng.pick(&[6, 12]), 0, &[]);
            } else {
                let mut e = self.whole_event();
                if e[0] >> 28 == 9 {
                    e = vec![12 << 28];
                }
                feed.extend(e);
            }
        }
        if self.rng().once_in(2) {
            let mut e = self.whole_event();
            self.damage(&mut e);
            feed.extend(e);
        }
        self.soon(&feed);
        self.some_interact();
    }

    /// Each of the pass's own numbers at its ends and past them; then a later refusal that must not win.
    pub fn own_numbers(&mut self) {
        for _ in 0..8 {
            let now = self.now();
            let mut p = self.pass_of(Some(now));
            self.odd_number(&mut p);
            let mut feed = Vec::new();
            if self.rng().once_in(3) {
                feed = self.whole_event();
                self.damage(&mut feed);
            }
            let mut w = words::write_pass(&p, &feed);
            // what is not given may hold anything
            if w[0] & 1 == 0 {
                w[1] = self.rng().word() as u32;
                w[2] = 0x7FF8_0000;
            }
            if w[0] & 2 == 0 {
                w[6] = 0x7FC0_0000;
            }
            self.call(PASS, &w);
        }
    }

    fn odd_number(&mut self, p: &mut Pass) {
        let now = self.now();
        let odd = f32::from_bits(self.odd_float());
        let long = self.rng().pick(&[3600.0, nudge(3600.0, 1), nudge(3600.0, -1), -0.0, -5e-324, f64::NAN, f64::INFINITY, 0.0]);
        match self.rng().below(11) {
            0 => p.time = Some(self.rng().pick(&[nudge(now, -1), -0.0, -5e-324, f64::NAN, f64::INFINITY, f64::NEG_INFINITY, nudge(domain::MAX_TIME, 1), -1.0, now])),
            1 => {
                p.predicted_dt = odd;
                p.time = self.rng().pick(&[None, Some(now)]);
            }
            2 => p.smooth = odd,
            3 => p.pixels_per_point = odd,
            4 => {
                let mut v = [1.0f32, 2.0, 3.0, 4.0];
                v[self.rng().below(4) as usize] = odd;
                p.screen_rect = Some(Rect::from_min_max(Pos2::new(v[0], v[1]), Pos2::new(v[2], v[3])));
            }
            5 => p.options.line_scroll_speed = odd,
            6 => p.options.scroll_zoom_speed = odd,
            7 => p.options.max_click_dist = odd,
            8 => p.options.max_click_duration = long,
            9 => p.options.max_double_click_delay = long,
            _ => {
                p.time = Some(nudge(now, -1));
                p.smooth = odd;
            }
        }
    }

    /// Records that don't follow the form: the state stays.
    pub fn malformed(&mut self) {
        let any = [1u32, 0x3F80_0000, 0, 7, 0xFFFF_FFFF];
        for _ in 0..8 {
            let n = self.rng().below(40) as usize;
            let w: Vec<u32> = (0..n).map(|_| self.rng().pick(&any)).collect();
            match self.rng().below(8) {
                0 => self.call(PASS, &w[..n.min(17)]),
                1 => self.call(INSERT, &w[..if n % 17 == 1 { 0 } else { n }]),
                2 => {
                    let keep = self.rng().below(5) as usize;
                    self.call(INTERACT, &w[..n.min(keep)])
                }
                3 => {
                    let mut w = words::write_interact(66, 66, &Hits { close: vec![Hit { id: 10, sense: 0 }; 3], ..Default::default() });
                    match self.rng().below(5) {
                        0 => w[2] = 2,
                        1 => w[3] = 0xFFFF_FFFF,
                        2 => w[4] = 3,
                        3 => w.push(0),
                        _ => w.truncate(13),
                    }
                    self.call(INTERACT, &w)
                }
                4 => {
                    let calls = [RESET, CLEAR, ASK, DUMP, RESTED];
                    let known = if words::exists(RESTED, self.s.stream.panel.level) { &calls[..] } else { &calls[..4] };
                    let call = self.rng().pick(known);
                    self.call(call, &[0])
                }
                5 => self.call(SET_TALLY, &w[..if n == 1 { 0 } else { n }]),
                _ => {
                    let call = 9 + self.rng().below(247) as u32;
                    self.call(call, &w)
                }
            };
        }
    }

    /// Lists of 0 to 65 entries with one that is refused at any place, and id buffers of 65 and 66 places.
    pub fn hit_lists(&mut self) {
        for _ in 0..5 {
            let mut h = Hits::default();
            let distinct = self.rng().once_in(2);
            for list in [&mut h.close, &mut h.contains_pointer] {
                let rng = &mut self.s.rng;
                let n = rng.pick(&[0, 1, 3, 63, 64, 64, 65, 66]);
                let from = rng.below(1000);
                *list = (0..n).map(|k| Hit { id: if distinct { 2000 - k - from } else { 1 + rng.below(30) }, sense: rng.pick(&[0, 4, 0, 1, 2, 7]) }).collect();
                if n > 0 && rng.once_in(3) {
                    let k = rng.below(n) as usize;
                    list[k] = rng.pick(&[Hit { id: 0, sense: 1 }, Hit { id: 0, sense: 8 }, Hit { id: 9, sense: 8 }, Hit { id: 9, sense: 256 }, Hit { id: 9, sense: 1 << 31 }]);
                }
            }
            let rng = &mut self.s.rng;
            let some = |rng: &mut Rng| {
                let id = 1 + rng.below(30);
                rng.pick(&[None, Some(Hit { id, sense: 1 }), Some(Hit { id: 10, sense: 3 }), Some(Hit { id: 0, sense: 0 }), Some(Hit { id: u64::MAX, sense: 2 })])
            };
            h.click = some(rng);
            h.drag = some(rng);
            if h.drag.is_some_and(|e| e.id != 0) && rng.once_in(8) {
                h.drag = Some(Hit { id: 5, sense: 9 });
            }
            let places = [rng.pick(&[66, 66, 66, 67, 100, 65, 0]), rng.pick(&[66, 66, 66, 67, 100, 65, u32::MAX])];
            self.call(INTERACT, &words::write_interact(places[0], places[1], &h));
            if self.rng().once_in(3) {
                let mut feed = Vec::new();
                self.s.event(&mut feed);
                self.soon(&feed);
            }
        }
    }

    /// Drag starts at the tally's end: one is taken, the next is not.
    pub fn tally(&mut self) {
        self.call(CLEAR, &[]);
        let w = Widget { enabled: true, ..self.some_widget(10, 2) };
        self.insert_into(&w, false, false);
        let near = u32::MAX - self.rng().below(3) as u32;
        self.call(SET_TALLY, &[near]);
        let e = Some(Hit { id: 10, sense: 2 });
        let h = Hits { drag: e, click: None, ..Default::default() };
        for _ in 0..4 {
            let at = self.place();
            for pressed in [true, false] {
                let mut feed = Vec::new();
                self.button(&mut feed, 0, pressed, at);
                self.soon(&feed);
                self.interact_with(&h);
            }
        }
        let rest = self.rng().pick(&[0, 0, 5]);
        self.call(SET_TALLY, &[rest]);
    }

    /// New, known, moved and refused insertions in one to four layers; slices too short by one.
    pub fn few_widgets(&mut self) {
        self.call(CLEAR, &[]);
        let n = 3 + self.rng().below(8);
        let layers = 1 + self.rng().below(4);
        for _ in 0..3 * n {
            let id = 10 + self.rng().below(n);
            let sense = self.rng().below(8) as u32;
            let mut w = self.some_widget(id, sense);
            w.order = (id % 5) as u32;
            w.layer = 5 + id % layers;
            let rng = &mut self.s.rng;
            match rng.below(30) {
                0 => w.layer += 1,
                1 => w.order = (w.order + 1) % 5,
                2 => w.order = rng.pick(&[5, u32::MAX]),
                3 => w.sense = rng.pick(&[8, 256, 1 << 31]),
                4 => w.id = 0,
                5 => w.parent = 0,
                6 => w.layer = 0,
                7 => w.rect.min.x = f32::from_bits(rng.pick(&[0x7FC0_0000, 0x7F80_0000, 0x4780_0001, 0x4780_0000])),
                8 => w.interact_rect.max.y = f32::from_bits(rng.pick(&[0xFFC0_0000, 0xFF80_0000, 0xC780_0001, 0xC780_0000])),
                9 => {
                    w.id = 0;
                    w.sense = 8;
                    w.rect.min.y = f32::NAN;
                }
                10 => w.parent = u64::MAX,
                _ => {}
            }
            let count = self.in_layer(&w);
            let places = self.rng().pick(&[count + 1, count + 1, count + 1, count, count.saturating_sub(1), 1024, u32::MAX]);
            let top = self.rng().once_in(2);
            self.call(INSERT, &words::write_insert(&w, top, places));
        }
        self.record(DUMP, &[]);
        self.some_interact();
    }

    /// A lent slice that holds other records: new and known ids, none moved. Then the set is emptied.
    pub fn lent_contents(&mut self) {
        self.call(CLEAR, &[]);
        for id in 10..14 {
            let mut w = self.some_widget(id, 3);
            w.order = 1;
            self.insert_into(&w, false, false);
        }
        for _ in 0..4 {
            let id = 10 + self.rng().below(6);
            let mut w = self.some_widget(id, 1);
            w.order = 1;
            let count = self.in_layer(&w) as u64;
            let given = self.rng().below(count + 3);
            let spare = self.rng().pick(&[1, 1, 1, 0]);
            let mut words = words::write_insert(&w, false, count as u32 + spare);
            for _ in 0..given {
                let other = 10 + self.rng().below(60);
                let l = self.some_widget(other, 2);
                words.extend(words::write_insert(&l, false, 0)[..17].iter());
            }
            self.call(INSERT, &words);
            self.record(DUMP, &[]);
        }
        self.call(CLEAR, &[]);
    }

    /// 1,024 widgets in up to 32 layers, then one more of each, known ones at the end, moves to top.
    pub fn full_widgets(&mut self) {
        self.call(CLEAR, &[]);
        let layers = self.rng().pick(&[1, 5, 31, 32, 33]);
        let all = if self.rng().once_in(2) { 1024 } else { 40 };
        let spread = self.rng().pick(&[1, 2048, 0x1_0000_0001]);
        let widget = |m: &mut Self, k: u64| {
            let mut w = m.some_widget(1 + k * spread, 3);
            w.layer = 5 + k % layers;
            w.order = (k % layers % 5) as u32;
            w
        };
        for k in 0..all {
            let w = widget(self, k);
            self.insert_into(&w, false, true);
        }
        for _ in 0..12 {
            let k = match self.rng().below(4) {
                0 => all + self.rng().below(3),
                _ => self.rng().below(all),
            };
            let mut w = widget(self, k);
            if self.rng().once_in(6) {
                w.layer += 40;
                w.id += 5000 * spread;
            }
            let top = self.rng().once_in(2);
            self.insert_into(&w, top, false);
        }
        self.record(DUMP, &[]);
        self.some_interact();
        self.call(CLEAR, &[]);
        self.record(DUMP, &[]);
    }
}
