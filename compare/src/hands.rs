//! Scenes of a hand: clicks, drags, fingers, wheel and keys, with times and places about the options' limits.
use crate::aimed::{DEVICES, nudge, nudge32, put};
use crate::maker::{Maker, any_float, inside, touch};
use crate::met::{far_apart, short_apart};
use crate::panel::{Hit, Hits, Widget};
use crate::words::{self, CLEAR, DUMP, INSERT, PASS, RESET};
use crate::{Pos2, Rect, domain};

impl Maker {
    pub fn plain(&mut self) {
        for _ in 0..40 + self.rng().below(80) {
            let r = self.s.make();
            self.call(r[0] >> 24, &r[1..]);
        }
    }

    /// Clicks, double and triple clicks: times about the delay and the duration, places about the distance.
    pub fn clicks(&mut self) {
        self.new_options();
        if self.rng().once_in(2) {
            self.whole_second();
        }
        let mut at = self.place();
        let button = if self.rng().once_in(4) { self.rng().below(5) as u32 } else { 0 };
        for _ in 0..2 + self.rng().below(4) {
            let again = self.s.stream.panel.last_click_time() + self.s.options.max_double_click_delay;
            let press = match self.rng().below(4) {
                0 => self.about(again),
                1 => self.now(),
                _ => self.now() + 1.0 / 64.0,
            };
            let mut feed = Vec::new();
            self.button(&mut feed, button, true, at);
            let together = self.rng().once_in(4);
            if together {
                self.button(&mut feed, button, false, at);
            }
            self.at_time(press, &feed);
            if self.rng().once_in(2) {
                self.some_interact();
            }
            if !together {
                at = self.end_click(button, at, again);
            }
        }
    }

    /// The rest of a click: perhaps a move, the release, perhaps a second one. Where the release was.
    fn end_click(&mut self, button: u32, at: Pos2, again: f64) -> Pos2 {
        let o = self.s.options;
        if self.rng().once_in(3) {
            let p = self.moved_to(at, o.max_click_dist);
            let mut feed = Vec::new();
            put(&mut feed, 3, 0, &[p.x, p.y]);
            self.soon(&feed);
        }
        let start = self.s.stream.panel.input.pointer.press_start_time().unwrap_or(0.0);
        let release = match self.rng().below(5) {
            0 | 1 => self.about(start + o.max_click_duration),
            2 => self.about(again),
            _ => self.now(),
        };
        // the second of two clicks about the click distance away
        let at = if self.rng().once_in(3) { self.around(at, o.max_click_dist) } else { at };
        let mut feed = Vec::new();
        self.button(&mut feed, button, false, at);
        if self.rng().once_in(8) {
            self.button(&mut feed, button, false, at);
        }
        self.at_time(release, &feed);
        self.some_interact();
        at
    }

    /// About the click distance from a press; from one at (0,0) now and then at the rim itself, where the difference is exact.
    fn moved_to(&mut self, at: Pos2, d: f32) -> Pos2 {
        if at == Pos2::ZERO && self.rng().once_in(2) {
            let v = self.rim(d, far_apart);
            return inside(Pos2::new(v.x, v.y));
        }
        self.around(at, d)
    }

    /// A press and moves about the click distance; velocity over two, three and more samples about 0.01 s and 0.1 s.
    pub fn moves(&mut self) {
        self.new_options();
        self.whole_second();
        let at = self.place();
        let d = self.s.options.max_click_dist;
        let mut feed = Vec::new();
        self.button(&mut feed, 0, true, at);
        self.soon(&feed);
        for _ in 0..2 + self.rng().below(8) {
            let mut feed = Vec::new();
            for _ in 0..self.rng().below(3) {
                let p = if self.rng().once_in(2) { self.moved_to(at, d) } else { self.place() };
                put(&mut feed, 3, 0, &[p.x, p.y]);
            }
            if self.rng().once_in(6) {
                put(&mut feed, 6, 0, &[]);
            }
            if self.rng().once_in(4) {
                let (x, y) = self.s.small_delta();
                put(&mut feed, 4, 0, &[x, y]);
            }
            let oldest = self.s.stream.panel.oldest_sample_time().unwrap_or(0.0);
            let t = match self.rng().below(4) {
                0 => self.about(oldest + f64::from(0.01f32)),
                1 => self.about(oldest + 0.01),
                2 => self.about(oldest + f64::from(0.1f32)),
                _ => self.now() + 1.0 / 256.0,
            };
            self.at_time(t, &feed);
            if self.rng().once_in(3) {
                self.some_interact();
            }
        }
        let mut feed = Vec::new();
        self.button(&mut feed, 0, false, at);
        self.soon(&feed);
        self.some_interact();
    }

    /// Pointer events of each kind in any order, a few in a pass, at times given and not.
    pub fn points(&mut self) {
        self.call(RESET, &[]);
        self.new_options();
        for _ in 0..40 {
            let mut feed = Vec::new();
            for _ in 0..self.rng().pick(&[0, 1, 1, 2, 2, 3, 5]) {
                let at = if self.rng().once_in(8) { self.place() } else { self.near() };
                let b = self.rng().pick(&[0, 0, 0, 1, 2, 3, 4]);
                match self.rng().below(16) {
                    0..=4 => put(&mut feed, 3, 0, &[at.x, at.y]),
                    5..=7 => self.button(&mut feed, b, true, at),
                    8..=11 => self.button(&mut feed, b, false, at),
                    12 => put(&mut feed, 6, 0, &[]),
                    13 => put(&mut feed, 4, 0, &[at.x, at.y]),
                    _ => self.s.event(&mut feed),
                }
            }
            let later = self.now() + self.rng().pick(&[0.0, 1.0 / 64.0, 1.0 / 64.0, 1.0 / 60.0, 0.05, 0.25, 1.0, 1.0 / 1_073_741_824.0]);
            if self.rng().once_in(8) {
                let p = self.pass_of(None);
                self.call(PASS, &words::write_pass(&p, &feed));
            } else {
                self.at_time(later, &feed);
            }
        }
    }

    fn near(&mut self) -> Pos2 {
        Pos2::new(self.rng().below(40) as f32 / 4.0, self.rng().below(40) as f32 / 4.0)
    }

    /// Drag-only, click-only and click-and-drag widgets, pressed, moved in and out of, left, aborted, vanished.
    pub fn drags(&mut self) {
        self.new_options();
        self.fresh(5);
        self.call(CLEAR, &[]);
        let big = if self.rng().once_in(6) { 0x1_0000_0000 } else { 0 };
        let n = 1 + self.rng().below(5);
        let ids: Vec<u64> = (0..n).map(|k| 10 + k + big * (k % 2)).collect();
        for id in &ids {
            let sense = self.rng().pick(&[2, 3, 3, 2, 1, 0, 7, 6, 5, 4]);
            let w = self.some_widget(*id, sense);
            self.insert_into(&w, false, false);
        }
        let mut target = self.rng().pick(&ids);
        let mut at = self.place();
        if !self.rng().once_in(4) {
            let mut feed = Vec::new();
            self.button(&mut feed, 0, true, at);
            self.soon(&feed);
            let h = self.hits_over(target);
            self.interact_with(&h);
        }
        for _ in 0..3 + self.rng().below(10) {
            at = self.drag_pass(at);
            self.drag_widgets(target, &ids);
            if self.rng().once_in(4) {
                target = self.rng().pick(&ids);
                let h = self.hits_over(target);
                self.interact_with(&h);
            }
            for _ in 0..1 + self.rng().below(4) / 3 {
                let h = self.hits_on(target, &ids);
                self.interact_with(&h);
            }
        }
    }

    /// A pass of a drag: pressed, moved, released, both in either order, Escape, gone, or nothing, perhaps about the click duration. Where the pointer is then.
    fn drag_pass(&mut self, mut at: Pos2) -> Pos2 {
        let mut feed = Vec::new();
        let b = if self.rng().once_in(5) { self.rng().below(5) as u32 } else { 0 };
        let kind = self.rng().below(16);
        match kind {
            5..=7 => {
                let d = self.s.options.max_click_dist;
                at = if self.rng().once_in(2) { self.around(at, d) } else { self.place() };
                put(&mut feed, 3, 0, &[at.x, at.y]);
            }
            12 | 14 => put(&mut feed, 1, 4 | 1 << 8, &[]),
            13 => put(&mut feed, 6, 0, &[]),
            8..=10 => self.button(&mut feed, b, false, at),
            _ => {}
        }
        if matches!(kind, 0..=4 | 10 | 11 | 14) {
            self.button(&mut feed, b, true, at);
        }
        if kind == 11 {
            self.button(&mut feed, b, false, at);
        }
        if self.rng().once_in(6) {
            let t = self.now() + self.s.options.max_click_duration;
            let t = self.about(t);
            self.at_time(t, &feed);
        } else {
            self.soon(&feed);
        }
        at
    }

    /// Now and then the target vanishes, or is inserted again.
    fn drag_widgets(&mut self, target: u64, ids: &[u64]) {
        match self.rng().below(12) {
            0 => {
                self.call(CLEAR, &[]);
                for id in ids.iter().filter(|i| **i != target) {
                    let w = self.some_widget(*id, 3);
                    self.insert_into(&w, false, false);
                }
            }
            1 => {
                let w = self.some_widget(target, 0);
                self.call(INSERT, &words::write_insert(&w, false, 40));
            }
            _ => {}
        }
    }

    /// Two drag-only widgets: released and pressed in one pass, on the same one or on the other.
    pub fn handover(&mut self) {
        self.call(CLEAR, &[]);
        for id in [10, 11] {
            let w = Widget { order: 1, enabled: true, ..self.some_widget(id, 2) };
            self.insert_into(&w, false, false);
        }
        let at = self.place();
        for k in 0..4 {
            let mut feed = Vec::new();
            if k > 0 {
                self.button(&mut feed, 0, false, at);
            }
            self.button(&mut feed, 0, true, at);
            self.soon(&feed);
            let h = crate::script::over(10 + self.rng().below(2), 2);
            self.interact_with(&h);
        }
        let mut feed = Vec::new();
        self.button(&mut feed, 0, false, at);
        self.soon(&feed);
        self.interact_with(&Hits::default());
    }

    /// The target alone, by the sense it has.
    fn hits_over(&mut self, target: u64) -> Hits {
        let sense = self.s.stream.panel.known_widgets().iter().find(|(i, _, _)| i.value() == target).map_or(3, |(_, _, w)| w.sense.bits().into());
        crate::script::over(target, sense)
    }

    /// Hits that name the target or another, inside it or not.
    fn hits_on(&mut self, target: u64, ids: &[u64]) -> Hits {
        let sense = self.hits_over(target).close[0].sense;
        let e = Hit { id: target, sense };
        let other = self.rng().pick(ids);
        let o = Hit { id: other, sense: self.rng().below(8) as u32 };
        let rng = self.rng();
        let mut h = Hits::default();
        h.click = rng.pick(&[None, Some(e), Some(e), Some(o)]);
        h.drag = rng.pick(&[None, Some(e), Some(e), Some(e), Some(o)]);
        for _ in 0..rng.below(4) {
            h.close.push(rng.pick(&[e, o, Hit { id: 77, sense: 0 }, Hit { id: 3, sense: 4 }]));
        }
        for _ in 0..rng.below(4) {
            h.contains_pointer.push(rng.pick(&[e, e, o, Hit { id: 77, sense: 0 }, Hit { id: 3, sense: 4 }]));
        }
        h
    }

    /// A finger held still on a widget, about the click duration.
    pub fn long_touch(&mut self) {
        self.new_options();
        self.fresh(3);
        self.whole_second();
        self.call(CLEAR, &[]);
        let sense = self.rng().pick(&[1, 3, 2]);
        let w = self.some_widget(10, sense);
        self.insert_into(&w, false, false);
        let at = self.place();
        let mut feed = Vec::new();
        if !self.rng().once_in(5) {
            touch(&mut feed, 1, 4, 0, at, None);
        }
        let b = if self.rng().once_in(5) { 1 } else { 0 };
        self.button(&mut feed, b, true, at);
        self.soon(&feed);
        let h = Hits { click: Some(Hit { id: 10, sense }), drag: Some(Hit { id: 10, sense }), contains_pointer: vec![Hit { id: 10, sense }], ..Default::default() };
        self.interact_with(&h);
        for _ in 0..3 {
            let start = self.s.stream.panel.input.pointer.press_start_time().unwrap_or(0.0);
            let t = match self.rng().below(3) {
                0 => self.about(start + self.s.options.max_click_duration),
                1 => start + self.s.options.max_click_duration * 1.25,
                _ => self.now() + 1.0 / 64.0,
            };
            let mut feed = Vec::new();
            if self.rng().once_in(6) {
                let d = self.s.options.max_click_dist;
                let p = self.around(at, d);
                put(&mut feed, 3, 0, &[p.x, p.y]);
            }
            self.at_time(t, &feed);
            self.interact_with(&h);
        }
        let mut feed = Vec::new();
        touch(&mut feed, 1, 4, 2, at, None);
        self.button(&mut feed, b, false, at);
        self.soon(&feed);
        self.interact_with(&h);
    }

    /// One to eleven fingers: started at once or one by one, moved, coincident, lifted, replaced.
    pub fn fingers(&mut self) {
        self.fresh(4);
        let device = self.rng().pick(&DEVICES[..4]);
        let n = 1 + self.rng().below(10);
        let at = self.place();
        if !self.rng().once_in(4) {
            let mut feed = Vec::new();
            put(&mut feed, 3, 0, &[at.x, at.y]);
            self.soon(&feed);
        }
        let coincident = self.rng().once_in(5);
        let mut feed = Vec::new();
        for k in 0..n {
            let p = if coincident { at } else { self.finger(k, at) };
            let force = self.force();
            touch(&mut feed, device, finger_id(k), 0, p, force);
            if self.rng().once_in(4) {
                self.soon(&feed);
                feed.clear();
            }
        }
        self.soon(&feed);
        for _ in 0..2 + self.rng().below(4) {
            self.fingers_move(device, n, at, coincident);
        }
        if self.rng().once_in(2) {
            let mut feed = Vec::new();
            for k in 0..11 {
                touch(&mut feed, device, finger_id(k), 2 + (k % 2) as u32, at, None);
            }
            self.soon(&feed);
        }
    }

    /// Some fingers move, start again or lift; perhaps the pointer moves or goes; perhaps an eleventh starts.
    fn fingers_move(&mut self, device: u64, n: u64, at: Pos2, coincident: bool) {
        let mut feed = Vec::new();
        for k in 0..n {
            if self.rng().once_in(2) {
                let p = if coincident { at } else { self.finger(k, at) };
                let phase = self.rng().pick(&[1, 1, 1, 1, 1, 0, 2, 3]);
                let force = self.force();
                touch(&mut feed, device, finger_id(k), phase, p, force);
            }
        }
        if self.rng().once_in(3) {
            put(&mut feed, 3, 0, &[at.x, at.y]);
        }
        if self.rng().once_in(6) {
            put(&mut feed, 6, 0, &[]);
        }
        if self.rng().once_in(3) {
            let p = self.finger(10, at);
            touch(&mut feed, device, finger_id(10), 0, p, None);
        }
        self.soon(&feed);
    }

    /// Of two fingers the second often stands at 3 to 1, or one unit in the last place around it.
    fn finger(&mut self, k: u64, at: Pos2) -> Pos2 {
        let n = self.rng().pick(&[-1, 0, 1]);
        let d = self.rng().pick(&[1.0f32, 4.0, 8.0, 1e-20, 0.1]);
        let p = match (k, self.rng().below(5)) {
            (0, _) => at,
            (_, 0) => Pos2::new(at.x + nudge32(3.0 * d, n), at.y + d),
            (_, 1) => Pos2::new(at.x + d, at.y + nudge32(3.0 * d, n)),
            (_, 2) => Pos2::new(at.x + d, at.y),
            (_, 3) => Pos2::new(at.x, at.y - d),
            _ => self.place(),
        };
        inside(p)
    }

    /// Each phase on each of up to five devices.
    pub fn devices(&mut self) {
        self.fresh(2);
        for _ in 0..3 + self.rng().below(6) {
            let mut feed = Vec::new();
            for _ in 0..1 + self.rng().below(4) {
                let d = self.rng().pick(&DEVICES);
                let k = self.rng().below(3);
                let phase = self.rng().below(4) as u32;
                let (p, force) = (self.place(), self.force());
                touch(&mut feed, d, finger_id(k), phase, p, force);
            }
            if self.rng().once_in(2) {
                let p = self.place();
                put(&mut feed, 3, 0, &[p.x, p.y]);
            }
            self.soon(&feed);
        }
    }

    /// A few fingers on up to four devices among wheel events, the pointer known, moved and gone.
    pub fn pinch(&mut self) {
        self.call(RESET, &[]);
        self.new_options();
        let devices = 1 + self.rng().below(4) as usize;
        for k in 0..40 {
            let mut feed = Vec::new();
            for _ in 0..self.rng().pick(&[1, 1, 2, 2, 3, 4]) {
                if self.rng().below(8) < 5 {
                    let (d, id) = (self.rng().pick(&DEVICES[..devices]), finger_id(self.rng().below(10)));
                    let phase = self.rng().pick(&[0, 0, 0, 1, 1, 1, 1, 1, 2, 3]);
                    let (p, force) = (self.near(), self.force());
                    touch(&mut feed, d, id, phase, p, force);
                } else {
                    let low = self.s.flags() | (self.rng().below(3) as u32) << 5 | self.rng().pick(&[1, 1, 1, 0, 2, 3]) << 7 | (self.rng().below(4) as u32) << 9;
                    let (x, y) = self.wheel_delta();
                    put(&mut feed, 10, low, &[x, y]);
                }
            }
            if k == 0 || self.rng().once_in(6) {
                let p = self.near();
                put(&mut feed, 3, 0, &[p.x, p.y]);
            }
            if self.rng().once_in(24) {
                put(&mut feed, 6, 0, &[]);
            }
            let later = self.now() + self.rng().pick(&[0.0, 1.0 / 64.0, 1.0 / 64.0, 1.0 / 60.0, 0.05, 0.15, 0.25, 1.0, 1.125]);
            self.at_time(later, &feed);
        }
    }

    /// Wheel events of each unit, phase and source; lengths about 8, times about the timeouts.
    pub fn wheel(&mut self) {
        self.new_options();
        if self.rng().once_in(2) {
            self.whole_second();
        }
        let source = self.rng().below(4) as u32;
        for _ in 0..3 + self.rng().below(6) {
            let mut feed = Vec::new();
            for _ in 0..self.rng().below(4) {
                let (unit, phase) = (self.rng().below(3) as u32, self.rng().pick(&[0, 1, 1, 1, 1, 2, 3]));
                let source = if self.rng().once_in(4) { self.rng().below(4) as u32 } else { source };
                let low = self.s.flags() | unit << 5 | phase << 7 | source << 9;
                let (x, y) = self.wheel_delta();
                put(&mut feed, 10, low, &[x, y]);
            }
            if self.rng().once_in(5) {
                let m = self.s.flags();
                put(&mut feed, 2, m, &[]);
            }
            let last = self.s.stream.panel.last_wheel_event();
            let t = match self.rng().below(5) {
                0 => self.about(last + 0.15),
                1 => self.about(last + 1.0),
                2 => last + self.rng().pick(&[0.125, 0.25, 1.125]),
                _ => self.now() + 1.0 / 64.0,
            };
            let now = self.now();
            let t = if t >= now && t <= domain::MAX_TIME { t } else { now };
            let mut p = self.pass_of(Some(t));
            if self.rng().once_in(4) {
                // Page goes by the height, which may be below 0
                p.screen_rect = Some(Rect::from_min_max(self.place(), self.place()));
            }
            self.call(PASS, &words::write_pass(&p, &feed));
        }
    }

    fn wheel_delta(&mut self) -> (f32, f32) {
        if self.rng().once_in(8) {
            let v = self.rim(8.0, short_apart);
            return (v.x, v.y);
        }
        let n = self.rng().pick(&[-1, 0, 1]);
        let rng = self.rng();
        match rng.below(7) {
            6 => (any_float(rng), any_float(rng)),
            0 => (0.0, nudge32(8.0, n)),
            1 => (nudge32(8.0, n), -0.0),
            2 => (nudge32(4.8, n), 6.4),
            3 => (rng.pick(&[1.0, nudge32(1.0, -1), 0.2, -0.2]), rng.pick(&[-1.0, nudge32(1.0, 1), 0.25])),
            4 => (rng.pick(&[4.0, -4.0, 7.5, 65_536.0]), rng.pick(&[-4.0, 4.0, 1.0, -65_536.0])),
            _ => self.s.small_delta(),
        }
    }

    /// Many keys, pressed again while down; focus lost; modifiers.
    pub fn keys(&mut self) {
        for _ in 0..4 {
            let mut feed = Vec::new();
            for _ in 0..1 + self.rng().below(40) {
                let key = if self.rng().once_in(6) { 4 } else { self.rng().below(145) as u32 };
                for _ in 0..1 + self.rng().below(8) / 7 * 8 {
                    put(&mut feed, 1, key | (self.s.rng.below(3).min(1) as u32) << 8, &[]);
                }
                if self.rng().once_in(20) {
                    put(&mut feed, 11, self.s.rng.below(2) as u32, &[]);
                }
                if self.rng().once_in(20) {
                    let m = self.s.flags();
                    put(&mut feed, 2, m, &[]);
                }
            }
            feed.truncate(64);
            self.soon(&feed);
            if self.rng().once_in(2) {
                self.some_interact();
            }
        }
    }

    /// Products that overflow and vanish, sums of radians, zoom by wheel with and without the modifier.
    pub fn zooms(&mut self) {
        self.new_options();
        for _ in 0..4 {
            let mut feed = Vec::new();
            let z = self.rng().pick(&[1024.0, f32::from_bits(1), 1.1, nudge32(1.0, 1), 0.5]);
            for _ in 0..1 + self.rng().below(20) {
                match self.rng().below(4) {
                    0 | 1 => put(&mut feed, 7, 0, &[z]),
                    2 => put(&mut feed, 8, 0, &[self.s.rng.pick(&[64.0, -64.0, 0.1, -0.0, f32::from_bits(1)])]),
                    _ => {
                        let low = self.s.flags() | 1 << 7 | 2 << 9;
                        let (x, y) = self.wheel_delta();
                        put(&mut feed, 10, low, &[x, y]);
                    }
                }
            }
            if self.rng().once_in(2) {
                let m = self.s.flags();
                put(&mut feed, 2, m, &[]);
            }
            self.soon(&feed);
        }
    }

    /// Absent times, -0.0, the end of time.
    pub fn times(&mut self) {
        if self.rng().once_in(2) {
            self.call(RESET, &[]);
            let p = self.pass_of(Some(-0.0));
            self.call(PASS, &words::write_pass(&p, &[]));
            if self.rng().once_in(2) {
                self.some_interact();
            }
        } else if self.rng().once_in(2) {
            let t = self.rng().pick(&[domain::MAX_TIME, nudge(domain::MAX_TIME, -1), domain::MAX_TIME - 1.0]);
            self.at_time(t, &[]);
        }
        for _ in 0..6 {
            let mut feed = Vec::new();
            for _ in 0..self.rng().below(3) {
                self.s.event(&mut feed);
            }
            let p = self.pass_of(None);
            self.call(PASS, &words::write_pass(&p, &feed));
        }
        self.call(RESET, &[]);
    }

    /// More than 1,000 samples in 0.1 s, then times about the age of the oldest.
    pub fn full_history(&mut self) {
        let mut feed = Vec::new();
        let at = self.place();
        put(&mut feed, 5, 1 << 8, &[at.x, at.y]);
        self.whole_second();
        self.soon(&feed);
        let step = self.rng().pick(&[0.0, 1.0 / 65_536.0, 1.0 / 16_384.0]);
        let n = 990 + self.rng().below(30);
        for k in 0..n {
            let t = self.now() + step;
            let mut feed = Vec::new();
            if k % 7 == 0 {
                let p = self.place();
                put(&mut feed, 3, 0, &[p.x, p.y]);
            }
            let p = self.pass_of(Some(t));
            let w = words::write_pass(&p, &feed);
            if k < 985 { self.quiet(PASS, &w) } else { self.call(PASS, &w); }
        }
        self.record(DUMP, &[]);
        for _ in 0..4 {
            let oldest = self.s.stream.panel.oldest_sample_time().unwrap_or(0.0);
            let t = self.about(oldest + f64::from(0.1f32));
            let mut feed = Vec::new();
            if self.rng().once_in(4) {
                put(&mut feed, 6, 0, &[]);
            }
            self.at_time(t, &feed);
        }
        self.record(DUMP, &[]);
    }
}

/// Ids whose order is not that of the fingers.
pub(crate) fn finger_id(k: u64) -> u64 {
    [4, 3, 0, 0x1_0000_0000, u64::MAX, 9, 8, 7, 6, 5, 100][k as usize]
}
