//! A trace as it grows, with egui's answers beside it, and the parts that scenes are made of.
use crate::aimed::{Aimed, DIRECTIONS, Rng, nudge, nudge32, put, some_options};
use crate::lists::Twin;
use crate::met::Met;
use crate::panel::{Hits, Pass, Widget};
use crate::words::{self, ASK, DUMP, INSERT, INTERACT, KERNEL, PASS, RESET, RESTED, RESTORE, RESTORE_LAST, SET_TALLY};
use crate::{Pos2, Vec2, domain};

/// What one trace of `replay` may hold, in words.
pub const LIMIT: usize = (1 << 20) / 4 - 1;

/// A trace as it grows: the requests, egui's answers to them, and what was met.
pub struct Maker {
    pub s: Aimed,
    pub requests: Vec<u32>,
    pub answers: Vec<u32>,
    pub met: Met,
    limit: usize,
    /// no further call fits
    pub full: bool,
    /// ASK after all but one in `ask` calls, DUMP after one in `dump`; 0: never
    ask: u64,
    dump: u64,
    /// ASK and DUMP after each call
    pub all: bool,
    /// a list from a fresh panel: no RESET, no SET_TALLY, nothing restored
    pub list: bool,
    /// a second panel that gets the same calls
    pub twin: Option<Twin>,
}

impl Maker {
    pub fn new(seed: u64, limit: usize, ask: u64, dump: u64) -> Self {
        Self { s: Aimed::new(seed), requests: Vec::new(), answers: Vec::new(), met: Met::default(), limit, full: false, ask, dump, all: false, list: false, twin: None }
    }

    /// Room for that many words more.
    pub fn room(&mut self, words: usize) {
        self.limit = self.requests.len() + words;
        self.full = false;
    }

    pub(crate) fn rng(&mut self) -> &mut Rng {
        &mut self.s.rng
    }

    pub fn now(&self) -> f64 {
        self.s.stream.panel.input.time
    }

    /// One request with egui's answer to it. Where the answer starts.
    pub fn record(&mut self, call: u32, w: &[u32]) -> usize {
        let at = self.answers.len();
        if self.list && matches!(call, RESET | SET_TALLY | RESTORE_LAST | RESTORE) {
            return at;
        }
        if self.requests.len() + 1 + w.len() > self.limit {
            self.full = true;
            return at;
        }
        if let Some(t) = &mut self.twin {
            t.record(&mut self.s.stream, &mut self.requests, &mut self.answers, call, w);
            self.s.time = self.s.stream.panel.input.time;
            return at;
        }
        self.requests.push(call << 24 | w.len() as u32);
        self.requests.extend_from_slice(w);
        let kernel = (call == KERNEL).then(|| self.s.stream.kernel.clone());
        words::answer(&mut self.s.stream, call, w, &mut self.answers);
        if let Some(before) = kernel {
            self.met.kernel(&before, &self.s.stream.panel, w, &self.answers[at..]);
        }
        self.met.count(&self.s.stream.panel, call, w, &self.answers[at..]);
        self.s.time = self.s.stream.panel.input.time;
        at
    }

    /// A call with what is asked after it.
    pub fn call(&mut self, call: u32, w: &[u32]) -> usize {
        let at = self.record(call, w);
        self.leave_foreign();
        if call == PASS && words::exists(RESTED, self.s.stream.panel.level) {
            self.record(RESTED, &[]);
        }
        if self.all {
            self.record(ASK, &[]);
            self.record(DUMP, &[]);
            return at;
        }
        let (ask, dump) = (self.ask, self.dump);
        if ask != 0 && !self.rng().once_in(ask) {
            self.record(ASK, &[]);
        }
        // a dump of a full history or widget set is long
        let long = self.s.stream.panel.widgets.x_count() > 100 || self.s.stream.panel.input.pointer.x_view().pos_history.len() > 100;
        if dump != 0 && self.rng().once_in(if long { 20 * dump } else { dump }) {
            self.record(DUMP, &[]);
        }
        self.some_parking();
        at
    }

    /// The same call with nothing asked.
    pub(crate) fn quiet(&mut self, call: u32, w: &[u32]) {
        self.record(call, w);
    }

    // ---------------------------------------------------------------- parts of scenes

    pub(crate) fn pass_of(&mut self, time: Option<f64>) -> Pass {
        let options = self.s.options;
        let rng = self.rng();
        let unit = rng.unit();
        Pass {
            time,
            screen_rect: None,
            focused: rng.once_in(2),
            repaint_requested: rng.once_in(2),
            predicted_dt: rng.pick(&[1.0 / 60.0, 1.0 / 64.0, 0.0, 1.0, 0.125, -0.0, unit]),
            smooth: rng.pick(&[0.0, 0.5, 1.0, 0.319, 0.9, -0.0, f32::MIN_POSITIVE, unit]),
            pixels_per_point: rng.pick(&[1.0, 2.0, 1.5, 0.0, 1024.0, -0.0, 1024.0 * unit]),
            options,
        }
    }

    /// A taken pass at this time, or a little later if it is past or none.
    pub(crate) fn at_time(&mut self, time: f64, feed: &[u32]) {
        let now = self.now();
        let t = if time >= now && time <= domain::MAX_TIME { time } else { now };
        let p = self.pass_of(Some(t));
        self.call(PASS, &words::write_pass(&p, feed));
    }

    pub(crate) fn soon(&mut self, feed: &[u32]) {
        let some = 0.125 * f64::from(self.rng().unit()) / 3.0;
        let dt = self.rng().pick(&[1.0 / 60.0, 1.0 / 64.0, 0.0, 0.125, 0.005, some, some]);
        let t = self.now() + dt;
        self.at_time(t, feed);
    }

    /// A whole second, so that what is added to it stays exact.
    pub(crate) fn whole_second(&mut self) {
        let t = (self.now() + 1.0).floor();
        self.at_time(t, &[]);
    }

    pub(crate) fn new_options(&mut self) {
        if self.twin.is_none() && self.rng().once_in(2) {
            self.s.options = some_options(&mut self.s.rng);
        }
    }

    /// That time, or one unit in the last place around it.
    pub(crate) fn about(&mut self, t: f64) -> f64 {
        let n = self.rng().pick(&[-1, 0, 0, 1]);
        if t.is_finite() { nudge(t, n) } else { self.now() }
    }

    /// That far from a place, or one unit in the last place around it.
    pub(crate) fn around(&mut self, o: Pos2, d: f32) -> Pos2 {
        let (x, y) = self.rng().pick(&DIRECTIONS);
        let n = self.rng().pick(&[-1, 0, 0, 1]);
        inside(Pos2::new(nudge32(o.x + d * x, n), o.y + d * y))
    }

    /// A vector at the rim of a circle: x drawn, y within three units in the last place; if one is found, one that the lengths
    /// in f32 and in f64 put on different sides of the rim.
    pub(crate) fn rim(&mut self, d: f32, apart: fn(Vec2, f32) -> bool) -> Vec2 {
        let mut v = Vec2::new(d, 0.0);
        for _ in 0..200 {
            let x = d * self.rng().unit();
            let y = (f64::from(d).powi(2) - f64::from(x).powi(2)).sqrt() as f32;
            v = Vec2::new(x, nudge32(y, self.rng().below(7) as i32 - 3));
            if apart(v, d) {
                break;
            }
        }
        v
    }

    pub(crate) fn place(&mut self) -> Pos2 {
        let rng = self.rng();
        match rng.below(8) {
            4 => Pos2::new(any_float(rng), any_float(rng)),
            5 => Pos2::new(100.0 * rng.unit(), 100.0 * rng.unit()),
            0 | 1 => Pos2::new(0.0, 0.0),
            2 => Pos2::new(-0.0, 10.0),
            3 => Pos2::new(rng.pick(&[65_536.0, -65_536.0]), rng.pick(&[65_536.0, -65_536.0, 0.0])),
            _ => Pos2::new((rng.unit() * 200.0).floor(), (rng.unit() * 200.0).floor()),
        }
    }

    pub(crate) fn button(&mut self, feed: &mut Vec<u32>, button: u32, pressed: bool, at: Pos2) {
        let flags = self.s.flags();
        put(feed, 5, flags | button << 5 | (pressed as u32) << 8, &[at.x, at.y]);
    }

    pub(crate) fn some_interact(&mut self) {
        let w = self.s.interact();
        self.call(INTERACT, &w);
    }

    pub(crate) fn interact_with(&mut self, h: &Hits) {
        let places = [66 + self.rng().below(3) as u32, 66 + self.rng().below(3) as u32];
        self.call(INTERACT, &words::write_interact(places[0], places[1], h));
    }

    pub(crate) fn insert_into(&mut self, w: &Widget, top: bool, quiet: bool) {
        let n = self.in_layer(w) + 1;
        let spare = self.rng().below(3) as u32;
        let words = words::write_insert(w, top, n + spare);
        if quiet { self.quiet(INSERT, &words) } else { self.call(INSERT, &words); }
    }

    pub(crate) fn in_layer(&self, w: &Widget) -> u32 {
        let known = self.s.stream.panel.known_widgets();
        known.iter().filter(|(_, _, k)| k.layer_id.id.value() == w.layer && k.layer_id.order as u32 == w.order).count() as u32
    }

    pub(crate) fn fresh(&mut self, one_in: u64) {
        if self.rng().once_in(one_in) {
            self.call(RESET, &[]);
        }
    }

    pub(crate) fn some_widget(&mut self, id: u64, sense: u32) -> Widget {
        let rng = &mut self.s.rng;
        let enabled = !rng.once_in(6);
        let visible = rng.once_in(2);
        Widget { id, parent: 1, order: rng.below(5) as u32, layer: 5, rect: self.s.some_rect(), interact_rect: self.s.some_rect(), sense, enabled, visible }
    }

    pub(crate) fn force(&mut self) -> Option<f32> {
        self.rng().pick(&[None, None, Some(0.0), Some(1.0), Some(0.3), Some(-0.0)])
    }
}

/// A float of the domain with any last bits: of common size, or of any size down to the smallest.
pub(crate) fn any_float(rng: &mut Rng) -> f32 {
    let bits = rng.word() as u32;
    let exponent = if rng.once_in(3) { rng.below(143) as u32 } else { 110 + rng.below(33) as u32 };
    f32::from_bits(bits & 0x807F_FFFF | exponent << 23)
}

pub(crate) fn inside(p: Pos2) -> Pos2 {
    Pos2::new(p.x.clamp(-65_536.0, 65_536.0), p.y.clamp(-65_536.0, 65_536.0))
}

/// A touch event.
pub fn touch(feed: &mut Vec<u32>, device: u64, id: u64, phase: u32, at: Pos2, force: Option<f32>) {
    feed.push(9 << 28 | phase | (force.is_some() as u32) << 2);
    feed.extend([device as u32, (device >> 32) as u32, id as u32, (id >> 32) as u32, at.x.to_bits(), at.y.to_bits()]);
    feed.extend(force.map(f32::to_bits));
}
