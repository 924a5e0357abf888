//! Requests aimed at the edges: times at the option boundaries and one unit in the last place around
//! them, clicks, double and triple clicks, drags, pinches with 1 to 10 fingers, wheel in each unit,
//! phase and source, damaged feeds for each refusal, widgets and hits that belong to the positions.
//!
//! `Aimed` keeps egui's own panel beside it, so that what it makes next can lean on the state.
use crate::panel::{Hit, Hits, Pass, Widget};
use crate::words::Stream;
use crate::{InputOptions, Modifiers, Pos2, Rect, words};
use std::collections::VecDeque;

/// splitmix64
pub struct Rng(u64);
impl Rng {
    pub fn new(seed: u64) -> Self {
        Self(seed)
    }
    pub fn word(&mut self) -> u64 {
        self.0 = self.0.wrapping_add(0x9E37_79B9_7F4A_7C15);
        let mut z = self.0;
        z = (z ^ (z >> 30)).wrapping_mul(0xBF58_476D_1CE4_E5B9);
        z = (z ^ (z >> 27)).wrapping_mul(0x94D0_49BB_1331_11EB);
        z ^ (z >> 31)
    }
    /// 0 to n - 1
    pub fn below(&mut self, n: u64) -> u64 {
        self.word() % n
    }
    /// true once in n
    pub fn once_in(&mut self, n: u64) -> bool {
        self.below(n) == 0
    }
    pub fn pick<T: Copy>(&mut self, from: &[T]) -> T {
        from[self.below(from.len() as u64) as usize]
    }
    pub fn unit(&mut self) -> f32 {
        (self.word() >> 40) as f32 / (1u64 << 24) as f32
    }
}

/// The f64 `n` units in the last place away.
pub fn nudge(x: f64, n: i64) -> f64 {
    if x == 0.0 && n < 0 {
        return 0.0;
    }
    f64::from_bits((x.to_bits() as i64).wrapping_add(n) as u64)
}

pub(crate) fn nudge32(x: f32, n: i32) -> f32 {
    if x == 0.0 {
        return f32::from_bits(n.unsigned_abs());
    }
    f32::from_bits((x.to_bits() as i32).wrapping_add(n) as u32)
}

pub(crate) const DEVICES: [u64; 5] = [1, 7, 0x1_0000_0000, u64::MAX, 0];
pub(crate) const DIRECTIONS: [(f32, f32); 6] =
    [(1.0, 0.0), (0.0, 1.0), (-1.0, 0.0), (0.0, -1.0), (0.6, 0.8), (-0.8, 0.6)];

/// A step of a plan: what a hand does over some passes, with an interact after each.
#[derive(Clone, Copy)]
enum Step {
    Press,
    MoveNear,
    MoveFar,
    Hold,
    Release,
    Gone,
    Escape,
    LiftAll,
    Touch,
    Interact,
}
const PLANS: [&[Step]; 9] = [
    &[Step::Press, Step::MoveNear, Step::MoveFar, Step::MoveFar, Step::Release],
    &[Step::Press, Step::MoveFar, Step::MoveFar, Step::Gone, Step::MoveFar, Step::Release],
    &[Step::Press, Step::MoveFar, Step::Escape, Step::MoveFar, Step::Release],
    &[Step::Press, Step::Release, Step::Press, Step::Release, Step::Press, Step::Release],
    &[Step::Press, Step::MoveNear, Step::Release, Step::Press, Step::MoveNear, Step::Release],
    &[Step::LiftAll, Step::Touch, Step::Press, Step::Hold, Step::Hold, Step::Release, Step::LiftAll],
    &[Step::Press, Step::Hold, Step::MoveFar, Step::Release, Step::Gone],
    &[Step::LiftAll, Step::MoveFar, Step::MoveFar],
    &[Step::Press, Step::MoveFar],
];

pub struct Aimed {
    plan: VecDeque<Step>,
    pub stream: Stream,
    pub rng: Rng,
    pub(crate) time: f64,
    pub(crate) options: InputOptions,
    pub(crate) at: Pos2,
    pub(crate) origin: Pos2,
    /// one in this many passes, insertions and interacts is damaged
    damage: u64,
}

impl Aimed {
    pub fn new(seed: u64) -> Self {
        let mut rng = Rng::new(seed);
        let damage = rng.pick(&[6, 12, 50, 1000]);
        let options = some_options(&mut rng);
        Self {
            plan: VecDeque::new(),
            stream: Stream::default(),
            rng,
            time: 0.0,
            options,
            at: Pos2::new(50.0, 50.0),
            origin: Pos2::new(50.0, 50.0),
            damage,
        }
    }

    /// The next request that changes the state, as a record; it is applied to the stream's own panel.
    pub fn next_call(&mut self) -> Vec<u32> {
        let record = self.make();
        words::answer(&mut self.stream, record[0] >> 24, &record[1..], &mut Vec::new());
        record
    }

    /// The same, not applied yet.
    pub(crate) fn make(&mut self) -> Vec<u32> {
        if self.plan.is_empty() && self.rng.once_in(12) {
            for step in self.rng.pick(&PLANS) {
                self.plan.extend([*step, Step::Interact]);
            }
        }
        let record = match self.plan.pop_front() {
            // the end of time, and of the tally, are left again soon
            None if self.stream.panel.input.time > 4e9 && self.rng.once_in(6) => words::record(words::RESET, &[]),
            None if self.stream.panel.tally > 1 << 31 && self.rng.once_in(10) => words::record(words::SET_TALLY, &[0]),
            Some(step) => self.planned(step),
            None => self.unplanned(),
        };
        if record[0] >> 24 == words::RESET {
            self.time = 0.0;
        }
        record
    }

    fn unplanned(&mut self) -> Vec<u32> {
        match self.rng.below(100) {
            0..=51 => self.some_pass(),
            52..=66 => {
                let w = self.insert();
                words::record(words::INSERT, &w)
            }
            67..=97 => {
                let w = self.interact();
                words::record(words::INTERACT, &w)
            }
            98 if self.rng.once_in(3) => words::record(words::CLEAR, &[]),
            98 if self.rng.once_in(6) => words::record(words::RESET, &[]),
            99 if self.rng.once_in(8) => words::record(words::SET_TALLY, &[u32::MAX - self.rng.below(2) as u32]),
            _ => self.some_pass(),
        }
    }

    fn some_pass(&mut self) -> Vec<u32> {
        let feed = self.feed();
        let w = self.pass(feed);
        words::record(words::PASS, &w)
    }

    fn planned(&mut self, step: Step) -> Vec<u32> {
        if matches!(step, Step::Interact) {
            let w = self.interact();
            return words::record(words::INTERACT, &w);
        }
        let mut feed = Vec::new();
        let (x, y) = self.rng.pick(&DIRECTIONS);
        let d = self.options.max_click_dist.min(100.0);
        match step {
            Step::Press => {
                self.at = self.pos_in_widget();
                self.origin = self.at;
                put(&mut feed, 5, 1 << 8, &[self.at.x, self.at.y]);
            }
            Step::MoveNear => {
                self.at = Pos2::new(self.origin.x + 0.5 * d * x, self.origin.y + 0.5 * d * y);
                put(&mut feed, 3, 0, &[self.at.x, self.at.y]);
            }
            Step::MoveFar => {
                self.at = self.pos_in_widget();
                put(&mut feed, 3, 0, &[self.at.x, self.at.y]);
            }
            Step::Release => put(&mut feed, 5, self.rng.below(32) as u32, &[self.at.x, self.at.y]),
            Step::Gone => put(&mut feed, 6, 0, &[]),
            Step::Escape => put(&mut feed, 1, 4 | 1 << 8, &[]),
            Step::Touch => self.touch(&mut feed),
            Step::LiftAll => {
                for (device, touches) in self.stream.panel.held() {
                    for touch in touches {
                        feed.push(9 << 28 | 2);
                        feed.extend([device as u32, (device >> 32) as u32, touch as u32, (touch >> 32) as u32, 0, 0]);
                    }
                }
                let whole = 64 * 7;
                feed.truncate(whole);
            }
            Step::Hold | Step::Interact => {}
        }
        let w = self.pass(feed);
        words::record(words::PASS, &w)
    }

    /// A point of a known widget, or the last one.
    fn pos_in_widget(&mut self) -> Pos2 {
        let known = self.stream.panel.known_widgets();
        if known.is_empty() {
            return self.next_pos();
        }
        let r = known[self.rng.below(known.len() as u64) as usize].2.rect;
        Pos2::new((r.min.x + r.max.x) * 0.5, (r.min.y + r.max.y) * 0.5)
    }

    // ---------------------------------------------------------------- passes

    pub fn pass(&mut self, mut feed: Vec<u32>) -> Vec<u32> {
        if self.rng.once_in(40) {
            self.options = some_options(&mut self.rng);
        }
        let mut p = Pass {
            time: self.next_time(),
            screen_rect: None,
            focused: self.rng.once_in(2),
            repaint_requested: self.rng.once_in(2),
            predicted_dt: self.rng.pick(&[1.0 / 60.0, 1.0 / 64.0, 0.0, 1.0, 0.125]),
            smooth: self.rng.pick(&[0.0, 0.5, 1.0, 0.319, 0.9]),
            pixels_per_point: self.rng.pick(&[1.0, 2.0, 1.5, 0.0, 1024.0]),
            options: self.options,
        };
        if self.rng.once_in(10) {
            p.screen_rect = Some(self.some_rect());
        }
        if self.rng.once_in(self.damage) {
            self.damage_pass(&mut p, &mut feed);
        }
        if let Some(t) = p.time
            && t >= self.time
            && t <= 4_294_967_296.0
        {
            self.time = t;
        }
        words::write_pass(&p, &feed)
    }

    /// Mostly small steps; often the last press, click or wheel event plus an option's limit, and a unit in the last place around it.
    fn next_time(&mut self) -> Option<f64> {
        let o = self.options;
        let near = [o.max_double_click_delay, o.max_click_duration, 0.15, 1.0, 0.1f32 as f64, 0.01];
        let from = [
            self.stream.panel.input.pointer.press_start_time().unwrap_or(self.time),
            self.stream.panel.last_click_time(),
            self.stream.panel.last_wheel_event(),
            self.stream.panel.oldest_sample_time().unwrap_or(self.time),
        ];
        let now = self.stream.panel.input.time;
        let t = match self.rng.below(12) {
            0 => return None,
            1 => now,
            2 | 3 => self.rng.pick(&from) + self.rng.pick(&near),
            4 => {
                let n = self.rng.pick(&[-1, 1, 2]);
                nudge(self.rng.pick(&from) + self.rng.pick(&near), n)
            }
            5 => nudge(now, 1),
            6 if self.rng.once_in(30) => now + 5000.0,
            7 if self.rng.once_in(300) => 4_294_967_296.0,
            _ => now + self.rng.pick(&[1.0 / 60.0, 0.005, 0.03, 0.001, 0.125]),
        };
        Some(if t.is_finite() && t >= now { t } else { now + 0.02 })
    }

    fn feed(&mut self) -> Vec<u32> {
        let events = match self.rng.below(20) {
            0..=3 => 0,
            4..=12 => 1 + self.rng.below(3),
            13..=17 => 2 + self.rng.below(8),
            18 => self.rng.below(64),
            _ => 62 + self.rng.below(4),
        };
        let mut feed = Vec::new();
        for _ in 0..events {
            self.event(&mut feed);
        }
        feed
    }

    pub(crate) fn event(&mut self, feed: &mut Vec<u32>) {
        match self.rng.below(40) {
            0..=7 => {
                self.at = self.next_pos();
                let at = self.at;
                put(feed, 3, 0, &[at.x, at.y]);
            }
            8..=17 => {
                let button = if self.rng.once_in(3) { self.rng.below(5) as u32 } else { 0 };
                let down = self.stream.panel.input.pointer.any_down();
                let pressed = if self.rng.once_in(4) { self.rng.once_in(2) } else { !down };
                if self.rng.once_in(5) {
                    self.at = self.next_pos();
                }
                if pressed {
                    self.origin = self.at;
                }
                let flags = self.flags();
                let at = self.at;
                put(feed, 5, flags | button << 5 | (pressed as u32) << 8, &[at.x, at.y]);
                if pressed && self.rng.once_in(3) {
                    put(feed, 5, flags | button << 5, &[at.x, at.y]);
                }
            }
            18 | 19 => put(feed, 6, 0, &[]),
            20 | 21 => {
                let d = self.small_delta();
                put(feed, 4, 0, &[d.0, d.1]);
            }
            22..=28 => self.touch(feed),
            29..=32 => {
                let d = self.small_delta();
                let low = self.flags() | (self.rng.below(3) as u32) << 5 | (self.rng.pick(&[0, 1, 1, 1, 2, 3])) << 7 | (self.rng.below(4) as u32) << 9;
                put(feed, 10, low, &[d.0, d.1]);
            }
            33 | 34 => {
                let key = self.rng.pick(&[4, 4, 0, 144, 30, 63, 64, 127, 128]);
                put(feed, 1, key | (self.rng.below(2) as u32) << 8, &[]);
            }
            35 => {
                let m = self.flags();
                put(feed, 2, m, &[]);
            }
            36 => put(feed, 11, self.rng.below(2) as u32, &[]),
            37 => put(feed, 7, 0, &[self.rng.pick(&[1.0, 1.1, 0.5, 1024.0, f32::MIN_POSITIVE])]),
            38 => put(feed, 8, 0, &[self.rng.pick(&[0.1, -0.1, 64.0, -64.0, -0.0])]),
            _ => put(feed, 12, 0, &[]),
        }
    }

    pub(crate) fn touch(&mut self, feed: &mut Vec<u32>) {
        let device = if self.rng.once_in(30) { self.rng.pick(&DEVICES) } else { self.rng.pick(&DEVICES[..2]) };
        let touch = self.rng.pick(&[0, 1, 2, 3, 4, 5, 6, 7, 8, 9, 10, 0x1_0000_0000, u64::MAX]);
        let phase = self.rng.pick(&[0, 0, 0, 1, 1, 1, 1, 2, 3]);
        let force = self.rng.once_in(2);
        let p = if self.rng.once_in(4) { self.at } else { self.next_pos() };
        let mut w = vec![device as u32, (device >> 32) as u32, touch as u32, (touch >> 32) as u32, p.x.to_bits(), p.y.to_bits()];
        if force {
            w.push(self.rng.pick(&[0.0f32, 0.5, 1.0, 0.3]).to_bits());
        }
        feed.push(9 << 28 | phase | (force as u32) << 2);
        feed.extend(w);
    }

    /// Around the press origin at the click distance, or somewhere in the widgets, or at the domain's ends.
    pub(crate) fn next_pos(&mut self) -> Pos2 {
        let d = self.options.max_click_dist;
        let (x, y) = self.rng.pick(&DIRECTIONS);
        let o = self.origin;
        match self.rng.below(12) {
            0 => Pos2::new(o.x + d * x, o.y + d * y),
            1 => Pos2::new(o.x + nudge32(d * x, 1), o.y + d * y),
            2 => Pos2::new(o.x + nudge32(d * x, -1), o.y + d * y),
            3 => o,
            4 if self.rng.once_in(4) => Pos2::new(self.rng.pick(&[65_536.0, -65_536.0, 0.0, -0.0]), self.rng.pick(&[65_536.0, -65_536.0, 60_000.0])),
            5 if self.rng.once_in(4) => Pos2::new(f32::from_bits(self.rng.below(100) as u32), 1e-30),
            6..=8 => Pos2::new(self.at.x + x, self.at.y + y),
            _ => Pos2::new((self.rng.unit() * 200.0).floor(), (self.rng.unit() * 200.0).floor()),
        }
    }

    pub(crate) fn small_delta(&mut self) -> (f32, f32) {
        let k = self.rng.pick(&[8.0, 7.5, 0.25, 0.5, 1.0, 3.0, 100.0, nudge32(8.0, -1), 65_536.0, 1e-30]);
        let (x, y) = self.rng.pick(&DIRECTIONS);
        (k * x, k * y)
    }

    pub(crate) fn flags(&mut self) -> u32 {
        if self.rng.once_in(2) { 0 } else { self.rng.below(32) as u32 }
    }

    fn damage_pass(&mut self, p: &mut Pass, feed: &mut Vec<u32>) {
        let bad = self.rng.pick(&[f32::NAN, f32::INFINITY, -1.0, 65_537.0, 1e30]);
        match self.rng.below(14) {
            0 => p.time = Some(nudge(self.stream.panel.input.time, -1)),
            1 => p.time = Some(self.rng.pick(&[f64::NAN, -1.0, f64::INFINITY, 4_294_967_297.0])),
            2 => p.predicted_dt = bad,
            3 => p.smooth = bad,
            4 => p.pixels_per_point = bad,
            5 => p.options.max_click_dist = bad,
            6 => p.options.max_click_duration = self.rng.pick(&[f64::NAN, -1.0, 3600.1]),
            7 => p.screen_rect = Some(Rect::from_min_max(Pos2::new(bad, 0.0), Pos2::new(1.0, 1.0))),
            8 | 9 if !feed.is_empty() => {
                let keep = feed.len() - 1;
                feed.truncate(keep);
            }
            10 | 11 if !feed.is_empty() => {
                let k = self.rng.below(feed.len() as u64) as usize;
                feed[k] ^= 1 << self.rng.below(32);
            }
            12 => feed.push(self.rng.word() as u32),
            _ => {
                while feed.len() < 70 {
                    self.event(feed);
                }
            }
        }
    }

    pub(crate) fn some_rect(&mut self) -> Rect {
        let min = Pos2::new((self.rng.unit() * 150.0).floor(), (self.rng.unit() * 150.0).floor());
        let size = self.rng.pick(&[0.0, 5.0, 20.0, 60.0]);
        Rect::from_min_max(min, Pos2::new(min.x + size, min.y + size * 0.5))
    }

    // ---------------------------------------------------------------- widgets

    pub fn insert(&mut self) -> Vec<u32> {
        let known = self.stream.panel.known_widgets();
        let many = self.rng.once_in(3);
        let id = match known.len() {
            n if n > 0 && self.rng.once_in(2) => known[self.rng.below(n as u64) as usize].0.value(),
            _ => 10 + self.rng.below(if many { 2000 } else { 20 }),
        };
        let mut w = Widget {
            id,
            parent: 1 + self.rng.below(3),
            order: 1 + (id % 2) as u32,
            layer: 5 + id % if many { 40 } else { 3 },
            rect: self.some_rect(),
            interact_rect: self.some_rect(),
            sense: self.rng.below(8) as u32,
            enabled: !self.rng.once_in(4),
            visible: self.rng.once_in(2),
        };
        if let Some((_, _, k)) = known.iter().find(|(i, _, _)| i.value() == id) {
            w.order = k.layer_id.order as u32;
            w.layer = k.layer_id.id.value();
        }
        if self.rng.once_in(self.damage) {
            match self.rng.below(8) {
                0 => w.order = 5,
                1 => w.sense = 8 << self.rng.below(20),
                2 => w.id = 0,
                3 => w.parent = 0,
                4 => w.layer = 0,
                5 => w.rect.max.x = self.rng.pick(&[f32::NAN, f32::INFINITY, 70_000.0]),
                6 => w.interact_rect.min.y = self.rng.pick(&[f32::NAN, f32::NEG_INFINITY, -70_000.0]),
                _ => w.layer += 1,
            }
        }
        let in_layer = known.iter().filter(|(_, _, k)| k.layer_id.id.value() == w.layer && k.layer_id.order as u32 == w.order).count() as u64;
        let places = if self.rng.once_in(self.damage) { in_layer.saturating_sub(self.rng.below(2)) } else { in_layer + 1 + self.rng.below(3) };
        words::write_insert(&w, self.rng.once_in(2), places as u32)
    }

    // ---------------------------------------------------------------- interacts

    pub fn interact(&mut self) -> Vec<u32> {
        let at = self.stream.panel.input.pointer.interact_pos().unwrap_or(self.at);
        let known = self.stream.panel.known_widgets();
        let mut hits = Hits::default();
        let loose = self.rng.once_in(3);
        for (id, _, w) in &known {
            let inside = w.rect.min.x <= at.x && at.x <= w.rect.max.x && w.rect.min.y <= at.y && at.y <= w.rect.max.y;
            let e = Hit { id: id.value(), sense: w.sense.bits().into() };
            if inside || (loose && self.rng.once_in(6)) {
                hits.close.push(e);
                if inside || self.rng.once_in(2) {
                    hits.contains_pointer.push(e);
                }
                if e.sense & 1 != 0 {
                    hits.click = Some(e);
                }
                if e.sense & 2 != 0 {
                    hits.drag = Some(e);
                }
            }
        }
        hits.close.truncate(64);
        hits.contains_pointer.truncate(64);
        if self.rng.once_in(8) {
            let e = Hit { id: 10 + self.rng.below(25), sense: self.rng.below(8) as u32 };
            match self.rng.below(4) {
                0 => hits.click = Some(e),
                1 => hits.drag = Some(e),
                2 if hits.contains_pointer.len() < 64 => hits.contains_pointer.push(e),
                _ => hits.click = None,
            }
        }
        let mut places = [66 + self.rng.below(3) as u32, 66 + self.rng.below(3) as u32];
        if self.rng.once_in(self.damage) {
            self.damage_hits(&mut hits, &mut places);
        }
        words::write_interact(places[0], places[1], &hits)
    }

    fn damage_hits(&mut self, hits: &mut Hits, places: &mut [u32; 2]) {
        let bad = self.rng.pick(&[Hit { id: 0, sense: 1 }, Hit { id: 9, sense: 8 }, Hit { id: 0, sense: 255 }, Hit { id: 3, sense: 1 << 31 }]);
        match self.rng.below(7) {
            0 => places[self.rng.below(2) as usize] = 65,
            1 => hits.close.push(bad),
            2 => hits.contains_pointer.push(bad),
            3 => hits.click = Some(bad),
            4 => hits.drag = Some(bad),
            5 => hits.close = vec![Hit { id: 10, sense: 1 }; 65],
            _ => hits.contains_pointer = (0..66).map(|k| Hit { id: 100 + k, sense: 0 }).collect(),
        }
    }
}

pub(crate) fn put(feed: &mut Vec<u32>, kind: u32, low: u32, floats: &[f32]) {
    feed.push(kind << 28 | low);
    feed.extend(floats.iter().map(|x| x.to_bits()));
}

pub(crate) fn some_options(rng: &mut Rng) -> InputOptions {
    let d = InputOptions::default();
    if rng.once_in(2) {
        return d;
    }
    let m = |rng: &mut Rng| crate::domain::flags(rng.below(32) as u32);
    InputOptions {
        line_scroll_speed: rng.pick(&[40.0, 0.0, 8.0, 65_536.0]),
        scroll_zoom_speed: rng.pick(&[1.0 / 200.0, 0.0, 1.0]),
        max_click_dist: rng.pick(&[6.0, 0.0, 1.0, 65_536.0, f32::from_bits(0x414d_e172)]),
        max_click_duration: rng.pick(&[0.8, 0.75, 0.0, 3600.0]),
        max_double_click_delay: rng.pick(&[0.3, 0.25, 0.0, 3600.0]),
        zoom_modifier: if rng.once_in(2) { Modifiers::COMMAND } else { m(rng) },
        horizontal_scroll_modifier: if rng.once_in(2) { Modifiers::SHIFT } else { m(rng) },
        vertical_scroll_modifier: if rng.once_in(2) { Modifiers::ALT } else { m(rng) },
        ..d
    }
}
