//! What a run has met: calls by kind and answer, events by their fields, and the aims of the issue.
use crate::input_state::PointerEvent;
use crate::kernel::Kernel;
use crate::kernel_met;
use crate::panel::Panel;
use crate::words::CALLS;
use crate::{LEVEL, Pos2, Vec2, domain, parking, words};
use std::collections::BTreeMap;

const KINDS: [&str; 16] = [
    "0", "key", "modifiers", "moved", "motion", "button", "gone", "zoom", "rotate", "touch", "wheel", "focus", "other", "13", "14", "15",
];
pub const PHASES: [&str; 4] = ["Start", "Move", "End", "Cancel"];
pub const UNITS: [&str; 3] = ["Point", "Line", "Page"];
pub const SOURCES: [&str; 4] = ["Unknown", "Wheel", "Trackpad", "Momentum"];

/// Left out once every call of FORMAT.md is landed.
const NOT_LANDED: &str = "a call that is not landed";
/// The place of all calls that FORMAT.md doesn't have.
const UNKNOWN: usize = CALLS.len();

const KERNEL_ANSWERS: [usize; 6] = [0, 2, 8, 11, 12, 255];

/// What a run of ten traces or more must meet.
const AIMS: [&str; 38] = [
    NOT_LANDED,
    "10 touches on a device",
    "1,000 samples in the history",
    "1,024 widgets",
    "32 layers",
    "4 devices",
    "64 entries in a hit list",
    "64 events in a pass",
    "a move that lengths in f32 and f64 judge differently",
    "a Point delta that lengths in f32 and f64 judge differently",
    "click count 1",
    "click count 2",
    "click count 3",
    "clicked",
    "drag start",
    "drag stop",
    "drag stop and start in one interact",
    "gesture of a later device",
    "gesture of 2 fingers",
    "gesture of 10 fingers",
    "gesture without a previous state",
    "interact before any pass",
    "lent contents of others",
    "long touch",
    "moved to top",
    "pass with a pointer event",
    "pass with a touch or wheel event",
    "pinch Horizontal",
    "pinch Proportional",
    "pinch Vertical",
    "release without a click",
    "tally at its maximum",
    "the end of time",
    "time -0.0",
    "time absent",
    "touch with force",
    "wheel sum not finite, or zoom product not finite",
    "zoom of a gesture not a number",
];

/// The same of the requests of 02, each from its level on.
const LATER_AIMS: [(&str, u32); 43] = [
    ("rested: none", 4),
    ("rested: 0 by a move", 4),
    ("rested: 0 by a velocity alone", 4),
    ("rested: more than 0", 4),
    ("exponent 0", 5),
    ("exponent -0", 5),
    ("exponent 1", 5),
    ("exponent -1", 5),
    ("exponent just over 1 in size", 5),
    ("exponent infinite", 5),
    ("exponent not a number", 5),
    ("image of a fresh panel", 6),
    ("image with a drag", 6),
    ("image with a gesture", 6),
    ("image with 1,000 samples", 6),
    ("image with 64 events", 6),
    ("image with 4 devices", 6),
    ("image in a buffer of its length", 6),
    ("image in a buffer one place short", 6),
    ("image restored that parking wrote", 6),
    ("image taken that no parking wrote", 6),
    ("image refused at its first word", 6),
    ("image refused in group 1", 6),
    ("image refused in group 2", 6),
    ("image refused in group 3", 6),
    ("image refused in group 4", 6),
    ("image refused in group 5", 6),
    ("image refused in group 6", 6),
    ("image refused in group 7", 6),
    ("image refused in group 8", 6),
    ("image refused in group 9", 6),
    ("image refused in group 10", 6),
    ("image refused in group 11", 6),
    ("image refused in group 12", 6),
    ("image refused: outside its range", 6),
    ("image refused: a not-a-number in another form", 6),
    ("image refused: another name or length", 6),
    ("image refused: missing", 6),
    ("image refused: left over", 6),
    ("image refused: a value where its flag says none", 6),
    ("image refused: a place that is not used", 6),
    ("image refused: an id twice", 6),
    ("image refused: an id out of order", 6),
];
/// By the group of the first wrong word.
const REFUSED_IN: [&str; 12] = [
    "image refused in group 1",
    "image refused in group 2",
    "image refused in group 3",
    "image refused in group 4",
    "image refused in group 5",
    "image refused in group 6",
    "image refused in group 7",
    "image refused in group 8",
    "image refused in group 9",
    "image refused in group 10",
    "image refused in group 11",
    "image refused in group 12",
];
/// In the order of `parking::WRONGS`.
const REFUSED_FOR: [&str; 9] = [
    "image refused: outside its range",
    "image refused: a not-a-number in another form",
    "image refused: another name or length",
    "image refused: missing",
    "image refused: left over",
    "image refused: a value where its flag says none",
    "image refused: a place that is not used",
    "image refused: an id twice",
    "image refused: an id out of order",
];

#[derive(Clone)]
pub struct Met {
    /// by call (the last: any unknown one) and the answer's number
    calls: Box<[[u64; 256]; UNKNOWN + 1]>,
    events: [u64; 16],
    touches: [u64; 4],
    wheels: [u64; 48],
    buttons: [u64; 10],
    keys: [bool; 145],
    aims: BTreeMap<&'static str, u64>,
}
impl Default for Met {
    fn default() -> Self {
        Self {
            calls: Box::new([[0; 256]; UNKNOWN + 1]),
            events: [0; 16],
            touches: [0; 4],
            wheels: [0; 48],
            buttons: [0; 10],
            keys: [false; 145],
            aims: AIMS
                .into_iter()
                .chain(kernel_met::AIMS)
                .chain(LATER_AIMS.into_iter().filter(|(_, from)| LEVEL >= *from).map(|(a, _)| a))
                .map(|a| (a, 0))
                .collect(),
        }
    }
}

/// Whether a vector is longer than d by one of the lengths of 01 and A.3, and not by the other.
pub(crate) fn far_apart(v: Vec2, d: f32) -> bool {
    (v.length_in_f32() > d) != (v.length_in_f64() > d)
}
/// The same of shorter.
pub(crate) fn short_apart(v: Vec2, d: f32) -> bool {
    (v.length_in_f32() < d) != (v.length_in_f64() < d)
}

/// The place of a call in the table.
fn row(call: u32) -> usize {
    (call as usize).min(UNKNOWN)
}

impl Met {
    fn aim(&mut self, name: &'static str, met: bool) {
        if met {
            *self.aims.get_mut(name).expect(name) += 1;
        }
    }

    /// One answered call: `panel` is the one after it.
    pub fn count(&mut self, panel: &Panel, call: u32, w: &[u32], answer: &[u32]) {
        let number = (answer[0] >> 24) as usize;
        self.calls[row(call)][number] += 1;
        self.aim(NOT_LANDED, row(call) < UNKNOWN && !words::exists(call, panel.level));
        if call == words::EXP && words::exists(call, panel.level) {
            self.exponent(w, number);
        }
        if words::exists(call, panel.level) && parking::is_form_1(panel.level) {
            self.parking(panel, call, w, answer);
        }
        if number != 0 {
            return;
        }
        match call {
            words::PASS => self.pass(panel, w),
            words::INSERT => {
                self.aim("1,024 widgets", panel.widgets.x_count() == domain::MAX_WIDGETS);
                self.aim("32 layers", panel.widgets.x_layer_count() == domain::MAX_LAYERS);
                self.aim("moved to top", w[16] & 4 != 0);
                self.aim("lent contents of others", w.len() > words::INSERT_WORDS);
            }
            words::INTERACT => {
                let id = |k: usize| answer[1 + 2 * k] != 0 || answer[2 + 2 * k] != 0;
                self.aim("clicked", id(0));
                self.aim("long touch", id(1));
                self.aim("drag start", id(2));
                self.aim("drag stop", id(4));
                self.aim("drag stop and start in one interact", id(2) && id(4));
                self.aim("64 entries in a hit list", w[2] == 64 || w[3] == 64);
                self.aim("tally at its maximum", panel.tally == u32::MAX);
                self.aim("interact before any pass", panel.input.pointer.x_view().time == f64::NEG_INFINITY);
            }
            words::RESTED => self.rested(panel),
            _ => {}
        }
    }

    /// A KERNEL: `before` is what went on from the call before.
    pub fn kernel(&mut self, before: &Kernel, panel: &Panel, w: &[u32], answer: &[u32]) {
        for name in kernel_met::shown(before, panel.limits().slots, w, answer[0] >> 24) {
            self.aim(name, true);
        }
    }

    fn rested(&mut self, panel: &Panel) {
        let moved = panel.input.pointer.pointer_events.iter().any(|e| matches!(e, PointerEvent::Moved(_)));
        let rest = panel.rested();
        self.aim("rested: none", rest.is_none());
        self.aim("rested: 0 by a move", rest == Some(0.0) && moved);
        self.aim("rested: 0 by a velocity alone", rest == Some(0.0) && !moved);
        self.aim("rested: more than 0", rest.is_some_and(|s| s > 0.0));
    }

    /// A.6: what PARK writes, and why RESTORE refuses.
    fn parking(&mut self, panel: &Panel, call: u32, w: &[u32], answer: &[u32]) {
        match (call, answer[0] >> 24) {
            (words::PARK, 0) => self.parked(panel, w, &answer[1..]),
            (words::PARK, 8) => self.aim("image in a buffer one place short", parking::image(panel).len() as u32 == w[0] + 1),
            (words::RESTORE, 14) => self.aim("image refused at its first word", true),
            (words::RESTORE, 15) => {
                let wrong = parking::wrong(w).expect("refused");
                self.aim(REFUSED_IN[wrong.group - 1], true);
                let k = parking::WRONGS.iter().position(|why| *why == wrong.why).expect("known");
                self.aim(REFUSED_FOR[k], true);
            }
            (words::RESTORE, 0) => {
                let own = parking::image(panel) == w;
                self.aim("image restored that parking wrote", own);
                self.aim("image taken that no parking wrote", !own);
            }
            _ => {}
        }
    }

    fn parked(&mut self, panel: &Panel, w: &[u32], image: &[u32]) {
        let i = &panel.input;
        self.aim("image of a fresh panel", i.pointer.x_view().time == f64::NEG_INFINITY);
        self.aim("image with a drag", panel.snapshot.dragged.is_some());
        self.aim("image with a gesture", panel.first_gesture_device().is_some());
        self.aim("image with 1,000 samples", i.pointer.x_view().pos_history.len() == 1000);
        self.aim("image with 64 events", i.pointer.pointer_events.len() == 64);
        self.aim("image with 4 devices", i.x_touch_states().len() == domain::MAX_DEVICES);
        self.aim("image in a buffer of its length", w[0] as usize == image.len());
    }

    fn exponent(&mut self, w: &[u32], number: usize) {
        let [bits] = *w else { return };
        let e = f32::from_bits(bits);
        let one = 1.0f32.to_bits();
        match number {
            0 => {
                self.aim("exponent 0", bits == 0);
                self.aim("exponent -0", bits == 1 << 31);
                self.aim("exponent 1", e == 1.0);
                self.aim("exponent -1", e == -1.0);
            }
            _ => {
                self.aim("exponent just over 1 in size", e.abs().to_bits() == one + 1);
                self.aim("exponent infinite", e.is_infinite());
                self.aim("exponent not a number", e.is_nan());
            }
        }
    }

    fn pass(&mut self, panel: &Panel, w: &[u32]) {
        let i = &panel.input;
        for e in &i.pointer.pointer_events {
            match e {
                PointerEvent::Released { click: Some(c), .. } => {
                    self.aim("click count 1", c.count == 1);
                    self.aim("click count 2", c.count == 2);
                    self.aim("click count 3", c.count == 3);
                }
                PointerEvent::Released { click: None, .. } => self.aim("release without a click", true),
                _ => {}
            }
        }
        self.aim("time absent", w[0] & 1 == 0);
        self.aim("the end of time", i.time == domain::MAX_TIME);
        self.aim("time -0.0", i.time == 0.0 && i.time.is_sign_negative());
        self.aim("1,000 samples in the history", i.pointer.x_view().pos_history.len() == 1000);
        self.aim("64 events in a pass", i.events.len() == panel.limits().events);
        self.aim("4 devices", i.x_touch_states().len() == domain::MAX_DEVICES);
        for (k, t) in i.x_touch_states().values().enumerate() {
            let fingers = t.x_touches().count();
            self.aim("10 touches on a device", fingers == panel.limits().touches);
            if let (Some(g), Some(m)) = (t.x_gesture(), t.info()) {
                self.aim("gesture of a later device", k > 0);
                self.aim("gesture of 2 fingers", fingers == 2);
                self.aim("gesture of 10 fingers", fingers == 10);
                self.aim("gesture without a previous state", g.previous.is_none());
                self.aim("zoom of a gesture not a number", m.zoom_delta.is_nan());
                self.aim("pinch Horizontal", g.pinch == 0);
                self.aim("pinch Vertical", g.pinch == 1);
                self.aim("pinch Proportional", g.pinch == 2);
            }
        }
        let u = i.x_wheel().unprocessed_wheel_delta;
        self.aim(
            "wheel sum not finite, or zoom product not finite",
            !(u.x.is_finite() && u.y.is_finite() && i.x_zoom_factor_delta().is_finite()),
        );
        let feed = &w[words::PASS_WORDS..];
        self.feed(feed);
        self.rims(panel, f32::from_bits(w[12]), feed);
    }

    /// Moves from the press and Point deltas at the rim of their circles.
    fn rims(&mut self, panel: &Panel, click_dist: f32, feed: &[u32]) {
        let mut at = 0;
        while at < feed.len() {
            let (kind, low) = ((feed[at] >> 28) as usize, feed[at] & 0x0FFF_FFFF);
            let place = |k: usize| f32::from_bits(feed[at + k]);
            if let (3, Some(o)) = (kind, panel.input.pointer.press_origin()) {
                let v = o - Pos2::new(place(1), place(2));
                self.aim("a move that lengths in f32 and f64 judge differently", far_apart(v, click_dist));
            }
            if kind == 10 && low >> 5 & 15 == 4 {
                let v = Vec2::new(place(1), place(2));
                self.aim("a Point delta that lengths in f32 and f64 judge differently", short_apart(v, 8.0));
            }
            at += 1 + domain::LENGTHS[kind] + (kind == 9 && low & 4 != 0) as usize;
        }
    }

    fn feed(&mut self, feed: &[u32]) {
        let (mut at, mut pointed, mut touched) = (0, false, false);
        while at < feed.len() {
            let (kind, low) = ((feed[at] >> 28) as usize, (feed[at] & 0x0FFF_FFFF) as usize);
            self.events[kind] += 1;
            pointed |= (3..=6).contains(&kind);
            touched |= kind == 9 || kind == 10;
            let force = kind == 9 && low & 4 != 0;
            match kind {
                1 => self.keys[low & 255] = true,
                5 => self.buttons[(low >> 5 & 7) * 2 + (low >> 8)] += 1,
                9 => self.touches[low & 3] += 1,
                10 => self.wheels[(low >> 5 & 3) * 16 + (low >> 7 & 3) * 4 + (low >> 9)] += 1,
                _ => {}
            }
            self.aim("touch with force", force);
            at += 1 + domain::LENGTHS[kind] + force as usize;
        }
        self.aim("pass with a pointer event", pointed);
        self.aim("pass with a touch or wheel event", touched);
    }

    pub fn add(&mut self, other: &Met) {
        for (a, b) in self.calls.iter_mut().flatten().zip(other.calls.iter().flatten()) {
            *a += b;
        }
        let counts = [(&mut self.events[..], &other.events[..]), (&mut self.touches, &other.touches), (&mut self.wheels, &other.wheels), (&mut self.buttons, &other.buttons)];
        for (a, b) in counts.into_iter().flat_map(|(a, b)| a.iter_mut().zip(b)) {
            *a += b;
        }
        self.keys.iter_mut().zip(other.keys).for_each(|(a, b)| *a |= b);
        for (name, n) in &other.aims {
            *self.aims.entry(name).or_default() += n;
        }
    }

    /// Calls of a kind with this answer.
    pub fn answered(&self, call: u32, number: u32) -> u64 {
        self.calls[row(call)][number as usize]
    }
    pub fn taken(&self, call: u32) -> u64 {
        self.answered(call, 0)
    }
    pub fn refused(&self, call: u32) -> u64 {
        self.calls[row(call)].iter().sum::<u64>() - self.taken(call)
    }

    pub fn total(&self) -> u64 {
        self.calls.iter().flatten().sum()
    }

    /// What KERNEL should have met, and did not.
    pub fn missing_kernel(&self) -> Vec<String> {
        let mut v: Vec<String> = KERNEL_ANSWERS.iter().filter(|n| self.calls[words::KERNEL as usize][**n] == 0).map(|n| format!("KERNEL answered {n}")).collect();
        v.extend(kernel_met::AIMS.iter().filter(|a| self.aimed(a) == 0).map(|a| a.to_string()));
        v
    }

    /// What should have been met, and was not.
    pub fn missing(&self) -> Vec<String> {
        let mut v = Vec::new();
        let due: [(usize, &[usize]); 15] = [
            (0, &[0, 255]),
            (1, &[0, 1, 2, 3, 4, 5, 255]),
            (2, &[0, 1, 2, 6, 7, 8, 9, 255]),
            (3, &[0, 255]),
            (4, &[0, 1, 4, 8, 9, 10, 255]),
            (5, &[0, 255]),
            (6, &[0, 255]),
            (8, &[0, 255]),
            (words::KERNEL as usize, &KERNEL_ANSWERS),
            (words::RESTED as usize, &[0, 255]),
            (words::EXP as usize, &[0, 13, 255]),
            (words::PARK as usize, &[0, 8, 255]),
            (words::RESTORE_LAST as usize, &[0, 255]),
            (words::RESTORE as usize, &[0, 14, 15]),
            (UNKNOWN, &[255]),
        ];
        for (call, numbers) in due {
            if call < UNKNOWN && !words::exists(call as u32, LEVEL) {
                continue;
            }
            for n in numbers.iter().filter(|n| self.calls[call][**n] == 0) {
                v.push(format!("{} answered {n}", words::call_name(call as u32)));
            }
        }
        v.extend(self.missing_events());
        let all_landed = CALLS.iter().all(|(_, from)| LEVEL >= *from);
        v.extend(self.aims.iter().filter(|(a, n)| **n == 0 && !(all_landed && **a == NOT_LANDED)).map(|(a, _)| a.to_string()));
        v
    }

    /// Kinds and fields of events that were not taken.
    pub fn missing_events(&self) -> Vec<String> {
        let mut v = Vec::new();
        v.extend((1..13).filter(|k| self.events[*k] == 0).map(|k| format!("event {}", KINDS[k])));
        v.extend((0..4).filter(|k| self.touches[*k] == 0).map(|k| format!("touch {}", PHASES[k])));
        v.extend((0..10).filter(|k| self.buttons[*k] == 0).map(|k| format!("button {} {}", k / 2, ["released", "pressed"][k % 2])));
        v.extend((0..145).filter(|k| !self.keys[*k]).map(|k| format!("key {k}")));
        for k in (0..48).filter(|k| self.wheels[*k] == 0) {
            v.push(format!("wheel {} {} {}", UNITS[k / 16], PHASES[k / 4 % 4], SOURCES[k % 4]));
        }
        v
    }
    /// How often an aim was met.
    pub fn aimed(&self, name: &str) -> u64 {
        self.aims[name]
    }

    pub fn print(&self) {
        println!("calls by answer (0 taken, 1 to 10 refused by 01's table, from 11 on by 02, 255 not in the form or not landed):");
        for (c, row) in self.calls.iter().enumerate() {
            let all: u64 = row.iter().sum();
            if all > 0 {
                let parts: Vec<String> = row.iter().enumerate().filter(|(_, n)| **n > 0).map(|(k, n)| format!("{k}: {n}")).collect();
                println!("  {:14} {all:9}   {}", words::call_name(c as u32), parts.join(", "));
            }
        }
        let show = |names: &[&str], n: &[u64]| -> String {
            names.iter().zip(n).filter(|(_, n)| **n > 0).map(|(s, n)| format!("{s} {n}")).collect::<Vec<_>>().join(", ")
        };
        println!("events taken: {}", show(&KINDS, &self.events));
        println!("touch phases: {}", show(&PHASES, &self.touches));
        let least = self.wheels.iter().min().unwrap_or(&0);
        println!("wheel: 3 units, 4 phases, 4 sources: each of the 48 at least {least} times");
        println!("keys: {} of 145", self.keys.iter().filter(|k| **k).count());
        println!("aims:");
        for (a, n) in &self.aims {
            println!("  {n:9}  {a}");
        }
    }
}
