//! Traces written by hand, call by call, with egui's answers and the names of what they show.
use crate::aimed::put;
use crate::panel::{Hit, Hits, Interacted, Pass, Widget};
use crate::words::{self, ASK, DUMP, INSERT, INTERACT, PASS, RESET, Stream};
use crate::{Pos2, Rect};

#[derive(Default)]
pub struct Script {
    pub stream: Stream,
    pub requests: Vec<u32>,
    pub answers: Vec<u32>,
    pub calls: usize,
    /// what is shown, and the numbers of its first and last call
    pub shown: Vec<(String, usize, usize)>,
    /// the arguments of the next passes
    pub p: Pass,
    /// no ASK and DUMP after the calls
    pub quiet: bool,
}

impl Script {
    /// A fresh panel, and a name for what its calls show.
    pub fn show(&mut self, name: &str) {
        self.end();
        self.shown.push((name.to_string(), self.calls, self.calls));
        self.p = Pass::default();
        self.quiet = false;
        self.record(RESET, &[]);
    }
    pub fn end(&mut self) {
        if let Some(last) = self.shown.last_mut() {
            last.2 = self.calls - 1;
        }
    }

    /// The number and the index of the answer.
    pub fn record(&mut self, call: u32, w: &[u32]) -> (u32, u32) {
        self.requests.push(call << 24 | w.len() as u32);
        self.requests.extend_from_slice(w);
        let at = self.answers.len();
        words::answer(&mut self.stream, call, w, &mut self.answers);
        self.calls += 1;
        let a = &self.answers[at..];
        (a[0] >> 24, if a[0] >> 24 != 0 { a.get(1).copied().unwrap_or(0) } else { 0 })
    }
    pub fn call(&mut self, call: u32, w: &[u32]) -> (u32, u32) {
        let r = self.record(call, w);
        if !self.quiet {
            self.record(ASK, &[]);
            self.record(DUMP, &[]);
        }
        r
    }
    pub fn pass(&mut self, time: f64, feed: &[u32]) -> (u32, u32) {
        self.p.time = Some(time);
        let w = words::write_pass(&self.p, feed);
        self.call(PASS, &w)
    }
    /// A pass that must be taken.
    pub fn taken(&mut self, time: f64, feed: &[u32]) {
        let r = self.pass(time, feed);
        assert_eq!(r, (0, 0), "{:?}", self.shown.last());
    }
    /// A pass that must be refused so.
    pub fn refused(&mut self, time: f64, feed: &[u32], number: u32, index: u32) {
        let r = self.pass(time, feed);
        assert_eq!(r, (number, index), "{:?}", self.shown.last());
    }
    pub fn insert(&mut self, w: &Widget, top: bool, places: u32) -> (u32, u32) {
        self.call(INSERT, &words::write_insert(w, top, places))
    }
    pub fn interact(&mut self, h: &Hits) -> (u32, u32) {
        self.call(INTERACT, &words::write_interact(66, 66, h))
    }
    /// A taken interact, and what it answers.
    pub fn answered(&mut self, h: &Hits) -> Interacted {
        let a = self.stream.panel.clone().interact(66, 66, h).expect("taken");
        assert_eq!(self.interact(h), (0, 0));
        a
    }
    /// Counts of the clicks that the last pass's releases carry; 0: none.
    pub fn clicks(&self) -> Vec<u32> {
        use crate::input_state::PointerEvent::Released;
        self.stream.panel.input.pointer.pointer_events.iter().filter_map(|e| if let Released { click, .. } = e { Some(click.as_ref().map_or(0, |c| c.count)) } else { None }).collect()
    }
}

pub fn feed(events: &[&[u32]]) -> Vec<u32> {
    events.concat()
}
pub fn event(kind: u32, low: u32, floats: &[f32]) -> Vec<u32> {
    let mut v = Vec::new();
    put(&mut v, kind, low, floats);
    v
}
pub fn press(x: f32, y: f32) -> Vec<u32> {
    event(5, 1 << 8, &[x, y])
}
pub fn release(x: f32, y: f32) -> Vec<u32> {
    event(5, 0, &[x, y])
}
pub fn moved(x: f32, y: f32) -> Vec<u32> {
    event(3, 0, &[x, y])
}
pub fn touch(device: u64, id: u64, phase: u32, x: f32, y: f32) -> Vec<u32> {
    let mut v = Vec::new();
    crate::maker::touch(&mut v, device, id, phase, Pos2::new(x, y), None);
    v
}
pub fn wheel(unit: u32, phase: u32, source: u32, flags: u32, x: f32, y: f32) -> Vec<u32> {
    event(10, flags | unit << 5 | phase << 7 | source << 9, &[x, y])
}
pub fn widget(id: u64, sense: u32) -> Widget {
    let x = (id % 100) as f32 * 10.0;
    let rect = Rect::from_min_max(Pos2::new(x, 0.0), Pos2::new(x + 8.0, 8.0));
    Widget { id, parent: 1, order: 1, layer: 5, rect, interact_rect: rect, sense, enabled: true, visible: true }
}
/// Hits as the pointer over that widget alone would have them.
pub fn over(id: u64, sense: u32) -> Hits {
    let e = Hit { id, sense };
    Hits { close: vec![e], contains_pointer: vec![e], click: (sense & 1 != 0).then_some(e), drag: (sense & 2 != 0).then_some(e) }
}

/// 01's clearing pass: End for each touch held by either panel, release of buttons 0 to 4, one relative motion, wheel End, focus lost, pointer gone.
pub fn clearing_feed(held: &[(u64, Vec<u64>)], at: Pos2) -> Vec<u32> {
    let mut f = Vec::new();
    for (device, touches) in held {
        for t in touches {
            crate::maker::touch(&mut f, *device, *t, 2, at, None);
        }
    }
    for button in 0..5 {
        put(&mut f, 5, button << 5, &[at.x, at.y]);
    }
    put(&mut f, 4, 0, &[0.0, 0.0]);
    put(&mut f, 10, 2 << 7, &[0.0, 0.0]);
    put(&mut f, 11, 0, &[]);
    put(&mut f, 6, 0, &[]);
    f
}
