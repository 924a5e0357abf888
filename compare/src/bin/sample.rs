//! sample > ../samples/lost-release.trace
//! A job dragged from a list to the queue, its release lost on the cable, the clearing pass, the next drag.
//! Four jobs (101 to 104, click and drag) stand in their lists, the queue (200) below them. The finger is a
//! touch, and moves the pointer, as a touch screen's driver reports it.
use fivvarul_compare::panel::{Hit, Hits, Widget};
use fivvarul_compare::script::{self, Script, event, feed, moved, press, release, touch, widget};
use fivvarul_compare::{Pos2, Rect};
use std::io::Write;

const QUEUE: u64 = 200;

fn rect(x: f32, y: f32, width: f32, height: f32) -> Rect {
    Rect::from_min_max(Pos2::new(x, y), Pos2::new(x + width, y + height))
}
fn place(id: u64) -> Rect {
    if id == QUEUE { rect(0.0, 400.0, 800.0, 80.0) } else { rect((id - 101) as f32 * 200.0, 40.0, 180.0, 60.0) }
}

struct Day {
    s: Script,
    time: f64,
}
impl Day {
    /// A pass with its interact, an eighth of a second later.
    fn pass(&mut self, words: &[u32]) {
        self.time += 1.0 / 8.0;
        self.s.taken(self.time, words);
        let at = self.s.stream.panel.input.pointer.interact_pos();
        self.s.answered(&hits(at));
    }
    fn finger_down(&mut self, x: f32, y: f32) {
        self.pass(&feed(&[&touch(1, 1, 0, x, y), &moved(x, y), &press(x, y)]));
    }
    fn finger_to(&mut self, x: f32, y: f32) {
        self.pass(&feed(&[&touch(1, 1, 1, x, y), &moved(x, y)]));
    }
    fn finger_up(&mut self, x: f32, y: f32) {
        self.pass(&feed(&[&touch(1, 1, 2, x, y), &release(x, y), &event(6, 0, &[])]));
    }
}

/// What the host's hit test finds at a place.
fn hits(at: Option<Pos2>) -> Hits {
    let mut h = Hits::default();
    let Some(p) = at else { return h };
    for id in [101, 102, 103, 104, QUEUE] {
        let r = place(id);
        if r.min.x <= p.x && p.x <= r.max.x && r.min.y <= p.y && p.y <= r.max.y {
            let e = Hit { id, sense: if id == QUEUE { 0 } else { 3 } };
            h.close.push(e);
            h.contains_pointer.push(e);
            h.click = (id != QUEUE).then_some(e);
            h.drag = h.click;
        }
    }
    h
}

fn main() -> std::io::Result<()> {
    let mut d = Day { s: Script { quiet: true, ..Default::default() }, time: 1.0 };
    for id in [101, 102, 103, 104, QUEUE] {
        let w = Widget { rect: place(id), interact_rect: place(id), ..widget(id, if id == QUEUE { 0 } else { 3 }) };
        assert_eq!(d.s.insert(&w, false, 5), (0, 0));
    }
    d.s.p.screen_rect = Some(rect(0.0, 0.0, 800.0, 480.0));
    d.pass(&[]);
    d.s.p.screen_rect = None;
    // job 101 is dragged to the queue
    d.finger_down(90.0, 70.0);
    for k in 1..=6 {
        d.finger_to(90.0 + 40.0 * k as f32, 70.0 + 60.0 * k as f32);
    }
    assert_eq!((d.s.stream.panel.tally, d.s.stream.panel.snapshot.dragged.map(|i| i.value())), (1, Some(101)));
    // the release and the touch's End are lost; late moves still drag job 101
    d.time += 1.0;
    d.finger_to(500.0, 440.0);
    d.pass(&[]);
    assert_eq!(d.s.stream.panel.snapshot.dragged.map(|i| i.value()), Some(101));
    // the clearing pass ends it
    d.time += 1.0;
    d.s.p.screen_rect = Some(rect(0.0, 0.0, 800.0, 480.0));
    let held = d.s.stream.panel.held();
    d.pass(&script::clearing_feed(&held, Pos2::new(400.0, 300.0)));
    d.s.p.screen_rect = None;
    assert_eq!(d.s.stream.panel.snapshot.drag_stopped.map(|i| i.value()), Some(101));
    // the next drag: job 102, released this time; a click on job 103 after it
    d.time += 1.0;
    d.finger_down(290.0, 70.0);
    for k in 1..=6 {
        d.finger_to(290.0, 70.0 + 60.0 * k as f32);
    }
    d.finger_up(290.0, 430.0);
    assert_eq!(d.s.stream.panel.snapshot.drag_stopped.map(|i| i.value()), Some(102));
    d.time += 1.0;
    d.finger_down(490.0, 70.0);
    d.finger_up(490.0, 70.0);
    assert_eq!(d.s.stream.panel.snapshot.clicked.map(|i| i.value()), Some(103));
    assert_eq!(d.s.stream.panel.tally, 2);
    // what a cable can do besides: a word is cut off, and the pass is refused
    d.s.refused(d.time + 1.0, &press(1.0, 1.0)[..2], 1, 0);
    let bytes: Vec<u8> = d.s.requests.iter().flat_map(|w| w.to_le_bytes()).collect();
    std::io::stdout().write_all(&bytes)
}
