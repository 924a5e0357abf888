//! The linked library behind compare/FORMAT.md: a request's words in, the answer's words out.
use fivvarul::{
    Hit, Hits, InputOptions, LayerId, Modifiers, MultiTouchInfo, PointerButton, PointerEvent, RawInput, Recorder, Rect, Refusal, Rotation, WidgetRect, pos2, zoom_factor,
};
use fivvarul_compare::words::{self, Out, u64_of};
use fivvarul_compare::{Pos2, Vec2};
use std::cell::RefCell;
use std::collections::{BTreeSet, HashMap};
use std::rc::Rc;

const WIDGET: usize = 17;
/// Room beyond what any call needs, and what it is filled with.
const MOST_PLACES: usize = 1100;
const MOST_FEED: usize = 40_000;
const FILL: u64 = 0x5A5A_5A5A_5A5A_5A5A;

type Sink = Box<dyn FnMut(&[u32])>;

pub struct Machine {
    panel: Box<Recorder<Sink>>,
    /// The recorder's trace, and the answers to its calls.
    pub tape: Rc<RefCell<Vec<u32>>>,
    pub answers: Vec<Vec<u32>>,
    /// What the last insertion left in each layer's slice.
    lent: HashMap<(u32, u64), Vec<WidgetRect>>,
    devices: BTreeSet<u64>,
}

impl Default for Machine {
    fn default() -> Self {
        Machine::on(Rc::default(), Vec::new())
    }
}

fn f(w: u32) -> f32 {
    f32::from_bits(w)
}

fn d(w: &[u32]) -> f64 {
    f64::from_bits(u64_of(w))
}

fn rect(w: &[u32]) -> Rect {
    Rect::from_min_max(pos2(f(w[0]), f(w[1])), pos2(f(w[2]), f(w[3])))
}

fn widget(w: &[u32]) -> WidgetRect {
    WidgetRect {
        id: u64_of(w),
        parent_id: u64_of(&w[2..]),
        layer_id: LayerId { order: w[4], id: u64_of(&w[5..]) },
        rect: rect(&w[7..]),
        interact_rect: rect(&w[11..]),
        sense: w[15],
        enabled: w[16] & 1 != 0,
        visible: w[16] & 2 != 0,
    }
}

fn pos(p: fivvarul::Pos2) -> Pos2 {
    Pos2::new(p.x, p.y)
}

fn vec(v: fivvarul::Vec2) -> Vec2 {
    Vec2::new(v.x, v.y)
}

fn bits(flags: &[bool]) -> u32 {
    flags.iter().enumerate().map(|(n, b)| u32::from(*b) << n).sum()
}

/// The devices that a feed's touches name, by the table of lengths.
fn devices(feed: &[u32]) -> Vec<u64> {
    let mut found = Vec::new();
    let mut i = 0;
    while i < feed.len() {
        let after = match feed[i] >> 28 {
            3 | 4 | 5 | 10 => 2,
            7 | 8 => 1,
            9 => 6 + (feed[i] >> 2 & 1) as usize,
            _ => 0,
        };
        if feed[i] >> 28 == 9 {
            found.push(u64_of(&feed[i + 1..]));
        }
        i += 1 + after;
    }
    found
}

impl Machine {
    /// A fresh panel, recorded after what the tape holds.
    fn on(tape: Rc<RefCell<Vec<u32>>>, mut answers: Vec<Vec<u32>>) -> Machine {
        let end = tape.clone();
        let sink: Sink = Box::new(move |words| end.borrow_mut().extend_from_slice(words));
        answers.push(vec![0]);
        Machine { panel: Box::new(Recorder::new(sink)), tape, answers, lent: HashMap::new(), devices: BTreeSet::new() }
    }

    /// The answer's record, or none where the library has no such call.
    pub fn answer(&mut self, call: u32, w: &[u32]) -> Option<Vec<u32>> {
        let answer = self.answered(call, w)?;
        if matches!(call, words::PASS | words::INSERT | words::CLEAR | words::INTERACT | words::ASK | words::KERNEL) {
            self.answers.push(answer.clone());
        }
        Some(answer)
    }

    fn answered(&mut self, call: u32, w: &[u32]) -> Option<Vec<u32>> {
        let mut o = Out(vec![0], None);
        let done = match call {
            words::RESET if w.is_empty() => {
                *self = Machine::on(self.tape.clone(), core::mem::take(&mut self.answers));
                Ok(())
            }
            words::PASS => self.pass(w)?,
            words::INSERT => self.insert(w, &mut o)?,
            words::CLEAR if w.is_empty() => {
                self.panel.clear_widgets();
                Ok(())
            }
            words::INTERACT => self.interact(w, &mut o)?,
            words::ASK if w.is_empty() => {
                self.panel.ask();
                self.ask(&mut o);
                Ok(())
            }
            words::RESTED if w.is_empty() => {
                o.opt(self.panel.pointer().time_since_last_movement(), 1, |o, v| o.f(v));
                Ok(())
            }
            words::KERNEL => self.kernel(w, &mut o)?,
            words::EXP if w.len() == 1 => zoom_factor(f(w[0])).map(|v| o.f(v)),
            _ => return None,
        };
        Some(match done {
            Ok(()) => {
                o.0[0] = o.0.len() as u32 - 1;
                o.0
            }
            Err(r) if matches!(r.number(), 1 | 2 | 4 | 5) => vec![r.number() << 24 | 1, r.index() as u32],
            Err(r) => vec![r.number() << 24],
        })
    }

    fn pass(&mut self, w: &[u32]) -> Option<Result<(), Refusal>> {
        let (w, feed) = w.split_at_checked(18)?;
        let flags = |at: u32| Modifiers::from_bits(w[17] >> at & 31);
        let input = RawInput {
            time: (w[0] & 1 != 0).then(|| d(&w[1..])),
            screen_rect: (w[0] & 2 != 0).then(|| rect(&w[6..])),
            predicted_dt: f(w[3]),
            smoothing_factor: f(w[4]),
            pixels_per_point: f(w[5]),
            focused: w[0] & 4 != 0,
            requested_repaint_last_pass: w[0] & 8 != 0,
            options: InputOptions {
                line_scroll_speed: f(w[10]),
                scroll_zoom_speed: f(w[11]),
                max_click_dist: f(w[12]),
                max_click_duration: d(&w[13..]),
                max_double_click_delay: d(&w[15..]),
                zoom_modifier: flags(0),
                horizontal_scroll_modifier: flags(5),
                vertical_scroll_modifier: flags(10),
            },
            events: &[],
        };
        let done = self.panel.begin_pass_words(&input, feed);
        if done.is_ok() {
            self.devices.extend(devices(feed));
        }
        Some(done)
    }

    fn insert(&mut self, w: &[u32], o: &mut Out) -> Option<Result<(), Refusal>> {
        let (w, given) = w.split_at_checked(WIDGET + 1)?;
        if given.len() % WIDGET != 0 {
            return None;
        }
        let new = widget(w);
        let layer = (new.layer_id.order, new.layer_id.id);
        let mut slice = self.lent.get(&layer).cloned().unwrap_or_default();
        let foreign = WidgetRect { id: FILL, sense: u32::MAX, ..WidgetRect::default() };
        slice.resize((w[17] as usize).min(MOST_PLACES), foreign);
        let count = self.panel.layer_count(new.layer_id);
        for (place, lent) in slice.iter_mut().take(count).zip(given.chunks(WIDGET)) {
            *place = widget(lent);
        }
        let before = slice.clone();
        let done = self.panel.insert(&mut slice, new, w[16] & 4 != 0);
        match done {
            Err(_) => assert!(slice == before || slice.iter().any(|w| *w != *w), "a refused insertion wrote to the lent slice"),
            Ok(a) => {
                let record = self.panel.get(new.id).expect("just inserted");
                assert_eq!(self.panel.order(new.id), Some((new.layer_id, a.position)));
                assert!(self.panel.contains(new.id) && self.panel.layer_count(new.layer_id) == a.count);
                assert!(slice[a.count..] == before[a.count..], "an insertion wrote past the layer");
                o.u(a.position as u32);
                o.u(a.count as u32);
                put_widget(o, &record);
                self.lent.insert(layer, slice);
            }
        }
        Some(done.map(|_| ()))
    }

    fn interact(&mut self, w: &[u32], o: &mut Out) -> Option<Result<(), Refusal>> {
        let (head, w) = w.split_at_checked(5)?;
        let (n, m) = (head[2] as usize, head[3] as usize);
        let ones = (head[4] & 1) as usize + (head[4] >> 1 & 1) as usize;
        if w.len() != n.checked_add(m)?.checked_add(ones)?.checked_mul(3)? {
            return None;
        }
        let hits: Vec<Hit> = w.chunks(3).map(|c| Hit { id: u64_of(c), sense: c[2].into() }).collect();
        let mut rest = hits[n + m..].iter().copied();
        let click = if head[4] & 1 != 0 { rest.next() } else { None };
        let drag = if head[4] & 2 != 0 { rest.next() } else { None };
        let mut hovered = vec![FILL; (head[0] as usize).min(MOST_PLACES)];
        let mut contains = vec![FILL; (head[1] as usize).min(MOST_PLACES)];
        let done = self.panel.interact_into(&Hits { close: &hits[..n], contains_pointer: &hits[n..n + m], click, drag }, &mut hovered, &mut contains);
        let (kept, also) = done.map_or((0, 0), |s| (s.hovered, s.contains_pointer));
        assert!(hovered[kept..].iter().chain(&contains[also..]).all(|id| *id == FILL), "a place beyond the ids was written");
        Some(done.map(|s| {
            for id in [s.clicked, s.long_touched, s.drag_started, s.dragged, s.drag_stopped] {
                o.id(id.unwrap_or(0));
            }
            for list in [&hovered[..kept], &contains[..also]] {
                o.u(list.len() as u32);
                list.iter().for_each(|id| o.id(*id));
            }
            assert_eq!(s.dragged, self.panel.dragged());
            o.u(self.panel.tally());
        }))
    }

    fn kernel(&mut self, w: &[u32], o: &mut Out) -> Option<Result<(), Refusal>> {
        let (head, w) = w.split_at_checked(4)?;
        let bytes = words::read_bytes(head[3], w)?;
        let mut feed = vec![FILL as u32; (head[2] as usize).min(MOST_FEED)];
        let done = self.panel.read_records(u64_of(head), &bytes, &mut feed);
        let written = done.map_or(0, |r| r.words);
        assert!(feed[written..].iter().all(|w| *w == FILL as u32), "a place beyond the feed's words was written");
        Some(done.map(|r| {
            o.b(r.dropped);
            o.u(r.words as u32);
            feed[..written].iter().for_each(|w| o.u(*w));
        }))
    }

    fn ask(&self, o: &mut Out) {
        let i = &self.panel;
        o.d(i.time());
        [i.unstable_dt(), i.predicted_dt(), i.stable_dt()].into_iter().for_each(|v| o.f(v));
        o.b(i.focused());
        o.u(i.modifiers().bits());
        let r = i.viewport_rect();
        o.pos(pos(r.min));
        o.pos(pos(r.max));
        [i.pixels_per_point(), i.physical_pixel_size(), i.aim_radius()].into_iter().for_each(|v| o.f(v));
        o.vec(vec(i.smooth_scroll_delta()));
        let z = i.zoom_delta();
        [z.factor, z.exponent].into_iter().for_each(|v| o.f(v));
        let z = i.zoom_delta_2d();
        [z.factor, z.exponent].into_iter().for_each(|v| o.vec(vec(v)));
        match i.rotation_delta() {
            Rotation::Radians(r) => {
                o.u(0);
                o.f(r);
                o.zeros(3);
            }
            Rotation::Headings(previous, current) => {
                o.u(1);
                o.vec(vec(previous));
                o.vec(vec(current));
            }
        }
        o.vec(vec(i.translation_delta()));
        o.b(i.is_scrolling());
        o.u(i.scroll_source().map_or(0, |s| 1 + s as u32));
        o.f(i.time_since_last_scroll());
        o.opt(i.wants_repaint_after(), 2, |o, v| o.d(v));
        for word in 0..5 {
            o.u((0..32).map(|bit| u32::from(i.key_down(32 * word + bit)) << bit).sum());
        }
        for word in 0..37 {
            o.u((0..4).map(|byte| u32::from(i.num_presses(4 * word + byte)) << (8 * byte)).sum());
        }
        assert!((0..145).all(|k| i.key_pressed(k) == (i.num_presses(k) > 0)));
        o.b(i.feed_was_empty());
        o.u(bits(&[i.any_touches(), i.has_touch_screen(), i.is_long_touch()]));
        put_info(o, i.multi_touch());
        self.ask_pointer(o);
        o.u(self.devices.len() as u32);
        for &device in &self.devices {
            o.id(device);
            o.b(i.any_touches_of(device));
            put_info(o, i.info(device));
        }
    }

    fn ask_pointer(&self, o: &mut Out) {
        let p = self.panel.pointer();
        o.vec(vec(p.delta()));
        o.opt(p.motion(), 2, |o, v| o.vec(vec(v)));
        o.vec(vec(p.velocity()));
        o.vec(vec(p.direction()));
        o.opt(p.press_origin(), 2, |o, v| o.pos(pos(v)));
        o.opt(p.total_drag_delta(), 2, |o, v| o.vec(vec(v)));
        o.opt(p.press_start_time(), 2, |o, v| o.d(v));
        o.opt(p.latest_pos(), 2, |o, v| o.pos(pos(v)));
        assert_eq!(p.hover_pos(), p.latest_pos());
        o.opt(p.interact_pos(), 2, |o, v| o.pos(pos(v)));
        let flags = [
            p.has_pointer(),
            p.is_still(),
            p.is_moving(),
            p.any_pressed(),
            p.any_released(),
            p.any_down(),
            p.any_click(),
            p.could_any_button_be_click(),
            p.is_decidedly_dragging(),
            p.is_long_press(),
        ];
        o.u(bits(&flags));
        o.f(p.time_since_last_click());
        for b in PointerButton::ALL {
            o.u(bits(&[
                p.button_pressed(b),
                p.button_released(b),
                p.button_clicked(b),
                p.button_double_clicked(b),
                p.button_triple_clicked(b),
                p.button_down(b),
            ]));
        }
        let events: Vec<PointerEvent> = p.events().collect();
        o.u(events.len() as u32);
        for e in events {
            put_event(o, e);
        }
    }
}

fn put_widget(o: &mut Out, w: &WidgetRect) {
    o.id(w.id);
    o.id(w.parent_id);
    o.u(w.layer_id.order);
    o.id(w.layer_id.id);
    for r in [w.rect, w.interact_rect] {
        o.pos(pos(r.min));
        o.pos(pos(r.max));
    }
    o.u(w.sense);
    o.u(bits(&[w.enabled, w.visible]));
}

fn put_event(o: &mut Out, e: PointerEvent) {
    match e {
        PointerEvent::Moved(p) => {
            o.u(0);
            o.pos(pos(p));
            o.zeros(2);
        }
        PointerEvent::Pressed { pos: p, button } => {
            o.u(1 | (button as u32) << 8);
            o.pos(pos(p));
            o.zeros(2);
        }
        PointerEvent::Released { click, button } => {
            o.u(2 | (button as u32) << 8 | u32::from(click.is_some()) << 16);
            match click {
                None => o.zeros(4),
                Some(c) => {
                    o.pos(pos(c.pos));
                    o.u(c.count);
                    o.u(c.modifiers.bits());
                }
            }
        }
    }
}

fn put_info(o: &mut Out, info: Option<MultiTouchInfo>) {
    o.opt(info, 17, |o, i| {
        o.d(i.start_time);
        o.pos(pos(i.start_pos));
        o.pos(pos(i.center_pos));
        o.u(i.num_touches as u32);
        o.f(i.zoom_delta);
        o.vec(vec(i.zoom_delta_2d));
        o.vec(vec(i.previous_heading));
        o.vec(vec(i.heading));
        o.vec(vec(i.translation_delta));
        o.f(i.force);
    });
}
