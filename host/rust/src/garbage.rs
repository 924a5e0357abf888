//! Garbage through every entry: memory, feeds, numbers, widgets and hits at random. Nothing may fault, and what is refused must change nothing.
//! GARBAGE=N runs N rounds of some 100,000 bytes each; for valgrind, or for an hour.
extern crate std;

use crate::ffi::{Finger, Memory};
use crate::{
    Event, Feed, Hit, Hits, InputOptions, KernelTouches, LayerId, Modifiers, MouseWheelSource, MouseWheelUnit, Panel, PointerButton, Pos2, RawInput, Rect,
    TouchPhase, Vec2, WidgetRect,
};
use std::{boxed::Box, env, vec::Vec};

struct Random(u64);

impl Random {
    fn word(&mut self) -> u64 {
        self.0 ^= self.0 << 13;
        self.0 ^= self.0 >> 7;
        self.0 ^= self.0 << 17;
        self.0
    }

    fn below(&mut self, n: u64) -> usize {
        (self.word() % n) as usize
    }

    /// Any bits, or a number of the domain.
    fn float(&mut self) -> f32 {
        match self.below(3) {
            0 => f32::from_bits(self.word() as u32),
            1 => self.below(600) as f32,
            _ => self.below(100) as f32 / 100.0,
        }
    }

    fn double(&mut self) -> f64 {
        match self.below(2) {
            0 => f64::from_bits(self.word()),
            _ => self.below(4000) as f64,
        }
    }

    fn pos(&mut self) -> Pos2 {
        Pos2 { x: self.float(), y: self.float() }
    }

    fn rect(&mut self) -> Rect {
        Rect { min: self.pos(), max: self.pos() }
    }

    /// A small id, 0 among them, or any.
    fn id(&mut self) -> u64 {
        match self.below(8) {
            0 => self.word(),
            _ => self.below(40) as u64,
        }
    }

    fn count(&mut self) -> usize {
        match self.below(3) {
            0 => self.word() as usize,
            _ => self.below(70),
        }
    }

    fn modifiers(&mut self) -> Modifiers {
        Modifiers::from_bits(self.word() as u32)
    }

    fn widget(&mut self) -> WidgetRect {
        WidgetRect {
            id: self.id(),
            parent_id: self.id(),
            layer_id: LayerId { order: self.below(6) as u32, id: self.id() },
            rect: self.rect(),
            interact_rect: self.rect(),
            sense: self.below(9) as u32,
            enabled: self.below(2) == 0,
            visible: self.below(2) == 0,
        }
    }

    fn hit(&mut self) -> Hit {
        match self.below(60) {
            0 => Hit { id: self.id(), sense: self.word() },
            _ => Hit { id: 1 + self.below(40) as u64, sense: self.below(8) as u64 },
        }
    }

    fn hits(&mut self) -> Vec<Hit> {
        (0..self.below(67)).map(|_| self.hit()).collect()
    }

    /// An event of the domain.
    fn event(&mut self) -> Event {
        let pos = Pos2 { x: self.below(800) as f32, y: self.below(480) as f32 };
        let phase = [TouchPhase::Start, TouchPhase::Move, TouchPhase::End, TouchPhase::Cancel][self.below(4)];
        let delta = Vec2 { x: self.below(9) as f32, y: self.below(9) as f32 };
        let modifiers = self.modifiers();
        match self.below(8) {
            0 => Event::Key { key: self.below(145) as u8, pressed: self.below(2) == 0 },
            1 => Event::PointerMoved(pos),
            2 => Event::PointerButton { pos, button: PointerButton::ALL[self.below(5)], pressed: self.below(2) == 0, modifiers },
            3 => Event::Touch { device_id: self.below(4) as u64, id: self.below(9) as u64, phase, pos, force: None },
            4 => Event::MouseWheel { unit: MouseWheelUnit::Line, delta, phase, source: MouseWheelSource::Trackpad, modifiers },
            5 => Event::PointerGone,
            6 => Event::Zoom(1.5),
            _ => Event::MouseMoved(delta),
        }
    }

    /// Words that are mostly events, of any kind and with any bits.
    fn feed(&mut self) -> Vec<u32> {
        if self.below(2) == 0 {
            let events: Vec<Event> = (0..self.below(66)).map(|_| self.event()).collect();
            return Feed::of(&events).words().to_vec();
        }
        (0..self.below(300))
            .map(|_| match self.below(3) {
                0 => self.word() as u32,
                1 => self.float().to_bits(),
                _ => (1 + self.below(12) as u32) << 28 | self.below(512) as u32,
            })
            .collect()
    }

    fn input(&mut self) -> RawInput<'static> {
        if self.below(4) != 0 {
            return RawInput::default();
        }
        RawInput {
            time: (self.below(2) == 0).then(|| self.double()),
            screen_rect: (self.below(2) == 0).then(|| self.rect()),
            predicted_dt: self.float(),
            smoothing_factor: self.float(),
            pixels_per_point: self.float(),
            focused: self.below(2) == 0,
            requested_repaint_last_pass: self.below(2) == 0,
            options: InputOptions {
                line_scroll_speed: self.float(),
                scroll_zoom_speed: self.float(),
                max_click_dist: self.float(),
                max_click_duration: self.double(),
                max_double_click_delay: self.double(),
                zoom_modifier: self.modifiers(),
                horizontal_scroll_modifier: self.modifiers(),
                vertical_scroll_modifier: self.modifiers(),
            },
            events: &[],
        }
    }

    fn floats(&mut self, places: &mut [f32]) {
        places.iter_mut().for_each(|p| *p = self.float());
    }

    fn doubles(&mut self, places: &mut [f64]) {
        places.iter_mut().for_each(|p| *p = self.double());
    }

    fn flags(&mut self, places: &mut [bool]) {
        places.iter_mut().for_each(|p| *p = self.below(2) == 0);
    }

    fn ids(&mut self, places: &mut [u64]) {
        places.iter_mut().for_each(|p| *p = self.id());
    }

    fn numbers(&mut self, places: &mut [u32]) {
        places.iter_mut().for_each(|p| *p = self.count() as u32);
    }

    fn memory(&mut self, m: &mut Memory) {
        for places in [&mut m.seconds[..], &mut m.starts, &mut m.times] {
            self.doubles(places);
        }
        for places in [&mut m.floats[..], &mut m.floats0, &mut m.floats1, &mut m.floats2, &mut m.floats3, &mut m.positions, &mut m.places, &mut m.edges] {
            self.floats(places);
        }
        for places in [&mut m.flags[..], &mut m.flags0, &mut m.flags1, &mut m.flags2, &mut m.flags3, &mut m.held_flags] {
            self.flags(places);
        }
        for places in [&mut m.keys_down[..], &mut m.ids0, &mut m.ids1, &mut m.ids2, &mut m.ids3, &mut m.held_ids, &mut m.words] {
            self.ids(places);
        }
        for places in [&mut m.codes[..], &mut m.numbers, &mut m.tally] {
            self.numbers(places);
        }
        m.counts.iter_mut().for_each(|p| *p = self.count());
        m.presses.iter_mut().for_each(|p| *p = self.word() as u8);
    }
}

/// The kernel's records through slots of any contents: whole records and others, of every type and code.
fn records(r: &mut Random) {
    let mut kernel = KernelTouches::new();
    if r.below(2) == 0 {
        for slot in &mut kernel.0.slots {
            for finger in [&mut slot.now, &mut slot.acted] {
                *finger = Finger { id: r.word() as i32, x: r.word() as i32, y: r.word() as i32 };
            }
        }
        (kernel.0.chosen, kernel.0.skipping) = (r.count(), r.below(2) == 0);
    }
    let mut bytes = Vec::new();
    for _ in 0..r.below(60) {
        bytes.extend([0; 16]);
        let (kind, code) = [(3, 0x2f), (3, 0x35), (3, 0x36), (3, 0x39), (0, 0), (0, 3), (r.word() as u16, r.word() as u16)][r.below(7)];
        let value = if r.below(40) == 0 { r.word() as i32 } else { r.below(10) as i32 - 1 };
        bytes.extend(kind.to_le_bytes().into_iter().chain(code.to_le_bytes()).chain(value.to_le_bytes()));
    }
    bytes.truncate(bytes.len() - if r.below(20) == 0 { bytes.len().min(1) } else { 0 });
    let mut feed = std::vec![7; r.below(200)];
    let before = kernel.clone();
    match kernel.read_records(r.id(), &bytes, &mut feed) {
        Ok(read) => assert!(feed[read.words..].iter().all(|w| *w == 7)),
        Err(_) => assert!(kernel == before && feed.iter().all(|w| *w == 7)),
    }
}

/// Every question, and a checksum of their answers.
fn ask(p: &Panel, r: &mut Random) -> u64 {
    use std::hash::{DefaultHasher, Hash, Hasher};
    let (q, id, key) = (p.pointer(), r.id(), r.word() as u32);
    let layer = LayerId { order: r.below(6) as u32, id };
    let mut text = std::format!(
        "{:?}",
        (
            p.time(),
            p.unstable_dt(),
            p.predicted_dt(),
            p.stable_dt(),
            p.focused(),
            p.viewport_rect(),
            p.pixels_per_point(),
            p.physical_pixel_size(),
            p.aim_radius(),
            p.modifiers()
        )
    );
    text += &std::format!(
        "{:?}",
        (p.smooth_scroll_delta(), p.zoom_delta(), p.zoom_delta_2d(), p.rotation_delta(), p.translation_delta(), p.is_scrolling(), p.scroll_source())
    );
    text += &std::format!(
        "{:?}",
        (p.time_since_last_scroll(), p.wants_repaint_after(), p.key_down(key), p.key_pressed(key), p.num_presses(key), p.feed_was_empty())
    );
    text += &std::format!("{:?}", (p.any_touches(), p.has_touch_screen(), p.multi_touch(), p.info(id), p.any_touches_of(id), p.is_long_touch(), p.tally()));
    text += &std::format!("{:?}", (p.dragged(), p.potential_click_id(), p.potential_drag_id(), p.contains(id), p.get(id), p.order(id), p.layer_count(layer)));
    text += &std::format!(
        "{:?}",
        (q.delta(), q.motion(), q.velocity(), q.direction(), q.latest_pos(), q.hover_pos(), q.interact_pos(), q.has_pointer(), q.is_still(), q.is_moving())
    );
    text += &std::format!(
        "{:?}",
        (q.time_since_last_movement(), q.press_origin(), q.total_drag_delta(), q.press_start_time(), q.any_down(), q.any_pressed(), q.any_released())
    );
    text += &std::format!("{:?}", (q.any_click(), q.time_since_last_click(), q.could_any_button_be_click(), q.is_decidedly_dragging(), q.is_long_press()));
    for b in PointerButton::ALL {
        text += &std::format!(
            "{:?}",
            (q.button_down(b), q.button_pressed(b), q.button_released(b), q.button_clicked(b), q.button_double_clicked(b), q.button_triple_clicked(b))
        );
    }
    text += &std::format!("{:?} {:?}", q.events().collect::<Vec<_>>(), p.layer_ids().collect::<Vec<_>>());
    let mut sum = DefaultHasher::new();
    text.hash(&mut sum);
    sum.finish()
}

/// The answers of a question that draws its ids from `r`, the same ones each time.
fn answers(p: &Panel, seed: u64) -> u64 {
    ask(p, &mut Random(seed))
}

/// The calls that are taken and refused: passes, insertions, interacts.
fn round(p: &mut Panel, r: &mut Random, counts: &mut [[u32; 2]; 3]) {
    for _ in 0..8 {
        let seed = r.word() | 1;
        let before = answers(p, seed);
        let input = r.input();
        let feed = r.feed();
        let passed = p.begin_pass_words(&input, &feed).is_ok();
        let mut layer: Vec<WidgetRect> = (0..r.below(40)).map(|_| r.widget()).collect();
        let widget = r.widget();
        let top = r.below(2) == 0;
        let inserted = p.insert(&mut layer, widget, top).is_ok();
        let (close, within) = (r.hits(), r.hits());
        let one = |r: &mut Random| (r.below(2) == 0).then(|| r.hit());
        let (click, drag) = (one(r), one(r));
        let (mut a, mut b) = (std::vec![7; 65 + r.below(10)], std::vec![7; 65 + r.below(10)]);
        let met = p.interact_into(&Hits { close: &close, contains_pointer: &within, click, drag }, &mut a, &mut b).is_ok();
        if !passed && !inserted && !met {
            assert_eq!(before, answers(p, seed), "a refused call changed an answer");
        }
        for (count, taken) in counts.iter_mut().zip([passed, inserted, met]) {
            count[usize::from(!taken)] += 1;
        }
        let _ = crate::zoom_factor(r.float());
        records(r);
    }
}

#[test]
fn garbage() {
    let rounds: u64 = env::var("GARBAGE").map_or(20, |n| n.parse().expect("GARBAGE=N"));
    let mut r = Random(0x9E37_79B9_7F4A_7C15);
    let mut counts = [[0; 2]; 3];
    let mut panel = Box::new(Panel::new());
    for n in 0..rounds {
        if n % 4 == 0 {
            *panel = Panel::new();
        } else {
            r.memory(&mut panel.memory);
            (panel.set.widgets, panel.set.layers) = (r.count(), r.count());
        }
        round(&mut panel, &mut r, &mut counts);
    }
    std::println!("{rounds} rounds; passes, insertions, interacts taken and refused: {counts:?}");
    assert!(counts.iter().all(|[taken, refused]| *taken > 0 && *refused > 0));
}
