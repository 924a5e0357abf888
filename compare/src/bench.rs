//! egui's side of the table that bench/run.sh prints: the requests of crates/bench_calls, and the same number of the answers.
use crate::domain;
use crate::hit_test::WidgetHits;
use crate::interaction::{InteractionSnapshot, interact};
use crate::memory::InteractionState;
use crate::panel::{Hit, Hits, Panel, Pass};
use crate::{
    Id, InputState, InteractOptions, Key, LEVEL, LayerId, Order, PointerButton, Pos2, RawInput, Rect, Sense,
    Vec2, WidgetRect, WidgetRects,
};
use std::hint::black_box;

fn mix(h: u64, w: u64) -> u64 {
    (h.rotate_left(5) ^ w).wrapping_add(0x9e37_79b9_7f4a_7c15)
}
fn single(h: u64, x: f32) -> u64 {
    mix(h, if x.is_nan() { 0x7fc0_0000 } else { x.to_bits().into() })
}
fn double(h: u64, x: f64) -> u64 {
    mix(h, if x.is_nan() { 0x7ff8_0000_0000_0000 } else { x.to_bits() })
}
fn vec2(h: u64, v: Vec2) -> u64 {
    single(single(h, v.x), v.y)
}
fn place(h: u64, p: Option<Pos2>) -> u64 {
    p.map_or(mix(h, 0), |p| single(single(h, p.x), p.y))
}
fn id_of(w: u32) -> Id {
    Id::from_u64(u64::from(w) * 0x1_0000_0001).expect("not 0")
}

/// `checked`: as a request asks it, with the feed decoded and the domain checked, and the id sets as ascending lists.
pub fn run(words: &[u32], checked: bool) -> u64 {
    let (n, a, b, c) = (words[1], words[2], words[3], words[4]);
    let given = &words[6..6 + words[5] as usize];
    match words[0] {
        0 => passes(n, given, checked, false),
        1 => inserts(n, a, b, c),
        2 => interacts(n, given, a, b, checked),
        4 => roots32(n),
        5 => roots64(n),
        6 => exponents(n),
        7 => copies(n, c),
        _ => passes(n, given, checked, true),
    }
}

// ---------------------------------------------------------------- passes, and questions after each

fn of_state(i: &InputState) -> u64 {
    let p = &i.pointer;
    let v = p.x_view();
    let w = i.x_wheel();
    let h = single(single(double(0, i.time), i.unstable_dt), i.stable_dt);
    let h = vec2(vec2(vec2(h, p.delta()), p.velocity()), p.direction());
    let h = place(place(h, p.latest_pos()), p.press_origin());
    let h = mix(mix(h, p.any_down().into()), p.pointer_events.len() as u64);
    let h = double(mix(h, p.has_moved_too_much_for_a_click.into()), v.last_click_time);
    let h = vec2(vec2(h, w.unprocessed_wheel_delta), i.smooth_scroll_delta());
    let h = double(h, w.last_wheel_event);
    let h = single(single(h, 1.0), i.x_rotation_radians());
    let h = mix(h, i.num_presses(Key(20)) as u64);
    mix(mix(h, i.any_touches().into()), i.x_touch_states().len() as u64)
}

fn asked(i: &InputState) -> u64 {
    let p = &i.pointer;
    let b = PointerButton::Primary;
    [
        p.any_pressed(),
        p.any_released(),
        p.any_click(),
        p.any_down(),
        p.button_pressed(b),
        p.button_released(b),
        p.button_clicked(b),
        p.button_double_clicked(b),
        p.button_triple_clicked(b),
        p.button_down(b),
        p.could_any_button_be_click(),
        p.is_decidedly_dragging(),
        p.is_long_press(),
        p.press_origin().is_some(),
        p.press_start_time().is_some(),
        p.time_since_last_click() < 0.3,
        p.has_pointer(),
        p.is_still(),
        p.is_moving(),
        p.latest_pos().is_some(),
        p.interact_pos().is_some(),
        p.total_drag_delta().is_some(),
        p.delta().x > 0.5,
        p.velocity().x > 0.5,
        i.key_down(Key(20)),
        i.key_pressed(Key(20)),
        i.is_scrolling(),
        i.time_since_last_scroll() < 0.3,
        i.any_touches(),
        i.multi_touch().is_some(),
    ]
    .iter()
    .map(|b| u64::from(*b))
    .sum()
}

fn passes(n: u32, feed: &[u32], checked: bool, ask: bool) -> u64 {
    let p = Pass { repaint_requested: true, ..Default::default() };
    let mut panel = Panel::new(LEVEL);
    panel.enter();
    let ready = domain::decode_feed(feed, panel.held(), panel.limits()).expect("in the domain");
    crate::set_smooth_factor(p.smooth);
    let mut answers = if ask { asked(black_box(&panel.input)) } else { 0 };
    for _ in 0..n {
        let events = if checked {
            panel.check_pass(black_box(&p), black_box(feed)).expect("in the domain")
        } else {
            ready.clone()
        };
        let raw = RawInput {
            time: p.time,
            screen_rect: p.screen_rect,
            focused: p.focused,
            predicted_dt: p.predicted_dt,
            events,
            ..Default::default()
        };
        panel.input = core::mem::take(&mut panel.input).begin_pass(
            raw,
            p.repaint_requested,
            p.pixels_per_point,
            p.options,
        );
        if ask {
            answers += asked(black_box(&panel.input));
        }
    }
    let sum = of_state(&panel.input);
    if ask { mix(sum, answers) } else { sum }
}

// ---------------------------------------------------------------- roots: the machine's own

fn roots32(n: u32) -> u64 {
    let (mut sum, mut w) = (0, 0u32);
    for _ in 0..n {
        w = w.wrapping_add(0x9e37_79b1);
        sum = single(sum, f32::from_bits(w % 0x7f80_0000).sqrt());
    }
    sum
}

fn roots64(n: u32) -> u64 {
    let (mut sum, mut w) = (0, 0u64);
    for _ in 0..n {
        w = w.wrapping_add(0x9e37_79b9_7f4a_7c15);
        sum = double(sum, f64::from_bits(w % 0x7ff0_0000_0000_0000).sqrt());
    }
    sum
}

// ---------------------------------------------------------------- factors of exponents: the platform's own

fn exponents(n: u32) -> u64 {
    let (mut above, mut w) = (0, 0u32);
    for _ in 0..n {
        w = w.wrapping_add(0x9e37_79b1);
        let e = (w / 0x8000) as f32 / 65536.0 - 1.0;
        above += u64::from(black_box(e).exp() > 1.0);
    }
    above
}

// ---------------------------------------------------------------- parkings: a plain copy of as many words, since egui parks nothing

fn copies(n: u32, words: u32) -> u64 {
    let from = vec![1u32; words as usize];
    let mut to = vec![0u32; words as usize];
    for _ in 0..n {
        black_box(&mut to).copy_from_slice(black_box(&from));
    }
    u64::from(n) * u64::from(words)
}

// ---------------------------------------------------------------- insertions

fn widget(i: u32, layers: u32) -> WidgetRect {
    let rect = Rect::from_min_max(Pos2::new(10.0, 20.0), Pos2::new(30.0, 40.0));
    let layer_id = LayerId {
        order: Order::Middle,
        id: Id::from_u64((100 + i % layers).into()).expect("not 0"),
    };
    WidgetRect {
        id: id_of((i + 1).wrapping_mul(0x9e37_79b1)),
        parent_id: Id::from_u64(7).expect("not 0"),
        layer_id,
        rect,
        interact_rect: rect,
        sense: Sense::from_bits(3).expect("a sense"),
        enabled: true,
        visible: true,
    }
}

fn round(set: &mut WidgetRects, widgets: u32, layers: u32, move_to_top: bool) {
    for i in 0..widgets {
        let w = widget(i, layers);
        set.insert(w.layer_id, w, InteractOptions { move_to_top });
    }
}

fn inserts(n: u32, widgets: u32, layers: u32, mode: u32) -> u64 {
    let mut set = WidgetRects::default();
    round(&mut set, widgets, layers, false);
    for _ in 0..n / widgets {
        if mode == 0 {
            set.clear();
        }
        if mode < 3 {
            round(black_box(&mut set), widgets, layers, mode == 2);
        }
    }
    (0..widgets).fold(0, |h, i| {
        let w = widget(i, layers);
        let (layer, at) = set.order(w.id).expect("known");
        let found = set.get_layer(layer).nth(at).expect("in its layer");
        mix(mix(h, at as u64), found.id.value())
    })
}

// ---------------------------------------------------------------- interacts

/// The first call is one beside the n.
fn lefts(n: u32) -> impl Iterator<Item = u32> {
    core::iter::chain([0], (1..=n).rev())
}

fn interacts(n: u32, words: &[u32], click: u32, drag: u32, checked: bool) -> u64 {
    let list: Vec<Hit> = words.chunks(2).map(|w| Hit { id: id_of(w[0]).value(), sense: w[1] }).collect();
    let one = |n: u32| (n != 0).then(|| list[n as usize - 1]);
    let mut asked = Hits {
        close: list.clone(),
        contains_pointer: list.clone(),
        click: one(click),
        drag: one(drag),
    };
    if checked {
        return interacts_checked(n, &mut asked);
    }
    let mut hits: WidgetHits = crate::panel::to_hits(&asked);
    let mut input = InputState::default();
    let moved = vec![crate::Event::PointerMoved(Pos2::new(10.0, 20.0))];
    input = input.begin_pass(RawInput { events: moved, ..Default::default() }, false, 1.0, Default::default());
    let set = WidgetRects::default();
    let mut interaction = InteractionState::default();
    let mut snapshot = InteractionSnapshot::default();
    let mut sum = 0;
    for left in lefts(n) {
        let sense = Sense::from_bits((left % 2) as u8).expect("a sense");
        hits.close[0].sense = sense;
        hits.contains_pointer[0].sense = sense;
        snapshot = interact(&snapshot, &set, black_box(&hits), black_box(&input), &mut interaction);
        sum = mix(mix(sum, snapshot.hovered.len() as u64), snapshot.contains_pointer.len() as u64);
    }
    ends(sum, &sorted(&snapshot.hovered), &sorted(&snapshot.contains_pointer))
}

fn sorted(s: &crate::IdSet) -> Vec<u64> {
    let mut v: Vec<u64> = s.iter().map(|i| i.value()).collect();
    v.sort_unstable();
    v
}
fn ends(sum: u64, hovered: &[u64], contains: &[u64]) -> u64 {
    mix(mix(sum, hovered.get(1).copied().unwrap_or(0)), contains.get(2).copied().unwrap_or(0))
}

fn interacts_checked(n: u32, hits: &mut Hits) -> u64 {
    let mut panel = Panel::new(LEVEL);
    panel.run_pass(&Pass::default(), vec![crate::Event::PointerMoved(Pos2::new(10.0, 20.0))]);
    let mut sum = 0;
    let mut last = Default::default();
    for left in lefts(n) {
        hits.close[0].sense = left % 2;
        hits.contains_pointer[0].sense = left % 2;
        last = panel.interact(66, 66, black_box(hits)).expect("taken");
        sum = mix(mix(sum, last.hovered.len() as u64), last.contains_pointer.len() as u64);
    }
    ends(sum, &last.hovered, &last.contains_pointer)
}
