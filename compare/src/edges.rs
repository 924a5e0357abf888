//! The hand-written trace: each line of 01's "Edges" and "Slips to refuse", each refusal, each by name.
//! What a line says of egui's answer is asserted here, so the table of the calls that show it is true.
use crate::panel::{Hit, Hits, Rotation, Widget};
use crate::script::*;
use crate::words::{self, ASK, CLEAR, DUMP, EXP, INSERT, INTERACT, PASS, RESTED, SET_TALLY};
use crate::{LEVEL, Pos2, Rect, Vec2, exponential};

pub fn script() -> Script {
    let mut s = Script::default();
    pointer(&mut s);
    wheels(&mut s);
    touches(&mut s);
    widgets(&mut s);
    interactions(&mut s);
    keys(&mut s);
    crate::surprises::surprises(&mut s);
    slips(&mut s);
    refused_feeds(&mut s);
    refused_numbers(&mut s);
    refused_touches(&mut s);
    refused_inserts(&mut s);
    refused_interacts(&mut s);
    orders(&mut s);
    malformed(&mut s);
    if words::exists(RESTED, LEVEL) {
        rested(&mut s);
    }
    if words::exists(EXP, LEVEL) {
        exponents(&mut s);
    }
    buttons(&mut s);
    s.end();
    s
}

fn pointer(s: &mut Script) {
    s.show("Edges: click distance 6, press (0,0), move to (6,0): still a click");
    s.p.options.max_click_dist = 6.0;
    s.taken(1.0, &press(0.0, 0.0));
    s.taken(1.0625, &moved(6.0, 0.0));
    s.taken(1.125, &release(6.0, 0.0));
    assert_eq!(s.clicks(), [1]);
    s.show("Near an edge: a move one unit in the last place further is no click");
    s.p.options.max_click_dist = 6.0;
    s.taken(1.0, &press(0.0, 0.0));
    s.taken(1.0625, &moved(f32::from_bits(6.0f32.to_bits() + 1), 0.0));
    s.taken(1.125, &release(6.0, 0.0));
    assert_eq!(s.clicks(), [0]);
    s.show("Edges: a second quick click 6 away counts 1 (36 is not below 36)");
    s.p.options.max_click_dist = 6.0;
    s.taken(1.0, &feed(&[&press(0.0, 0.0), &release(0.0, 0.0)]));
    s.taken(1.125, &feed(&[&press(6.0, 0.0), &release(6.0, 0.0)]));
    assert_eq!(s.clicks(), [1]);
    for (second, count) in [(1.25, 1), (1.125, 2)] {
        s.show(&format!("Edges: delay 0.25, releases at 1.0 and {second} count 1, {count}"));
        s.p.options.max_double_click_delay = 0.25;
        for (t, n) in [(1.0, 1), (second, count)] {
            s.taken(t - 0.0625, &press(0.0, 0.0));
            s.taken(t, &release(0.0, 0.0));
            assert_eq!(s.clicks(), [n]);
        }
    }
    s.show("Near an edge: releases at 1.0, 1.125 and 1.25 count 1, 2, 3");
    s.p.options.max_double_click_delay = 0.25;
    for (t, n) in [(1.0, 1), (1.125, 2), (1.25, 3)] {
        s.taken(t - 0.0625, &press(0.0, 0.0));
        s.taken(t, &release(0.0, 0.0));
        assert_eq!(s.clicks(), [n]);
    }
    for (end, count) in [(1.75, 1), (1.8125, 0)] {
        s.show(&format!("Edges: click duration 0.75, press 1.0, release {end} {}", if count == 1 { "clicks" } else { "doesn't" }));
        s.p.options.max_click_duration = 0.75;
        s.taken(1.0, &press(0.0, 0.0));
        s.taken(end, &release(0.0, 0.0));
        assert_eq!(s.clicks(), [count]);
    }
    s.show("Edges: a lone release with no button down is no click; a second in that pass can be one");
    s.taken(1.0, &release(0.0, 0.0));
    assert_eq!(s.clicks(), [0]);
    s.taken(2.0, &feed(&[&release(0.0, 0.0), &release(0.0, 0.0)]));
    assert_eq!(s.clicks(), [0, 1]);
    history(s);
}

fn history(s: &mut Script) {
    s.show("01 item 1: a full history drops its oldest of 1,000; a sample of age 0.1 stays, an older one goes");
    s.taken(1.0, &moved(0.0, 0.0));
    s.quiet = true;
    for k in 1..1002u32 {
        s.taken(1.0 + f64::from(k) / 16_384.0, &moved(k as f32, 0.0));
    }
    s.quiet = false;
    let oldest = s.stream.panel.oldest_sample_time().expect("samples");
    assert_eq!(oldest, 1.0 + 2.0 / 16_384.0);
    let age = f64::from(0.1f32);
    s.taken(oldest + age, &[]);
    assert_eq!(s.stream.panel.oldest_sample_time(), Some(1.0 + 3.0 / 16_384.0));
    s.taken(1.0 + 900.0 / 16_384.0 + age, &[]);
    assert_eq!(s.stream.panel.oldest_sample_time(), Some(1.0 + 900.0 / 16_384.0));
    s.taken(crate::aimed::nudge(1.0 + 900.0 / 16_384.0 + age, 2), &[]);
    assert_eq!(s.stream.panel.oldest_sample_time(), Some(1.0 + 901.0 / 16_384.0));
}

fn wheels(s: &mut Script) {
    for (y, smooth, rest) in [(8.0, 4.0, 4.0), (7.5, 7.5, 0.0)] {
        s.show(&format!("Edges: one Point delta (0,{y}), factor 0.5: smooth {smooth}, unprocessed {rest}"));
        s.taken(1.0, &wheel(0, 1, 1, 0, 0.0, y));
        assert_eq!(s.stream.panel.input.smooth_scroll_delta(), Vec2::new(0.0, smooth));
        assert_eq!(s.stream.panel.input.x_wheel().unprocessed_wheel_delta, Vec2::new(0.0, rest));
    }
    for (source, phase, wait, lasts, name) in [
        (2, 0, 1.0, true, "InTouch Trackpad, 1.0 s later the action lasts"),
        (2, 0, 1.125, false, "InTouch Trackpad, 1.125 s ends it"),
        (1, 1, 0.125, true, "Smoothing: 0.125 lasts"),
        (1, 1, 0.25, false, "Smoothing: 0.25 ends"),
    ] {
        s.show(&format!("Edges: {name}"));
        s.taken(1.0, &wheel(0, phase, source, 0, 0.0, 1.0));
        s.taken(1.0 + wait, &[]);
        assert_eq!(s.stream.panel.input.is_scrolling(), lasts);
    }
    for unit in 0..3 {
        for phase in 0..4 {
            for source in 0..4 {
                s.show(&format!("The feed: a wheel event {}", crate::naming::wheel(unit, phase, source)));
                s.taken(1.0, &feed(&[&wheel(0, 0, source, 16, 0.0, 1.0), &wheel(unit, phase, source, 4, 2.0, 3.0)]));
                s.taken(1.125, &wheel(unit, 1, source, 1, 2.0, 30.0));
                s.taken(1.25, &[]);
            }
        }
    }
    s.show("01 item 6: zoom by the wheel: factor, and exponent speed · (x + y); a suppressed axis");
    s.taken(1.0, &feed(&[&wheel(0, 1, 1, 16, 2.0, 5.0), &event(7, 0, &[1.5]), &event(2, 4, &[])]));
    assert_eq!(s.stream.panel.zoom().0, 1.5);
    assert_eq!(s.stream.panel.zoom_2d().0, Vec2::new(1.5, 1.0));
}

fn touches(s: &mut Script) {
    s.show("Edges: touches (0,0), (4,0), then the second at (8,0): zoom 2, by axis (2,1), translation (2,0)");
    s.taken(1.0, &moved(1.0, 1.0));
    s.taken(1.125, &feed(&[&touch(7, 1, 0, 0.0, 0.0), &touch(7, 2, 0, 4.0, 0.0)]));
    s.taken(1.25, &touch(7, 2, 1, 8.0, 0.0));
    let m = s.stream.panel.input.multi_touch().expect("a gesture");
    assert_eq!((m.zoom_delta, m.zoom_delta_2d, m.translation_delta), (2.0, Vec2::new(2.0, 1.0), Vec2::new(2.0, 0.0)));
    assert!(matches!(s.stream.panel.rotation(), Rotation::Headings { .. }));
    s.show("Edges: pinch dx 3, dy 1 is Proportional");
    s.taken(1.0, &moved(1.0, 1.0));
    s.taken(1.125, &feed(&[&touch(7, 1, 0, 0.0, 0.0), &touch(7, 2, 0, 3.0, 1.0)]));
    s.taken(1.25, &touch(7, 2, 1, 6.0, 2.0));
    assert_eq!(s.stream.panel.input.multi_touch().expect("a gesture").zoom_delta_2d.y, s.stream.panel.zoom().0);
    s.show("Near an edge: pinch dx 1, dy 3 is Proportional; dx 1, dy 3.25 is Vertical");
    for (y, id) in [(3.0, 1), (3.25, 5)] {
        s.taken(1.0 + y, &moved(1.0, 1.0));
        s.taken(1.125 + y, &feed(&[&touch(7, id, 0, 0.0, 0.0), &touch(7, id + 1, 0, 1.0, y as f32)]));
        s.taken(1.1875 + y, &touch(7, id + 1, 1, 2.0, 2.0 * y as f32));
        s.taken(1.25 + y, &feed(&[&touch(7, id, 2, 0.0, 0.0), &touch(7, id + 1, 3, 0.0, 0.0)]));
    }
    s.show("Edges: coincident fingers kept still: zoom is 0/0, not a number");
    s.taken(1.0, &moved(1.0, 1.0));
    s.taken(1.125, &feed(&[&touch(7, 1, 0, 3.0, 3.0), &touch(7, 2, 0, 3.0, 3.0)]));
    s.taken(1.25, &[]);
    assert!(s.stream.panel.zoom().0.is_nan());
    s.show("Near an edge: a gesture needs a pointer known the pass before");
    s.taken(1.0, &feed(&[&touch(7, 1, 0, 0.0, 0.0), &touch(7, 2, 0, 4.0, 0.0), &moved(2.0, 2.0)]));
    assert!(s.stream.panel.input.multi_touch().is_none());
    s.taken(1.125, &[]);
    assert!(s.stream.panel.input.multi_touch().is_some());
    for n in 1..=10u64 {
        s.show(&format!("The issue: a pinch with {n} finger{}, by ascending id", if n == 1 { "" } else { "s" }));
        s.taken(1.0, &moved(1.0, 1.0));
        let all = |phase: u32, k: f32| -> Vec<u32> { (0..n).flat_map(|i| touch(7, 100 - i, phase, k * (i as f32), k * ((i * i) as f32))).collect() };
        s.taken(1.125, &all(0, 4.0));
        s.taken(1.25, &all(1, 5.0));
        s.taken(1.375, &all(2, 5.0));
    }
}

fn widgets(s: &mut Script) {
    s.show("Edges: widgets a, b, c; a moved to top: b, c, a");
    for id in [10, 11, 12] {
        assert_eq!(s.insert(&widget(id, 1), false, 3), (0, 0));
    }
    assert_eq!(s.insert(&Widget { sense: 2, enabled: false, ..widget(10, 1) }, true, 3), (0, 0));
    let at: Vec<(u64, usize)> = s.stream.panel.known_widgets().iter().map(|(i, n, _)| (i.value(), *n)).collect();
    assert_eq!(at, [(10, 2), (11, 0), (12, 1)]);
    s.show("01 item 5: a known id takes the new rectangles and the union; its parent stays");
    s.insert(&Widget { enabled: false, visible: false, ..widget(10, 1) }, false, 1);
    let other = Rect::from_min_max(Pos2::new(-1.0, -0.0), Pos2::new(2.0, 65_536.0));
    s.insert(&Widget { parent: 9, rect: other, interact_rect: other, visible: true, enabled: false, ..widget(10, 4) }, false, 1);
    s.insert(&Widget { visible: false, ..widget(10, 0) }, false, 1);
    let w = s.stream.panel.known_widgets()[0].2;
    assert_eq!((w.sense.bits(), w.parent_id.value(), w.enabled, w.visible), (5, 1, true, true));
    s.show("01 item 5: the first places of the lent slice are read whatever they hold");
    for id in [10, 11, 12] {
        s.insert(&widget(id, 1), false, 4);
    }
    let mut w = words::write_insert(&widget(13, 1), false, 4);
    for id in [10, 50, 12] {
        w.extend(&words::write_insert(&Widget { visible: false, ..widget(id, 6) }, false, 0)[..17]);
    }
    assert_eq!(s.call(INSERT, &w), (0, 0));
    s.call(CLEAR, &[]);
    s.show("01 item 5: a widget set can be emptied, and filled again");
    for order in 0..5 {
        s.insert(&Widget { order, layer: 7, ..widget(10 + u64::from(order), 1) }, false, 1);
    }
    s.call(CLEAR, &[]);
    assert_eq!(s.insert(&Widget { order: 4, layer: 9, ..widget(10, 1) }, false, 1), (0, 0));
}

/// A widget with the pointer pressed on it.
fn pressed_on(s: &mut Script, sense: u32) -> Hits {
    assert_eq!(s.insert(&widget(10, sense), false, 64), (0, 0));
    s.taken(1.0, &press(1.0, 1.0));
    over(10, sense)
}

fn interactions(s: &mut Script) {
    s.show("Edges: drag-only widget pressed: drag_started in that pass; a release and a press in one later pass: neither start nor stop");
    let h = pressed_on(s, 2);
    assert_eq!(s.answered(&h).drag_started, 10);
    s.taken(1.125, &feed(&[&release(1.0, 1.0), &press(1.0, 1.0)]));
    let a = s.answered(&h);
    assert_eq!((a.drag_started, a.drag_stopped, a.dragged, a.tally), (0, 0, 10, 1));
    s.show("interaction.rs: a press and a release in one pass is no drag");
    s.insert(&widget(10, 2), false, 1);
    s.taken(1.0, &feed(&[&press(1.0, 1.0), &release(1.0, 1.0)]));
    assert_eq!(s.answered(&over(10, 2)).drag_started, 0);
    s.show("interaction.rs: a click-and-drag widget waits while the pointer is inside, drags once it has moved too much");
    let h = pressed_on(s, 3);
    assert_eq!(s.answered(&h).drag_started, 0);
    s.taken(1.125, &moved(30.0, 1.0));
    assert_eq!(s.answered(&h).drag_started, 10);
    s.show("interaction.rs: a click-and-drag widget that the pointer has left is dragged at once");
    let h = pressed_on(s, 3);
    s.answered(&h);
    s.taken(1.125, &moved(2.0, 1.0));
    assert_eq!(s.answered(&Hits::default()).drag_started, 10);
    s.show("interaction.rs: a widget on top takes the click hit: still inside, no drag");
    let h = pressed_on(s, 3);
    s.answered(&h);
    s.taken(1.125, &moved(2.0, 1.0));
    assert_eq!(s.answered(&Hits { click: Some(Hit { id: 99, sense: 1 }), ..h }).drag_started, 0);
    s.show("interaction.rs: the click hit alone keeps it a click");
    let h = pressed_on(s, 3);
    s.answered(&h);
    s.taken(1.125, &moved(2.0, 1.0));
    assert_eq!(s.answered(&Hits { contains_pointer: vec![], ..h }).drag_started, 0);
    s.show("interaction.rs: Escape ends a drag and what could become one");
    let h = pressed_on(s, 2);
    s.answered(&h);
    s.taken(1.125, &event(1, 4 | 1 << 8, &[]));
    assert_eq!(s.answered(&h).drag_stopped, 10);
    s.taken(1.25, &moved(40.0, 0.0));
    assert_eq!(s.answered(&h).drag_started, 0);
    s.show("interaction.rs: a long touch clicks and drops the drag");
    s.insert(&widget(10, 3), false, 1);
    s.taken(1.0, &feed(&[&touch(7, 1, 0, 1.0, 1.0), &press(1.0, 1.0)]));
    let h = over(10, 3);
    s.answered(&h);
    s.taken(3.0, &[]);
    let a = s.answered(&h);
    assert_eq!((a.clicked, a.long_touched, a.drag_started), (10, 10, 0));
    s.show("interaction.rs: a disabled widget is not dragged");
    s.insert(&Widget { enabled: false, ..widget(10, 2) }, false, 1);
    s.taken(1.0, &press(1.0, 1.0));
    assert_eq!(s.answered(&over(10, 2)).drag_started, 0);
    s.show("interaction.rs: a vanished widget is not clicked");
    let h = pressed_on(s, 1);
    s.answered(&h);
    s.call(CLEAR, &[]);
    s.taken(1.0625, &[]);
    s.answered(&h);
    s.insert(&widget(10, 1), false, 1);
    s.taken(1.125, &release(1.0, 1.0));
    assert_eq!(s.answered(&h).clicked, 0);
    s.show("interaction.rs: one drag ends and another starts in one interact");
    s.insert(&widget(11, 2), false, 2);
    let h = pressed_on(s, 2);
    s.answered(&h);
    s.taken(1.125, &feed(&[&release(11.0, 1.0), &press(11.0, 1.0)]));
    let a = s.answered(&over(11, 2));
    assert_eq!((a.drag_stopped, a.drag_started), (10, 11));
    s.show("interaction.rs: non-interactive widgets above the interactive one are hovered, those below are not");
    s.insert(&widget(10, 1), false, 1);
    s.taken(1.0, &moved(1.0, 1.0));
    let e = |id, sense| Hit { id, sense };
    let list = vec![e(20, 0), e(10, 1), e(21, 0), e(22, 4)];
    let a = s.answered(&Hits { close: list.clone(), contains_pointer: list, click: Some(e(10, 1)), drag: None });
    assert_eq!((a.hovered, a.contains_pointer), (vec![10, 21, 22], vec![10, 20, 21, 22]));
    s.show("01 item 7: lists of 64 entries; the id sets leave ascending, without repeats, up to 66 long");
    let list = |from: u64| -> Vec<Hit> { (0..64).map(|k| Hit { id: from - k, sense: 0 }).collect() };
    let a = s.answered(&Hits { close: list(200), contains_pointer: list(200), click: Some(e(3, 1)), drag: Some(e(2, 2)) });
    assert_eq!((a.contains_pointer.len(), a.hovered.len()), (66, 66));
    s.show("DECISIONS: an interact before any pass is taken");
    assert_eq!(s.answered(&over(10, 3)).hovered, [10]);
}

fn slips(s: &mut Script) {
    s.show("Slips: using the new interact position for a gesture");
    s.taken(1.0, &moved(1.0, 1.0));
    s.taken(1.125, &feed(&[&moved(50.0, 60.0), &touch(7, 1, 0, 0.0, 0.0), &touch(7, 2, 0, 4.0, 0.0)]));
    assert_eq!(s.stream.panel.input.multi_touch().expect("a gesture").start_pos, Pos2::new(1.0, 1.0));
    s.show("Slips: clearing interact position on pointer gone");
    s.taken(1.0, &feed(&[&moved(3.0, 4.0), &event(6, 0, &[])]));
    assert_eq!((s.stream.panel.input.pointer.interact_pos(), s.stream.panel.input.pointer.latest_pos()), (Some(Pos2::new(3.0, 4.0)), None));
    s.taken(1.125, &[]);
    assert_eq!(s.stream.panel.input.pointer.interact_pos(), None);
    s.show("Slips: removing a dragged widget's drag when the widget vanishes");
    let h = pressed_on(s, 2);
    s.answered(&h);
    s.call(CLEAR, &[]);
    s.taken(1.125, &moved(20.0, 1.0));
    let a = s.answered(&Hits::default());
    assert_eq!((a.dragged, a.drag_stopped), (10, 0));
    s.taken(1.25, &release(20.0, 1.0));
    assert_eq!(s.answered(&Hits::default()).drag_stopped, 10);
    s.show("Slips: testing Point smoothness before the axis swap");
    s.taken(1.0, &wheel(0, 1, 1, 4, 5.0, 5.0));
    assert_eq!(s.stream.panel.input.x_wheel().unprocessed_wheel_delta, Vec2::new(5.0, 0.0));
    s.taken(2.0, &wheel(0, 1, 1, 1, 9.0, -8.0));
    s.show("Slips: testing a click after the button is marked up");
    s.taken(1.0, &press(0.0, 0.0));
    s.taken(1.125, &release(0.0, 0.0));
    assert_eq!(s.clicks(), [1]);
}

/// One whole event of each kind.
fn kinds() -> [Vec<u32>; 12] {
    [
        event(1, 65 | 1 << 8, &[]),
        event(2, 31, &[]),
        moved(1.0, 2.0),
        event(4, 0, &[1.0, -2.0]),
        press(10.0, 20.0),
        event(6, 0, &[]),
        event(7, 0, &[1.25]),
        event(8, 0, &[0.5]),
        { let mut v = touch(7, 1, 0, 1.0, 2.0); v[0] |= 4; v.push(0.5f32.to_bits()); v },
        wheel(1, 1, 3, 2, 0.0, 3.0),
        event(11, 0, &[]),
        event(12, 0, &[]),
    ]
}

fn refused_feeds(s: &mut Script) {
    let names = ["key", "modifiers", "pointer moved", "relative motion", "button", "pointer gone", "zoom", "rotate", "touch", "wheel", "window focus", "any other"];
    for (e, name) in kinds().iter().zip(names) {
        s.show(&format!("The feed: kind {}, {name}", e[0] >> 28));
        s.taken(1.0, e);
        s.taken(1.125, &feed(&[e, e]));
    }
    s.show("Refusal 1: unknown kind (0, 13, 14, 15), after a good event");
    for kind in [0, 13, 14, 15] {
        s.refused(1.0, &feed(&[&moved(1.0, 2.0), &[kind << 28]]), 1, 3);
    }
    s.show("Refusal 1: unknown field (keys 145 and 255, buttons 5 to 7, unit 3)");
    for head in [1 << 28 | 145, 1 << 28 | 255, 5 << 28 | 5 << 5, 5 << 28 | 6 << 5, 5 << 28 | 7 << 5, 10 << 28 | 3 << 5] {
        s.refused(1.0, &[head, 0, 0], 1, 0);
    }
    s.show("Refusal 1: each stray bit of each kind");
    let used = [0x1FF, 0x1F, 0, 0, 0x1FF, 0, 0, 0, 7, 0x7FF, 1, 0];
    s.quiet = true;
    for (e, used) in kinds().iter().zip(used) {
        for bit in (0..28).filter(|b| used >> b & 1 == 0) {
            let mut e = e.clone();
            e[0] |= 1 << bit;
            s.refused(1.0, &e, 1, 0);
        }
    }
    s.quiet = false;
    s.refused(1.0, &[6 << 28 | 1], 1, 0);
    s.show("Refusal 1: each event cut short at each word");
    for e in kinds() {
        for keep in 1..e.len() {
            s.refused(1.0, &feed(&[&event(12, 0, &[]), &e[..keep]]), 1, 1);
        }
    }
    s.show("Refusal 2: each float of each event outside the domain: not a number, infinite, past the end by one unit in the last place");
    let past = |x: f32| f32::from_bits(x.to_bits() + 1);
    let floats: [(usize, &[usize], f32, f32); 8] = [(2, &[1, 2], 65_536.0, -65_536.0), (3, &[1, 2], 65_536.0, -65_536.0), (4, &[1, 2], 65_536.0, -65_536.0), (9, &[1, 2], 65_536.0, -65_536.0), (8, &[5, 6], 65_536.0, -65_536.0), (8, &[7], 1.0, 0.0), (6, &[1], 1024.0, f32::from_bits(1)), (7, &[1], 64.0, -64.0)];
    for (k, places, top, bottom) in floats {
        for place in places {
            for bad in [f32::NAN, f32::INFINITY, f32::NEG_INFINITY, past(top), if bottom == 0.0 { -f32::from_bits(1) } else if k == 6 { 0.0 } else { past(bottom) }] {
                let mut e = kinds()[k].clone();
                e[*place] = bad.to_bits();
                s.refused(1.0, &feed(&[&event(12, 0, &[]), &e]), 2, 1);
            }
            for good in [top, bottom] {
                let mut e = kinds()[k].clone();
                e[*place] = good.to_bits();
                let t = s.stream.panel.input.time;
                s.taken(t, &e);
            }
        }
    }
    s.show("Refusal 4: event 65, whole, malformed or cut short; 64 are taken");
    let many: Vec<u32> = (0..64).flat_map(|k| moved(k as f32, 0.0)).collect();
    s.taken(1.0, &many);
    for e in [&moved(1.0, 1.0)[..], &[0], &[3 << 28]] {
        s.refused(2.0, &feed(&[&many, e]), 4, 192);
    }
}

fn keys(s: &mut Script) {
    s.show("input_state: a key pressed again counts again; lifted, it is not down; focus lost clears keys and modifiers");
    let key = |k: u32, down: u32| event(1, k | down << 8, &[]);
    s.taken(1.0, &feed(&[&key(65, 1), &key(65, 1), &key(144, 1), &key(0, 1), &key(0, 0), &event(2, 21, &[])]));
    assert_eq!((s.stream.panel.input.num_presses(crate::Key(65)), s.stream.panel.input.key_down(crate::Key(0))), (2, false));
    s.taken(1.125, &event(11, 1, &[]));
    assert!(s.stream.panel.input.key_down(crate::Key(144)));
    s.taken(1.25, &event(11, 0, &[]));
    assert!(s.stream.panel.input.keys_down.is_empty() && s.stream.panel.input.modifiers.is_none());
    s.show("input_state: zoom factors multiply, radians add");
    s.taken(1.0, &feed(&[&event(7, 0, &[1.5]), &event(8, 0, &[0.25]), &event(7, 0, &[3.0]), &event(8, 0, &[-0.75])]));
    assert_eq!((s.stream.panel.zoom().0, s.stream.panel.rotation()), (4.5, Rotation::Radians(-0.5)));
}

fn refused_numbers(s: &mut Script) {
    s.show("Refusal 2, index 0: each of a pass's own numbers, past each end; each end itself is taken");
    let f = [("predicted dt", 1.0f32), ("smoothing factor", 1.0), ("pixels per point", 1024.0), ("line speed", 65_536.0), ("zoom speed", 1.0), ("click distance", 65_536.0)];
    for (k, (_, top)) in f.iter().enumerate() {
        let set = |s: &mut Script, v: f32| {
            s.p = Default::default();
            *[&mut s.p.predicted_dt, &mut s.p.smooth, &mut s.p.pixels_per_point, &mut s.p.options.line_scroll_speed, &mut s.p.options.scroll_zoom_speed, &mut s.p.options.max_click_dist][k] = v;
        };
        for bad in [f32::from_bits(top.to_bits() + 1), -f32::from_bits(1), f32::NAN, f32::INFINITY] {
            set(s, bad);
            s.refused(1.0, &[], 2, 0);
        }
        for good in [*top, 0.0, -0.0] {
            set(s, good);
            s.taken(1.0, &[]);
        }
    }
    for bad in [-5e-324, f64::NAN, f64::INFINITY, crate::aimed::nudge(3600.0, 1)] {
        s.p = Default::default();
        s.p.options.max_click_duration = bad;
        s.refused(1.0, &[], 2, 0);
        s.p = Default::default();
        s.p.options.max_double_click_delay = bad;
        s.refused(1.0, &[], 2, 0);
    }
    s.p = Default::default();
    s.p.options.max_click_duration = 3600.0;
    s.p.options.max_double_click_delay = 3600.0;
    s.taken(1.0, &[]);
    for edge in 0..4 {
        let mut v = [1.0f32, 2.0, 3.0, 4.0];
        v[edge] = 65_536.008;
        s.p.screen_rect = Some(Rect::from_min_max(Pos2::new(v[0], v[1]), Pos2::new(v[2], v[3])));
        s.refused(1.0, &[], 2, 0);
    }
    s.show("Refusal 2: times outside 0 to 4,294,967,296 s, given or absent");
    let end = 4_294_967_296.0;
    for bad in [-1.0, -5e-324, f64::NAN, f64::INFINITY, crate::aimed::nudge(end, 1)] {
        s.refused(bad, &[], 2, 0);
    }
    s.taken(-0.0, &[]);
    s.taken(end, &[]);
    s.p.time = None;
    s.p.predicted_dt = 1.0;
    let w = words::write_pass(&s.p, &[]);
    assert_eq!(s.call(PASS, &w), (2, 0));
    s.p.predicted_dt = 0.0;
    let w = words::write_pass(&s.p, &[]);
    assert_eq!(s.call(PASS, &w), (0, 0));
    s.show("The domain: an absent time is the old time plus predicted dt");
    s.taken(5.0, &[]);
    s.p.time = None;
    let w = words::write_pass(&s.p, &press(0.0, 0.0));
    assert_eq!(s.call(PASS, &w), (0, 0));
    assert_eq!(s.stream.panel.input.time, 5.015625);
    s.show("Refusal 3: given time below the state's");
    s.taken(5.0, &[]);
    s.refused(crate::aimed::nudge(5.0, -1), &press(0.0, 0.0), 3, 0);
    s.taken(5.0, &[]);
}

fn refused_touches(s: &mut Script) {
    s.show("Refusal 5: a fifth device, whatever the phase");
    s.taken(1.0, &feed(&[&touch(1, 1, 0, 0.0, 0.0), &touch(2, 1, 1, 0.0, 0.0), &touch(3, 1, 2, 0.0, 0.0), &touch(u64::MAX, 1, 3, 0.0, 0.0)]));
    for phase in 0..4 {
        s.refused(1.125, &feed(&[&moved(1.0, 1.0), &touch(4, 1, phase, 0.0, 0.0)]), 5, 3);
    }
    s.taken(1.25, &touch(3, 1, 0, 0.0, 0.0));
    s.show("Refusal 5: Start of an eleventh touch; an ended one frees its place, a held id is replaced");
    let ten: Vec<u32> = (0..10).flat_map(|k| touch(7, k, 0, k as f32, 0.0)).collect();
    s.refused(1.0, &feed(&[&ten, &touch(7, 10, 0, 0.0, 0.0)]), 5, 70);
    s.taken(1.0, &ten);
    s.refused(1.125, &touch(7, 10, 0, 0.0, 0.0), 5, 0);
    s.taken(1.125, &touch(7, 10, 1, 0.0, 0.0));
    s.taken(1.25, &touch(7, 3, 0, 50.0, 50.0));
    s.taken(1.375, &feed(&[&touch(7, 4, 2, 0.0, 0.0), &touch(7, 10, 0, 9.0, 9.0)]));
    s.refused(1.5, &touch(7, 4, 0, 0.0, 0.0), 5, 0);
    s.taken(1.5, &feed(&[&touch(7, 10, 3, 0.0, 0.0), &touch(7, 4, 0, 9.0, 9.0)]));
}

fn refused_inserts(s: &mut Script) {
    s.show("Refusal 1, insert: layer order 5; sense bits that sense.rs doesn't name");
    assert_eq!(s.insert(&Widget { order: 5, ..widget(10, 1) }, false, 1), (1, 0));
    for sense in [8, 256, 1 << 31] {
        assert_eq!(s.insert(&widget(10, sense), false, 1), (1, 0));
    }
    s.show("Refusal 2, insert: each edge of both rectangles");
    for edge in 0..8 {
        for bad in [f32::NAN, f32::INFINITY, -65_536.008] {
            let mut w = words::write_insert(&widget(10, 1), false, 1);
            w[7 + edge] = bad.to_bits();
            assert_eq!(s.call(INSERT, &w), (2, 0));
        }
    }
    s.show("Refusal 6: new widget at 1,024; a known one is taken");
    s.quiet = true;
    for id in 1..=1024 {
        assert_eq!(s.insert(&Widget { layer: 5 + id % 2, ..widget(id, 1) }, false, 1024), (0, 0));
    }
    assert_eq!(s.insert(&widget(1025, 1), false, 1024), (6, 0));
    assert_eq!(s.insert(&Widget { layer: 6, ..widget(7, 2) }, true, 1024), (0, 0));
    s.quiet = false;
    assert_eq!(s.insert(&Widget { layer: 9, ..widget(1026, 1) }, false, 1024), (6, 0));
    s.show("Refusal 6: new layer at 32; a new widget on a known layer is taken");
    s.quiet = true;
    for k in 0..32 {
        assert_eq!(s.insert(&Widget { order: (k % 5) as u32, layer: 100 + k / 5, ..widget(k + 1, 1) }, false, 1), (0, 0));
    }
    s.quiet = false;
    assert_eq!(s.insert(&Widget { layer: 200, ..widget(40, 1) }, false, 1), (6, 0));
    assert_eq!(s.insert(&Widget { order: 0, layer: 100, ..widget(40, 1) }, false, 2), (0, 0));
    s.show("Refusal 7: known id on another layer, by the layer's id and by its order");
    s.insert(&widget(10, 1), false, 1);
    assert_eq!(s.insert(&Widget { layer: 6, ..widget(10, 1) }, false, 1), (7, 0));
    assert_eq!(s.insert(&Widget { order: 2, ..widget(10, 1) }, true, 1), (7, 0));
    s.show("Refusal 8, insert: a lent slice too short, for a new id and for a known one");
    assert_eq!(s.insert(&widget(10, 1), false, 0), (8, 0));
    s.insert(&widget(10, 1), false, 1);
    assert_eq!(s.insert(&widget(11, 1), false, 1), (8, 0));
    s.insert(&widget(11, 1), false, 2);
    assert_eq!(s.insert(&widget(10, 1), true, 1), (8, 0));
    assert_eq!(s.insert(&widget(10, 1), true, 2), (0, 0));
    s.show("Refusal 9, insert: an id of 0: the widget's, its parent's, its layer's");
    for w in [widget(0, 1), Widget { parent: 0, ..widget(10, 1) }, Widget { layer: 0, ..widget(10, 1) }] {
        assert_eq!(s.insert(&w, false, 1), (9, 0));
    }
}

/// The four lists of hits with one entry at a place.
fn with(list: usize, place: usize, e: Hit) -> Hits {
    let mut h = Hits::default();
    let good = Hit { id: 10, sense: 0 };
    match list {
        0 => h.close = vec![good; place].into_iter().chain([e]).collect(),
        1 => h.contains_pointer = vec![good; place].into_iter().chain([e]).collect(),
        2 => h.click = Some(e),
        _ => h.drag = Some(e),
    }
    h
}

fn refused_interacts(s: &mut Script) {
    s.show("Refusal 1, interact: a sense bit that sense.rs doesn't name, in each list");
    for (list, place) in [(0, 0), (0, 63), (1, 5), (2, 0), (3, 0)] {
        assert_eq!(s.interact(&with(list, place, Hit { id: 10, sense: 8 })), (1, place as u32));
    }
    s.show("Refusal 4, interact: hit entry 65 of close and of contains_pointer");
    for list in [0, 1] {
        assert_eq!(s.interact(&with(list, 64, Hit { id: 0, sense: 8 })), (4, 64));
        assert_eq!(s.interact(&with(list, 63, Hit { id: 11, sense: 0 })), (0, 0));
    }
    s.show("Refusal 8, interact: an id buffer under 66 places");
    for (a, b) in [(65, 66), (66, 65), (0, 0)] {
        assert_eq!(s.call(INTERACT, &words::write_interact(a, b, &over(10, 1))), (8, 0));
    }
    assert_eq!(s.call(INTERACT, &words::write_interact(66, 66, &over(10, 1))), (0, 0));
    s.show("Refusal 9, interact: a hit's id of 0, in each list");
    for (list, place) in [(0, 0), (0, 63), (1, 5), (2, 0), (3, 0)] {
        assert_eq!(s.interact(&with(list, place, Hit { id: 0, sense: 1 })).0, 9);
    }
    s.show("Refusal 10: this call would start a drag with the tally at 4,294,967,295; the pressed drag starts once there is room");
    let h = pressed_on(s, 2);
    s.call(SET_TALLY, &[u32::MAX]);
    assert_eq!(s.interact(&h), (10, 0));
    assert_eq!(s.interact(&Hits::default()), (0, 0));
    s.taken(1.125, &feed(&[&release(1.0, 1.0), &press(1.0, 1.0)]));
    assert_eq!(s.interact(&h), (10, 0));
    s.call(SET_TALLY, &[u32::MAX - 1]);
    assert_eq!(s.answered(&h).tally, u32::MAX);
    s.taken(1.25, &release(1.0, 1.0));
    assert_eq!(s.answered(&h).drag_stopped, 10);
}

fn orders(s: &mut Script) {
    s.show("Order of a pass's refusals: 2 for its own numbers, 3, then event by event 4, 1, 2, 5");
    s.taken(5.0, &feed(&[&touch(1, 1, 0, 0.0, 0.0), &touch(2, 1, 0, 0.0, 0.0), &touch(3, 1, 0, 0.0, 0.0), &touch(4, 1, 0, 0.0, 0.0)]));
    let fifth = touch(5, 1, 0, 0.0, 0.0);
    let mut fifth_nan = fifth.clone();
    fifth_nan[5] = f32::NAN.to_bits();
    s.p.smooth = 2.0;
    s.refused(4.0, &[0], 2, 0);
    s.p.smooth = 0.5;
    s.refused(4.0, &[0], 3, 0);
    s.refused(5.0, &feed(&[&fifth_nan, &[0]]), 2, 0);
    s.refused(5.0, &feed(&[&fifth, &moved(f32::NAN, 0.0)]), 5, 0);
    s.refused(5.0, &[5 << 28 | 7 << 5, f32::NAN.to_bits(), 0], 1, 0);
    s.refused(5.0, &feed(&[&vec![12 << 28; 64], &[0]]), 4, 64);
    s.show("Order of an insert's refusals: 1, 9, 2, 7, 6, 8");
    s.insert(&widget(10, 1), false, 1);
    let mut w = Widget { order: 5, id: 0, ..widget(10, 1) };
    w.rect.min.x = f32::NAN;
    assert_eq!(s.insert(&w, false, 0).0, 1);
    w.order = 2;
    assert_eq!(s.insert(&w, false, 0).0, 9);
    w.id = 10;
    assert_eq!(s.insert(&w, false, 0).0, 2);
    w.rect.min.x = 0.0;
    assert_eq!(s.insert(&w, false, 0).0, 7);
    w.order = 1;
    assert_eq!(s.insert(&w, false, 0).0, 8);
    s.quiet = true;
    for k in 1..32 {
        s.insert(&Widget { order: (k % 5) as u32, layer: 100 + k / 5, ..widget(k + 100, 1) }, false, 1);
    }
    s.quiet = false;
    assert_eq!(s.insert(&Widget { layer: 300, ..widget(400, 1) }, false, 0).0, 6);
    s.show("Order of an interact's refusals: 8, then by list close, contains_pointer, click, drag: 4, 1, 9 by entry; last 10");
    let h = pressed_on(s, 2);
    s.call(SET_TALLY, &[u32::MAX]);
    let (nine, one) = (Hit { id: 0, sense: 1 }, Hit { id: 9, sense: 8 });
    let bad = Hits { close: vec![nine, one], contains_pointer: vec![one], click: Some(one), drag: h.drag };
    assert_eq!(s.call(INTERACT, &words::write_interact(65, 66, &bad)), (8, 0));
    assert_eq!(s.interact(&bad), (9, 0));
    assert_eq!(s.interact(&Hits { close: vec![one, nine], ..bad.clone() }), (1, 0));
    assert_eq!(s.interact(&Hits { close: vec![], ..bad.clone() }), (1, 0));
    assert_eq!(s.interact(&Hits { close: vec![], contains_pointer: vec![], click: Some(nine), ..bad.clone() }), (9, 0));
    assert_eq!(s.interact(&Hits { drag: Some(Hit { id: 0, sense: 8 }), ..h.clone() }), (1, 0));
    assert_eq!(s.interact(&h), (10, 0));
}

fn malformed(s: &mut Script) {
    s.show("FORMAT.md: records that don't follow the form are answered 255, and the state stays");
    s.taken(1.0, &press(1.0, 1.0));
    for (call, n) in [(0, 1), (1, 0), (1, 17), (2, 0), (2, 17), (2, 19), (2, 34), (3, 1), (4, 0), (4, 4), (4, 6), (5, 1), (6, 1), (8, 0), (8, 2), (9, 0), (255, 3)] {
        assert_eq!(s.call(call, &vec![0; n]).0, 255, "call {call} of {n} words");
    }
    for counts in [[1, 0, 0], [0, 1, 0], [0, 0, 1], [0, 0, 3], [u32::MAX, 1, 0], [0x5555_5556, 0x5555_5556, 0]] {
        assert_eq!(s.call(4, &[66, 66, counts[0], counts[1], counts[2]]).0, 255);
    }
}

/// RESTED answers so.
fn rests(s: &mut Script, seconds: Option<f32>) {
    assert_eq!(s.record(RESTED, &[]), (0, 0));
    assert_eq!(s.stream.panel.rested(), seconds, "{:?}", s.shown.last());
}

fn rested(s: &mut Script) {
    s.show("A.4: none on a fresh panel, and after passes without a movement");
    rests(s, None);
    s.taken(1.0, &[]);
    rests(s, None);
    s.show("A.4: a move at 1.0, empty passes at 1.5 and 2.0: 0, 0.5, 1; a refused pass leaves it");
    for (time, feed, seconds) in [(1.0, moved(3.0, 4.0), 0.0), (1.5, Vec::new(), 0.5), (2.0, Vec::new(), 1.0)] {
        s.taken(time, &feed);
        rests(s, Some(seconds));
    }
    s.refused(1.75, &moved(5.0, 5.0), 3, 0);
    rests(s, Some(1.0));
    s.show("A.4: a move to the same place is a movement");
    s.taken(1.0, &moved(3.0, 4.0));
    s.taken(2.0, &moved(3.0, 4.0));
    rests(s, Some(0.0));
    s.show("A.4: relative motion alone is none; touches, the wheel and keys are none");
    for feed in [event(4, 0, &[5.0, 5.0]), touch(7, 1, 0, 3.0, 4.0), wheel(0, 1, 1, 0, 0.0, 5.0), event(1, 1 << 8 | 3, &[])] {
        s.taken(1.0, &feed);
        rests(s, None);
    }
    for (name, button, seconds) in [("a press clears the history: no movement", press(30.0, 4.0), 0.0625), ("a release gives a velocity: 0", release(30.0, 4.0), 0.0)] {
        s.show(&format!("A.4: a button event at another place, after three samples: {name}"));
        for time in [1.0, 1.03125] {
            s.taken(time, &moved(3.0, 4.0));
        }
        s.taken(1.0625, &[]);
        rests(s, Some(0.03125));
        s.taken(1.09375, &button);
        assert_eq!(s.stream.panel.input.pointer.is_moving(), seconds == 0.0);
        rests(s, Some(seconds));
    }
    s.show("A.4: moves at 1.0, 1.03125, 1.0625, then nothing: 0 as long as the velocity lives, then it grows");
    for k in 0..3u8 {
        s.taken(1.0 + f64::from(k) / 32.0, &moved(3.0 + 4.0 * f32::from(k), 4.0));
        rests(s, Some(0.0));
    }
    s.taken(1.09375, &[]);
    assert!(s.stream.panel.input.pointer.is_moving());
    rests(s, Some(0.0));
    s.taken(2.0, &[]);
    rests(s, Some(0.90625));
    s.show("A.4: pointer gone is no movement; a velocity in its pass still is one");
    s.taken(1.0, &moved(3.0, 4.0));
    s.taken(2.0, &event(6, 0, &[]));
    rests(s, Some(1.0));
    for k in 0..3u8 {
        s.taken(3.0 + f64::from(k) / 32.0, &moved(3.0 + 4.0 * f32::from(k), 4.0));
    }
    s.taken(3.09375, &event(6, 0, &[]));
    assert!(s.stream.panel.input.pointer.is_moving());
    rests(s, Some(0.0));
    s.show("A.4: the difference is taken in f64 and then narrowed: a move at 16,777,217 s, a second later 1");
    s.taken(16_777_217.0, &moved(3.0, 4.0));
    s.taken(16_777_218.0, &[]);
    rests(s, Some(1.0));
    s.show("FORMAT.md: RESTED with a word is answered 255");
    assert_eq!(s.record(RESTED, &[0]).0, 255);
}

/// Between a press and what is asked of the panel then: an exponent leaves it alone.
fn exponents(s: &mut Script) {
    for (name, exponents) in exponential::edges() {
        s.show(&format!("02 A.5: {name}"));
        s.taken(1.0, &press(1.0, 1.0));
        for e in exponents {
            let number = if exponential::taken(e) { 0 } else { 13 };
            assert_eq!(s.record(EXP, &[e.to_bits()]), (number, 0));
        }
        s.record(ASK, &[]);
        s.record(DUMP, &[]);
    }
}

/// A button's press or release at (0, 0).
fn set(button: u32, pressed: bool) -> Vec<u32> {
    event(5, button << 5 | u32::from(pressed) << 8, &[0.0, 0.0])
}

/// A pass after which a button is down or none, and the counts of its clicks.
fn down(s: &mut Script, time: f64, feed: &[u32], any: bool, clicks: &[u32]) {
    s.taken(time, feed);
    assert_eq!(s.stream.panel.input.pointer.any_down(), any, "{:?}", s.shown.last());
    assert_eq!(s.clicks(), clicks, "{:?}", s.shown.last());
}

fn buttons(s: &mut Script) {
    s.show("A.7: presses of 0, 0, 1, releases of 0, 0, 2, 1: a button is down until the last; then a release is no click");
    for (time, button) in [(1.0, 0), (1.0625, 0), (1.125, 1)] {
        down(s, time, &set(button, true), true, &[]);
    }
    for (time, button, any, count) in [(1.1875, 0, true, 1), (1.25, 0, true, 2), (1.3125, 2, true, 3), (1.375, 1, false, 3), (1.4375, 1, false, 0)] {
        down(s, time, &set(button, false), any, &[count]);
    }
    s.show("A.7: the release of a button never pressed");
    down(s, 1.0, &set(4, false), false, &[0]);
    s.show("A.7: all five down, then a clearing pass");
    let five: Vec<u32> = (0..5).flat_map(|b| set(b, true)).collect();
    down(s, 1.0, &five, true, &[]);
    down(s, 2.0, &clearing_feed(&[], Pos2::new(0.0, 0.0)), false, &[0, 1, 2, 3, 3]);
    s.show("A.7: 64 presses of one button, and its release");
    down(s, 1.0, &set(2, true).repeat(64), true, &[]);
    down(s, 1.0625, &set(2, false), false, &[1]);
}
