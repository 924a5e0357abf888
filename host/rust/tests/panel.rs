//! The panel through the linked library: clicks, drags, a lost release and the clearing pass, refusals that change nothing.
use fivvarul::{
    pos2, Event, Feed, Hit, Hits, InteractionSnapshot, LayerId, Modifiers, Panel, PointerButton, PointerEvent, Pos2, RawInput, Recorder, Rect, Sense,
    TouchPhase, WidgetRect,
};

const SCREEN: Rect = Rect::from_min_max(pos2(0.0, 0.0), pos2(800.0, 480.0));

fn at(time: f64, events: &[Event]) -> RawInput<'_> {
    RawInput { time: Some(time), screen_rect: Some(SCREEN), events, ..RawInput::default() }
}

fn button(pos: Pos2, pressed: bool) -> Event {
    Event::PointerButton { pos, button: PointerButton::Primary, pressed, modifiers: Modifiers::NONE }
}

fn touch(device_id: u64, id: u64, phase: TouchPhase, x: f32) -> Event {
    Event::Touch { device_id, id, phase, pos: pos2(x, 9.0), force: None }
}

fn widget(id: u64, sense: u32) -> WidgetRect {
    let rect = Rect::from_min_max(pos2(0.0, 0.0), pos2(100.0, 40.0));
    WidgetRect { id, parent_id: 1, layer_id: LayerId { order: 1, id: 1 }, rect, interact_rect: rect, sense, enabled: true, visible: true }
}

/// Every answer of a panel that an `Eq` can hold, as text.
fn answers(p: &Panel) -> String {
    let q = p.pointer();
    let touches = [p.any_touches(), p.has_touch_screen(), p.is_long_touch(), p.any_touches_of(7)];
    let pointer = (q.delta(), q.motion(), q.velocity(), q.direction(), q.latest_pos(), q.interact_pos(), q.press_origin(), q.press_start_time());
    let states = (q.any_down(), q.any_pressed(), q.any_released(), q.any_click(), q.is_decidedly_dragging(), q.could_any_button_be_click(), q.is_long_press());
    let clock = (p.time(), p.unstable_dt(), p.stable_dt(), p.predicted_dt(), p.focused(), p.viewport_rect(), p.modifiers(), p.wants_repaint_after());
    let wheel = (p.smooth_scroll_delta(), p.is_scrolling(), p.scroll_source(), p.zoom_delta(), p.zoom_delta_2d(), p.rotation_delta(), p.translation_delta());
    let events: Vec<PointerEvent> = q.events().collect();
    let held = (p.dragged(), p.potential_click_id(), p.potential_drag_id(), p.tally());
    format!("{touches:?} {pointer:?} {states:?} {clock:?} {wheel:?} {events:?} {held:?} {:?} {:?}", p.multi_touch(), p.info(7))
}

#[test]
fn press_drag_release() {
    let mut panel = Panel::new();
    assert_eq!(panel.pointer().latest_pos(), None);
    panel.begin_pass(&at(1.0, &[button(pos2(10.0, 20.0), true)])).unwrap();
    assert!(panel.pointer().any_down() && panel.pointer().any_pressed() && panel.pointer().could_any_button_be_click());
    panel.begin_pass(&at(1.1, &[Event::PointerMoved(pos2(60.0, 20.0))])).unwrap();
    assert!(panel.pointer().is_decidedly_dragging());
    assert_eq!(panel.pointer().interact_pos(), Some(pos2(60.0, 20.0)));
    panel.begin_pass(&at(1.2, &[button(pos2(60.0, 20.0), false)])).unwrap();
    assert!(panel.pointer().any_released() && !panel.pointer().any_click() && !panel.pointer().any_down());
    assert_eq!(panel.time(), 1.2);
}

#[test]
fn a_click_has_its_event() {
    let mut panel = Panel::new();
    panel.begin_pass(&at(1.0, &[button(pos2(10.0, 20.0), true)])).unwrap();
    panel.begin_pass(&at(1.1, &[button(pos2(11.0, 20.0), false)])).unwrap();
    assert!(panel.pointer().any_click() && panel.pointer().primary_clicked() && !panel.pointer().secondary_clicked());
    let events: Vec<PointerEvent> = panel.pointer().events().collect();
    let [PointerEvent::Released { click: Some(click), button: PointerButton::Primary }] = events[..] else { panic!("{events:?}") };
    assert_eq!((click.pos, click.count), (pos2(11.0, 20.0), 1));
    panel.begin_pass(&at(1.2, &[])).unwrap();
    assert!(!panel.pointer().any_click());
}

#[test]
fn a_lost_release_is_cleared() {
    let mut panel = Panel::new();
    panel.begin_pass(&at(1.0, &[button(pos2(10.0, 20.0), true)])).unwrap();
    panel.begin_pass(&at(1.1, &[Event::PointerMoved(pos2(60.0, 20.0))])).unwrap();
    panel.begin_pass(&at(9.0, &[])).unwrap();
    assert!(panel.pointer().any_down() && panel.pointer().is_decidedly_dragging());
    panel.begin_pass_words(&at(9.1, &[]), Feed::clearing(&[], pos2(0.0, 0.0)).words()).unwrap();
    assert!(!panel.pointer().any_down());
    assert_eq!(panel.pointer().latest_pos(), None);
    panel.begin_pass(&at(10.0, &[button(pos2(5.0, 5.0), true)])).unwrap();
    panel.begin_pass(&at(10.1, &[button(pos2(5.0, 5.0), false)])).unwrap();
    assert!(panel.pointer().any_click());
}

#[test]
fn two_panels_with_two_pasts_answer_alike() {
    let (mut a, mut b) = (Panel::new(), Panel::new());
    let start = [touch(7, 3, TouchPhase::Start, 5.0), button(pos2(5.0, 9.0), true)];
    for p in [&mut a, &mut b] {
        // both know the device, which is past and stays
        p.begin_pass(&at(0.5, &[touch(7, 3, TouchPhase::Start, 5.0), touch(7, 3, TouchPhase::End, 5.0)])).unwrap();
    }
    a.begin_pass(&at(1.0, &start)).unwrap();
    a.begin_pass(&at(1.5, &[touch(7, 3, TouchPhase::Move, 50.0), Event::PointerMoved(pos2(50.0, 9.0))])).unwrap();
    for p in [&mut a, &mut b] {
        p.begin_pass_words(&at(2.0, &[]), Feed::clearing(&[(7, 3)], pos2(1.0, 1.0)).words()).unwrap();
        p.interact(&Hits::default()).unwrap();
    }
    for (time, events) in
        [(3.0, vec![button(pos2(1.0, 1.0), true)]), (3.1, vec![Event::PointerMoved(pos2(40.0, 1.0))]), (3.2, vec![button(pos2(40.0, 1.0), false)])]
    {
        for p in [&mut a, &mut b] {
            p.begin_pass(&at(time, &events)).unwrap();
        }
        assert_eq!(answers(&a), answers(&b));
    }
}

#[test]
fn refusals_change_nothing() {
    let mut panel = Panel::new();
    panel.begin_pass(&at(1.0, &[button(pos2(10.0, 20.0), true)])).unwrap();
    let before = answers(&panel);
    let mut refused = |input: &RawInput, feed: &[u32]| {
        let r = panel.begin_pass_words(input, feed).unwrap_err();
        (r.number(), r.index())
    };
    assert_eq!(refused(&at(2.0, &[]), &[0x5000_0100, 0x4120_0000]), (1, 0));
    assert_eq!(refused(&at(2.0, &[]), &[0x6000_0000, 0x3000_0000, f32::NAN.to_bits(), 0]), (2, 1));
    assert_eq!(refused(&at(0.5, &[]), &[]), (3, 0));
    assert_eq!(refused(&at(2.0, &[]), Feed::of(&[Event::Other; 70]).words()), (4, 64));
    let fingers: Vec<Event> = (0..11).map(|id| touch(1, id, TouchPhase::Start, 1.0)).collect();
    assert_eq!(refused(&at(2.0, &[]), Feed::of(&fingers).words()), (5, 70));
    assert_eq!(before, answers(&panel));
    panel.begin_pass(&at(2.0, &fingers[..10])).unwrap();
    let mut again = panel.clone();
    again.begin_pass(&at(2.1, &[])).unwrap();
    assert_eq!(again.begin_pass(&at(2.2, &fingers[10..])).unwrap_err().to_string(), "refused, 5: a fifth device, or the start of an eleventh touch, at 0");
    assert_eq!((panel.time(), again.time()), (2.0, 2.1));
}

#[test]
fn keys() {
    let mut panel = Panel::new();
    panel.begin_pass(&at(1.0, &[Event::Key { key: 4, pressed: true }, Event::Key { key: 144, pressed: true }])).unwrap();
    assert!(panel.key_down(4) && panel.key_down(144) && !panel.key_down(5) && !panel.key_down(1000));
    assert_eq!((panel.num_presses(4), panel.key_pressed(5)), (1, false));
    panel.begin_pass(&at(1.1, &[Event::Key { key: 4, pressed: false }, Event::ModifiersChanged(Modifiers::SHIFT)])).unwrap();
    assert!(!panel.key_down(4) && panel.key_down(144));
    assert_eq!(panel.modifiers(), Modifiers::SHIFT);
}

#[test]
fn widgets_and_their_order() {
    let mut panel = Panel::new();
    let mut layer = [WidgetRect::default(); 4];
    for id in [11, 12, 13] {
        panel.insert(&mut layer, widget(id, Sense::click()), false).unwrap();
    }
    let top = panel.insert(&mut layer, widget(11, Sense::drag()), true).unwrap();
    assert_eq!((top.position, top.count), (2, 3));
    assert_eq!(layer.map(|w| w.id), [12, 13, 11, 0]);
    assert_eq!(panel.get(11).unwrap().sense, Sense::click_and_drag());
    assert_eq!(panel.order(12), Some((LayerId { order: 1, id: 1 }, 0)));
    assert_eq!(panel.layer_ids().count(), 1);
    assert_eq!((panel.layer_count(widget(1, 0).layer_id), panel.contains(14)), (3, false));

    // each refusal leaves the slice and the set
    let kept = layer;
    let other = WidgetRect { layer_id: LayerId { order: 2, id: 1 }, ..widget(11, 0) };
    let far = WidgetRect { rect: Rect::from_min_max(pos2(0.0, 0.0), pos2(f32::INFINITY, 0.0)), ..widget(14, 0) };
    for (w, places, number) in [(widget(14, 8), 4, 1), (widget(0, 0), 4, 9), (far, 4, 2), (other, 4, 7), (widget(14, 0), 3, 8)] {
        assert_eq!(panel.insert(&mut layer[..places], w, false).unwrap_err().number(), number);
        assert_eq!((layer, panel.layer_count(w.layer_id).min(3)), (kept, if number == 7 { 0 } else { 3 }));
    }
    panel.clear_widgets();
    assert!(!panel.contains(11) && panel.get(12).is_none());
}

#[test]
fn a_full_set() {
    let mut panel = Panel::new();
    let mut layer = vec![WidgetRect::default(); 1025];
    for id in 1..=1024 {
        panel.insert(&mut layer, widget(id, 0), false).unwrap();
    }
    assert_eq!(panel.insert(&mut layer, widget(1025, 0), false).unwrap_err().number(), 6);
    assert_eq!(panel.insert(&mut layer, widget(1, 0), true).unwrap().position, 1023);
    assert_eq!(panel.insert(&mut layer[..1023], widget(1, 0), false).unwrap_err().number(), 8);
}

fn drag(panel: &mut Panel) -> InteractionSnapshot {
    let hit = Hit { id: 11, sense: Sense::drag().into() };
    panel.interact(&Hits { close: &[hit], contains_pointer: &[hit], click: None, drag: Some(hit) }).unwrap()
}

#[test]
fn a_drag_starts_and_stops() {
    let mut panel = Panel::new();
    panel.insert(&mut [WidgetRect::default()], widget(11, Sense::drag()), false).unwrap();
    panel.begin_pass(&at(1.0, &[button(pos2(10.0, 20.0), true)])).unwrap();
    let s = drag(&mut panel);
    assert_eq!((s.drag_started, s.dragged, s.drag_stopped), (Some(11), Some(11), None));
    assert_eq!((&*s.hovered, panel.dragged(), panel.tally()), (&[11][..], Some(11), 1));
    panel.begin_pass(&at(1.1, &[button(pos2(10.0, 20.0), false)])).unwrap();
    let s = drag(&mut panel);
    assert_eq!((s.drag_started, s.dragged, s.drag_stopped), (None, None, Some(11)));
    assert_eq!((panel.dragged(), panel.tally()), (None, 1));
}

#[test]
fn hits_that_are_refused() {
    let mut panel = Panel::new();
    let hit = Hit { id: 1, sense: 0 };
    let (mut a, mut b) = ([5; 66], [6; 66]);
    let mut number = |hits: &Hits, n: usize, m: usize| {
        let r = panel.interact_into(hits, &mut a[..n], &mut b[..m]).unwrap_err();
        (r.number(), r.index())
    };
    assert_eq!(number(&Hits::default(), 65, 66), (8, 0));
    assert_eq!(number(&Hits::default(), 66, 65), (8, 0));
    assert_eq!(number(&Hits { close: &[hit; 65], ..Hits::default() }, 66, 66), (4, 64));
    assert_eq!(number(&Hits { contains_pointer: &[hit, Hit { id: 1, sense: 8 }], ..Hits::default() }, 66, 66), (1, 1));
    assert_eq!(number(&Hits { drag: Some(Hit::default()), ..Hits::default() }, 66, 66), (9, 0));
    assert_eq!((a, b), ([5; 66], [6; 66]));
    let taken = panel.interact_into(&Hits { contains_pointer: &[hit; 64], ..Hits::default() }, &mut a, &mut b).unwrap();
    assert_eq!((taken.contains_pointer, b[0], b[1]), (1, 1, 6));
}

#[test]
fn a_recorder_changes_nothing() {
    let mut words = Vec::new();
    let mut recorded = Recorder::new(|w: &[u32]| words.extend_from_slice(w));
    let mut panel = Panel::new();
    let mut layer = [WidgetRect::default(); 4];
    let mut same = layer;
    let events = [button(pos2(10.0, 20.0), true), Event::PointerMoved(pos2(12.0, 20.0))];
    let hit = Hit { id: 11, sense: Sense::drag().into() };
    let hits = Hits { close: &[hit], contains_pointer: &[hit], click: None, drag: Some(hit) };
    for id in [11, 12, 13] {
        if id == 13 {
            // what is lent is not what the last insertion left
            (layer[0].visible, same[0].visible) = (false, false);
        }
        assert_eq!(recorded.insert(&mut layer, widget(id, Sense::drag()), false), panel.insert(&mut same, widget(id, Sense::drag()), false));
    }
    assert_eq!(recorded.begin_pass(&at(1.0, &events)), panel.begin_pass(&at(1.0, &events)));
    assert_eq!(recorded.interact(&hits), panel.interact(&hits));
    recorded.clear_widgets();
    recorded.ask();
    let (after, _) = recorded.finish();
    assert_eq!(answers(&after), answers(&panel));
    // RESET, three INSERTs (the third with the two widgets lent), PASS, INTERACT, CLEAR_WIDGETS, ASK: each record as long as it says
    let mut calls = Vec::new();
    let mut i = 0;
    while i < words.len() {
        calls.push((words[i] >> 24, words[i] & 0xff_ffff));
        i += 1 + (words[i] & 0xff_ffff) as usize;
    }
    assert_eq!((i, calls), (words.len(), vec![(0, 0), (2, 18), (2, 18), (2, 52), (1, 24), (4, 14), (3, 0), (5, 0)]));
}
