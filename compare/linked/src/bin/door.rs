//! door < words     the linked library's side of bench/door.py: the requests of crates/bench_calls, asked through the package from Rust.
use fivvarul::{Hit, Hits, IdSet, LayerId, Panel, PointerButton, RawInput, Rect, WidgetRect, pos2};
use std::hint::black_box;
use std::io::Read;

fn mix(h: u64, w: u64) -> u64 {
    (h.rotate_left(5) ^ w).wrapping_add(0x9e37_79b9_7f4a_7c15)
}

fn id_of(w: u32) -> u64 {
    u64::from(w) * 0x1_0000_0001
}

fn asked(i: &Panel) -> u64 {
    let p = i.pointer();
    let b = PointerButton::Primary;
    [
        p.any_pressed(),
        p.any_released(),
        p.any_click(),
        p.any_down(),
        p.button_pressed(b),
        p.button_released(b),
        p.button_clicked(b),
        p.button_double_clicked(b),
        p.button_triple_clicked(b),
        p.button_down(b),
        p.could_any_button_be_click(),
        p.is_decidedly_dragging(),
        p.is_long_press(),
        p.press_origin().is_some(),
        p.press_start_time().is_some(),
        p.time_since_last_click() < 0.3,
        p.has_pointer(),
        p.is_still(),
        p.is_moving(),
        p.latest_pos().is_some(),
        p.interact_pos().is_some(),
        p.total_drag_delta().is_some(),
        p.delta().x > 0.5,
        p.velocity().x > 0.5,
        i.key_down(20),
        i.key_pressed(20),
        i.is_scrolling(),
        i.time_since_last_scroll() < 0.3,
        i.any_touches(),
        i.multi_touch().is_some(),
    ]
    .iter()
    .map(|b| u64::from(*b))
    .sum()
}

fn passes(n: u32, feed: &[u32], ask: bool) -> u64 {
    let input = RawInput { requested_repaint_last_pass: true, predicted_dt: 1.0 / 64.0, smoothing_factor: 0.5, ..RawInput::default() };
    let mut panel = Box::new(Panel::new());
    let mut answers = 0;
    for _ in 0..n {
        panel.begin_pass_words(black_box(&input), black_box(feed)).expect("taken");
        if ask {
            answers += asked(black_box(&panel));
        }
    }
    mix(answers, panel.time().to_bits())
}

fn widget(i: u32, layers: u32) -> WidgetRect {
    let rect = Rect::from_min_max(pos2(10.0, 20.0), pos2(30.0, 40.0));
    let layer_id = LayerId { order: 1, id: (100 + i % layers).into() };
    WidgetRect { id: id_of((i + 1).wrapping_mul(0x9e37_79b1)), parent_id: 7, layer_id, rect, interact_rect: rect, sense: 3, enabled: true, visible: true }
}

fn round(panel: &mut Panel, slices: &mut [Vec<WidgetRect>], widgets: u32, layers: u32, move_to_top: bool) {
    for i in 0..widgets {
        panel.insert(&mut slices[(i % layers) as usize], widget(i, layers), move_to_top).expect("taken");
    }
}

fn inserts(n: u32, widgets: u32, layers: u32, mode: u32) -> u64 {
    let mut panel = Box::new(Panel::new());
    let mut slices = vec![vec![WidgetRect::default(); widgets as usize]; layers as usize];
    round(&mut panel, &mut slices, widgets, layers, false);
    for _ in 0..n / widgets {
        if mode == 0 {
            panel.clear_widgets();
        }
        if mode < 3 {
            round(black_box(&mut panel), black_box(&mut slices), widgets, layers, mode == 2);
        }
    }
    (0..widgets).fold(0, |h, i| {
        let (_, at) = panel.order(widget(i, layers).id).expect("known");
        mix(mix(h, at as u64), slices[(i % layers) as usize][at].id)
    })
}

fn interacts(n: u32, words: &[u32], click: u32, drag: u32) -> u64 {
    let list: Vec<Hit> = words.chunks(2).map(|w| Hit { id: id_of(w[0]), sense: w[1].into() }).collect();
    let one = |n: u32| (n != 0).then(|| list[n as usize - 1]);
    let (click, drag) = (one(click), one(drag));
    let (mut close, mut within) = (list.clone(), list.clone());
    let mut panel = Box::new(Panel::new());
    panel.begin_pass_words(&RawInput::default(), &[0x3000_0000, 10f32.to_bits(), 20f32.to_bits()]).expect("taken");
    let (mut hovered, mut contains) = ([0; IdSet::PLACES], [0; IdSet::PLACES]);
    let (mut sum, mut counts) = (0, (0, 0));
    for left in core::iter::once(0).chain((1..=n).rev()) {
        close[0].sense = (left % 2).into();
        within[0].sense = (left % 2).into();
        let hits = Hits { close: black_box(&close), contains_pointer: black_box(&within), click, drag };
        let s = panel.interact_into(&hits, &mut hovered, &mut contains).expect("taken");
        counts = (s.hovered, s.contains_pointer);
        sum = mix(mix(sum, s.hovered as u64), s.contains_pointer as u64);
    }
    let at = |ids: &[u64], n: usize| ids.get(n).copied().unwrap_or(0);
    mix(mix(sum, at(&hovered[..counts.0], 1)), at(&contains[..counts.1], 2))
}

fn main() {
    let mut bytes = Vec::new();
    std::io::stdin().read_to_end(&mut bytes).expect("readable");
    let words: Vec<u32> = bytes.chunks_exact(4).map(|c| u32::from_le_bytes([c[0], c[1], c[2], c[3]])).collect();
    let (n, a, b, c) = (words[1], words[2], words[3], words[4]);
    let given = &words[6..6 + words[5] as usize];
    let sum = match words[0] {
        0 => passes(n, given, false),
        1 => inserts(n, a, b, c),
        2 => interacts(n, given, a, b),
        _ => passes(n, given, true),
    };
    println!("{sum}");
}
