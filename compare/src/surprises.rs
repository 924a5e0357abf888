//! More of the hand-written trace: what surprises in egui's answers, and whole ranges of what 01 names by one case.
use crate::Vec2;
use crate::maker;
use crate::script::*;
use crate::{LEVEL, Pos2, Rect};

pub fn surprises(s: &mut Script) {
    clicks(s);
    rims(s);
    places(s);
    directions(s);
    many_events(s);
    smoothness(s);
    timeouts(s);
    smoothing(s);
    pinches(s);
    glass(s);
    devices(s);
}

fn click(x: f32, y: f32) -> Vec<u32> {
    feed(&[&press(x, y), &release(x, y)])
}

fn clicks(s: &mut Script) {
    s.show("Surprise: pressed at (0,0), released at (60000,0), no move between: a click");
    s.taken(1.0, &press(0.0, 0.0));
    s.taken(1.125, &release(60_000.0, 0.0));
    assert_eq!(s.clicks(), [1]);
    s.show("Surprise: lone releases of three buttons in one pass: no click, then two");
    let up = |b: u32| event(5, b << 5, &[3.0, 4.0]);
    s.taken(1.0, &feed(&[&up(0), &up(1), &up(2)]));
    assert_eq!(s.clicks(), [0, 1, 2]);
    s.show("Surprise: counts 1, 1, 3: the second click is too far, the third is quick and near");
    for (t, x, n) in [(1.0, 0.0, 1), (1.25, 100.0, 1), (1.5, 100.0, 3)] {
        s.taken(t, &click(x, 0.0));
        assert_eq!(s.clicks(), [n]);
    }
}

/// Points at the rim of the circle, by distance and the bits of x and y: from A.3 on the first two are clicks, as they were not
/// by a length in f32; the third, one unit in the last place further than the second, is none by either.
fn rims(s: &mut Script) {
    let after = LEVEL >= 3;
    for (d, x, y, kept) in [
        (f32::from_bits(0x414d_e172), 0x4137_b7a7, 0x40b9_d8c9, after),
        (6.0, 0x3e04_0000, 0x40bf_f4a8, after),
        (6.0, 0x3e04_0000, 0x40bf_f4a9, false),
    ] {
        s.show(&format!("Rim: click distance {d}, a move by {x:08x}, {y:08x}: {}", if kept { "still a click" } else { "no click" }));
        s.p.options.max_click_dist = d;
        s.taken(1.0, &press(0.0, 0.0));
        s.taken(1.0625, &moved(f32::from_bits(x), f32::from_bits(y)));
        s.taken(1.125, &release(0.0, 0.0));
        assert_eq!(s.clicks(), [kept as u32]);
    }
    for (x, y, whole) in [(0x3b00_0000, 0x40ff_ffff, !after), (0x40d4_9d8a, 0x408e_95f3, after)] {
        s.show(&format!("Rim: a Point delta of {x:08x}, {y:08x} is {}", if whole { "smooth by itself" } else { "smoothed" }));
        s.taken(1.0, &wheel(0, 1, 1, 0, f32::from_bits(x), f32::from_bits(y)));
        assert_eq!(s.stream.panel.input.x_wheel().unprocessed_wheel_delta == Vec2::ZERO, whole);
    }
}

fn places(s: &mut Script) {
    let gone = event(6, 0, &[]);
    s.show("Surprise: the pointer gone and then moved in one pass: its place is known, its history is empty");
    s.taken(1.0, &moved(1.0, 1.0));
    s.taken(1.0625, &feed(&[&gone, &moved(5.0, 5.0)]));
    let p = &s.stream.panel.input.pointer;
    assert_eq!((p.latest_pos(), p.x_view().pos_history.len()), (Some(Pos2::new(5.0, 5.0)), 0));
    s.taken(1.125, &feed(&[&moved(6.0, 6.0), &gone]));
    assert_eq!(s.stream.panel.input.pointer.latest_pos(), None);
    s.taken(1.25, &[]);
}

/// The velocity's squares overflow or underflow; the duration is subnormal, or nothing as an f32.
fn directions(s: &mut Script) {
    let (mut infinite, mut zero) = (0, 0);
    for t in [-140, -149, -150, -130, -20].map(|k| 2.0f64.powi(k)).into_iter().chain([1e-6, 0.0]) {
        s.show(&format!("Surprise: direction where the velocity's squares overflow or underflow, samples {t:e} s apart"));
        for x in [65_536.0, 1e-20, 1e-30, f32::from_bits(1), 1.0] {
            s.record(crate::words::RESET, &[]);
            s.taken(0.0, &moved(0.0, 0.0));
            s.taken(t, &moved(x, -x));
            s.taken(t + t, &moved(0.0, x));
            let v = s.stream.panel.input.pointer.x_view().pos_history.velocity().unwrap_or_default();
            infinite += (v != Vec2::ZERO && !(v.x * v.x + v.y * v.y).is_finite()) as u32;
            zero += (v != Vec2::ZERO && v.x * v.x + v.y * v.y == 0.0) as u32;
            s.taken(t + t + 1.0 / 64.0, &feed(&[&moved(-x, x), &event(6, 0, &[])]));
            s.taken(t + t + 1.0 / 32.0, &[]);
        }
    }
    assert!(infinite > 0 && zero > 0, "{infinite} squares overflow, {zero} underflow");
}

fn many_events(s: &mut Script) {
    s.show("01: sixty-four moves, sixty-four button events, in one pass each");
    s.taken(1.0, &(0..64).flat_map(|i| moved(i as f32, i as f32)).collect::<Vec<_>>());
    let one = |i: u32| event(5, i % 32 | i % 5 << 5 | (i + 1) % 2 << 8, &[(i % 3) as f32, 0.0]);
    s.taken(1.0625, &(0..64).flat_map(one).collect::<Vec<_>>());
    s.taken(1.125, &[]);
}

fn smoothness(s: &mut Script) {
    for y in [8.0, f32::from_bits(8.0f32.to_bits() - 1), -8.0] {
        s.show(&format!("Surprise: a Point delta (0,{y}): smoothed from 8 on, whatever its sign"));
        s.taken(1.0, &wheel(0, 1, 1, 0, 0.0, y));
        assert_eq!(s.stream.panel.input.x_wheel().unprocessed_wheel_delta == Vec2::ZERO, y.abs() < 8.0);
        s.taken(1.0625, &[]);
        s.taken(1.125, &[]);
    }
    for (x, y) in [(5.0, 4.0), (6.0, -1.0), (-9.0, 4.0), (9.0, -4.0)] {
        s.show(&format!("Surprise: smoothness of ({x},{y}) after the axis swap, by each modifier"));
        for (k, flags) in [0, 4, 1, 5, 2, 16].into_iter().enumerate() {
            s.taken(10.0 * (k + 1) as f64, &wheel(0, 1, 1, flags, x, y));
            s.taken(10.0 * (k + 1) as f64 + 0.0625, &[]);
        }
    }
}

fn timeouts(s: &mut Script) {
    for wait in [1.0, 1.125, 0.125, 0.25, 0.15, 0.150_000_000_000_000_02] {
        s.show(&format!("Surprise: each source {wait} s after a Start and after a Move, with other modifiers then"));
        for source in 0..4 {
            s.record(crate::words::RESET, &[]);
            s.taken(1.0, &wheel(0, 0, source, 1, 0.0, 0.0));
            s.taken(1.0 + wait, &[]);
            s.taken(1.0 + wait, &wheel(0, 1, source, 4, 0.0, 3.0));
            s.taken(10.0, &wheel(1, 1, source, 1, 0.0, 1.0));
            s.taken(10.0 + wait, &wheel(1, 1, source, 4, 1.0, 0.0));
            s.taken(11.0 + wait, &[]);
        }
    }
}

fn smoothing(s: &mut Script) {
    s.show("Surprise: a Page of a rectangle upside down");
    s.p.screen_rect = Some(Rect::from_min_max(Pos2::new(0.0, 10.0), Pos2::new(100.0, -20.5)));
    s.taken(1.0, &wheel(2, 1, 1, 0, 0.5, 1.0));
    s.taken(1.0, &[]);
    s.taken(1.5, &wheel(2, 2, 1, 0, 1.0, 0.0));
    s.taken(1.5, &wheel(2, 3, 1, 0, 1.0, 0.0));
    for factor in [0.0, 1.0, 0.25, f32::from_bits(1)] {
        s.show(&format!("Surprise: smoothing by factor {factor:e}, to the last point"));
        s.p.smooth = factor;
        s.taken(1.0, &wheel(1, 1, 1, 0, 1.0, -2.0));
        for k in 0..12 {
            s.taken(1.0 + f64::from(k) / 64.0, &[]);
        }
    }
    s.show("Surprise: sixty-four Lines of 65,536 in one pass, and what is left of them 4 s later");
    s.taken(1.0, &(0..64).flat_map(|_| wheel(1, 1, 1, 0, 65_536.0, 65_536.0)).collect::<Vec<_>>());
    s.taken(1.0625, &[]);
    s.taken(5.0, &[]);
}

fn forced(device: u64, id: u64, phase: u32, x: f32, y: f32, force: f32) -> Vec<u32> {
    let mut v = Vec::new();
    maker::touch(&mut v, device, id, phase, Pos2::new(x, y), Some(force));
    v
}

fn pinches(s: &mut Script) {
    let more = f32::from_bits(3.0f32.to_bits() + 1);
    for (x, y) in [(3.0, 1.0), (more, 1.0), (1.0, 3.0), (1.0, more), (0.0, 0.0), (2.0, 2.0), (0.0, 1.0)] {
        s.show(&format!("Surprise: a pinch ({x},{y}) apart, with force, without and with it again"));
        s.taken(1.0, &feed(&[&moved(1.0, 2.0), &forced(7, 5, 0, 10.0, 10.0, 0.5), &forced(7, 4, 0, 10.0 + x, 10.0 + y, 1.0)]));
        s.taken(1.0625, &[]);
        s.taken(1.125, &touch(7, 4, 1, 10.0 + 2.0 * x, 10.0 + 2.0 * y));
        s.taken(1.1875, &forced(7, 4, 1, 10.0 + 2.0 * x, 10.0 + 2.0 * y, 0.25));
    }
}

fn glass(s: &mut Script) {
    s.show("Surprise: a gesture waits for a pointer, starts where it was, and outlives it by a pass");
    s.taken(1.0, &feed(&[&touch(1, 1, 0, 0.0, 0.0), &touch(1, 2, 0, 4.0, 4.0)]));
    s.taken(1.0625, &moved(5.0, 5.0));
    assert!(s.stream.panel.input.multi_touch().is_none());
    s.taken(1.125, &moved(6.0, 6.0));
    assert_eq!(s.stream.panel.input.multi_touch().expect("a gesture").start_pos, Pos2::new(5.0, 5.0));
    s.taken(1.1875, &event(6, 0, &[]));
    s.taken(1.25, &[]);
    s.show("Surprise: ten touches of one device, ids out of order; one replaced, others unheld, then lifted one by one");
    let d = (1 << 63) + 5;
    let id = |k: u64| (k << 33) + 3;
    s.taken(1.0, &moved(1.0, 2.0));
    s.taken(1.0625, &(0..10u16).flat_map(|i| forced(d, id(u64::from(i) * 7 % 10), 0, f32::from(i) * 3.5, 100.0 - f32::from(i * i), f32::from(i) / 16.0)).collect::<Vec<_>>());
    s.taken(1.125, &feed(&[&touch(d, id(0), 0, -5.0, -5.0), &touch(d, 4, 1, 9.0, 9.0), &touch(d, 4, 2, 9.0, 9.0), &touch(d, id(1), 3, 0.0, 0.0)]));
    for k in 0..9 {
        s.taken(1.25 + k as f64 / 64.0, &touch(d, id(k), 2, 0.0, 0.0));
    }
}

fn devices(s: &mut Script) {
    s.show("Surprise: four devices, out of order, known by any phase; the gesture is the first device's that has one");
    s.taken(1.0, &moved(1.0, 2.0));
    s.taken(1.0625, &feed(&[&touch(9, 1, 2, 0.0, 0.0), &touch(3, 1, 1, 0.0, 0.0), &touch(6, 1, 0, 1.0, 1.0), &touch(0, 1, 3, 0.0, 0.0), &touch(6, 0, 0, 5.0, 5.0)]));
    assert_eq!(s.stream.panel.input.x_touch_states().len(), 4);
    s.taken(1.125, &feed(&[&touch(3, 8, 0, 1.0, 2.0), &touch(3, 9, 0, 3.0, 5.0), &touch(9, 8, 0, 1.0, 2.0), &touch(9, 1, 0, 70.0, 5.0)]));
    s.taken(1.1875, &feed(&[&touch(3, 9, 1, 4.0, 5.0), &touch(9, 1, 1, 75.0, 5.0), &touch(6, 1, 2, 1.0, 1.0)]));
    s.taken(1.25, &[]);
}
