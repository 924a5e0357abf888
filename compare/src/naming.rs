//! Words for people: what a request asks, and which field of an answer differs.
use crate::met::{PHASES, SOURCES, UNITS};
use crate::panel::Panel;
use crate::words::{self, Out, call_name};
use crate::{Event, LEVEL, domain};

const INTERACT: [&str; 5] = ["clicked", "long_touched", "drag_started", "dragged", "drag_stopped"];
const RECORD: [&str; 17] = [
    "id", "id", "parent", "parent", "layer order", "layer id", "layer id", "rect min x", "rect min y", "rect max x", "rect max y",
    "interact rect min x", "interact rect min y", "interact rect max x", "interact rect max y", "sense", "enabled and visible",
];

/// Where two answers to a call first differ, by the name of the field. `panel` is egui's after the call.
pub fn first_difference(panel: &Panel, call: u32, want: &[u32], got: &[u32]) -> String {
    let k = want.iter().zip(got).position(|(a, b)| a != b).unwrap_or(want.len().min(got.len()));
    let number = |v: &[u32]| v.first().map_or("nothing".to_string(), |h| format!("number {} with {} words", h >> 24, h & 0xFF_FFFF));
    if k == 0 && (want.first().map(|h| h >> 24) != got.first().map(|h| h >> 24) || call < words::ASK) {
        return format!("egui answers {}, the program {}", number(want), number(got));
    }
    // a list of another length: the first word that differs after the head
    let k = if k > 0 { k } else { 1 + want[1..].iter().zip(&got[1..]).position(|(a, b)| a != b).unwrap_or(0) };
    let name = match call {
        _ if want[0] >> 24 != 0 => "index of the refusal".to_string(),
        words::INTERACT if k <= 10 => INTERACT[(k - 1) / 2].to_string(),
        words::INTERACT => interact_list(want, k),
        words::INSERT => match k {
            1 => "position in the layer".to_string(),
            2 => "widgets in the layer".to_string(),
            k => format!("record: {}", RECORD.get(k - 3).unwrap_or(&"?")),
        },
        words::ASK | words::DUMP => {
            let mut o = Out::named();
            if call == words::ASK { panel.ask(&mut o) } else { panel.dump(&mut o) };
            let (s, off) = o.name_of(k - 1);
            format!("{s}, its word {off}")
        }
        words::EXP => "not within one part in 1,000,000".to_string(),
        _ => "see FORMAT.md".to_string(),
    };
    let show = |v: &[u32]| v.get(k).map_or("nothing".to_string(), |x| format!("{x:08X} ({x}, {:e})", f32::from_bits(*x)));
    format!("word {} of the answer, {name}: egui {}, the program {}", k - 1, show(want), show(got))
}

fn interact_list(want: &[u32], k: usize) -> String {
    let hovered = want.get(11).map_or(0, |n| *n as usize);
    let contains = 12 + 2 * hovered;
    let n = want.get(contains).map_or(0, |n| *n as usize);
    match k {
        11 => "number of hovered".to_string(),
        k if k < contains => format!("hovered, entry {}", (k - 12) / 2),
        k if k == contains => "number of contains_pointer".to_string(),
        k if k < contains + 1 + 2 * n => format!("contains_pointer, entry {}", (k - contains - 1) / 2),
        _ => "tally, or from A.8 on all starts".to_string(),
    }
}

/// A request in words.
pub fn decoded(call: u32, w: &[u32]) -> String {
    match call {
        words::PASS => pass(w),
        words::INSERT if w.len() >= words::INSERT_WORDS => insert(w),
        words::INTERACT if w.len() >= 5 => interact(w),
        _ => {
            let hex: Vec<String> = w.iter().take(20).map(|w| format!("{w:08X}")).collect();
            format!("{} {}", call_name(call), hex.join(" "))
        }
    }
}

fn pass(w: &[u32]) -> String {
    let Some((p, feed)) = words::read_pass(w) else { return format!("PASS of {} words, too few", w.len()) };
    let o = &p.options;
    let mut s = format!(
        "PASS time {:?}, screen {:?}, focused {}, repaint {}, dt {:?}, smoothing {:?}, pixels per point {:?}\n    options: line {:?}, zoom {:?}, distance {:?}, duration {:?}, delay {:?}, modifiers {:04X}",
        p.time, p.screen_rect, p.focused, p.repaint_requested, p.predicted_dt, p.smooth, p.pixels_per_point,
        o.line_scroll_speed, o.scroll_zoom_speed, o.max_click_dist, o.max_click_duration, o.max_double_click_delay, w[17]
    );
    let mut at = 0;
    while at < feed.len() {
        let kind = (feed[at] >> 28) as usize;
        let len = 1 + domain::LENGTHS[kind] + (kind == 9 && feed[at] & 4 != 0) as usize;
        let words = &feed[at..(at + len).min(feed.len())];
        let hex: Vec<String> = words.iter().map(|w| format!("{w:08X}")).collect();
        let what = match domain::decode_feed(words, Vec::new(), domain::Limits::at(LEVEL)) {
            Ok(e) => e.first().map_or(String::new(), event),
            Err(r) => format!("refused by itself: {}", r.number),
        };
        s += &format!("\n    word {at:3}: {}   {what}", hex.join(" "));
        at += len;
    }
    s
}

fn event(e: &Event) -> String {
    match e {
        Event::Touch { device_id, id, phase, pos, force } => {
            format!("touch {:?} device {} id {} at ({:?}, {:?}) force {force:?}", phase, device_id.0, id.0, pos.x, pos.y)
        }
        other => format!("{other:?}"),
    }
}

fn insert(w: &[u32]) -> String {
    let id = |k: usize| u64::from(w[k]) | u64::from(w[k + 1]) << 32;
    let r = |k: usize| w[k..k + 4].iter().map(|x| format!("{:?}", f32::from_bits(*x))).collect::<Vec<_>>().join(" ");
    format!(
        "INSERT id {} parent {} layer ({}, {}) rect {} interact rect {} sense {} bits {} into {} places, {} of them given",
        id(0), id(2), w[4], id(5), r(7), r(11), w[15], w[16], w[17], (w.len() - words::INSERT_WORDS) / words::WIDGET_WORDS
    )
}

fn interact(w: &[u32]) -> String {
    let hits: Vec<String> = w[5..]
        .chunks(3)
        .map(|c| if c.len() == 3 { format!("{}:{}", u64::from(c[0]) | u64::from(c[1]) << 32, c[2]) } else { "cut short".to_string() })
        .collect();
    format!("INTERACT places {} and {}; close {}, contains_pointer {}, click and drag bits {}: {}", w[0], w[1], w[2], w[3], w[4], hits.join(" "))
}

/// The names of a wheel event's fields, for the tables.
pub fn wheel(unit: u32, phase: u32, source: u32) -> String {
    format!("{} {} {}", UNITS[unit as usize], PHASES[phase as usize], SOURCES[source as usize])
}
