//! The hand-written trace of PARK, RESTORE_LAST and RESTORE (A.6), each line by name.
//! What a line says of the answer is asserted here.
use crate::panel::Hits;
use crate::parking::{self, FIRST_WORD, Field, LONGEST};
use crate::script::*;
use crate::words::{self, ASK, DUMP, PARK, RESET, RESTORE, RESTORE_LAST};
use crate::aimed;

const FRESH_WORDS: usize = 246;
/// Leading words in a fresh panel's image: clock, screen, place, press, wheel, keys, sums, interaction, tally, history, events, devices.
const LEADING: [usize; 12] = [1, 9, 26, 42, 62, 72, 225, 231, 241, 243, 244, 245];
const LENGTHS: [u32; 12] = [7, 16, 15, 19, 9, 152, 5, 9, 1, 0, 0, 0];
const DEVICE_WORDS: usize = 86;
const MINUS_INFINITY: u32 = 0xFFF0_0000;
/// The words other than leading ones and zeros of a fresh panel's image, as docs/IMAGE.md lists them.
const FRESH: [(usize, u32); 25] = [
    (4, MINUS_INFINITY), (6, 0x3C88_8889), (7, 0x3C88_8889), (8, 0x3C88_8889),
    (12, 0x461C_4000), (13, 0x461C_4000), (14, 0x3F80_0000), (16, 0x4220_0000), (17, 0x3BA3_D70A), (18, 0x40C0_0000),
    (19, 0x3FE9_9999), (20, 0x9999_999A), (21, 0x3FD3_3333), (22, 0x3333_3333), (23, 16), (24, 4), (25, 1),
    (54, MINUS_INFINITY), (56, MINUS_INFINITY), (66, MINUS_INFINITY), (79, 1), (226, 0x3F80_0000),
    (243, 10 << 28), (244, 11 << 28), (245, 12 << 28),
];

pub fn script() -> Script {
    let mut s = Script::default();
    fresh(&mut s);
    going_on(&mut s);
    first_words(&mut s);
    floats(&mut s);
    ranges(&mut s);
    lengths(&mut s);
    lists(&mut s);
    absent(&mut s);
    buffers(&mut s);
    formats(&mut s);
    s.end();
    s
}

/// PARK with room for any image, which is taken: its words.
fn parked(s: &mut Script) -> Vec<u32> {
    let at = s.answers.len();
    assert_eq!(s.record(PARK, &[LONGEST as u32]), (0, 0), "{:?}", s.shown.last());
    s.answers[at + 1..].to_vec()
}

/// RESTORE, which is refused so: the panel is as before.
fn refused(s: &mut Script, w: &[u32], number: u32, index: usize) {
    let before = parked(s);
    assert_eq!(s.record(RESTORE, w), (number, index as u32), "{:?}", s.shown.last());
    s.record(ASK, &[]);
    s.record(DUMP, &[]);
    assert_eq!(parked(s), before);
}

/// RESTORE, which is taken: parking writes the same words. Then a fresh panel.
fn taken(s: &mut Script, w: &[u32]) {
    assert_eq!(s.record(RESTORE, w), (0, 0), "{:?}", s.shown.last());
    assert_eq!(parked(s), w);
    s.record(RESET, &[]);
}

/// Another panel, which gets some calls; then the parked one.
fn away_and_back(s: &mut Script) {
    s.call(RESET, &[]);
    s.taken(7.0, &feed(&[&press(50.0, 60.0), &touch(3, 9, 0, 1.0, 1.0)]));
    assert_eq!(s.call(RESTORE_LAST, &[]), (0, 0));
}

fn with(w: &[u32], at: usize, word: u32) -> Vec<u32> {
    let mut v = w.to_vec();
    v[at] = word;
    v
}

fn fresh(s: &mut Script) {
    s.show("image-of-fresh: 246 words, as docs/IMAGE.md lists them");
    let w = parked(s);
    let mut want = vec![0; FRESH_WORDS];
    want[0] = FIRST_WORD;
    for (k, (at, length)) in LEADING.iter().zip(LENGTHS).enumerate() {
        want[*at] = (k as u32 + 1) << 28 | length;
    }
    FRESH.iter().for_each(|(at, word)| want[*at] = *word);
    assert_eq!(w, want);
    taken(s, &w);
    s.show("An image is no feed: a pass refuses it with 1 at word 0");
    let w = parked(s);
    s.refused(1.0, &w, 1, 0);
}

fn going_on(s: &mut Script) {
    s.show("parked-mid-drag: the layout is inserted again, the release after the restore gives the stop");
    s.insert(&widget(10, 2), false, 1);
    s.taken(1.0, &press(1.0, 1.0));
    assert_eq!(s.answered(&over(10, 2)).drag_started, 10);
    parked(s);
    away_and_back(s);
    s.insert(&widget(10, 2), false, 1);
    s.taken(1.125, &release(1.0, 1.0));
    let a = s.answered(&over(10, 2));
    assert_eq!((a.drag_stopped, a.tally), (10, 1));
    s.show("parked-mid-drag: a widget set is no part of a parked panel");
    s.insert(&widget(10, 2), false, 1);
    parked(s);
    s.insert(&widget(11, 1), false, 2);
    assert_eq!(s.call(RESTORE_LAST, &[]), (0, 0));
    assert_eq!(s.stream.panel.known_widgets().len(), 2);
    s.show("parked-mid-pinch: touches (0,0), (4,0), restored, then the second at (8,0): zoom 2");
    s.taken(1.0, &moved(1.0, 1.0));
    s.taken(1.125, &feed(&[&touch(7, 1, 0, 0.0, 0.0), &touch(7, 2, 0, 4.0, 0.0)]));
    parked(s);
    away_and_back(s);
    s.taken(1.25, &touch(7, 2, 1, 8.0, 0.0));
    assert_eq!(s.stream.panel.input.multi_touch().expect("a gesture").zoom_delta, 2.0);
    s.show("parked-mid-pinch: the averages before are held, and the headings");
    s.taken(1.0, &moved(1.0, 1.0));
    s.taken(1.125, &feed(&[&touch(7, 1, 0, 0.0, 0.0), &touch(7, 2, 0, 4.0, 0.0)]));
    s.taken(1.25, &touch(7, 2, 1, 8.0, 3.0));
    let w = parked(s);
    away_and_back(s);
    assert_eq!(parked(s), w);
    s.show("The second click of two is counted 2 after a restore between them; a refused pass leaves the image");
    s.taken(1.0, &feed(&[&press(0.0, 0.0), &release(0.0, 0.0)]));
    let w = parked(s);
    s.refused(0.5, &moved(1.0, 1.0), 3, 0);
    assert_eq!(parked(s), w);
    away_and_back(s);
    s.taken(1.125, &feed(&[&press(0.0, 0.0), &release(0.0, 0.0)]));
    assert_eq!(s.clicks(), [2]);
    s.show("full-history: 1,000 samples of 1,002; after the restore the oldest goes first");
    s.quiet = true;
    for k in 0..1_002u32 {
        s.taken(1.0 + f64::from(k) / 16_384.0, &moved(k as f32, 0.0));
    }
    assert_eq!(parked(s).len(), FRESH_WORDS + 4 * 1_000 + 6);
    s.quiet = false;
    away_and_back(s);
    let oldest = s.stream.panel.oldest_sample_time().expect("samples");
    assert_eq!(oldest, 1.0 + 2.0 / 16_384.0);
    s.taken(1.0 + 1_002.0 / 16_384.0, &moved(0.0, 0.0));
    s.taken(aimed::nudge(oldest + f64::from(0.1f32), 2), &[]);
    assert_eq!(s.stream.panel.oldest_sample_time(), Some(1.0 + 4.0 / 16_384.0));
    s.show("The longest image: 1,000 samples, 64 events, 4 devices with 10 touches each");
    let w = longest(s);
    assert_eq!(w.len(), LONGEST);
    away_and_back(s);
    assert_eq!(parked(s), w);
}

/// A full panel, parked.
fn longest(s: &mut Script) -> Vec<u32> {
    s.quiet = true;
    let mut held = Vec::new();
    for device in [1u64, 1 << 32, 3 << 40, u64::MAX] {
        held.extend((0..10).flat_map(|k| touch(device, 1 + k, 0, 8.0 * k as f32, 5.0)));
    }
    s.taken(1.0, &moved(1.0, 1.0));
    s.taken(1.0, &held);
    for k in 0..1_000u32 {
        s.taken(1.0 + f64::from(k) / 16_384.0, &moved(k as f32, 0.0));
    }
    s.quiet = false;
    let moves: Vec<u32> = (0..64).flat_map(|k| moved(k as f32, 1.0)).collect();
    s.taken(1.0 + 1_000.0 / 16_384.0, &moves);
    parked(s)
}

fn first_words(s: &mut Script) {
    for (name, first) in [("D0000000", FIRST_WORD - 1), ("D0000002", FIRST_WORD + 1), ("C0000001", FIRST_WORD - (1 << 28)), ("0", 0)] {
        s.show(&format!("first-word: {name} is 14"));
        let w = parked(s);
        refused(s, &with(&w, 0, first), 14, 0);
        refused(s, &[first], 14, 0);
    }
    s.show("first-word: missing is 14; a feed is 14; the right one alone is 15 at word 1, which is missing");
    refused(s, &[], 14, 0);
    refused(s, &press(1.0, 1.0), 14, 0);
    refused(s, &[FIRST_WORD], 15, 1);
}

/// A panel with all lists in use, and its image.
fn in_use(s: &mut Script) -> Vec<u32> {
    s.taken(1.0, &moved(1.0, 1.0));
    s.taken(1.125, &feed(&[&touch(7, 1, 0, 0.0, 0.0), &touch(7, 2, 0, 4.0, 0.0), &touch(9, 5, 0, 4.0, 0.0)]));
    s.taken(1.1875, &feed(&[&touch(7, 2, 1, 8.0, 0.0), &moved(3.0, 4.0), &press(3.0, 4.0), &release(3.0, 4.0), &release(3.0, 4.0)]));
    parked(s)
}

fn floats(s: &mut Script) {
    s.show("nan-other-form: every f32 of an image takes 7FC00000 where its range is any, and no other pattern of a not-a-number");
    let w = in_use(s);
    let places = |kind: Field| parking::fields(&w).into_iter().filter(move |(_, k)| *k == kind).map(|(at, _)| at).collect::<Vec<_>>();
    for (k, at) in places(Field::Single).into_iter().enumerate() {
        let other = [0x7FC0_0001, 0xFFC0_0000, 0x7F80_0001][k % 3];
        assert_eq!(s.record(RESTORE, &with(&w, at, other)), (15, at as u32));
    }
    refused(s, &with(&w, 6, 0x7FFF_FFFF), 15, 6);
    taken(s, &with(&w, 6, 0x7FC0_0000));
    s.show("nan-other-form: every f64 takes 7FF80000 00000000 where its range is any, and no other pattern");
    let w = in_use(s);
    for (k, at) in places(Field::Double).into_iter().enumerate() {
        let (high, low) = [(0x7FF8_0000, 1), (0xFFF8_0000, 0), (0x7FF0_0000, 1)][k % 3];
        assert_eq!(s.record(RESTORE, &with(&with(&w, at, high), at + 1, low)), (15, at as u32));
    }
    refused(s, &with(&w, 4, 0x7FFF_FFFF), 15, 4);
    taken(s, &with(&with(&w, 4, 0x7FF8_0000), 5, 0));
    s.show("minus-zero-kept: a move to (-0, 0) at -0 s");
    s.taken(-0.0, &moved(-0.0, 0.0));
    let w = parked(s);
    assert_eq!((w[2], w[3], w[28], w[29]), (1 << 31, 0, 1 << 31, 0));
    away_and_back(s);
    assert_eq!(parked(s), w);
    s.show("Infinities are taken where the range is any");
    let w = parked(s);
    taken(s, &with(&w, 227, 0x7F80_0000));
    taken(s, &with(&w, 228, 0xFF80_0000));
}

/// By place: a word that is taken, and one that isn't.
fn ranges(s: &mut Script) {
    let top = 65_536.0f32.to_bits();
    let one = 1.0f32.to_bits();
    for (name, at, last, over) in [
        ("time, 0 to 4,294,967,296", 2, 0x41F0_0000, 0x41F0_0001),
        ("time, not below 0", 2, 1 << 31, 0x8010_0000),
        ("predicted dt, 0 to 1", 8, one, one + 1),
        ("screen rectangle, size at most 65,536", 10, top | 1 << 31, (top | 1 << 31) + 1),
        ("pixels per point, 0 to 1,024", 14, 1_024.0f32.to_bits(), 1_024.0f32.to_bits() + 1),
        ("focused, 0 or 1", 15, 1, 2),
        ("line scroll speed, 0 to 65,536", 16, top, top + 1),
        ("scroll zoom speed, 0 to 1", 17, one, one + 1),
        ("click distance, 0 to 65,536", 18, top, top + 1),
        ("zoom modifier, five bits", 23, 31, 32),
        ("buttons down, five bits", 43, 31, 32),
        ("moved too much for a click, 0 or 1", 50, 1, 2),
        ("a drag was decided, 0 or 1", 58, 1, 2),
        ("wheel status, below 3", 63, 2, 3),
        ("wheel source, below 4", 64, 3, 4),
        ("wheel modifiers, five bits", 65, 31, 32),
        ("the last word of keys down, below 131,072", 77, 131_071, 131_072),
        ("modifiers, five bits", 78, 31, 32),
        ("the feed was empty, 0 or 1", 79, 0, 2),
        ("presses of key 0, below 256", 80, 255, 256),
        ("presses of key 144, below 256", 224, 255, 256),
    ] {
        s.show(&format!("Ranges: {name}"));
        let w = parked(s);
        refused(s, &with(&w, at, over), 15, at);
        taken(s, &with(&w, at, last));
    }
    s.show("Ranges: click duration and double click delay, 0 to 3,600; a field of two words is told at its first");
    let w = parked(s);
    for at in [19, 21] {
        let whole = with(&with(&w, at, 0x40AC_2000), at + 1, 0);
        refused(s, &with(&whole, at + 1, 1), 15, at);
        taken(s, &whole);
    }
    s.show("Ranges: any tally and any key words");
    let w = parked(s);
    taken(s, &with(&with(&w, 242, u32::MAX), 73, u32::MAX));
    s.show("Ranges: of two wrong words the first is told");
    let w = parked(s);
    refused(s, &with(&with(&w, 224, 256), 63, 3), 15, 63);
}

fn lengths(s: &mut Script) {
    s.show("one-word-less: the image of a fresh panel cut at every length is 15 there");
    let w = parked(s);
    for n in 1..w.len() {
        assert_eq!(s.record(RESTORE, &w[..n]), (15, n as u32));
    }
    refused(s, &w[..w.len() - 1], 15, w.len() - 1);
    s.show("one-word-more: a word after the last group is left over");
    let w = in_use(s);
    refused(s, &[&w[..], &[0]].concat(), 15, w.len());
    refused(s, &w[..w.len() - 1], 15, w.len() - 1);
    s.show("wrong-name: each leading word with another name, and with another length");
    let w = parked(s);
    for at in LEADING {
        assert_eq!(s.record(RESTORE, &with(&w, at, w[at] ^ 1 << 28)), (15, at as u32));
        assert_eq!(s.record(RESTORE, &with(&w, at, w[at] + 1)), (15, at as u32));
    }
    for at in &LEADING[..9] {
        assert_eq!(s.record(RESTORE, &with(&w, *at, w[*at] & 0xF000_0000)), (15, *at as u32));
    }
    s.record(DUMP, &[]);
    s.show("wrong-name: two groups exchanged");
    let mut w = parked(s);
    w[225..241].rotate_left(6);
    refused(s, &w, 15, 225);
    s.show("length-not-whole: a history of 5 words, 1,001 samples, 65 events, 5 devices");
    let w = parked(s);
    for (at, length) in [(243, 5), (243, 4 * 1_001), (244, 7), (244, 6 * 65), (245, 87), (245, 86 * 5)] {
        refused(s, &with(&w, at, w[at] & 0xF000_0000 | length), 15, at);
    }
    s.show("length-not-whole: a sample, an event, a device that is missing");
    let w = parked(s);
    for (at, length) in [(243, 4), (244, 6), (245, 86)] {
        let longer = with(&w, at, w[at] & 0xF000_0000 | length);
        let end = parking::wrong(&longer).expect("words are missing").at;
        refused(s, &longer, 15, end);
    }
}

fn lists(s: &mut Script) {
    s.show("touch-twice: two touches of a device with one id, and in descending order");
    let w = in_use(s);
    let device = w.len() - 2 * DEVICE_WORDS;
    let second = device + 3 + 6;
    refused(s, &with(&w, second + 1, 1), 15, second);
    refused(s, &with(&w, second + 1, 0), 15, second);
    refused(s, &with(&w, device + 4, 3), 15, second);
    s.show("device-descending: two devices exchanged, and two with one id");
    let mut w = in_use(s);
    let second = w.len() - DEVICE_WORDS;
    let first = second - DEVICE_WORDS;
    refused(s, &with(&w, second + 1, 7), 15, second);
    w[first..].rotate_left(DEVICE_WORDS);
    refused(s, &w, 15, second);
    s.show("Lists: ids are compared by both words");
    let w = in_use(s);
    let second = w.len() - DEVICE_WORDS;
    refused(s, &with(&w, second - DEVICE_WORDS, 1), 15, second);
    taken(s, &with(&with(&w, second, 1), second + 1, 0));
    s.show("Lists: 11 touches, a button 5, an event of kind 4, a pinch of kind 3");
    let w = in_use(s);
    let first = w.len() - 2 * DEVICE_WORDS;
    // four events, and the leading word behind them
    let events = first - 1 - 4 * 6;
    for (at, word) in [(first + 2, 11), (events + 6 + 1, 5), (events, 4), (first + 63 + 5, 3)] {
        refused(s, &with(&w, at, word), 15, at);
    }
}

fn absent(s: &mut Script) {
    s.show("absent-with-a-value: each place of the absent values of a fresh panel");
    let w = parked(s);
    for at in parking::fields(&w).into_iter().filter(|(_, k)| *k == Field::Zero).map(|(at, _)| at) {
        assert_eq!(s.record(RESTORE, &with(&w, at, 1)), (15, at as u32));
        assert_eq!(s.record(RESTORE, &with(&w, at, 1 << 31)), (15, at as u32));
    }
    refused(s, &with(&w, 27, 2), 15, 27);
    taken(s, &with(&w, 27, 1));
    s.show("unused-place-not-zero: each place that the touches and the events leave unused");
    let w = in_use(s);
    for at in parking::fields(&w).into_iter().filter(|(at, k)| *k == Field::Zero && *at > LEADING[9]).map(|(at, _)| at) {
        assert_eq!(s.record(RESTORE, &with(&w, at, 1)), (15, at as u32));
    }
    s.record(DUMP, &[]);
}

fn buffers(s: &mut Script) {
    s.show("buffer-exact, buffer-one-short: of a fresh panel and of one in use; refused, the last image stays");
    assert_eq!(s.call(PARK, &[FRESH_WORDS as u32 - 1]), (8, 0));
    assert_eq!(s.call(PARK, &[0]), (8, 0));
    assert_eq!(s.call(PARK, &[FRESH_WORDS as u32]), (0, 0));
    s.taken(1.0, &moved(1.0, 1.0));
    s.taken(1.125, &feed(&[&touch(7, 1, 0, 0.0, 0.0), &moved(2.0, 2.0)]));
    let n = s.stream.image().len() as u32;
    assert_eq!(n as usize, FRESH_WORDS + 4 * 2 + 6 + DEVICE_WORDS);
    assert_eq!(s.call(PARK, &[n - 1]), (8, 0));
    assert_eq!(s.call(RESTORE_LAST, &[]), (0, 0));
    assert_eq!(s.stream.image().len(), FRESH_WORDS);
    s.show("A park leaves the panel; of two the last is restored, as often as it is asked for; RESET keeps it");
    s.taken(1.0, &press(1.0, 1.0));
    parked(s);
    s.taken(1.25, &moved(9.0, 9.0));
    let w = parked(s);
    s.taken(1.5, &release(9.0, 9.0));
    for _ in 0..2 {
        away_and_back(s);
        assert_eq!(parked(s), w);
    }
    assert_eq!(s.call(RESTORE, &w), (0, 0));
    s.show("An interact, an insertion and a taken tally between a park and its restore");
    s.insert(&widget(10, 3), false, 1);
    s.taken(1.0, &press(1.0, 1.0));
    s.answered(&over(10, 3));
    let w = parked(s);
    s.taken(1.25, &moved(60.0, 1.0));
    assert_eq!(s.answered(&over(10, 3)).drag_started, 10);
    s.call(words::SET_TALLY, &[5]);
    assert_eq!(s.call(RESTORE_LAST, &[]), (0, 0));
    assert_eq!(parked(s), w);
    s.taken(1.125, &release(1.0, 1.0));
    assert_eq!(s.answered(&Hits::default()).clicked, 10);
}

fn formats(s: &mut Script) {
    s.show("FORMAT.md: PARK with no word or two, RESTORE_LAST with one are answered 255");
    s.taken(1.0, &press(1.0, 1.0));
    for (call, n) in [(PARK, 0), (PARK, 2), (RESTORE_LAST, 1)] {
        assert_eq!(s.call(call, &vec![0; n]).0, 255);
    }
}
