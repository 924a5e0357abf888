//! The hand-written trace of KERNEL: each row of A.1's table, each limit and each refusal, each by name.
//! What a line says of the answer is asserted here.
use crate::script::{Script, touch};
use crate::words::{KERNEL, MAX_BYTES, RESET};

/// Type, code, value.
type Record = (u32, u32, i32);
const END: Record = (0, 0, 0);
const DROPPED: Record = (0, 3, 0);
const DEVICE: u64 = 1;
const ENOUGH: u32 = 448;
const START_PHASE: u32 = 0;
const MOVE_PHASE: u32 = 1;
const END_PHASE: u32 = 2;

fn slot(n: i32) -> Record {
    (3, 0x2F, n)
}
fn x(v: i32) -> Record {
    (3, 0x35, v)
}
fn y(v: i32) -> Record {
    (3, 0x36, v)
}
fn id(n: i32) -> Record {
    (3, 0x39, n)
}
fn start(id: u64, x: f32, y: f32) -> Vec<u32> {
    touch(DEVICE, id, START_PHASE, x, y)
}
fn moved(id: u64, x: f32, y: f32) -> Vec<u32> {
    touch(DEVICE, id, MOVE_PHASE, x, y)
}
fn end(id: u64, x: f32, y: f32) -> Vec<u32> {
    touch(DEVICE, id, END_PHASE, x, y)
}

/// The words of a call; the time of its records is not read.
fn request(device: u64, places: u32, records: &[Record]) -> Vec<u32> {
    let mut w = vec![device as u32, (device >> 32) as u32, places, 24 * records.len() as u32];
    for (kind, code, value) in records {
        w.extend([0xFFFF_FFFF, 0x0102_0304, 5, 0, kind | code << 16, *value as u32]);
    }
    w
}

/// A call that is taken: whether a 'dropped' was among the records, and the words.
fn taken(s: &mut Script, w: &[u32]) -> (bool, Vec<u32>) {
    let at = s.answers.len();
    assert_eq!(s.record(KERNEL, w), (0, 0), "{:?}", s.shown.last());
    let a = &s.answers[at..];
    assert_eq!(a[2] as usize, a.len() - 3);
    (a[1] == 1, a[3..].to_vec())
}
/// These events come of these records.
fn gives(s: &mut Script, records: &[Record], events: &[Vec<u32>]) {
    let dropped = records.contains(&DROPPED);
    assert_eq!(taken(s, &request(DEVICE, ENOUGH, records)), (dropped, events.concat()), "{:?}", s.shown.last());
}
/// These records are refused so. What went on before does: a report end right after gives `then`.
fn refused(s: &mut Script, places: u32, records: &[Record], number: u32, then: &[Vec<u32>]) {
    assert_eq!(s.record(KERNEL, &request(DEVICE, places, records)), (number, 0), "{:?}", s.shown.last());
    gives(s, &[END], then);
}

pub fn script() -> Script {
    let mut s = Script { quiet: true, ..Default::default() };
    table(&mut s);
    places(&mut s);
    order(&mut s);
    dropped(&mut s);
    calls(&mut s);
    values(&mut s);
    buffers(&mut s);
    lengths(&mut s);
    s.end();
    s
}

fn table(s: &mut Script) {
    s.show("A.1: none then, none now: no event, also where the position changed");
    gives(s, &[x(7), y(8), END], &[]);
    s.show("A.1: none then, a finger now: Start");
    gives(s, &[id(5), x(7), y(8), END], &[start(5, 7.0, 8.0)]);
    s.show("A.1: a finger then, none now: End");
    gives(s, &[id(5), x(7), y(8), END, id(-1), END], &[start(5, 7.0, 8.0), end(5, 7.0, 8.0)]);
    for (name, r, at) in [("x", x(9), (9.0, 8.0)), ("y", y(9), (7.0, 9.0))] {
        s.show(&format!("A.1: the same finger, {name} differs: Move"));
        gives(s, &[id(5), x(7), y(8), END, r, END], &[start(5, 7.0, 8.0), moved(5, at.0, at.1)]);
    }
    s.show("A.1: the same finger at the same position: no event, also where it went and came back");
    gives(s, &[id(5), x(7), END, END, x(9), x(7), END], &[start(5, 7.0, 0.0)]);
    s.show("A.1: another finger: in one slot End before Start");
    gives(s, &[id(5), END, id(6), END], &[start(5, 0.0, 0.0), end(5, 0.0, 0.0), start(6, 0.0, 0.0)]);
    s.show("A.1: one begun and lifted within a report gives none");
    gives(s, &[id(7), x(1), id(-1), END], &[]);
    s.show("A.1: 5, then 7, then lifted in one report: End 5 alone");
    gives(s, &[id(5), END, id(7), id(-1), END], &[start(5, 0.0, 0.0), end(5, 0.0, 0.0)]);
    s.show("A.1: 5, then 7, then 9 in one report: End 5, Start 9");
    gives(s, &[id(5), END, id(7), id(9), END], &[start(5, 0.0, 0.0), end(5, 0.0, 0.0), start(9, 0.0, 0.0)]);
    s.show("A.1: 5 lifted and set down again in one report: no event, or a Move");
    gives(s, &[id(5), END, id(-1), id(5), END, id(-1), x(3), id(5), END], &[start(5, 0.0, 0.0), moved(5, 3.0, 0.0)]);
}

fn places(s: &mut Script) {
    s.show("A.1: the position is 0 at first: +0.0");
    gives(s, &[id(0), END], &[start(0, 0.0, 0.0)]);
    s.show("A.1: a new finger in a slot that got no position starts where the last one was");
    gives(s, &[id(5), x(7), y(8), END, id(-1), END, id(6), END], &[start(5, 7.0, 8.0), end(5, 7.0, 8.0), start(6, 7.0, 8.0)]);
    s.show("A.1: an End carries the slot's last position, not that of the last report");
    gives(s, &[id(5), x(7), y(8), END, x(20), y(30), id(-1), END], &[start(5, 7.0, 8.0), end(5, 20.0, 30.0)]);
    s.show("A.1: End and Start of one slot both carry the last position");
    gives(s, &[id(5), x(7), END, id(6), x(20), END], &[start(5, 7.0, 0.0), end(5, 20.0, 0.0), start(6, 20.0, 0.0)]);
    s.show("A.1: a position in an empty slot is kept for the next finger");
    gives(s, &[x(7), END, id(5), END], &[start(5, 7.0, 0.0)]);
}

fn order(s: &mut Script) {
    s.show("A.1: events in slot order, not in that of the records");
    gives(s, &[slot(9), id(9), slot(0), id(1), slot(4), id(4), END], &[start(1, 0.0, 0.0), start(4, 0.0, 0.0), start(9, 0.0, 0.0)]);
    s.show("A.1: one id in two slots: slot 0 Start 5, slot 1 End 5");
    gives(s, &[slot(1), id(5), END, id(-1), slot(0), id(5), END], &[start(5, 0.0, 0.0), start(5, 0.0, 0.0), end(5, 0.0, 0.0)]);
    s.show("A.1: all ten slots replaced in one report");
    let both = |a: i32| (0..10).flat_map(|n| [slot(n), id(a + n)]).chain([END]).collect::<Vec<_>>();
    let starts: Vec<_> = (0..10).map(|n| start(n, 0.0, 0.0)).collect();
    gives(s, &both(0), &starts);
    let replaced: Vec<_> = (0..10).flat_map(|n| [end(n, 0.0, 0.0), start(n + 20, 0.0, 0.0)]).collect();
    gives(s, &both(20), &replaced);
    s.show("A.1: other records are skipped, and a report ends whatever its record's value");
    gives(s, &[id(5), (1, 0x14A, 1), (3, 0, 99), (3, 0x30, 99_999), (4, 0x39, 8), (0, 1, 0), (0, 2, 0), (0x103, 0x35, 9), (3, 0x12F, 99), (0, 0, -1)], &[start(5, 0.0, 0.0)]);
}

fn dropped(s: &mut Script) {
    s.show("A.1: after 'dropped' everything is skipped through the next report end; what was before waits for the one after");
    gives(s, &[id(5), DROPPED, x(3), END, x(7), END], &[start(5, 7.0, 0.0)]);
    s.show("A.1: what is skipped is not judged: slot 99, a position and an id outside, another 'dropped'");
    gives(s, &[id(5), DROPPED, slot(99), x(70_000), id(-9), DROPPED, END, END], &[start(5, 0.0, 0.0)]);
    s.show("A.1: a slot that is skipped is not chosen");
    gives(s, &[id(5), DROPPED, slot(3), END, x(7), END], &[start(5, 7.0, 0.0)]);
    s.show("A.1: a 'dropped' at the end of a call: the next one goes on skipping, and its answer holds none");
    gives(s, &[id(5), DROPPED], &[]);
    gives(s, &[slot(99), id(6)], &[]);
    gives(s, &[END], &[]);
    gives(s, &[END], &[start(5, 0.0, 0.0)]);
    s.show("A.1: a 'dropped' in a part that is skipped counts");
    gives(s, &[DROPPED], &[]);
    gives(s, &[DROPPED, END, id(5), END], &[start(5, 0.0, 0.0)]);
}

fn calls(s: &mut Script) {
    s.show("A.1: a report that isn't ended goes on in the next call, with the chosen slot");
    gives(s, &[slot(2), id(5)], &[]);
    gives(s, &[], &[]);
    gives(s, &[x(7)], &[]);
    gives(s, &[END, slot(0), id(1), END], &[start(5, 7.0, 0.0), start(1, 0.0, 0.0)]);
    s.show("A.1: the caller names the device with each call, of an End too");
    gives(s, &[id(5), END], &[start(5, 0.0, 0.0)]);
    let device = 0xFFFF_FFFF_0000_0002;
    assert_eq!(taken(s, &request(device, ENOUGH, &[id(-1), END])), (false, touch(device, 5, END_PHASE, 0.0, 0.0)));
    s.show("FORMAT.md: RESET makes the slots empty and the chosen slot 0, and ends the skipping");
    gives(s, &[slot(3), x(9), id(5), END, DROPPED], &[start(5, 9.0, 0.0)]);
    s.record(RESET, &[]);
    gives(s, &[id(5), END, slot(3), id(6), END], &[start(5, 0.0, 0.0), start(6, 0.0, 0.0)]);
    s.show("A.1: what a call wrote is a feed: a pass takes it, and a touch is held");
    let (_, feed) = taken(s, &request(DEVICE, ENOUGH, &[id(5), x(7), y(8), END]));
    s.quiet = false;
    s.taken(1.0, &feed);
    s.quiet = true;
    assert_eq!(s.stream.panel.held(), [(DEVICE, vec![5])]);
}

fn values(s: &mut Script) {
    s.show("A.1: slot 9 is taken");
    gives(s, &[slot(9), id(5), END], &[start(5, 0.0, 0.0)]);
    for n in [10, 15, 16, -1, i32::MAX, i32::MIN] {
        s.show(&format!("A.1: slot {n} is refused with 12, and all is as before"));
        gives(s, &[id(4)], &[]);
        refused(s, ENOUGH, &[id(5), x(1), slot(2), END, slot(n)], 12, &[start(4, 0.0, 0.0)]);
    }
    for v in [65_536, -65_536] {
        s.show(&format!("A.1: a position of {v} is taken"));
        gives(s, &[x(v), y(v), id(5), END], &[start(5, v as f32, v as f32)]);
    }
    for v in [65_537, -65_537, i32::MAX, i32::MIN] {
        for (name, r) in [("x", x(v)), ("y", y(v))] {
            s.show(&format!("A.1: a position {name} of {v} is refused with 2, also in an empty slot, and all is as before"));
            gives(s, &[id(4), DROPPED, END], &[]);
            refused(s, ENOUGH, &[slot(3), id(5), END, slot(1), r], 2, &[start(4, 0.0, 0.0)]);
        }
    }
    s.show("A.1: ids 0 and 2,147,483,647 are taken, -1 lifts");
    gives(s, &[id(0), END, id(i32::MAX), END, id(-1), END], &[start(0, 0.0, 0.0), end(0, 0.0, 0.0), start(2_147_483_647, 0.0, 0.0), end(2_147_483_647, 0.0, 0.0)]);
    for n in [-2, i32::MIN] {
        s.show(&format!("A.1: a tracking id of {n} is refused with 2"));
        refused(s, ENOUGH, &[id(5), END, id(n)], 2, &[]);
    }
    s.show("A.1: answers are the first in record order: 12, then 2; 2, then 12");
    refused(s, ENOUGH, &[slot(10), x(65_537)], 12, &[]);
    refused(s, ENOUGH, &[x(65_537), slot(10)], 2, &[]);
}

fn buffers(s: &mut Script) {
    for (words, events) in [(7, 1), (14, 2)] {
        let records: Vec<Record> = (0..events).flat_map(|n| [slot(n), id(n)]).chain([END]).collect();
        let starts: Vec<_> = (0..events as u64).map(|n| start(n, 0.0, 0.0)).collect();
        for places in [0, words - 1] {
            s.show(&format!("A.1: {events} events in a buffer of {places} words: refused with 8, and all is as before"));
            refused(s, places, &records, 8, &[]);
        }
        s.show(&format!("A.1: {events} events in a buffer of {words} words: taken"));
        assert_eq!(taken(s, &request(DEVICE, words, &records)), (false, starts.concat()));
    }
    s.show("A.1: the second of two reports does not fit: refused with 8, and what the first did is undone");
    refused(s, 13, &[id(5), END, id(-1), END], 8, &[]);
    s.show("A.1: 8 at a report end comes before 12 and 2 of a later record");
    refused(s, 6, &[id(5), END, slot(10)], 8, &[]);
    refused(s, 6, &[id(5), END, x(65_537)], 8, &[]);
    s.show("A.1: 12 before the report end whose events don't fit");
    refused(s, 6, &[id(5), slot(10), END], 12, &[]);
    s.show("A.1: a report end that is skipped writes nothing, and a buffer of 0 places does");
    assert_eq!(taken(s, &request(DEVICE, 0, &[id(5), DROPPED, END])), (true, vec![]));
    s.show("FORMAT.md: 4,096 records, of which every second ends a report that replaces a finger; a buffer of 4,294,967,295 places");
    let many: Vec<Record> = (0..2048).flat_map(|n| [id(n), END]).collect();
    assert_eq!(taken(s, &request(DEVICE, u32::MAX, &many)).1.len(), 7 + 14 * 2047);
}

fn lengths(s: &mut Script) {
    s.show("A.1: a length of 0 is taken and writes nothing");
    assert_eq!(taken(s, &[1, 0, 0, 0]), (false, vec![]));
    for bytes in [1, 23, 25, 47] {
        s.show(&format!("A.1: a length of {bytes} bytes is refused with 11, before any record"));
        let mut w = request(DEVICE, 0, &[slot(99), slot(99)]);
        w[3] = bytes;
        w.truncate(4 + bytes.div_ceil(4) as usize);
        assert_eq!(s.record(KERNEL, &w), (11, 0));
        gives(s, &[END], &[]);
    }
    s.show("A.1: 24 bytes are a record");
    gives(s, &[id(5)], &[]);
    s.show("FORMAT.md: a last word's padding is not read; a word too many or too few is 255, and so is a byte over 98,304");
    let mut w = request(DEVICE, ENOUGH, &[id(5), END]);
    w[3] = 47;
    assert_eq!(s.record(KERNEL, &w), (11, 0));
    w[3] = 48;
    assert_eq!(s.record(KERNEL, &w[..w.len() - 1]).0, 255);
    w.push(0);
    assert_eq!(s.record(KERNEL, &w).0, 255);
    for n in 0..4 {
        assert_eq!(s.record(KERNEL, &vec![0; n]).0, 255);
    }
    let over = MAX_BYTES as u32 + 1;
    let mut w = vec![0; 4 + over.div_ceil(4) as usize];
    w[3] = over;
    assert_eq!(s.record(KERNEL, &w).0, 255);
    w[3] = u32::MAX;
    assert_eq!(s.record(KERNEL, &w).0, 255);
    gives(s, &[END], &[]);
}
