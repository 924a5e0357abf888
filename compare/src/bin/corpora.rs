//! corpora FOLDER [CRATE] > corpora.md
//! Writes the stored corpora: NAME.trace (requests in FORMAT.md's form, below 1 MiB, the first a RESET) and NAME.sums (egui's answers, one checksum a call).
//! With CRATE (../crates/trace_corpora) also all of them, one after the other, into that program's stdin and stdout.
//! The table on standard output says which calls of which trace show what. The same folder comes out of every run.
use fivvarul_compare::maker::{LIMIT, Maker};
use fivvarul_compare::met::Met;
use fivvarul_compare::scenes::Scene;
use fivvarul_compare::script::Script;
use fivvarul_compare::{LEVEL, edges, kernel_edges, parking_edges, words};
use std::fmt::Write;

/// What the test program reads and must write, as far as it is made.
#[derive(Default)]
struct Stored {
    stdin: Vec<u8>,
    stdout: String,
    calls: usize,
    /// the same with PARK and RESTORE_LAST after each call
    parked: Vec<u32>,
}

impl Stored {
    /// Requests and answers to files and to the program's; a line of the table.
    fn add(&mut self, name: &str, requests: &[u32], answers: &[u32], holds: &str) {
        assert!(requests.len() <= LIMIT && requests[0] == words::RESET << 24, "{name}: {} words", requests.len());
        let bytes: Vec<u8> = requests.iter().flat_map(|w| w.to_le_bytes()).collect();
        let (mut sums, mut at, mut calls) = (String::new(), 0, 0);
        while at < answers.len() {
            let end = at + 1 + (answers[at] & 0xFF_FFFF) as usize;
            writeln!(sums, "{:016x}", words::checksum(&answers[at..end])).expect("a string");
            at = end;
            calls += 1;
        }
        let folder = std::env::args().nth(1).expect("corpora FOLDER");
        put(&folder, &format!("{name}.trace"), &bytes);
        put(&folder, &format!("{name}.sums"), sums.as_bytes());
        println!("| {name} | {calls} | {} | {} | {holds} |", self.calls, bytes.len());
        self.stdin.extend(bytes);
        let mut at = 0;
        while at < requests.len() {
            let record = words::record_at(requests, at);
            self.parked.extend(record);
            self.parked.extend(words::record(words::PARK, &[words::ENOUGH_PLACES]));
            self.parked.extend(words::record(words::RESTORE_LAST, &[]));
            at += record.len();
        }
        self.stdout.push_str(&sums);
        self.calls += calls;
    }
}

/// The stored answers with those of PARK and RESTORE_LAST between them. The traces that park by themselves are left out.
fn parked(folder: &str, all: &Stored) {
    let (mut stream, mut sums, mut at, mut n) = (words::Stream::default(), String::new(), 0, 0);
    let stored: Vec<&str> = all.stdout.lines().collect();
    while at < all.parked.len() {
        let record = words::record_at(&all.parked, at);
        let mut answer = Vec::new();
        words::answer(&mut stream, record[0] >> 24, &record[1..], &mut answer);
        let sum = format!("{:016x}", words::checksum(&answer));
        assert!(n % 3 != 0 || sum == stored[n / 3], "call {} answers otherwise where each call is parked", n / 3);
        writeln!(sums, "{sum}").expect("a string");
        at += record.len();
        n += 1;
    }
    put(folder, "parked.stdin", &all.parked.iter().flat_map(|w| w.to_le_bytes()).collect::<Vec<u8>>());
    put(folder, "parked.stdout", sums.as_bytes());
}

fn put(folder: &str, file: &str, bytes: &[u8]) {
    std::fs::write(format!("{folder}/{file}"), bytes).expect("the corpus is written");
}

/// Scenes in turn, with ASK and DUMP after each call, until there is enough; each of these refusals of `call` is met.
fn made(seed: u64, scenes: &[Scene], due: &[u32], call: u32, enough: impl Fn(&Met) -> bool) -> Maker {
    let mut m = Maker::new(seed, LIMIT, 0, 0);
    m.all = true;
    m.record(words::RESET, &[]);
    let mut k = 0;
    while !m.full && !enough(&m.met) {
        scenes[k % scenes.len()](&mut m);
        k += 1;
    }
    assert!(!m.full, "the trace is full before there is enough of call {call}: {} taken", m.met.taken(call));
    for n in due {
        assert!(m.met.answered(call, *n) > 0, "call {call} never answered {n}");
    }
    m
}

fn passes(all: &mut Stored) {
    let scenes: [Scene; 13] = [Maker::clicks, Maker::moves, Maker::fingers, Maker::wheel, Maker::damaged_event, Maker::clicks, Maker::devices, Maker::own_numbers, Maker::keys, Maker::zooms, Maker::many_events, Maker::times, Maker::malformed];
    let m = made(1, &scenes, &[1, 2, 3, 4, 5, 255], words::PASS, |m| m.taken(words::PASS) >= 3300);
    assert!(m.met.missing_events().is_empty(), "{:?}", m.met.missing_events());
    let holds = format!("{} passes taken and {} refused: every event kind, phase, unit and source, refusals 1 to 5 and 255; ASK and DUMP after each", m.met.taken(1), m.met.refused(1));
    all.add("passes", &m.requests, &m.answers, &holds);
}

fn pointer(all: &mut Stored) {
    let aim = "pass with a pointer event";
    let m = made(3, &[Maker::clicks, Maker::moves, Maker::clicks, Maker::points], &[], words::PASS, |m| m.aimed(aim) >= 5000);
    for aim in ["click count 1", "click count 2", "click count 3", "release without a click", "time absent"] {
        assert!(m.met.aimed(aim) > 20, "{aim}");
    }
    let holds = format!("{} passes taken, {} of them with pointer events: clicks counted 1, 2 and 3 and releases that are none, about every limit, in other orders and with other buttons; ASK and DUMP after each", m.met.taken(1), m.met.aimed(aim));
    all.add("pointer", &m.requests, &m.answers, &holds);
}

fn touch_wheel(all: &mut Stored) {
    let aim = "pass with a touch or wheel event";
    let m = made(4, &[Maker::wheel, Maker::wheel, Maker::devices, Maker::wheel, Maker::pinch, Maker::devices, Maker::fingers], &[5], words::PASS, |m| m.aimed(aim) >= 5000);
    for aim in ["pinch Horizontal", "pinch Proportional", "pinch Vertical", "gesture of a later device", "10 touches on a device", "4 devices", "touch with force"] {
        assert!(m.met.aimed(aim) > 20, "{aim}");
    }
    let holds = format!("{} passes taken, {} of them with touch or wheel events, and {} refused; ASK and DUMP after each", m.met.taken(1), m.met.aimed(aim), m.met.refused(1));
    all.add("touch_wheel", &m.requests, &m.answers, &holds);
}

fn inserts(all: &mut Stored) {
    let scenes: [Scene; 4] = [Maker::few_widgets, Maker::few_widgets, Maker::lent_contents, Maker::malformed];
    let mut m = made(5, &scenes, &[1, 2, 7, 8, 9, 255], words::INSERT, |m| m.taken(words::INSERT) + m.refused(words::INSERT) >= 3600);
    // a full set, of widgets and of layers: what is dumped of it is long, and follows the last insertions only
    while m.met.taken(words::INSERT) + m.met.refused(words::INSERT) < 5000 || m.met.aimed("32 layers") == 0 || m.met.answered(words::INSERT, 6) < 10 {
        m.full_widgets();
    }
    assert!(!m.full && m.met.aimed("1,024 widgets") > 20 && m.met.aimed("moved to top") > 500);
    let holds = format!("{} insertions taken and {} refused: sets of up to 1,024 widgets and 32 layers, known ids met again, moved to top, lent contents, refusals 1, 2, 6 to 9 and 255; ASK and DUMP after each, and once a set of 40 or 1,024 is filled", m.met.taken(2), m.met.refused(2));
    all.add("inserts", &m.requests, &m.answers, &holds);
}

fn interacts(all: &mut Stored) {
    let scenes: [Scene; 14] = [
        Maker::handover, Maker::drags, Maker::drags, Maker::long_touch, Maker::drags, Maker::hit_lists, Maker::drags, Maker::drags, Maker::tally, Maker::drags, Maker::long_touch, Maker::drags, Maker::few_widgets, Maker::malformed,
    ];
    let m = made(2, &scenes, &[1, 4, 8, 9, 10, 255], words::INTERACT, |m| m.taken(words::INTERACT) >= 3100);
    for aim in ["drag start", "drag stop", "drag stop and start in one interact", "clicked", "long touch"] {
        assert!(m.met.aimed(aim) > 20, "{aim}");
    }
    let holds = format!("{} interacts taken and {} refused: drags, clicks, long touches, Escape, vanished widgets, click-and-drag widgets left and stayed in, refusals 1, 4, 8, 9, 10 and 255; ASK and DUMP after each", m.met.taken(4), m.met.refused(4));
    all.add("interacts", &m.requests, &m.answers, &holds);
}

fn main() {
    let folder = std::env::args().nth(1).expect("corpora FOLDER");
    std::fs::create_dir_all(&folder).expect("the folder");
    println!("# The stored corpora\n\nMade by `corpora` (compare/src/bin/corpora.rs) with egui's own files. One after the other they are the standard input of the test program `trace_corpora`, and egui's answers, one checksum a call, are its standard output: FNV-1a, 64 bits, of the answer's words as little-endian bytes, the record's first word included, 16 hexadecimal digits and a newline. Each starts with a RESET. Calls are numbered from 0 in each, ASK and DUMP included; call k of a trace is line \"from\" + k + 1 of the output.\n");
    println!("| trace | calls | from | bytes | holds |\n|---|---|---|---|---|");
    let mut all = Stored::default();
    passes(&mut all);
    pointer(&mut all);
    touch_wheel(&mut all);
    inserts(&mut all);
    interacts(&mut all);
    let s = edges::script();
    all.add("edges", &s.requests, &s.answers, "the lines below, each from a fresh panel");
    let k = kernel_edges::script();
    all.add("kernel", &k.requests, &k.answers, "KERNEL (A.1): the lines below, each from a fresh panel");
    let p = words::exists(words::PARK, LEVEL).then(parking_edges::script);
    if let Some(p) = &p {
        parked(&folder, &all);
        all.add("parking", &p.requests, &p.answers, "PARK, RESTORE_LAST, RESTORE (A.6): the lines below, each from a fresh panel");
    }
    if let Some(program) = std::env::args().nth(2) {
        put(&program, "stdin", &all.stdin);
        put(&program, "stdout", all.stdout.as_bytes());
    }
    println!("\nWhat the answer is in each line is asserted where the trace is made (compare/src/edges.rs, surprises.rs, kernel_edges.rs, parking_edges.rs).");
    table("edges", &s);
    table("kernel", &k);
    if let Some(p) = &p {
        table("parking", p);
    }
}

/// The calls that show each line.
fn table(name: &str, s: &Script) {
    println!("\n| calls of {name} | shown |\n|---|---|");
    for (line, from, to) in &s.shown {
        println!("| {from}–{to} | {line} |");
    }
}
