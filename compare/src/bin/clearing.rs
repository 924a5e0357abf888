//! clearing [lists=N] [seconds=S] [seed=K] [PROGRAM [ARGUMENT ..]]
//! Demand 3, as a check of how it is written down. On egui's own answers and, with PROGRAM, on the program's:
//! * two panels with different random pasts take the same clearing pass and interact, then the same later
//!   list, whose first button event is a press no sooner than twice the delay: from the next taken pass on
//!   their answers agree, but for what 01 excepts;
//! * the same without that condition on the first button event: some lists must differ, else the check sees nothing;
//! * from A.4 on: some pairs must differ in the seconds since the last movement before the first later one, and one written by hand does;
//! * along random lists each drag stop follows a start of the same id, at most one is open, the tally counts the starts.
use fivvarul_compare::LEVEL;
use fivvarul_compare::beside::Beside;
use fivvarul_compare::lists::{Balance, Since, agree, rested_apart, two_panels};
use fivvarul_compare::maker::{LIMIT, Maker};
use fivvarul_compare::words::{self, INTERACT, PASS, RESET, record_at};
use std::io::{Read, Write};
use std::process::{Command, ExitCode, Stdio};
use std::time::Instant;

/// The program's answers to a trace.
fn answers_of(program: &[String], trace: &[u32]) -> Vec<u32> {
    let mut c = Command::new(&program[0]).args(&program[1..]).stdin(Stdio::piped()).stdout(Stdio::piped()).spawn().expect("the program starts");
    let bytes: Vec<u8> = trace.iter().flat_map(|w| w.to_le_bytes()).collect();
    let mut input = c.stdin.take().expect("piped");
    let writer = std::thread::spawn(move || {
        let _ = input.write_all(&bytes);
    });
    let mut out = Vec::new();
    c.stdout.take().expect("piped").read_to_end(&mut out).expect("answers");
    let _ = writer.join();
    let _ = c.wait();
    out.chunks_exact(4).map(|c| u32::from_le_bytes([c[0], c[1], c[2], c[3]])).collect()
}

#[derive(Default)]
struct Sum {
    lists: u64,
    skipped: u64,
    passes: u64,
    interacts: u64,
    refused: u64,
    left_out: u64,
    differ: u64,
    rested_apart: u64,
}

/// One pair of panels on egui's answers; then through the program. The first difference, if any.
fn pair(seed: u64, condition: bool, program: &[String], sum: &mut Sum) -> Option<String> {
    let Some(two) = two_panels(seed, condition) else {
        sum.skipped += 1;
        return None;
    };
    let t = two.later.twin.as_ref().expect("two panels");
    sum.lists += 1;
    sum.passes += t.passes;
    sum.interacts += t.interacts;
    sum.refused += t.refused;
    sum.left_out += t.left_out;
    sum.rested_apart += u64::from(t.rested_apart);
    if let Some(d) = &t.differs {
        sum.differ += 1;
        return Some(format!("egui: {d}"));
    }
    if program.is_empty() || !condition {
        return None;
    }
    // past A and the common part; past B and the common part
    let mut later = Vec::new();
    for m in &two.past {
        let mut trace = words::record(RESET, &[]);
        trace.extend(&m.requests);
        let past = trace.len();
        trace.extend(&two.later.requests);
        let got = answers_of(program, &trace);
        match life(&trace, past, &got) {
            Life::Wrong(why) => return Some(why),
            Life::Unknown => return None,
            Life::Later(at) => later.push(got[at..].to_vec()),
        }
    }
    later_agrees(&two.later.requests, &later[0], &later[1])
}

/// What the program answered to one panel's calls.
enum Life {
    Wrong(String),
    /// The past ends with an image that no parking wrote: 02 says nothing of it.
    Unknown,
    /// Where the answers to the later list begin.
    Later(usize),
}

fn life(trace: &[u32], past: usize, got: &[u32]) -> Life {
    let mut beside = Beside::default();
    let (mut i, mut j, mut later) = (0, 0, 0);
    while i < trace.len() {
        if i == past {
            if !beside.is_known() {
                return Life::Unknown;
            }
            later = j;
        }
        let (request, have) = (record_at(trace, i), record_at(got, j));
        i += request.len();
        j += have.len();
        if let Some(wrong) = beside.record(request[0] >> 24, &request[1..], have) {
            return Life::Wrong(format!("the program: {wrong}"));
        }
    }
    Life::Later(later)
}

/// The two later parts of the program's own answers.
fn later_agrees(requests: &[u32], a: &[u32], b: &[u32]) -> Option<String> {
    let (mut i, mut ja, mut jb, mut pass, mut since) = (0, 0, 0, false, Since::default());
    while i < requests.len() {
        let call = requests[i] >> 24;
        let (ra, rb) = (record_at(a, ja), record_at(b, jb));
        pass |= call == PASS && ra[0] >> 24 == 0;
        if pass && call == words::ASK {
            since.asked(&ra[1..]);
        }
        if pass && let Err(e) = agree(call, ra, rb, since) {
            return Some(format!("the program: {e}"));
        }
        i += 1 + (requests[i] & 0xFF_FFFF) as usize;
        ja += ra.len();
        jb += rb.len();
    }
    None
}

/// A list from a fresh panel, its answers from egui or the program.
fn balance(seed: u64, program: &[String], counted: &mut [u64; 3]) -> Result<(), String> {
    let mut m = Maker::new(seed, LIMIT, 0, 0);
    m.list = true;
    while !m.full {
        m.scene();
        m.drags();
        m.long_touch();
    }
    let answers = if program.is_empty() { m.answers } else { answers_of(program, &m.requests) };
    let (mut b, mut i, mut j) = (Balance::default(), 0, 0);
    while i < m.requests.len() && j < answers.len() {
        let a = record_at(&answers, j);
        if m.requests[i] >> 24 == INTERACT {
            b.interact(a)?;
            counted[0] += 1;
        }
        i += 1 + (m.requests[i] & 0xFF_FFFF) as usize;
        j += a.len();
    }
    counted[1] += u64::from(b.starts);
    counted[2] += u64::from(b.stops);
    if i < m.requests.len() { Err("the answers end early".into()) } else { Ok(()) }
}

fn main() -> ExitCode {
    let (mut lists, mut seconds, mut seed, mut program) = (0u64, 0.0f64, 1u64, Vec::new());
    for arg in std::env::args().skip(1) {
        match arg.split_once('=') {
            Some(("lists", n)) if program.is_empty() => lists = n.parse().expect("lists=N"),
            Some(("seconds", n)) if program.is_empty() => seconds = n.parse().expect("seconds=S"),
            Some(("seed", n)) if program.is_empty() => seed = n.parse().expect("seed=K"),
            _ => program.push(arg),
        }
    }
    if lists == 0 && seconds == 0.0 {
        lists = 2000;
    }
    if let Err(e) = rested_apart() {
        println!("two panels, rested: {e}");
        return ExitCode::from(1);
    }
    let start = Instant::now();
    let (mut with, mut without, mut counted) = (Sum::default(), Sum::default(), [0; 3]);
    let mut n = 0;
    while n < lists || start.elapsed().as_secs_f64() < seconds {
        let k = seed + n;
        if let Some(d) = pair(k, true, &program, &mut with) {
            println!("clearing, seed {k}: {d}");
            return ExitCode::from(1);
        }
        pair(k, false, &[], &mut without);
        if n % 100 == 0
            && let Err(e) = balance(k, &program, &mut counted)
        {
            println!("balance, seed {k}: {e}");
            return ExitCode::from(1);
        }
        n += 1;
    }
    let s = &with;
    println!("clearing: {} pairs of panels, {} passes and {} interacts taken by both, {} refused by both; every answer alike", s.lists, s.passes, s.interacts, s.refused);
    println!("  {} calls left out, taken by one and refused by the other; {} pairs left out, whose clearing pass is refused", s.left_out, s.skipped);
    println!("  without the condition on the first button event {} of {} lists differ", without.differ, without.lists);
    if words::exists(words::RESTED, LEVEL) {
        println!("  {} pairs differ in the seconds since the last movement up to the first later one", s.rested_apart);
    }
    println!("balance: {} interacts along random lists, {} starts, {} stops", counted[0], counted[1], counted[2]);
    if n >= 200 && (without.differ == 0 || counted[1] == 0) {
        println!("NOT MET: a list that differs without the condition, and a drag start");
        return ExitCode::from(1);
    }
    if n >= 200 && words::exists(words::RESTED, LEVEL) && with.rested_apart == 0 {
        println!("NOT MET: a pair that differs in the seconds since the last movement");
        return ExitCode::from(1);
    }
    ExitCode::SUCCESS
}
