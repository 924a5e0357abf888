//! linked [calls=N] [seed=K]
//! egui and the linked library in one process on the same aimed requests, every answer compared: those of `run`, but for the calls that the library
//! has not (DUMP, EXTRA, SET_TALLY and what is not landed), which neither side gets. The calls go through a recorder, whose
//! trace egui answers once more. Ends with 1 at the first difference.
mod machine;

use fivvarul_compare::beside::Beside;
use fivvarul_compare::scenes;
use fivvarul_compare::words::{call_name, record_at};
use machine::Machine;
use std::collections::BTreeMap;
use std::process::ExitCode;

/// The recorder's trace, answered by egui: what is answered otherwise than the library did, if anything is.
fn recorded(library: &Machine) -> Option<String> {
    let tape = library.tape.borrow();
    let mut egui = Beside::default();
    let mut at = 0;
    for answer in &library.answers {
        let request = record_at(&tape, at);
        at += request.len();
        if let Some(wrong) = egui.record(request[0] >> 24, &request[1..], answer) {
            return Some(format!("word {} {wrong}", at - request.len()));
        }
    }
    (at != tape.len()).then(|| format!("{} words left over", tape.len() - at))
}

fn main() -> ExitCode {
    let (mut calls, mut seed) = (1_000_000u64, 1u64);
    for arg in std::env::args().skip(1) {
        match arg.split_once('=') {
            Some(("calls", n)) => calls = n.parse().expect("calls=N"),
            Some(("seed", n)) => seed = n.parse().expect("seed=K"),
            _ => panic!("usage: linked [calls=N] [seed=K]"),
        }
    }
    let first = seed;
    // by call: taken, refused
    let mut counts: BTreeMap<u32, [u64; 2]> = BTreeMap::new();
    let mut done = 0;
    while done < calls {
        let requests = scenes::trace(seed).requests;
        let (mut egui, mut library) = (Beside::default(), Machine::default());
        let mut at = 0;
        while at < requests.len() {
            let request = record_at(&requests, at);
            at += request.len();
            let (call, words) = (request[0] >> 24, &request[1..]);
            let Some(got) = library.answer(call, words) else { continue };
            if let Some(wrong) = egui.record(call, words, &got) {
                println!("linked: seed {seed}, word {} {wrong}\n  {}", at - request.len(), egui.last());
                return ExitCode::from(1);
            }
            counts.entry(call).or_default()[usize::from(got[0] >> 24 != 0)] += 1;
            done += 1;
        }
        if let Some(wrong) = recorded(&library) {
            println!("linked: seed {seed}, the recorder's trace: {wrong}");
            return ExitCode::from(1);
        }
        seed += 1;
    }
    for (call, [taken, refused]) in &counts {
        println!("  {}: {taken} taken, {refused} refused", call_name(*call));
    }
    println!("linked: {done} calls in {} traces (seeds {first} to {}), no difference", seed - first, seed - 1);
    ExitCode::SUCCESS
}
