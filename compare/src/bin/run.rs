//! run [calls=N] [seconds=S] [seed=K] [keep=FILE] [scene=kernel|images] PROGRAM [ARGUMENT ..]
//! For each seed from K on a trace of just under 1 MiB: egui answers it here, PROGRAM as a child
//! (trace on its standard input, answers on its standard output); every answer word is compared.
//! Every sixteenth trace is also sent cut short at some byte: the records before are answered, and the program ends.
//! Ends after N calls or S seconds (default 1,000,000 calls) with 0, or at the first difference with
//! 1: then the request, the field's name, and the trace up to there in FILE. Without PROGRAM, egui alone.
//! With scene=kernel the traces hold KERNEL calls and passes with what they gave, and only KERNEL's aims are asked for; with
//! scene=images images of what the other scenes leave, most of them damaged, and no aims are asked for.
use fivvarul_compare::aimed::Rng;
use fivvarul_compare::beside::Beside;
use fivvarul_compare::maker::Maker;
use fivvarul_compare::met::Met;
use fivvarul_compare::words::record_at;
use fivvarul_compare::{LEVEL, scenes};
use std::io::Read;
use std::process::{Command, ExitCode, Stdio};
use std::time::Instant;

struct Args {
    calls: u64,
    seconds: f64,
    seed: u64,
    keep: String,
    kernel_alone: bool,
    images: bool,
    program: Vec<String>,
}

fn args() -> Args {
    let mut a = Args { calls: 0, seconds: 0.0, seed: 1, keep: "differs.trace".into(), kernel_alone: false, images: false, program: Vec::new() };
    for arg in std::env::args().skip(1) {
        match arg.split_once('=') {
            Some(("calls", n)) if a.program.is_empty() => a.calls = n.parse().expect("calls=N"),
            Some(("seconds", n)) if a.program.is_empty() => a.seconds = n.parse().expect("seconds=S"),
            Some(("seed", n)) if a.program.is_empty() => a.seed = n.parse().expect("seed=K"),
            Some(("scene", "kernel")) if a.program.is_empty() => a.kernel_alone = true,
            Some(("scene", "images")) if a.program.is_empty() => a.images = true,
            Some(("keep", f)) if a.program.is_empty() => a.keep = f.into(),
            _ => a.program.push(arg),
        }
    }
    if a.calls == 0 && a.seconds == 0.0 {
        a.calls = 1_000_000;
    }
    a
}

fn bytes(w: &[u32]) -> Vec<u8> {
    w.iter().flat_map(|w| w.to_le_bytes()).collect()
}

/// The answers of the program to a trace.
fn child(a: &Args, file: &str, trace: &[u8], room: usize) -> Result<Vec<u8>, String> {
    std::fs::write(file, trace).map_err(|e| format!("{file}: {e}"))?;
    let input = std::fs::File::open(file).map_err(|e| format!("{file}: {e}"))?;
    let mut c = Command::new(&a.program[0])
        .args(&a.program[1..])
        .stdin(Stdio::from(input))
        .stdout(Stdio::piped())
        .spawn()
        .map_err(|e| format!("{}: {e}", a.program[0]))?;
    let mut out = Vec::with_capacity(room);
    c.stdout.take().expect("piped").read_to_end(&mut out).map_err(|e| e.to_string())?;
    let status = c.wait().map_err(|e| e.to_string())?;
    if status.success() { Ok(out) } else { Err(format!("the program ends with {status}")) }
}

/// How many request words the whole records within the first `cut` bytes have, and how many their answers.
fn whole_records(requests: &[u32], answers: &[u32], cut: usize) -> (usize, usize) {
    let (mut i, mut j) = (0, 0);
    while i < requests.len() {
        let end = i + 1 + (requests[i] & 0xFF_FFFF) as usize;
        if 4 * end > cut {
            return (i, j);
        }
        i = end;
        j += 1 + (answers[j] & 0xFF_FFFF) as usize;
    }
    (i, j)
}

/// Names the first record that is answered wrongly: the words of the trace up to and with it. None: every answer is
/// right, if not egui's own word for word (`words::judge`).
fn explain(seed: u64, requests: &[u32], got: &[u8]) -> Option<usize> {
    let words: Vec<u32> = got.chunks_exact(4).map(|c| u32::from_le_bytes([c[0], c[1], c[2], c[3]])).collect();
    let mut beside = Beside::default();
    let (mut i, mut j, mut n) = (0, 0, 0);
    while i < requests.len() {
        let (request, have) = (record_at(requests, i), record_at(&words, j));
        i += request.len();
        j += have.len();
        if let Some(wrong) = beside.record(request[0] >> 24, &request[1..], have) {
            println!("seed {seed}, call {n} {wrong}\n  {}", beside.last());
            return Some(i);
        }
        n += 1;
    }
    if 4 * j == got.len() {
        return None;
    }
    println!("seed {seed}: {} bytes left over after the last answer", got.len() - 4 * j);
    Some(i)
}

/// True: the program gives egui's answers to this trace, and to it cut short now and then.
fn compared(a: &Args, file: &str, seed: u64, m: &Maker) -> bool {
    let trace = bytes(&m.requests);
    let mut cuts = vec![trace.len()];
    if seed % 16 == 0 {
        cuts.push(Rng::new(seed).below(trace.len() as u64) as usize);
    }
    for cut in cuts {
        let (asked, answered) = whole_records(&m.requests, &m.answers, cut);
        let want = bytes(&m.answers[..answered]);
        let got = match child(a, file, &trace[..cut], want.len()) {
            Err(e) => {
                println!("seed {seed}: {e}; its trace: {file}");
                return false;
            }
            Ok(got) => got,
        };
        if got != want
            && let Some(end) = explain(seed, &m.requests[..asked], &got)
        {
            let _ = std::fs::remove_file(file);
            std::fs::write(&a.keep, &trace[..cut.min(4 * end)]).expect("the trace is kept");
            println!("  the trace up to there: {}", a.keep);
            return false;
        }
    }
    true
}

fn main() -> ExitCode {
    let a = args();
    let start = Instant::now();
    let mut met = Met::default();
    let (mut seed, mut words, mut own) = (a.seed, 0u64, 0.0);
    let file = format!("{}.{}", a.keep, std::process::id());
    while met.total() < a.calls || (a.seconds > 0.0 && start.elapsed().as_secs_f64() < a.seconds) {
        let t = Instant::now();
        let m = match () {
            _ if a.kernel_alone => scenes::trace_of(Maker::kernel, seed),
            _ if a.images => scenes::trace_of(Maker::images, seed),
            _ => scenes::trace(seed),
        };
        own += t.elapsed().as_secs_f64();
        met.add(&m.met);
        words += m.answers.len() as u64;
        if !a.program.is_empty() && !compared(&a, &file, seed, &m) {
            return ExitCode::from(1);
        }
        seed += 1;
    }
    let _ = std::fs::remove_file(&file);
    met.print();
    let spent = start.elapsed().as_secs_f64();
    println!(
        "{} calls in {} traces (seeds {} to {}) at level {LEVEL}, {words} answer words, {}; {spent:.1} s, {own:.1} of them egui's and the generator's",
        met.total(), seed - a.seed, a.seed, seed - 1, if a.program.is_empty() { "egui alone" } else { "no difference" }
    );
    let missing = match () {
        _ if a.kernel_alone => met.missing_kernel(),
        _ if a.images => Vec::new(),
        _ => met.missing(),
    };
    if seed - a.seed >= 10 && !missing.is_empty() {
        println!("NOT MET: {}", missing.join("; "));
        return ExitCode::from(1);
    }
    ExitCode::SUCCESS
}
