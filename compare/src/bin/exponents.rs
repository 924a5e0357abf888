//! exponents [calls=N] [seed=K] [every] PROGRAM [ARGUMENT ..]
//! A.5 by itself: its edges, then N random exponents (default 10,000,000), or with `every` each f32 of size at most 1, as EXP
//! calls in traces of 1 MiB. PROGRAM answers them as a child; each factor is held to the bound in whole numbers, every other
//! exponent to 13. Ends with 1 at the first that is wrong.
use fivvarul_compare::aimed::Rng;
use fivvarul_compare::exponential;
use fivvarul_compare::maker::LIMIT;
use fivvarul_compare::words::{EXP, record_at};
use std::process::{Command, ExitCode, Stdio};

const CALLS: usize = LIMIT / 2;
/// The pattern of 1.
const ONE: u32 = 0x3F80_0000;

struct Run {
    program: Vec<String>,
    file: String,
    waiting: Vec<f32>,
    factors: u64,
    refused: u64,
}

impl Run {
    fn add(&mut self, e: f32) -> Result<(), String> {
        self.waiting.push(e);
        if self.waiting.len() == CALLS { self.ask() } else { Ok(()) }
    }

    /// The answers to what waits.
    fn ask(&mut self) -> Result<(), String> {
        let trace: Vec<u8> = self.waiting.iter().flat_map(|e| [EXP << 24 | 1, e.to_bits()]).flat_map(u32::to_le_bytes).collect();
        std::fs::write(&self.file, trace).map_err(|e| e.to_string())?;
        let input = std::fs::File::open(&self.file).map_err(|e| e.to_string())?;
        let out = Command::new(&self.program[0]).args(&self.program[1..]).stdin(Stdio::from(input)).output().map_err(|e| e.to_string())?;
        let words: Vec<u32> = out.stdout.chunks_exact(4).map(|c| u32::from_le_bytes([c[0], c[1], c[2], c[3]])).collect();
        let mut at = 0;
        for e in std::mem::take(&mut self.waiting) {
            let answer = record_at(&words, at);
            at += answer.len();
            match answer {
                [1, f] if exponential::taken(e) && exponential::is_within(e, f32::from_bits(*f)) => self.factors += 1,
                [head] if !exponential::taken(e) && *head == 13 << 24 => self.refused += 1,
                _ => return Err(format!("exponent {e:e} ({:08x}): {answer:08x?}", e.to_bits())),
            }
        }
        if at == words.len() { Ok(()) } else { Err(format!("{} words left over", words.len() - at)) }
    }

    fn random(&mut self, calls: u64, seed: u64) -> Result<(), String> {
        let mut rng = Rng::new(seed);
        for _ in 0..calls {
            let word = rng.word();
            let sign = (word >> 63 << 31) as u32;
            let bits = match word % 16 {
                // of every size alike; of every value alike; of every pattern
                0..8 => (word >> 8) as u32 % (ONE + 1) | sign,
                8..15 => rng.unit().to_bits() | sign,
                _ => (word >> 8) as u32,
            };
            self.add(f32::from_bits(bits))?;
        }
        self.ask()
    }

    fn every(&mut self) -> Result<(), String> {
        for bits in (0..=ONE).chain(1 << 31..=ONE | 1 << 31) {
            self.add(f32::from_bits(bits))?;
        }
        self.ask()
    }
}

fn main() -> ExitCode {
    let (mut calls, mut seed, mut every) = (10_000_000, 1, false);
    let mut r = Run { program: Vec::new(), file: format!("exponents.trace.{}", std::process::id()), waiting: Vec::new(), factors: 0, refused: 0 };
    for arg in std::env::args().skip(1) {
        match arg.split_once('=') {
            Some(("calls", n)) if r.program.is_empty() => calls = n.parse().expect("calls=N"),
            Some(("seed", n)) if r.program.is_empty() => seed = n.parse().expect("seed=K"),
            None if r.program.is_empty() && arg == "every" => every = true,
            _ => r.program.push(arg),
        }
    }
    assert!(!r.program.is_empty(), "exponents [calls=N] [seed=K] [every] PROGRAM [ARGUMENT ..]");
    let edges: Vec<f32> = exponential::edges().into_iter().flat_map(|(_, e)| e).collect();
    let done = edges.into_iter().try_for_each(|e| r.add(e)).and_then(|()| if every { r.every() } else { r.random(calls, seed) });
    let _ = std::fs::remove_file(&r.file);
    if let Err(wrong) = done {
        println!("{wrong}");
        return ExitCode::from(1);
    }
    println!("{} factors within one part in 1,000,000 of the sum, {} exponents refused with 13", r.factors, r.refused);
    ExitCode::SUCCESS
}
