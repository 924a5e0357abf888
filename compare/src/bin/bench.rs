//! bench [checked] < words     egui's side of bench/run.sh: see crates/bench_calls.
use std::io::Read;

fn main() {
    let mut bytes = Vec::new();
    std::io::stdin().read_to_end(&mut bytes).expect("readable");
    let words: Vec<u32> =
        bytes.chunks_exact(4).map(|c| u32::from_le_bytes([c[0], c[1], c[2], c[3]])).collect();
    let checked = std::env::args().any(|a| a == "checked");
    println!("{}", fivvarul_compare::bench::run(&words, checked));
}
