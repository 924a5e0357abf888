// Pairs of bit patterns for crates/ieee_vectors, from the machine's own arithmetic. To build and run:
//     rustc -O -o /tmp/ieee compare/vectors/ieee.rs && /tmp/ieee > crates/ieee_vectors/stdin
// 24,576 pairs (operand, result) for each of `as f32`, f32 `sqrt` and f64 `sqrt`; each pattern is a little-endian u64.
use std::io::Write;

const PAIRS: usize = 6 * 4096;

// xorshift64*, with a fixed seed
struct Random(u64);

impl Random {
    fn next(&mut self) -> u64 {
        self.0 ^= self.0 >> 12;
        self.0 ^= self.0 << 25;
        self.0 ^= self.0 >> 27;
        self.0.wrapping_mul(0x2545_f491_4f6c_dd1d)
    }
}

// Patterns with the sign clear, of a format with `frac` digits below the leading one: for every exponent (0 has the
// subnormals, the last the infinity and NaNs) the power of two, its neighbours, the middle and a random significand;
// and subnormals of every length.
fn patterns(fields: u64, frac: u32, random: &mut Random) -> Vec<u64> {
    let one = 1u64 << frac;
    let mut all = Vec::new();
    for field in 0..fields {
        let b = field * one;
        all.extend([b, b + 1, b + one / 2 - 1, b + one / 2, b + one / 2 + 1, b + one - 1, b + random.next() % one]);
    }
    for k in 0..frac {
        let b = 1u64 << k;
        all.extend([b - 1, b, b + 1, b + random.next() % b]);
    }
    all
}

// f64s on an f32 or in the middle of two, with their neighbours, in every f32 exponent; and the overflow edge, 2^128 less
// half a step
fn ties(random: &mut Random) -> Vec<u64> {
    let mut all = Vec::new();
    for field in 0..255u64 {
        for k in 0..if field == 0 { 200 } else { 5 } {
            // among the subnormals significands of every length, else the last two of the exponent and random ones
            let b = match (field, k) {
                (0, _) => random.next() % (2 << (k % 22)),
                (_, 0) => field * 0x80_0000 + 0x7f_fffe,
                _ => field * 0x80_0000 + random.next() % 0x7f_ffff,
            };
            let low = f32::from_bits(b as u32) as f64;
            let high = f32::from_bits(b as u32 + 1) as f64;
            for x in [low, (low + high) / 2.0] {
                let b = x.to_bits();
                all.extend([b.saturating_sub(1), b, b + 1]);
            }
        }
    }
    all.extend(0x47ef_ffff_efff_ffe0..0x47ef_ffff_f000_0020u64);
    all
}

// squares of whole numbers, with their neighbours: exact roots, and roots that almost are
fn squares(bits: u32, pattern: fn(u64) -> u64, random: &mut Random) -> Vec<u64> {
    let mut all = Vec::new();
    for _ in 0..1000 {
        let r = random.next() >> (64 - bits);
        let b = pattern(r * r);
        all.extend([b.saturating_sub(1), b, b + 1]);
    }
    all
}

// random patterns up to PAIRS, a zero among them, and the sign set in one of `signed`
fn filled(mut all: Vec<u64>, bits: u32, signed: usize, random: &mut Random) -> Vec<u64> {
    assert!(all.len() < PAIRS);
    while all.len() < PAIRS {
        all.push(random.next() >> (65 - bits));
    }
    all[PAIRS - 1] = 0;
    for k in (0..PAIRS).step_by(signed) {
        all[PAIRS - 1 - k] |= 1 << (bits - 1);
    }
    all
}

fn write(pairs: impl Iterator<Item = (u64, u64)>) {
    let mut bytes = Vec::new();
    for (x, y) in pairs {
        bytes.extend(x.to_le_bytes());
        bytes.extend(y.to_le_bytes());
    }
    std::io::stdout().write_all(&bytes).unwrap();
}

fn main() {
    let random = &mut Random(0x9e37_79b9_7f4a_7c15);
    let mut all = patterns(2048, 52, random);
    all.extend(ties(random));
    let all = filled(all, 64, 3, random);
    write(all.into_iter().map(|b| (b, (f64::from_bits(b) as f32).to_bits() as u64)));

    let mut all = patterns(256, 23, random);
    all.extend(squares(12, |n| (n as f32).to_bits() as u64, random));
    let all = filled(all, 32, 16, random);
    write(all.into_iter().map(|b| (b, f32::from_bits(b as u32).sqrt().to_bits() as u64)));

    let mut all = patterns(2048, 52, random);
    all.extend(squares(26, |n| (n as f64).to_bits(), random));
    let all = filled(all, 64, 16, random);
    write(all.into_iter().map(|b| (b, f64::from_bits(b).sqrt().to_bits())));
}
