//! oracle [LEVEL] < requests > answers     See FORMAT.md. LEVEL: all requests up to A.LEVEL are landed; default: what is.
//! oracle [LEVEL] --text < requests        one line of hexadecimal words for each answer record
//! oracle [LEVEL] --sums < requests        one line for each answer record: its checksum, 16 hexadecimal digits
use fivvarul_compare::LEVEL;
use fivvarul_compare::words::{self, Stream};
use std::io::{BufReader, BufWriter, Read, Write};

fn word(r: &mut impl Read) -> std::io::Result<Option<u32>> {
    let mut b = [0u8; 4];
    let mut n = 0;
    while n < 4 {
        match r.read(&mut b[n..])? {
            0 => return Ok(None),
            k => n += k,
        }
    }
    Ok(Some(u32::from_le_bytes(b)))
}

fn main() -> std::io::Result<()> {
    let text = std::env::args().any(|a| a == "--text");
    let sums = std::env::args().any(|a| a == "--sums");
    let level = std::env::args().skip(1).find_map(|a| words::level_of(&a)).unwrap_or(LEVEL);
    let mut r = BufReader::with_capacity(1 << 16, std::io::stdin().lock());
    let mut out = BufWriter::with_capacity(1 << 16, std::io::stdout().lock());
    let mut stream = Stream::new(level);
    let mut request = Vec::new();
    let mut answers = Vec::new();
    while let Some(head) = word(&mut r)? {
        request.clear();
        let mut bytes = vec![0u8; (head & 0xFF_FFFF) as usize * 4];
        if r.read_exact(&mut bytes).is_err() {
            break; // a record cut short ends the trace
        }
        request.extend(bytes.chunks(4).map(|c| u32::from_le_bytes([c[0], c[1], c[2], c[3]])));
        answers.clear();
        words::answer(&mut stream, head >> 24, &request, &mut answers);
        if sums {
            writeln!(out, "{:016x}", words::checksum(&answers))?;
        } else if text {
            let line: Vec<String> = answers.iter().map(|w| format!("{w:08X}")).collect();
            writeln!(out, "{:02X}: {}", head >> 24, line.join(" "))?;
        } else {
            for w in &answers {
                out.write_all(&w.to_le_bytes())?;
            }
        }
        // Answers leave before the next request is waited for, so that a partner may converse.
        if r.buffer().is_empty() {
            out.flush()?;
        }
    }
    out.flush()
}
