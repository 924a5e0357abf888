//! compare [LEVEL] REQUESTS ANSWERS [LIMIT]
//! Runs the oracle over REQUESTS and compares with a candidate's ANSWERS; names what differs.
//! LEVEL: all requests up to A.LEVEL are landed; default: what is.
//! Ends with 0 if all is alike, 1 if not. After a difference in a PASS, INSERT or INTERACT it stops
//! at LIMIT differences (default 20).
use fivvarul_compare::LEVEL;
use fivvarul_compare::beside::Beside;
use fivvarul_compare::words::{self, record_at};

fn read(path: &str) -> Vec<u32> {
    let b = std::fs::read(path).unwrap_or_else(|e| panic!("{path}: {e}"));
    assert!(b.len() % 4 == 0, "{path} ends inside a word");
    b.chunks(4).map(|c| u32::from_le_bytes([c[0], c[1], c[2], c[3]])).collect()
}

fn main() {
    let mut args: Vec<String> = std::env::args().skip(1).collect();
    let level = args.first().and_then(|a| words::level_of(a));
    if level.is_some() {
        args.remove(0);
    }
    let [req, ans] = [0, 1].map(|k| read(args.get(k).expect("compare [LEVEL] REQUESTS ANSWERS [LIMIT]")));
    let limit: usize = args.get(2).and_then(|l| l.parse().ok()).unwrap_or(20);
    let mut beside = Beside::new(level.unwrap_or(LEVEL));
    let (mut i, mut j, mut n, mut bad) = (0, 0, 0usize, 0usize);
    while i < req.len() && bad < limit {
        let (request, got) = (record_at(&req, i), record_at(&ans, j));
        let call = request[0] >> 24;
        if got.is_empty() {
            println!("record {n} ({}): the answers end here", words::call_name(call));
            std::process::exit(1);
        }
        if let Some(wrong) = beside.record(call, &request[1..], got) {
            bad += 1;
            println!("record {n} {wrong}");
            if bad == 1 {
                println!("  {}", beside.last());
            }
        }
        i += request.len();
        j += got.len();
        n += 1;
    }
    if bad == 0 && j != ans.len() {
        println!("{} words left over after the last answer", ans.len() - j);
        bad = 1;
    }
    if beside.skipped > 0 {
        println!("{} records after an image of foreign words was taken are not compared", beside.skipped);
    }
    println!("{n} records, {bad} different");
    std::process::exit((bad != 0) as i32);
}
