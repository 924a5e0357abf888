//! generate SEED CALLS [DUMP_EVERY] > requests
//! generate scenes SEED > requests      the runner's trace of that seed, just under 1 MiB
//! A stream of aimed requests: after each call that can change the state an ASK, after every DUMP_EVERY-th (default 1; 0: never) a DUMP.
use fivvarul_compare::aimed::Aimed;
use fivvarul_compare::{scenes, words};
use std::io::Write;

fn main() -> std::io::Result<()> {
    let n = |k: usize, or: u64| std::env::args().nth(k).and_then(|a| a.parse().ok()).unwrap_or(or);
    let mut out = std::io::BufWriter::new(std::io::stdout().lock());
    if std::env::args().nth(1).is_some_and(|a| a == "scenes") {
        for x in scenes::trace(n(2, 1)).requests {
            out.write_all(&x.to_le_bytes())?;
        }
        return out.flush();
    }
    let (seed, calls, every) = (n(1, 1), n(2, 100), n(3, 1));
    let mut aimed = Aimed::new(seed);
    for k in 0..calls {
        let mut w = aimed.next_call();
        w.extend(words::record(words::ASK, &[]));
        if every != 0 && k % every == 0 {
            w.extend(words::record(words::DUMP, &[]));
        }
        for x in w {
            out.write_all(&x.to_le_bytes())?;
        }
    }
    out.flush()
}
