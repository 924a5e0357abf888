//! What a KERNEL call shows: the rows of A.1's table that its reports have, where a 'dropped' stands, how full the buffer gets.
use crate::kernel::{Kernel, RECORD_BYTES, Slot};
use crate::words;

pub const AIMS: [&str; 14] = [
    "kernel: none then, none now, moved",
    "kernel: none then, a finger now: Start",
    "kernel: a finger then, none now: End",
    "kernel: the same finger, moved: Move",
    "kernel: the same finger, not moved",
    "kernel: another finger: End, Start",
    "kernel: End at another place than the last",
    "kernel: dropped",
    "kernel: dropped with a change before it",
    "kernel: dropped goes on from the call before",
    "kernel: a slot outside is skipped",
    "kernel: 8 before 12",
    "kernel: the buffer exactly full",
    "kernel: the buffer one word short",
];

/// The row of the table, by its aim.
fn row(then: Slot, now: Slot) -> Option<&'static str> {
    let moved = (then.x, then.y) != (now.x, now.y);
    match (then.id, now.id) {
        (-1, -1) => moved.then_some(AIMS[0]),
        (-1, _) => Some(AIMS[1]),
        (_, -1) => Some(AIMS[2]),
        (a, b) if a == b => Some(if moved { AIMS[3] } else { AIMS[4] }),
        _ => Some(AIMS[5]),
    }
}

fn slot_outside(r: &[u8], slots: usize) -> bool {
    let value = i32::from_le_bytes([r[20], r[21], r[22], r[23]]);
    r[16..20] == [3, 0, 0x2F, 0] && !(0..slots as i32).contains(&value)
}

/// `before`: what went on from the call before; `number`: the answer's.
pub fn shown(before: &Kernel, slots: usize, w: &[u32], number: u32) -> Vec<&'static str> {
    let mut seen = Vec::new();
    let Some(bytes) = w.get(4..).and_then(|rest| words::read_bytes(w[3], rest)) else { return seen };
    let (mut k, mut written) = (before.clone(), 0);
    if bytes.len() % RECORD_BYTES != 0 {
        return seen;
    }
    if k.skipping && !bytes.is_empty() {
        seen.push("kernel: dropped goes on from the call before");
    }
    for (i, r) in bytes.chunks(RECORD_BYTES).enumerate() {
        let last = k.clone();
        let Ok(one) = k.convert(slots, 0, usize::MAX, r) else { return seen };
        if last.skipping {
            if slot_outside(r, slots) {
                seen.push("kernel: a slot outside is skipped");
            }
        } else if one.dropped {
            seen.push("kernel: dropped");
            if last.now != last.acted {
                seen.push("kernel: dropped with a change before it");
            }
        } else if r[16..20] == [0; 4] {
            seen.extend((0..slots).filter_map(|n| row(last.acted[n], last.now[n])));
            if (0..slots).any(|n| last.acted[n].id >= 0 && last.now[n].id < 0 && last.acted[n].x != last.now[n].x) {
                seen.push("kernel: End at another place than the last");
            }
            written += one.feed.len();
            if number == 8 && written > w[2] as usize {
                if written == w[2] as usize + 1 {
                    seen.push("kernel: the buffer one word short");
                }
                if bytes.chunks(RECORD_BYTES).skip(i).any(|r| slot_outside(r, slots)) {
                    seen.push("kernel: 8 before 12");
                }
                return seen;
            }
        }
    }
    if number == 0 && written > 0 && written == w[2] as usize {
        seen.push("kernel: the buffer exactly full");
    }
    seen
}
