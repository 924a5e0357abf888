//! Traces of aimed scenes, with egui's answers: what a hand (`hands`), a cable or a careless host (`limits`),
//! a host that asks for 02's requests (`later`, `images`) does.
//! ASK follows most calls and DUMP some. Between scenes come stretches of `aimed`'s requests.
use crate::maker::{LIMIT, Maker};
use crate::words::{ASK, DUMP};

pub type Scene = fn(&mut Maker);
/// The scenes, and how often each comes. The long ones (a full history, a full widget set) are rarer.
const SCENES: [(u32, Scene); 25] = [
    (30, Maker::plain),
    (12, Maker::clicks),
    (6, Maker::moves),
    (12, Maker::drags),
    (3, Maker::handover),
    (5, Maker::long_touch),
    (10, Maker::fingers),
    (4, Maker::devices),
    (8, Maker::wheel),
    (6, Maker::damaged_event),
    (3, Maker::many_events),
    (4, Maker::own_numbers),
    (3, Maker::malformed),
    (3, Maker::later_calls),
    (4, Maker::kernel),
    (3, Maker::keys),
    (4, Maker::hit_lists),
    (3, Maker::tally),
    (3, Maker::zooms),
    (2, Maker::times),
    (3, Maker::few_widgets),
    (1, Maker::lent_contents),
    (1, Maker::full_events),
    (1, Maker::full_history),
    (1, Maker::full_widgets),
];

/// A trace of just under 1 MiB from this seed, of one scene over and over.
pub fn trace_of(scene: Scene, seed: u64) -> Maker {
    let mut m = Maker::new(seed, LIMIT, 5, 12);
    while !m.full {
        scene(&mut m);
    }
    m
}

/// A trace of just under 1 MiB from this seed.
pub fn trace(seed: u64) -> Maker {
    let mut m = Maker::new(seed, LIMIT, 5, 12);
    let first = m.s.rng.below(4);
    if first == 0 {
        m.record(ASK, &[]);
        m.record(DUMP, &[]);
    }
    if first == 1 {
        m.some_interact();
    }
    while !m.full {
        m.scene();
    }
    m
}

impl Maker {
    pub fn scene(&mut self) {
        let sum: u32 = SCENES.iter().map(|(n, _)| n).sum();
        let mut k = self.s.rng.below(u64::from(sum)) as u32;
        for (n, scene) in SCENES {
            if k < n {
                return scene(self);
            }
            k -= n;
        }
    }
}
