//! Demand 3 on egui's own answers, as a check of how it is written down: the balance of drag starts and stops
//! along a list, and two panels with different pasts after the same clearing pass.
use crate::aimed::nudge;
use crate::domain::Held;
use crate::panel::{Hits, Pass};
use crate::maker::Maker;
use crate::scenes::Scene;
use crate::words::{self, ASK, CLEAR, DUMP, INSERT, INTERACT, PASS, RESET, RESTED, SET_TALLY, Stream, tally_words};
use crate::{LEVEL, Pos2, Rect, script};

// ---------------------------------------------------------------- balance

/// Starts and stops along the answers of a list from a fresh panel.
#[derive(Default)]
pub struct Balance {
    open: u64,
    pub starts: u32,
    pub stops: u32,
}
impl Balance {
    /// One answered INTERACT.
    pub fn interact(&mut self, answer: &[u32]) -> Result<(), String> {
        if answer[0] >> 24 != 0 {
            return Ok(());
        }
        let id = |k: usize| u64::from(answer[1 + 2 * k]) | u64::from(answer[2 + 2 * k]) << 32;
        let (started, dragged, stopped) = (id(2), id(3), id(4));
        if stopped != 0 {
            if stopped != self.open {
                return Err(format!("{stopped} is stopped, {} was dragged", self.open));
            }
            self.open = 0;
            self.stops += 1;
        }
        if started != 0 {
            if self.open != 0 {
                return Err(format!("{started} is started while {} is dragged", self.open));
            }
            self.open = started;
            self.starts += 1;
        }
        let tally = answer[answer.len() - tally_words(LEVEL)];
        if dragged != self.open || tally != self.starts {
            return Err(format!("dragged {dragged}, tally {tally}; by the starts and stops {} and {}", self.open, self.starts));
        }
        Ok(())
    }
}

// ---------------------------------------------------------------- two panels

/// RESTED exists from here on.
const RESTED_LEVEL: u32 = words::CALLS[RESTED as usize].1;

/// The second panel, and where the later list stands.
pub struct Twin {
    pub b: Stream,
    pub answers_b: Vec<u32>,
    /// words 10 to 17 of the clearing pass
    options: Vec<u32>,
    clearing: f64,
    twice: f64,
    /// only lists whose first button event is a press, late enough
    condition: bool,
    button_yet: bool,
    pass_yet: bool,
    since: Since,
    /// the seconds since the last movement differed before the first later one
    pub rested_apart: bool,
    pub passes: u64,
    pub interacts: u64,
    pub refused: u64,
    pub left_out: u64,
    pub differs: Option<String>,
}

/// What came from the next taken pass on: a click, a movement.
#[derive(Clone, Copy, Default)]
pub struct Since {
    click: bool,
    movement: bool,
}
impl Since {
    /// By the words of an answered ASK: 121 bit 6 is any_click, bit 2 is_moving; from 129 on stand the pointer events, kind 0 a move.
    pub fn asked(&mut self, w: &[u32]) {
        self.click |= w[121] >> 6 & 1 != 0;
        self.movement |= w[121] >> 2 & 1 != 0 || w[129..].chunks(5).take(w[128] as usize).any(|e| e[0] & 0xFF == 0);
    }
}

/// Both answers to one call of the later list, but for what 01 and 02 except.
pub fn agree(call: u32, a: &[u32], b: &[u32], since: Since) -> Result<(), String> {
    let (na, nb) = (a[0] >> 24, b[0] >> 24);
    if (na == 0) != (nb == 0) {
        return Err("taken by one, refused by the other".into());
    }
    if na == 5 || nb == 5 {
        return Ok(());
    }
    match call {
        INTERACT if na == 0 && a[..a.len() - tally_words(LEVEL)] != b[..b.len() - tally_words(LEVEL)] => Err("interact".into()),
        INTERACT if na == 0 => Ok(()),
        ASK => asked(&a[1..], &b[1..], since.click),
        // 02 A.4: "two panels need agree on this answer only from their first later movement"
        RESTED if !since.movement => Ok(()),
        _ if a != b => Err(format!("call {call}")),
        _ => Ok(()),
    }
}

/// FORMAT.md's words of ASK: 78 bit 1 is has_touch_screen, 122 the seconds since the last click, the devices stand last.
fn asked(a: &[u32], b: &[u32], click_yet: bool) -> Result<(), String> {
    let fixed = |v: &[u32]| 129 + 5 * v[128] as usize;
    let end = fixed(a).min(fixed(b));
    for k in 0..end {
        let alike = match k {
            78 => a[k] & !2 == b[k] & !2,
            122 => !click_yet || a[k] == b[k],
            _ => a[k] == b[k],
        };
        if !alike {
            return Err(format!("ASK word {k}"));
        }
    }
    let devices = |v: &[u32]| -> Vec<(u64, Vec<u32>)> {
        v[fixed(v) + 1..].chunks(21).map(|c| (u64::from(c[0]) | u64::from(c[1]) << 32, c[2..].to_vec())).filter(|(_, c)| c.iter().any(|w| *w != 0)).collect()
    };
    if devices(a) != devices(b) {
        return Err("touches or info of a device".into());
    }
    Ok(())
}

impl Twin {
    /// The second panel after the clearing pass, whose words are `pass`.
    fn new(b: &Stream, pass: &[u32], clearing: &Pass, condition: bool) -> Self {
        Self {
            b: b.clone(),
            answers_b: Vec::new(),
            options: pass[10..18].to_vec(),
            clearing: clearing.time.expect("a clearing pass gives a time"),
            twice: 2.0 * clearing.options.max_double_click_delay,
            condition,
            button_yet: false,
            pass_yet: false,
            since: Since::default(),
            rested_apart: false,
            passes: 0,
            interacts: 0,
            refused: 0,
            left_out: 0,
            differs: None,
        }
    }

    /// One call to both panels. It joins the list if both take it or both refuse it, and the first button event is as asked.
    pub fn record(&mut self, a: &mut Stream, requests: &mut Vec<u32>, answers: &mut Vec<u32>, call: u32, w: &[u32]) {
        if matches!(call, RESET | SET_TALLY | DUMP | ASK) || call > SET_TALLY {
            return;
        }
        let mut w = w.to_vec();
        if call == PASS && w.len() >= words::PASS_WORDS {
            w[10..18].copy_from_slice(&self.options);
        }
        let (mut a2, mut b2) = (a.clone(), self.b.clone());
        let (mut ra, mut rb) = (Vec::new(), Vec::new());
        words::answer(&mut a2, call, &w, &mut ra);
        words::answer(&mut b2, call, &w, &mut rb);
        let taken = ra[0] >> 24 == 0;
        if taken != (rb[0] >> 24 == 0) {
            self.left_out += 1;
            return;
        }
        if taken && call == PASS && !self.button_yet {
            match first_button(&w[words::PASS_WORDS..]) {
                None => {}
                Some(pressed) => {
                    if self.condition && !(pressed && a2.panel.input.time - self.clearing >= self.twice) {
                        return;
                    }
                    self.button_yet = true;
                }
            }
        }
        *a = a2;
        self.b = b2;
        self.passes += (call == PASS && taken) as u64;
        self.interacts += (call == INTERACT && taken) as u64;
        self.refused += !taken as u64;
        self.pass_yet |= call == PASS && taken;
        self.keep(requests, answers, call, &w, ra, rb);
        if call == PASS || call == INTERACT {
            let (mut ra, mut rb) = (Vec::new(), Vec::new());
            words::answer(a, ASK, &[], &mut ra);
            words::answer(&mut self.b, ASK, &[], &mut rb);
            if self.pass_yet {
                self.since.asked(&ra[1..]);
            }
            self.keep(requests, answers, ASK, &[], ra, rb);
            self.rested(a, requests, answers);
        }
    }

    fn rested(&mut self, a: &mut Stream, requests: &mut Vec<u32>, answers: &mut Vec<u32>) {
        if !words::exists(RESTED, LEVEL) {
            return;
        }
        let (mut ra, mut rb) = (Vec::new(), Vec::new());
        words::answer(a, RESTED, &[], &mut ra);
        words::answer(&mut self.b, RESTED, &[], &mut rb);
        self.rested_apart |= self.pass_yet && ra != rb;
        self.keep(requests, answers, RESTED, &[], ra, rb);
    }

    fn keep(&mut self, requests: &mut Vec<u32>, answers: &mut Vec<u32>, call: u32, w: &[u32], a: Vec<u32>, b: Vec<u32>) {
        if self.pass_yet && self.differs.is_none() {
            self.differs = agree(call, &a, &b, self.since).err();
        }
        requests.extend(words::record(call, w));
        answers.extend(a);
        self.answers_b.extend(b);
    }
}

/// A.4's exception is needed, on egui's own answers: a panel that moved once and one that never did, after one clearing pass and interact.
/// They differ in the next taken pass, a press, and for good until the first later movement; from that pass on they agree.
pub fn rested_apart() -> Result<(), String> {
    let answer = |s: &mut Stream, time: f64, feed: &[u32]| -> Vec<u32> {
        let p = Pass { time: Some(time), screen_rect: Some(Rect::from_min_max(Pos2::new(0.0, 0.0), Pos2::new(800.0, 600.0))), ..Default::default() };
        let mut taken = Vec::new();
        words::answer(s, PASS, &words::write_pass(&p, feed), &mut taken);
        assert_eq!(taken, [0], "a pass that is taken");
        let mut rested = Vec::new();
        words::answer(s, RESTED, &[], &mut rested);
        rested
    };
    let at = Pos2::new(3.0, 4.0);
    let (mut a, mut b) = (Stream::new(RESTED_LEVEL), Stream::new(RESTED_LEVEL));
    answer(&mut a, 1.0, &script::moved(at.x, at.y));
    for s in [&mut a, &mut b] {
        answer(s, 2.0, &script::clearing_feed(&[], at));
        words::answer(s, INTERACT, &words::write_interact(66, 66, &Hits::default()), &mut Vec::new());
    }
    let late = [(4.0, script::press(at.x, at.y)), (5.0, Vec::new()), (6.0, script::moved(at.x, at.y)), (7.0, Vec::new())];
    for (k, (time, feed)) in late.iter().enumerate() {
        let (ra, rb) = (answer(&mut a, *time, feed), answer(&mut b, *time, feed));
        let apart = [2, 1, ((*time - 1.0) as f32).to_bits()];
        let right = if k < 2 { ra == apart && rb == [2, 0, 0] } else { ra == rb && ra[1] == 1 };
        if !right {
            return Err(format!("at {time} s: {ra:?} and {rb:?}"));
        }
    }
    Ok(())
}

/// Of a feed's first button event: is it a press?
fn first_button(feed: &[u32]) -> Option<bool> {
    let mut at = 0;
    while at < feed.len() {
        let (kind, low) = ((feed[at] >> 28) as usize, feed[at] & 0x0FFF_FFFF);
        if kind == 5 {
            return Some(low >> 8 & 1 != 0);
        }
        at += 1 + crate::domain::LENGTHS[kind] + (kind == 9 && low & 4 != 0) as usize;
    }
    None
}

/// Two pasts, the clearing pass with its interact, and a later list.
pub struct TwoPanels {
    /// each with the clearing pass and its interact at its end
    pub past: [Maker; 2],
    pub later: Maker,
}

const LATER: [Scene; 14] = [
    Maker::clicks, Maker::moves, Maker::drags, Maker::long_touch, Maker::fingers, Maker::devices, Maker::wheel, Maker::keys,
    Maker::zooms, Maker::hit_lists, Maker::damaged_event, Maker::many_events, Maker::plain, Maker::times,
];

/// None: the clearing pass can't be taken by both (more touches or devices than one feed or panel may hold, or the end of time).
pub fn two_panels(seed: u64, condition: bool) -> Option<TwoPanels> {
    let mut past = [2 * seed, 2 * seed + 1].map(|s| {
        let mut m = Maker::new(s, 8000, 0, 0);
        for _ in 0..m.s.rng.below(6) {
            m.scene();
        }
        m.room(2000);
        m
    });
    let rng = &mut past[0].s.rng;
    let at = Pos2::new((rng.unit() * 100.0).floor(), (rng.unit() * 100.0).floor());
    let options = crate::aimed::some_options(rng);
    let wait = rng.pick(&[0.0, 1.0 / 64.0, 1.0]);
    let time = past[0].now().max(past[1].now()) + wait;
    let screen = Rect::from_min_max(Pos2::new(0.0, 0.0), Pos2::new(800.0, 600.0));
    let clearing = Pass { time: Some(time), screen_rect: Some(screen), options, ..Default::default() };
    let pass = words::write_pass(&clearing, &script::clearing_feed(&held_by_either(&past), at));
    let hits = words::write_interact(66, 66, &script::over(11 + seed % 2, 3));
    for m in &mut past {
        m.record(CLEAR, &[]);
        for k in 0..4 {
            m.record(INSERT, &words::write_insert(&script::widget(10 + k, [1, 2, 3, 0][k as usize]), false, 4));
        }
        for (call, w) in [(PASS, &pass), (INTERACT, &hits)] {
            let at = m.record(call, w);
            if m.answers[at] >> 24 != 0 {
                return None;
            }
        }
    }
    let mut later = Maker::new(seed ^ 0x5DEE_CE66, 20_000, 0, 0);
    later.s.stream = past[0].s.stream.clone();
    later.s.options = options;
    later.twin = Some(Twin::new(&past[1].s.stream, &pass, &clearing, condition));
    later_list(&mut later, time, at);
    Some(TwoPanels { past, later })
}

/// The touches for which a clearing pass has an End.
fn held_by_either(past: &[Maker; 2]) -> Held {
    let mut held = past[0].s.stream.panel.held();
    for (d, touches) in past[1].s.stream.panel.held() {
        match held.iter_mut().find(|(e, _)| *e == d) {
            Some((_, t)) => touches.iter().for_each(|id| if !t.contains(id) { t.push(*id) }),
            None => held.push((d, touches)),
        }
    }
    held
}

/// Some calls without a button, a press as soon as allowed where the clearing pass released, then scenes.
fn later_list(m: &mut Maker, clearing: f64, at: Pos2) {
    if m.s.rng.once_in(3) {
        m.some_interact();
    }
    let scene = m.s.rng.pick(&[Maker::wheel as Scene, Maker::fingers, Maker::keys, Maker::moves]);
    if m.s.rng.once_in(2) {
        scene(m);
    }
    let twin = m.twin.as_ref().expect("two panels");
    let (twice, condition) = (twin.twice, twin.condition);
    let mut t = clearing + twice;
    while t - clearing < twice {
        t = nudge(t, 1);
    }
    if !condition {
        t = clearing + m.s.rng.pick(&[0.0, 0.25, 0.5]) * twice;
    }
    let together = m.s.rng.once_in(2);
    let mut feed = script::press(at.x, at.y);
    if together {
        feed.extend(script::release(at.x, at.y));
    }
    let mut p = Pass { time: Some(t.max(m.now())), ..Default::default() };
    m.record(PASS, &words::write_pass(&p, &feed));
    m.some_interact();
    if !together {
        p.time = Some(m.now());
        m.record(PASS, &words::write_pass(&p, &script::release(at.x, at.y)));
        m.record(INTERACT, &words::write_interact(66, 66, &Hits::default()));
    }
    for _ in 0..2 + m.s.rng.below(4) {
        let scene = m.s.rng.pick(&LATER);
        scene(m);
    }
}
