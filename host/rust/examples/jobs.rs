//! Four job lists and one motion queue. Jobs are dragged from a list to the queue; the cable loses one release in four, and the host sends a clearing
//! pass when nothing has come for a second. A slot of the queue is reserved when a drag starts, and filled or given back when it stops.
//!
//!     cargo run --example jobs            prints what happens
//!     cargo run --example jobs TRACE      also writes every call to TRACE, for ./run TRACE
use fivvarul::{
    pos2, Event, Feed, Hit, Hits, InteractionSnapshot, LayerId, Modifiers, PointerButton, Pos2, RawInput, Recorder, Rect, Refusal, Sense, WidgetRect,
};
use std::{fs, io::Write};

const LISTS: u64 = 4;
const JOBS: u64 = 4;
const QUEUE: u64 = 500;
const DRAGS: u32 = 24;
const STEP: f64 = 0.125;
const QUIET: f64 = 1.0;

/// The slots of the motion queue.
#[derive(Default, Debug)]
struct Slots {
    reserved: u32,
    filled: u32,
    given_back: u32,
}

/// A fixed sequence in place of chance, so that every run is the same.
struct Chance(u32);

impl Chance {
    fn below(&mut self, n: u32) -> u32 {
        self.0 = self.0.wrapping_mul(1_664_525).wrapping_add(1_013_904_223);
        (self.0 >> 16) % n
    }
}

fn widget(id: u64, min: Pos2, max: Pos2, sense: u32) -> WidgetRect {
    let rect = Rect::from_min_max(min, max);
    WidgetRect { id, parent_id: 1, layer_id: LayerId { order: 1, id: 1 }, rect, interact_rect: rect, sense, enabled: true, visible: true }
}

/// Job 203 is the fourth of the second list; lists stand side by side above the queue.
fn widgets() -> Vec<WidgetRect> {
    let mut all = vec![widget(QUEUE, pos2(0.0, 400.0), pos2(800.0, 480.0), Sense::hover())];
    for list in 0..LISTS {
        for job in 0..JOBS {
            let (x, y) = (200.0 * list as f32, 60.0 * job as f32);
            all.push(widget(100 * (list + 1) + job, pos2(x, y), pos2(x + 180.0, y + 50.0), Sense::drag()));
        }
    }
    all
}

struct Shop<S> {
    panel: Recorder<S>,
    widgets: Vec<WidgetRect>,
    layer: [WidgetRect; 32],
    slots: Slots,
    time: f64,
    last_event: f64,
}

impl<S: FnMut(&[u32])> Shop<S> {
    fn input(&self) -> RawInput<'static> {
        let screen_rect = Some(Rect::from_min_max(pos2(0.0, 0.0), pos2(800.0, 480.0)));
        RawInput { time: Some(self.time), screen_rect, ..RawInput::default() }
    }

    /// A pass, the widgets of this pass, the hit test, an interact.
    fn pass(&mut self, feed: &Feed, clearing: bool) -> Result<(), Refusal> {
        self.time += STEP;
        if !feed.words().is_empty() {
            self.last_event = self.time;
        }
        self.panel.begin_pass_words(&self.input(), feed.words())?;
        self.panel.clear_widgets();
        for w in &self.widgets {
            self.panel.insert(&mut self.layer, *w, false)?;
        }
        let at = self.panel.pointer().interact_pos();
        let under: Vec<Hit> = self.widgets.iter().filter(|w| at.is_some_and(|p| w.interact_rect.contains(p))).map(Hit::from).collect();
        let drag = under.iter().copied().find(|h| h.sense & u64::from(Sense::DRAG) != 0);
        let snapshot = self.panel.interact(&Hits { close: &under, contains_pointer: &under, click: None, drag })?;
        let over_queue = under.iter().any(|h| h.id == QUEUE);
        self.settle(&snapshot, over_queue && !clearing, clearing);
        Ok(())
    }

    /// Reserves a slot for a drag that started, fills it or gives it back for one that stopped.
    fn settle(&mut self, snapshot: &InteractionSnapshot, queued: bool, clearing: bool) {
        if let Some(job) = snapshot.drag_started {
            self.slots.reserved += 1;
            println!("{:7.3}  job {job}: drag starts, a slot is reserved", self.time);
        }
        if let Some(job) = snapshot.drag_stopped {
            // A job that the clearing pass lets go is not queued: nobody released it.
            if queued {
                self.slots.filled += 1;
                println!("{:7.3}  job {job}: dropped on the queue, the slot is filled", self.time);
            } else {
                self.slots.given_back += 1;
                let why = if clearing { "let go by the clearing pass" } else { "dropped elsewhere" };
                println!("{:7.3}  job {job}: {why}, the slot is given back", self.time);
            }
        }
        let dragged = u32::from(snapshot.dragged.is_some());
        assert_eq!(self.slots.reserved, self.slots.filled + self.slots.given_back + dragged);
    }

    fn events(&mut self, events: &[Event]) -> Result<(), Refusal> {
        self.pass(&Feed::of(events), false)
    }

    /// Passes without events until the host takes the silence for a loss.
    fn wait(&mut self, pos: Pos2) -> Result<(), Refusal> {
        while self.time - self.last_event < QUIET {
            self.events(&[])?;
        }
        if self.panel.pointer().any_down() {
            self.pass(&Feed::clearing(&[], pos), true)?;
        }
        Ok(())
    }
}

fn main() -> Result<(), Box<dyn std::error::Error>> {
    let mut trace: Vec<u32> = Vec::new();
    let panel = Recorder::new(|words: &[u32]| trace.extend_from_slice(words));
    let mut shop = Shop { panel, widgets: widgets(), layer: [WidgetRect::default(); 32], slots: Slots::default(), time: 0.0, last_event: 0.0 };
    let mut chance = Chance(2026);
    let mut lost = 0;
    let button = |pos, pressed| Event::PointerButton { pos, button: PointerButton::Primary, pressed, modifiers: Modifiers::NONE };
    for _ in 0..DRAGS {
        let (list, job) = (chance.below(LISTS as u32) as f32, chance.below(JOBS as u32) as f32);
        let from = pos2(200.0 * list + 90.0, 60.0 * job + 25.0);
        let to = pos2(100.0 + 200.0 * chance.below(4) as f32, if chance.below(4) == 0 { 320.0 } else { 440.0 });
        shop.events(&[Event::PointerMoved(from), button(from, true)])?;
        shop.events(&[Event::PointerMoved(pos2((from.x + to.x) / 2.0, (from.y + to.y) / 2.0))])?;
        shop.events(&[Event::PointerMoved(to)])?;
        if chance.below(4) == 0 {
            lost += 1;
        } else {
            shop.events(&[button(to, false)])?;
        }
        shop.wait(to)?;
    }
    let Slots { reserved, filled, given_back } = shop.slots;
    println!("{DRAGS} drags, {lost} releases lost on the cable");
    println!(
        "slots: {reserved} reserved, {filled} filled, {given_back} given back: {}",
        if reserved == filled + given_back { "they balance" } else { "THEY DON'T BALANCE" }
    );
    println!("drag starts counted by the panel: {}", shop.panel.tally());
    drop(shop);
    if let Some(path) = std::env::args().nth(1) {
        let mut file = fs::File::create(path)?;
        for word in trace {
            file.write_all(&word.to_le_bytes())?;
        }
    }
    Ok(())
}
