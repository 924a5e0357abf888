//! A recorder: a panel that writes every call as a trace.
use crate::insert::Left;
use crate::{Hit, Hits, Interacted, InteractionSnapshot, KernelTouches, Modifiers, Panel, RawInput, Rect, Refusal};
use core::ops::Deref;

// The calls of compare/FORMAT.md.
const RESET: u32 = 0;
const PASS: u32 = 1;
const INTERACT: u32 = 4;
const ASK: u32 = 5;

/// A panel that hands the words of every call to `sink`, as a trace of compare/FORMAT.md, little-endian where they are written as bytes. `./run FILE`
/// replays such a trace. Questions change nothing and are asked of the panel itself; [`Recorder::ask`] has the replay answer all of them there.
///
/// ```
/// use fivvarul::{pos2, Event, RawInput, Recorder};
/// let mut trace = Vec::new();
/// let mut panel = Recorder::new(|words: &[u32]| trace.extend_from_slice(words));
/// panel.begin_pass(&RawInput { events: &[Event::PointerMoved(pos2(10.0, 20.0))], ..RawInput::default() })?;
/// assert_eq!(panel.pointer().latest_pos(), Some(pos2(10.0, 20.0)));
/// panel.ask();
/// drop(panel);
/// assert_eq!(trace[..2], [0, 1 << 24 | 21]);
/// assert_eq!(trace[20..], [0x3000_0000, 0x4120_0000, 0x41a0_0000, 5 << 24]);
/// # Ok::<(), fivvarul::Refusal>(())
/// ```
pub struct Recorder<S> {
    pub(crate) panel: Panel,
    pub(crate) sink: S,
    pub(crate) left: Left,
    pub(crate) kernel: KernelTouches,
}

impl<S: FnMut(&[u32])> Recorder<S> {
    /// A fresh panel, recorded from its start.
    pub fn new(sink: S) -> Recorder<S> {
        let mut r = Recorder { panel: Panel::new(), sink, left: Left::default(), kernel: KernelTouches::new() };
        r.head(RESET, 0);
        r
    }

    /// Ends the recording.
    pub fn finish(self) -> (Panel, S) {
        (self.panel, self.sink)
    }

    /// [`Panel::begin_pass`].
    pub fn begin_pass(&mut self, input: &RawInput) -> Result<(), Refusal> {
        self.begin_pass_words(input, crate::Feed::of(input.events).words())
    }

    /// [`Panel::begin_pass_words`].
    pub fn begin_pass_words(&mut self, input: &RawInput, feed: &[u32]) -> Result<(), Refusal> {
        // A pass reads no event after the 65th.
        let read = &feed[..feed.len().min(crate::Feed::WORDS)];
        let given = pass_words(input);
        self.head(PASS, given.len() + read.len());
        (self.sink)(&given);
        (self.sink)(read);
        self.panel.begin_pass_words(input, feed)
    }

    /// [`Panel::interact`].
    pub fn interact(&mut self, hits: &Hits) -> Result<InteractionSnapshot, Refusal> {
        self.hits(hits, crate::IdSet::PLACES, crate::IdSet::PLACES);
        self.panel.interact(hits)
    }

    /// [`Panel::interact_into`].
    pub fn interact_into(&mut self, hits: &Hits, hovered: &mut [u64], contains_pointer: &mut [u64]) -> Result<Interacted, Refusal> {
        self.hits(hits, hovered.len(), contains_pointer.len());
        self.panel.interact_into(hits, hovered, contains_pointer)
    }

    /// Has a replay answer every question here.
    pub fn ask(&mut self) {
        self.head(ASK, 0);
    }

    pub(crate) fn head(&mut self, call: u32, words: usize) {
        (self.sink)(&[call << 24 | words as u32]);
    }

    fn hits(&mut self, hits: &Hits, hovered: usize, contains_pointer: usize) {
        // An interact reads no entry after the 65th.
        let read = |list: &[Hit]| list.len().min(crate::Hits::MOST + 1);
        let (close, within) = (read(hits.close), read(hits.contains_pointer));
        let given = hits.click.iter().len() + hits.drag.iter().len();
        self.head(INTERACT, 5 + 3 * (close + within + given));
        let bits = u32::from(hits.click.is_some()) | u32::from(hits.drag.is_some()) << 1;
        // Places beyond those that an interact needs say nothing more.
        let places = |n: usize| n.min(crate::IdSet::PLACES) as u32;
        (self.sink)(&[places(hovered), places(contains_pointer), close as u32, within as u32, bits]);
        let entries = hits.close[..close].iter().chain(&hits.contains_pointer[..within]);
        for hit in entries.chain(&hits.click).chain(&hits.drag) {
            (self.sink)(&[low(hit.id), high(hit.id), sense(hit.sense)]);
        }
    }
}

impl<S> Deref for Recorder<S> {
    type Target = Panel;

    fn deref(&self) -> &Panel {
        &self.panel
    }
}

pub(crate) fn low(x: u64) -> u32 {
    x as u32
}

pub(crate) fn high(x: u64) -> u32 {
    (x >> 32) as u32
}

// A sense of more than 32 bits is refused, and so is this one.
fn sense(bits: u64) -> u32 {
    u32::try_from(bits).unwrap_or(u32::MAX)
}

pub(crate) fn edges(r: Rect) -> [u32; 4] {
    [r.min.x, r.min.y, r.max.x, r.max.y].map(f32::to_bits)
}

fn pass_words(input: &RawInput) -> [u32; 18] {
    let o = &input.options;
    let bits = |m: Modifiers, at: u32| m.bits() << at;
    let time = input.time.unwrap_or_default().to_bits();
    let [min_x, min_y, max_x, max_y] = edges(input.screen_rect.unwrap_or_default());
    let (duration, delay) = (o.max_click_duration.to_bits(), o.max_double_click_delay.to_bits());
    [
        u32::from(input.time.is_some())
            | u32::from(input.screen_rect.is_some()) << 1
            | u32::from(input.focused) << 2
            | u32::from(input.requested_repaint_last_pass) << 3,
        low(time),
        high(time),
        input.predicted_dt.to_bits(),
        input.smoothing_factor.to_bits(),
        input.pixels_per_point.to_bits(),
        min_x,
        min_y,
        max_x,
        max_y,
        o.line_scroll_speed.to_bits(),
        o.scroll_zoom_speed.to_bits(),
        o.max_click_dist.to_bits(),
        low(duration),
        high(duration),
        low(delay),
        high(delay),
        bits(o.zoom_modifier, 0) | bits(o.horizontal_scroll_modifier, 5) | bits(o.vertical_scroll_modifier, 10),
    ]
}
