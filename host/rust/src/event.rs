//! Events as egui has them, and the words of the feed.
use crate::{Modifiers, Pos2, Vec2};

/// A button of the pointer.
#[derive(Clone, Copy, Debug, PartialEq, Eq)]
#[allow(missing_docs)]
pub enum PointerButton {
    Primary = 0,
    Secondary = 1,
    Middle = 2,
    Extra1 = 3,
    Extra2 = 4,
}

impl PointerButton {
    /// All five, by number.
    pub const ALL: [PointerButton; 5] = [PointerButton::Primary, PointerButton::Secondary, PointerButton::Middle, PointerButton::Extra1, PointerButton::Extra2];
}

/// What a touch or a wheel does.
#[derive(Clone, Copy, Debug, PartialEq, Eq)]
#[allow(missing_docs)]
pub enum TouchPhase {
    Start = 0,
    Move = 1,
    End = 2,
    Cancel = 3,
}

/// What a wheel's delta counts.
#[derive(Clone, Copy, Debug, PartialEq, Eq)]
#[allow(missing_docs)]
pub enum MouseWheelUnit {
    Point = 0,
    Line = 1,
    Page = 2,
}

/// What a wheel event comes from.
#[derive(Clone, Copy, Debug, PartialEq, Eq)]
#[allow(missing_docs)]
pub enum MouseWheelSource {
    Unknown = 0,
    Wheel = 1,
    Trackpad = 2,
    Momentum = 3,
}

impl MouseWheelSource {
    pub(crate) fn of(number: u32) -> MouseWheelSource {
        match number {
            0 => MouseWheelSource::Unknown,
            1 => MouseWheelSource::Wheel,
            2 => MouseWheelSource::Trackpad,
            _ => MouseWheelSource::Momentum,
        }
    }
}

/// egui's `Event`, as far as the panel's input goes.
#[derive(Clone, Copy, Debug, PartialEq)]
#[allow(missing_docs)]
pub enum Event {
    /// `key` is its place in egui's `Key`, 0 to 144.
    Key {
        key: u8,
        pressed: bool,
    },
    ModifiersChanged(Modifiers),
    PointerMoved(Pos2),
    MouseMoved(Vec2),
    PointerButton {
        pos: Pos2,
        button: PointerButton,
        pressed: bool,
        modifiers: Modifiers,
    },
    PointerGone,
    /// A factor above 0, at most 1,024.
    Zoom(f32),
    /// Radians, at most 64 in size.
    Rotate(f32),
    /// `force` is 0 to 1.
    Touch {
        device_id: u64,
        id: u64,
        phase: TouchPhase,
        pos: Pos2,
        force: Option<f32>,
    },
    MouseWheel {
        unit: MouseWheelUnit,
        delta: Vec2,
        phase: TouchPhase,
        source: MouseWheelSource,
        modifiers: Modifiers,
    },
    WindowFocused(bool),
    /// Any other event: it only keeps the feed from being empty.
    Other,
}

/// Events in words, as they come from the cable. A pass refuses a 65th event with number 4.
///
/// ```
/// use fivvarul::{pos2, Event, Feed};
/// let mut feed = Feed::default();
/// assert!(feed.push(&Event::PointerMoved(pos2(10.0, 20.0))));
/// assert_eq!(feed.words(), [0x3000_0000, 0x4120_0000, 0x41a0_0000]);
/// ```
#[derive(Clone, Debug)]
pub struct Feed {
    words: [u32; Feed::WORDS],
    len: usize,
}

impl Default for Feed {
    fn default() -> Self {
        Feed { words: [0; Feed::WORDS], len: 0 }
    }
}

impl Feed {
    /// The words of these events. From the 66th on they may be left out: a pass refuses the 65th.
    pub fn of(events: &[Event]) -> Feed {
        let mut feed = Feed::default();
        for event in events {
            if !feed.push(event) {
                break;
            }
        }
        feed
    }

    /// Room for 65 of the longest events.
    pub const WORDS: usize = 65 * 8;

    /// The feed of a clearing pass: an End for each touch held, the release of every button at `pos`, a relative motion of 0, a wheel's end, the focus
    /// lost, the pointer gone. The pass gives a time and a screen rectangle; a host acts on no click of it. `touches` are device and touch ids of
    /// what may be held, at most 55.
    ///
    /// ```
    /// use fivvarul::{pos2, Event, Feed, Modifiers, Panel, PointerButton, RawInput, Rect};
    /// let mut panel = Panel::new();
    /// let pos = pos2(10.0, 20.0);
    /// let press = Event::PointerButton { pos, button: PointerButton::Primary, pressed: true, modifiers: Modifiers::NONE };
    /// panel.begin_pass(&RawInput { time: Some(1.0), events: &[press], ..RawInput::default() })?;
    /// // the release is lost on the cable
    /// let screen_rect = Some(Rect::from_min_max(pos2(0.0, 0.0), pos2(800.0, 480.0)));
    /// panel.begin_pass_words(&RawInput { time: Some(9.0), screen_rect, ..RawInput::default() }, Feed::clearing(&[], pos).words())?;
    /// assert!(!panel.pointer().any_down());
    /// # Ok::<(), fivvarul::Refusal>(())
    /// ```
    pub fn clearing(touches: &[(u64, u64)], pos: Pos2) -> Feed {
        let none = Vec2::default();
        let modifiers = Modifiers::NONE;
        let mut feed = Feed::default();
        for &(device_id, id) in touches {
            feed.push(&Event::Touch { device_id, id, phase: TouchPhase::End, pos, force: None });
        }
        for button in PointerButton::ALL {
            feed.push(&Event::PointerButton { pos, button, pressed: false, modifiers });
        }
        let (unit, phase, source) = (MouseWheelUnit::Point, TouchPhase::End, MouseWheelSource::Unknown);
        feed.push(&Event::MouseMoved(none));
        feed.push(&Event::MouseWheel { unit, delta: none, phase, source, modifiers });
        feed.push(&Event::WindowFocused(false));
        feed.push(&Event::PointerGone);
        feed
    }

    /// The words of the events pushed.
    pub fn words(&self) -> &[u32] {
        &self.words[..self.len]
    }

    /// No event.
    pub fn clear(&mut self) {
        self.len = 0;
    }

    /// False, and nothing is added, where there is no room: the feed then already holds more than 64 events.
    pub fn push(&mut self, event: &Event) -> bool {
        let (words, n) = event.words();
        if self.len + n > Feed::WORDS {
            return false;
        }
        self.words[self.len..self.len + n].copy_from_slice(&words[..n]);
        self.len += n;
        true
    }
}

impl Event {
    fn words(&self) -> ([u32; 8], usize) {
        let low = |x: u64| x as u32;
        let high = |x: u64| (x >> 32) as u32;
        let mut w = [0u32; 8];
        let n = match *self {
            Event::Key { key, pressed } => {
                w[0] = 0x1000_0000 | u32::from(key) | u32::from(pressed) << 8;
                1
            }
            Event::ModifiersChanged(m) => {
                w[0] = 0x2000_0000 | m.bits();
                1
            }
            Event::PointerMoved(p) => {
                w[..3].copy_from_slice(&[0x3000_0000, p.x.to_bits(), p.y.to_bits()]);
                3
            }
            Event::MouseMoved(d) => {
                w[..3].copy_from_slice(&[0x4000_0000, d.x.to_bits(), d.y.to_bits()]);
                3
            }
            Event::PointerButton { pos, button, pressed, modifiers } => {
                let head = 0x5000_0000 | modifiers.bits() | (button as u32) << 5 | u32::from(pressed) << 8;
                w[..3].copy_from_slice(&[head, pos.x.to_bits(), pos.y.to_bits()]);
                3
            }
            Event::PointerGone => {
                w[0] = 0x6000_0000;
                1
            }
            Event::Zoom(f) => {
                w[..2].copy_from_slice(&[0x7000_0000, f.to_bits()]);
                2
            }
            Event::Rotate(r) => {
                w[..2].copy_from_slice(&[0x8000_0000, r.to_bits()]);
                2
            }
            Event::Touch { device_id, id, phase, pos, force } => {
                let head = 0x9000_0000 | phase as u32 | u32::from(force.is_some()) << 2;
                w[..7].copy_from_slice(&[head, low(device_id), high(device_id), low(id), high(id), pos.x.to_bits(), pos.y.to_bits()]);
                match force {
                    Some(f) => {
                        w[7] = f.to_bits();
                        8
                    }
                    None => 7,
                }
            }
            Event::MouseWheel { unit, delta, phase, source, modifiers } => {
                let head = 0xa000_0000 | modifiers.bits() | (unit as u32) << 5 | (phase as u32) << 7 | (source as u32) << 9;
                w[..3].copy_from_slice(&[head, delta.x.to_bits(), delta.y.to_bits()]);
                3
            }
            Event::WindowFocused(focused) => {
                w[0] = 0xb000_0000 | u32::from(focused);
                1
            }
            Event::Other => {
                w[0] = 0xc000_0000;
                1
            }
        };
        (w, n)
    }
}
