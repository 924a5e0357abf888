//! egui's input handling, proved: [`Panel`] holds the state of one panel, and its methods have egui's names.
//!
//! Whatever arrives is taken, or refused by a listed number with all as before: no call panics, and none has a precondition.
//! The answers equal those of egui 0.37.0, floats by their bits; the library is proved to meet that, and docs/HOST.md says what the host does.
//!
//! ```
//! use fivvarul::{pos2, Event, Modifiers, Panel, PointerButton, RawInput};
//!
//! # fn main() -> Result<(), fivvarul::Refusal> {
//! let mut panel = Panel::new();
//! let button = |pressed| Event::PointerButton { pos: pos2(10.0, 20.0), button: PointerButton::Primary, pressed, modifiers: Modifiers::NONE };
//! panel.begin_pass(&RawInput { time: Some(1.0), events: &[button(true)], ..RawInput::default() })?;
//! assert!(panel.pointer().any_down());
//! panel.begin_pass(&RawInput { time: Some(1.1), events: &[button(false)], ..RawInput::default() })?;
//! assert!(panel.pointer().any_click());
//!
//! // A refused call changes nothing, and says why.
//! let refusal = panel.begin_pass(&RawInput { time: Some(0.5), ..RawInput::default() }).unwrap_err();
//! assert_eq!((refusal.number(), refusal.meaning()), (3, "a time below the panel's"));
//! assert_eq!(panel.time(), 1.1);
//! # Ok(())
//! # }
//! ```
#![no_std]
#![deny(unsafe_code)]

mod answers;
mod event;
#[allow(unsafe_code, missing_docs)]
#[rustfmt::skip]
mod ffi;
#[cfg(test)]
mod garbage;
mod input;
mod insert;
mod kernel;
mod math;
mod panel;
mod pointer;
mod record;
mod refusal;
mod widgets;

pub use answers::{zoom_factor, Click, MultiTouchInfo, PointerEvent, Rotation, Zoom, Zoom2d};
pub use event::{Event, Feed, MouseWheelSource, MouseWheelUnit, PointerButton, TouchPhase};
pub use input::{InputOptions, Modifiers, RawInput};
pub use kernel::{KernelRead, KernelTouches};
pub use math::{pos2, vec2, Pos2, Rect, Vec2};
pub use panel::Panel;
pub use pointer::PointerState;
pub use record::Recorder;
pub use refusal::Refusal;
pub use widgets::{Hit, Hits, IdSet, Inserted, Interacted, InteractionSnapshot, LayerId, Sense, WidgetRect};
