//! Widgets, hits and what an interact answers.
use crate::ffi::{self, HostSnapshot};
pub use crate::ffi::{LayerId, WidgetRect};

/// The bits of a widget's sense, by egui's names.
pub struct Sense;

impl Sense {
    /// Nothing but hovering.
    pub const HOVER: u32 = 0;
    /// Senses clicks.
    pub const CLICK: u32 = 1;
    /// Senses drags.
    pub const DRAG: u32 = 2;
    /// Can have the keyboard's focus.
    pub const FOCUSABLE: u32 = 4;

    /// egui's `Sense::hover`.
    pub const fn hover() -> u32 {
        Sense::HOVER
    }

    /// egui's `Sense::click`.
    pub const fn click() -> u32 {
        Sense::CLICK | Sense::FOCUSABLE
    }

    /// egui's `Sense::drag`.
    pub const fn drag() -> u32 {
        Sense::DRAG | Sense::FOCUSABLE
    }

    /// egui's `Sense::click_and_drag`.
    pub const fn click_and_drag() -> u32 {
        Sense::CLICK | Sense::DRAG | Sense::FOCUSABLE
    }
}

/// One widget hit: its id and its sense.
#[repr(C)]
#[derive(Clone, Copy, Debug, Default, PartialEq, Eq)]
pub struct Hit {
    /// Not 0.
    pub id: u64,
    /// Bits of [`Sense`].
    pub sense: u64,
}

impl From<&WidgetRect> for Hit {
    fn from(w: &WidgetRect) -> Hit {
        Hit { id: w.id, sense: u64::from(w.sense) }
    }
}

/// egui's `WidgetHits`: which widgets are under the pointer or near it. Hit testing is the host's.
#[derive(Clone, Copy, Debug, Default, PartialEq)]
pub struct Hits<'a> {
    /// The widgets near the pointer, at most 64.
    pub close: &'a [Hit],
    /// Those that contain it, at most 64.
    pub contains_pointer: &'a [Hit],
    /// The one that a click would meet.
    pub click: Option<Hit>,
    /// The one that a drag would move.
    pub drag: Option<Hit>,
}

impl Hits<'_> {
    /// The entries that a list may have.
    pub const MOST: usize = 64;
}

/// Ids, ascending, without repeats.
#[derive(Clone)]
pub struct IdSet {
    pub(crate) ids: [u64; IdSet::PLACES],
    pub(crate) len: usize,
}

impl IdSet {
    /// The places of an id buffer: two lists of 64 give no more than 66 ids.
    pub const PLACES: usize = 66;

    pub(crate) const EMPTY: IdSet = IdSet { ids: [0; IdSet::PLACES], len: 0 };
}

impl core::ops::Deref for IdSet {
    type Target = [u64];

    fn deref(&self) -> &[u64] {
        &self.ids[..self.len.min(IdSet::PLACES)]
    }
}

impl core::fmt::Debug for IdSet {
    fn fmt(&self, f: &mut core::fmt::Formatter<'_>) -> core::fmt::Result {
        f.debug_list().entries(self.iter()).finish()
    }
}

impl PartialEq for IdSet {
    fn eq(&self, other: &IdSet) -> bool {
        **self == **other
    }
}

/// egui's `InteractionSnapshot`.
#[derive(Clone, Debug, PartialEq)]
pub struct InteractionSnapshot {
    /// The widget that was clicked.
    pub clicked: Option<u64>,
    /// The widget that was touched long.
    pub long_touched: Option<u64>,
    /// The widget whose drag started in this interact.
    pub drag_started: Option<u64>,
    /// The widget that is dragged.
    pub dragged: Option<u64>,
    /// The widget whose drag stopped in this interact.
    pub drag_stopped: Option<u64>,
    /// The widgets that are hovered.
    pub hovered: IdSet,
    /// The widgets that contain the pointer.
    pub contains_pointer: IdSet,
}

/// The same with its ids in buffers of the caller: how many ids each holds.
#[derive(Clone, Copy, Debug, PartialEq, Eq)]
#[allow(missing_docs)]
pub struct Interacted {
    pub clicked: Option<u64>,
    pub long_touched: Option<u64>,
    pub drag_started: Option<u64>,
    pub dragged: Option<u64>,
    pub drag_stopped: Option<u64>,
    pub hovered: usize,
    pub contains_pointer: usize,
}

impl From<HostSnapshot> for Interacted {
    fn from(s: ffi::HostSnapshot) -> Interacted {
        use crate::answers::id;
        Interacted {
            clicked: id(s.clicked),
            long_touched: id(s.long_touched),
            drag_started: id(s.drag_started),
            dragged: id(s.dragged),
            drag_stopped: id(s.drag_stopped),
            hovered: s.hovered,
            contains_pointer: s.contains_pointer,
        }
    }
}

/// Where an insertion put a widget.
#[derive(Clone, Copy, Debug, PartialEq, Eq)]
pub struct Inserted {
    /// Its position in its layer.
    pub position: usize,
    /// How many widgets the layer has now.
    pub count: usize,
}
