//! The real egui 0.37.0 input files, compiled unchanged, with shims for the rest of egui,
//! 01-scope.md's domain in front of them, and the requests of 02 by level. See FORMAT.md.
//!
//! How the unchanged files find what they name:
//! * `crate::X` is re-exported here from `shim`.
//! * `emath::X`, `ahash::X`, `itertools::chain!` and so on: `extern crate self as emath` puts this
//!   crate itself into the extern prelude under those names.
//! * Private fields are read by child modules (`access`), which sit next to an `include!`.
#![allow(
    dead_code,
    unused_imports,
    unused_variables,
    unexpected_cfgs,
    unfulfilled_lint_expectations,
    clippy::all
)]

extern crate alloc;
extern crate self as accesskit;
extern crate self as ahash;
extern crate self as bitflags;
extern crate self as emath;
extern crate self as epaint;
extern crate self as itertools;
extern crate self as profiling;

pub mod shim;

pub use shim::egui_types::*;
pub use shim::emath_types::*;
pub use shim::ui_types::*;

/// `itertools::chain!`
#[macro_export]
macro_rules! chain {
    ($first:expr $(, $rest:expr)* $(,)?) => {
        ::core::iter::IntoIterator::into_iter($first)$(.chain($rest))*
    };
}

/// `profiling::function_scope!`
#[macro_export]
macro_rules! function_scope {
    () => {};
}

/// `bitflags::bitflags!`, the `impl Struct: u8` form that `sense.rs` uses.
#[macro_export]
macro_rules! bitflags {
    (impl $name:ident : u8 { $( $(#[$m:meta])* const $flag:ident = $val:expr; )* }) => {
        impl $name {
            $( $(#[$m])* pub const $flag: Self = Self($val); )*
            pub const fn empty() -> Self { Self(0) }
            pub const fn bits(&self) -> u8 { self.0 }
            pub const fn all() -> Self { Self(0 $(| $val)*) }
            pub const fn from_bits(bits: u8) -> Option<Self> {
                if bits & !Self::all().0 == 0 { Some(Self(bits)) } else { None }
            }
            pub const fn contains(&self, other: Self) -> bool { self.0 & other.0 == other.0 }
            pub const fn intersects(&self, other: Self) -> bool { self.0 & other.0 != 0 }
        }
        impl core::ops::BitOr for $name {
            type Output = Self;
            fn bitor(self, rhs: Self) -> Self { Self(self.0 | rhs.0) }
        }
        impl core::ops::BitOrAssign for $name {
            fn bitor_assign(&mut self, rhs: Self) { self.0 |= rhs.0; }
        }
    };
}

// ---------------------------------------------------------------------------
// egui's own files, unchanged:

pub mod sense {
    include!(concat!(env!("CARGO_MANIFEST_DIR"), "/egui-src/src/sense.rs"));
}
pub use sense::Sense;

pub mod data {
    pub mod input {
        pub mod modifiers {
            include!(concat!(env!("CARGO_MANIFEST_DIR"), "/egui-src/src/data/input/modifiers.rs"));
        }
        pub mod touch {
            include!(concat!(env!("CARGO_MANIFEST_DIR"), "/egui-src/src/data/input/touch.rs"));
        }
        pub mod pointer_button {
            include!(concat!(env!("CARGO_MANIFEST_DIR"), "/egui-src/src/data/input/pointer_button.rs"));
        }
        pub mod mouse_wheel_unit {
            include!(concat!(env!("CARGO_MANIFEST_DIR"), "/egui-src/src/data/input/mouse_wheel_unit.rs"));
        }
        pub mod mouse_wheel_source {
            include!(concat!(env!("CARGO_MANIFEST_DIR"), "/egui-src/src/data/input/mouse_wheel_source.rs"));
        }
        pub mod safe_area_insets {
            include!(concat!(env!("CARGO_MANIFEST_DIR"), "/egui-src/src/data/input/safe_area_insets.rs"));
        }
        pub use self::{
            modifiers::*, mouse_wheel_source::*, mouse_wheel_unit::*, pointer_button::*,
            safe_area_insets::*, touch::*,
        };
        pub use crate::shim::egui_types::{
            Event, EventFilter, KeyboardShortcut, ModifierNames, RawInput, ViewportInfo,
        };
    }
}
pub use data::input::{
    Modifiers, MouseWheelSource, MouseWheelUnit, NUM_POINTER_BUTTONS, PointerButton,
    SafeAreaInsets, TouchDeviceId, TouchId, TouchPhase,
};

pub mod input_state {
    // `mod touch_state;` and `mod wheel_state;` inside resolve next to this path.
    include!(concat!(env!("CARGO_MANIFEST_DIR"), "/egui-src/wrap/input_state/mod.rs"));

    pub(crate) mod access {
        include!(concat!(env!("CARGO_MANIFEST_DIR"), "/src/access_input.rs"));
    }
}
pub use input_state::{InputOptions, InputState, MultiTouchInfo, PointerState};

pub mod widget_rect {
    include!(concat!(env!("CARGO_MANIFEST_DIR"), "/egui-src/src/widget_rect.rs"));

    pub(crate) mod access {
        include!(concat!(env!("CARGO_MANIFEST_DIR"), "/src/access_widgets.rs"));
    }
}
pub use widget_rect::{InteractOptions, WidgetRect, WidgetRects};

// `interaction.rs` begins with an inner doc comment, which `include!` cannot take inside a
// module with other items before it, so it is a `#[path]` module; nothing in it is private.
#[path = "../egui-src/src/interaction.rs"]
pub mod interaction;

pub mod hit_test {
    use crate::WidgetRect;
    /// egui's hits; 01 keeps an id and a sense of each entry.
    #[derive(Clone, Debug, Default)]
    pub struct WidgetHits {
        pub close: Vec<WidgetRect>,
        pub contains_pointer: Vec<WidgetRect>,
        pub click: Option<WidgetRect>,
        pub drag: Option<WidgetRect>,
    }
}
pub mod id {
    pub use crate::shim::egui_types::{Id, IdMap, IdSet};
}
pub mod memory {
    use crate::Id;
    #[derive(Clone, Debug, Default, PartialEq, Eq)]
    pub struct InteractionState {
        pub potential_click_id: Option<Id>,
        pub potential_drag_id: Option<Id>,
    }
}
pub mod util {
    pub use crate::shim::emath_types::History;
}
pub mod containers {
    pub use crate::shim::ui_types::CollapsingHeader;
}

/// The requests of 02 that are landed: A.1 to A.LEVEL. Each landing raises it by one.
pub const LEVEL: u32 = 7;

// ---------------------------------------------------------------------------
// The driver, with 02's requests, and the requests that are made:

pub mod aimed;
pub mod bench;
pub mod beside;
pub mod click_box;
pub mod counts;
pub mod domain;
pub mod edges;
pub mod exponential;
pub mod hands;
pub mod images;
pub mod kernel;
pub mod kernel_edges;
pub mod kernel_met;
pub mod later;
pub mod limits;
pub mod lists;
pub mod maker;
pub mod met;
pub mod naming;
pub mod panel;
pub mod parking;
pub mod parking_edges;
pub mod registers;
pub mod scenes;
pub mod script;
pub mod surprises;
pub mod survey;
pub mod words;
