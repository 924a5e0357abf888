//! What crosses to the archives of the Rattle crates `host` and `host_questions`. Made by host/boundary.py from their sources, and checked against it by the gate.
//!
//! Every reference leads to memory that Rust owns, a `&mut` is the only one to its place, a slice is a pointer and its own length, and no exported
//! function has a precondition: each call is sound if these declarations are those of the sources. A slice of no places has a pointer too, at
//! which nothing is read.
#![allow(clippy::too_many_arguments, dead_code)]

const _: () = assert!(core::mem::size_of::<usize>() == 8, "the archive is for 64 bits");

pub const CODES: usize = 256;
pub const COUNTS: usize = 4;
pub const DEVICE_FLAGS: usize = 14;
pub const DEVICE_FLOATS: usize = 48;
pub const EDGES: usize = 8192;
pub const FLAGS: usize = 46;
pub const FLOATS: usize = 36;
pub const HELD: usize = 3;
pub const IDS: usize = 12;
pub const KEYS: usize = 4;
pub const MAX_DEVICES: usize = 4;
pub const MAX_LEN: usize = 1000;
pub const MAX_SLOTS: usize = 10;
pub const NUMBERS: usize = 5184;
pub const PARTS: usize = 2000;
pub const PLACES: usize = 128;
pub const PRESSES: usize = 145;
pub const SECONDS: usize = 9;
pub const WORDS: usize = 2080;

/// `number` 0, and the factor; or 02's number of the refusal, and 0.
#[repr(C)]
#[derive(Clone, Copy, Debug, Default, PartialEq)]
pub struct HostFactor {
    pub factor: f32,
    pub number: u32,
}

const _: () = assert!(core::mem::size_of::<HostFactor>() == 8);

/// How many widgets and layers a set has.
#[repr(C)]
#[derive(Clone, Copy, Debug, Default, PartialEq)]
pub struct HostSet {
    pub widgets: usize,
    pub layers: usize,
}

const _: () = assert!(core::mem::size_of::<HostSet>() == 16);

/// `order` is a plain number, so that one over 4 can be given and refused.
#[repr(C)]
#[derive(Clone, Copy, Debug, Default, PartialEq)]
pub struct LayerId {
    pub order: u32,
    pub id: u64,
}

const _: () = assert!(core::mem::size_of::<LayerId>() == 16);

/// A position on the screen. `repr(C)` here and in Rect, LayerId and WidgetRect: a host lends its widgets as they stand.
#[repr(C)]
#[derive(Clone, Copy, Debug, Default, PartialEq)]
pub struct Pos2 {
    pub x: f32,
    pub y: f32,
}

const _: () = assert!(core::mem::size_of::<Pos2>() == 8);

#[repr(C)]
#[derive(Clone, Copy, Debug, Default, PartialEq)]
pub struct Rect {
    pub min: Pos2,
    pub max: Pos2,
}

const _: () = assert!(core::mem::size_of::<Rect>() == 16);

/// `sense` is a plain number of sense.rs's bits, so that an unnamed bit can be given and refused.
#[repr(C)]
#[derive(Clone, Copy, Debug, Default, PartialEq)]
pub struct WidgetRect {
    pub id: u64,
    pub parent_id: u64,
    pub layer_id: LayerId,
    pub rect: Rect,
    pub interact_rect: Rect,
    pub sense: u32,
    pub enabled: bool,
    pub visible: bool,
}

const _: () = assert!(core::mem::size_of::<WidgetRect>() == 72);

/// `number` 0: the widget's position in its layer, and how many widgets its layer has now. Else 01's number of the refusal, and zeros; its index is 0.
#[repr(C)]
#[derive(Clone, Copy, Debug, Default, PartialEq)]
pub struct HostInserted {
    pub number: u32,
    pub position: usize,
    pub count: usize,
}

const _: () = assert!(core::mem::size_of::<HostInserted>() == 24);

/// The answer, the set after it, and what was done to the lent slice: the record at `from` went, each after it up to `to` fell by one, and `widget` came last.
#[repr(C)]
#[derive(Clone, Copy, Debug, Default, PartialEq)]
pub struct HostInsertion {
    pub answer: HostInserted,
    pub set: HostSet,
    pub from: usize,
    pub to: usize,
    pub widget: WidgetRect,
}

const _: () = assert!(core::mem::size_of::<HostInsertion>() == 128);

/// Option<Id>
#[repr(C)]
#[derive(Clone, Copy, Debug, Default, PartialEq)]
pub struct HostId {
    pub id: u64,
    pub given: bool,
}

const _: () = assert!(core::mem::size_of::<HostId>() == 16);

/// The answer of an interact. `number` 0: taken, and the counts are those of the two id buffers. Else 01's number of the refusal, and the index where 01 returns one, or 0; every other field is 0.
#[repr(C)]
#[derive(Clone, Copy, Debug, Default, PartialEq)]
pub struct HostSnapshot {
    pub number: u32,
    pub index: usize,
    pub clicked: HostId,
    pub long_touched: HostId,
    pub drag_started: HostId,
    pub dragged: HostId,
    pub drag_stopped: HostId,
    pub hovered: usize,
    pub contains_pointer: usize,
}

const _: () = assert!(core::mem::size_of::<HostSnapshot>() == 112);

/// A tracking id, the kernel's -1 for no finger, and the last position. Kept (C): `repr(C)` here and below, and no Option: a host keeps the slots from call to call, and C reads them.
#[repr(C)]
#[derive(Clone, Copy, Debug, Default, PartialEq)]
pub struct Finger {
    pub id: i32,
    pub x: i32,
    pub y: i32,
}

const _: () = assert!(core::mem::size_of::<Finger>() == 12);

/// A slot's finger now, and at the last report end acted on.
#[repr(C)]
#[derive(Clone, Copy, Debug, Default, PartialEq)]
pub struct Slot {
    pub now: Finger,
    pub acted: Finger,
}

const _: () = assert!(core::mem::size_of::<Slot>() == 24);

/// `skipping`: after 'dropped', through the next report end.
#[repr(C)]
#[derive(Clone, Copy, Debug, Default, PartialEq)]
pub struct KernelTouches {
    pub slots: [Slot; MAX_SLOTS],
    pub chosen: usize,
    pub skipping: bool,
}

const _: () = assert!(core::mem::size_of::<KernelTouches>() == 256);

/// `number` 0: the words written to the feed, and whether the records held a 'dropped'. Else 02's number of the refusal; `kernel` is as before then. C reads the number and the values beside it.
#[repr(C)]
#[derive(Clone, Copy, Debug, Default, PartialEq)]
pub struct HostKernelRead {
    pub kernel: KernelTouches,
    pub number: u32,
    pub words: usize,
    pub dropped: bool,
}

const _: () = assert!(core::mem::size_of::<HostKernelRead>() == 280);

/// RawInput and the options. A time and a rectangle count where they are given. Modifiers are 01's five bits: alt, ctrl, shift, mac_cmd, command.
#[repr(C)]
#[derive(Clone, Copy, Debug, Default, PartialEq)]
pub struct HostPass {
    pub time: f64,
    pub max_click_duration: f64,
    pub max_double_click_delay: f64,
    pub min_x: f32,
    pub min_y: f32,
    pub max_x: f32,
    pub max_y: f32,
    pub predicted_dt: f32,
    pub smoothing_factor: f32,
    pub pixels_per_point: f32,
    pub line_scroll_speed: f32,
    pub scroll_zoom_speed: f32,
    pub max_click_dist: f32,
    pub zoom_modifier: u32,
    pub horizontal_scroll_modifier: u32,
    pub vertical_scroll_modifier: u32,
    pub time_given: bool,
    pub screen_rect_given: bool,
    pub focused: bool,
    pub requested_repaint: bool,
}

const _: () = assert!(core::mem::size_of::<HostPass>() == 80);

/// 0, 0: taken. Else 01's number of the refusal, and the index where 01 returns one, or 0.
#[repr(C)]
#[derive(Clone, Copy, Debug, Default, PartialEq)]
pub struct HostRefusal {
    pub number: u32,
    pub index: usize,
}

const _: () = assert!(core::mem::size_of::<HostRefusal>() == 16);

/// Option<Pos2>
#[repr(C)]
#[derive(Clone, Copy, Debug, Default, PartialEq)]
pub struct HostPosition {
    pub x: f32,
    pub y: f32,
    pub given: bool,
}

const _: () = assert!(core::mem::size_of::<HostPosition>() == 12);

/// Option<f64>, in seconds
#[repr(C)]
#[derive(Clone, Copy, Debug, Default, PartialEq)]
pub struct HostSeconds {
    pub value: f64,
    pub given: bool,
}

const _: () = assert!(core::mem::size_of::<HostSeconds>() == 16);

/// Option<PointerEvent>: `kind` is 0 moved, 1 pressed, 2 released, 3 released with a click, whose count and modifiers follow
#[repr(C)]
#[derive(Clone, Copy, Debug, Default, PartialEq)]
pub struct HostPointerEvent {
    pub kind: u32,
    pub button: u32,
    pub count: u32,
    pub modifiers: u32,
    pub pos: Pos2,
    pub given: bool,
}

const _: () = assert!(core::mem::size_of::<HostPointerEvent>() == 28);

/// Vec2
#[repr(C)]
#[derive(Clone, Copy, Debug, Default, PartialEq)]
pub struct HostVector {
    pub x: f32,
    pub y: f32,
}

const _: () = assert!(core::mem::size_of::<HostVector>() == 8);

/// Option<Vec2>
#[repr(C)]
#[derive(Clone, Copy, Debug, Default, PartialEq)]
pub struct HostMaybeVector {
    pub x: f32,
    pub y: f32,
    pub given: bool,
}

const _: () = assert!(core::mem::size_of::<HostMaybeVector>() == 12);

/// Option<f32>
#[repr(C)]
#[derive(Clone, Copy, Debug, Default, PartialEq)]
pub struct HostNumber {
    pub value: f32,
    pub given: bool,
}

const _: () = assert!(core::mem::size_of::<HostNumber>() == 8);

/// Option<MouseWheelSource>, by its number in the feed
#[repr(C)]
#[derive(Clone, Copy, Debug, Default, PartialEq)]
pub struct HostSource {
    pub number: u32,
    pub given: bool,
}

const _: () = assert!(core::mem::size_of::<HostSource>() == 8);

/// Option<MultiTouchInfo>
#[repr(C)]
#[derive(Clone, Copy, Debug, Default, PartialEq)]
pub struct HostGesture {
    pub start_time: f64,
    pub num_touches: usize,
    pub start_pos: Pos2,
    pub center_pos: Pos2,
    pub zoom_delta: f32,
    pub zoom_delta_2d: HostVector,
    pub previous_heading: HostVector,
    pub heading: HostVector,
    pub translation_delta: HostVector,
    pub force: f32,
    pub given: bool,
}

const _: () = assert!(core::mem::size_of::<HostGesture>() == 80);

/// Option<WidgetRect>
#[repr(C)]
#[derive(Clone, Copy, Debug, Default, PartialEq)]
pub struct HostWidget {
    pub widget: WidgetRect,
    pub given: bool,
}

const _: () = assert!(core::mem::size_of::<HostWidget>() == 80);

/// Option<(LayerId, usize)>
#[repr(C)]
#[derive(Clone, Copy, Debug, Default, PartialEq)]
pub struct HostOrder {
    pub layer: LayerId,
    pub position: usize,
    pub given: bool,
}

const _: () = assert!(core::mem::size_of::<HostOrder>() == 32);

/// Option<LayerId>
#[repr(C)]
#[derive(Clone, Copy, Debug, Default, PartialEq)]
pub struct HostLayer {
    pub layer: LayerId,
    pub given: bool,
}

const _: () = assert!(core::mem::size_of::<HostLayer>() == 24);

/// The host multiplies the factor by the exponential of the exponent.
#[repr(C)]
#[derive(Clone, Copy, Debug, Default, PartialEq)]
pub struct HostZoom {
    pub factor: f32,
    pub exponent: f32,
}

const _: () = assert!(core::mem::size_of::<HostZoom>() == 8);

/// The same by axis.
#[repr(C)]
#[derive(Clone, Copy, Debug, Default, PartialEq)]
pub struct HostZoom2d {
    pub factor_x: f32,
    pub factor_y: f32,
    pub exponent_x: f32,
    pub exponent_y: f32,
}

const _: () = assert!(core::mem::size_of::<HostZoom2d>() == 16);

/// A sum of radians; or, with `by_headings`, the previous and the current heading of a gesture, whose angle is the host's to take.
#[repr(C)]
#[derive(Clone, Copy, Debug, Default, PartialEq)]
pub struct HostRotation {
    pub by_headings: bool,
    pub radians: f32,
    pub previous_x: f32,
    pub previous_y: f32,
    pub x: f32,
    pub y: f32,
}

const _: () = assert!(core::mem::size_of::<HostRotation>() == 24);

/// A panel's memory, 89,422 bytes. Any contents mean a panel; `fresh` makes them a fresh one.
#[derive(Clone)]
pub struct Memory {
    pub seconds: [f64; SECONDS],
    pub counts: [usize; COUNTS],
    pub keys_down: [u64; KEYS],
    pub held_ids: [u64; HELD],
    pub words: [u64; WORDS],
    pub ids0: [u64; IDS],
    pub ids1: [u64; IDS],
    pub ids2: [u64; IDS],
    pub ids3: [u64; IDS],
    pub starts: [f64; MAX_DEVICES],
    pub times: [f64; MAX_LEN],
    pub floats: [f32; FLOATS],
    pub tally: [u32; 1],
    pub numbers: [u32; NUMBERS],
    pub edges: [f32; EDGES],
    pub floats0: [f32; DEVICE_FLOATS],
    pub floats1: [f32; DEVICE_FLOATS],
    pub floats2: [f32; DEVICE_FLOATS],
    pub floats3: [f32; DEVICE_FLOATS],
    pub codes: [u32; CODES],
    pub positions: [f32; PARTS],
    pub places: [f32; PLACES],
    pub flags: [bool; FLAGS],
    pub presses: [u8; PRESSES],
    pub held_flags: [bool; HELD],
    pub flags0: [bool; DEVICE_FLAGS],
    pub flags1: [bool; DEVICE_FLAGS],
    pub flags2: [bool; DEVICE_FLAGS],
    pub flags3: [bool; DEVICE_FLAGS],
}

impl Memory {
    pub const ZERO: Memory = Memory {
        seconds: [0.0; SECONDS],
        counts: [0; COUNTS],
        keys_down: [0; KEYS],
        held_ids: [0; HELD],
        words: [0; WORDS],
        ids0: [0; IDS],
        ids1: [0; IDS],
        ids2: [0; IDS],
        ids3: [0; IDS],
        starts: [0.0; MAX_DEVICES],
        times: [0.0; MAX_LEN],
        floats: [0.0; FLOATS],
        tally: [0; 1],
        numbers: [0; NUMBERS],
        edges: [0.0; EDGES],
        floats0: [0.0; DEVICE_FLOATS],
        floats1: [0.0; DEVICE_FLOATS],
        floats2: [0.0; DEVICE_FLOATS],
        floats3: [0.0; DEVICE_FLOATS],
        codes: [0; CODES],
        positions: [0.0; PARTS],
        places: [0.0; PLACES],
        flags: [false; FLAGS],
        presses: [0; PRESSES],
        held_flags: [false; HELD],
        flags0: [false; DEVICE_FLAGS],
        flags1: [false; DEVICE_FLAGS],
        flags2: [false; DEVICE_FLAGS],
        flags3: [false; DEVICE_FLAGS],
    };
}

unsafe extern "C" {
    pub safe fn fivvarul_fresh(seconds: &mut [f64; SECONDS], floats: &mut [f32; FLOATS], counts: &mut [usize; COUNTS], flags: &mut [bool; FLAGS], keys_down: &mut [u64; KEYS], presses: &mut [u8; PRESSES], held_ids: &mut [u64; HELD], held_flags: &mut [bool; HELD], tally: &mut [u32; 1]);
    pub fn fivvarul_insert(set: HostSet, words: &mut [u64; WORDS], numbers: &mut [u32; NUMBERS], edges: &mut [f32; EDGES], layer: *mut WidgetRect, layer_len: usize, widget: WidgetRect, move_to_top: bool) -> HostInsertion;
    pub fn fivvarul_interact(seconds: &[f64; SECONDS], floats: &[f32; FLOATS], counts: &[usize; COUNTS], flags: &[bool; FLAGS], ids0: &[u64; IDS], floats0: &[f32; DEVICE_FLOATS], flags0: &[bool; DEVICE_FLAGS], ids1: &[u64; IDS], floats1: &[f32; DEVICE_FLOATS], flags1: &[bool; DEVICE_FLAGS], ids2: &[u64; IDS], floats2: &[f32; DEVICE_FLOATS], flags2: &[bool; DEVICE_FLAGS], ids3: &[u64; IDS], floats3: &[f32; DEVICE_FLOATS], flags3: &[bool; DEVICE_FLAGS], starts: &[f64; MAX_DEVICES], codes: &[u32; CODES], presses: &[u8; PRESSES], held_ids: &mut [u64; HELD], held_flags: &mut [bool; HELD], tally: &mut [u32; 1], widgets: usize, layers: usize, words: &[u64; WORDS], numbers: &[u32; NUMBERS], close: *const u64, close_len: usize, within: *const u64, within_len: usize, click_given: bool, click_id: u64, click_sense: u64, drag_given: bool, drag_id: u64, drag_sense: u64, top: *mut u64, top_len: usize, all: *mut u64, all_len: usize) -> HostSnapshot;
    pub fn fivvarul_pass(seconds: &mut [f64; SECONDS], floats: &mut [f32; FLOATS], counts: &mut [usize; COUNTS], flags: &mut [bool; FLAGS], keys_down: &mut [u64; KEYS], ids0: &mut [u64; IDS], floats0: &mut [f32; DEVICE_FLOATS], flags0: &mut [bool; DEVICE_FLAGS], ids1: &mut [u64; IDS], floats1: &mut [f32; DEVICE_FLOATS], flags1: &mut [bool; DEVICE_FLAGS], ids2: &mut [u64; IDS], floats2: &mut [f32; DEVICE_FLOATS], flags2: &mut [bool; DEVICE_FLAGS], ids3: &mut [u64; IDS], floats3: &mut [f32; DEVICE_FLOATS], flags3: &mut [bool; DEVICE_FLAGS], starts: &mut [f64; MAX_DEVICES], times: &mut [f64; MAX_LEN], positions: &mut [f32; PARTS], codes: &mut [u32; CODES], places: &mut [f32; PLACES], presses: &mut [u8; PRESSES], given: HostPass, feed: *const u32, feed_len: usize) -> HostRefusal;
    pub safe fn fivvarul_zoom_factor(exponent: f32) -> HostFactor;
    pub safe fn fivvarul_kernel_fresh() -> KernelTouches;
    pub fn fivvarul_read_records(kernel: KernelTouches, device: u64, bytes: *const u8, bytes_len: usize, feed: *mut u32, feed_len: usize) -> HostKernelRead;
    pub safe fn fivvarul_press_origin(seconds: &[f64; SECONDS], floats: &[f32; FLOATS], counts: &[usize; COUNTS], flags: &[bool; FLAGS]) -> HostPosition;
    pub safe fn fivvarul_press_start_time(seconds: &[f64; SECONDS], floats: &[f32; FLOATS], counts: &[usize; COUNTS], flags: &[bool; FLAGS]) -> HostSeconds;
    pub safe fn fivvarul_any_down(seconds: &[f64; SECONDS], floats: &[f32; FLOATS], counts: &[usize; COUNTS], flags: &[bool; FLAGS]) -> bool;
    pub safe fn fivvarul_button_down(seconds: &[f64; SECONDS], floats: &[f32; FLOATS], counts: &[usize; COUNTS], flags: &[bool; FLAGS], button: u32) -> bool;
    pub safe fn fivvarul_any_pressed(seconds: &[f64; SECONDS], floats: &[f32; FLOATS], counts: &[usize; COUNTS], flags: &[bool; FLAGS], codes: &[u32; CODES]) -> bool;
    pub safe fn fivvarul_any_released(seconds: &[f64; SECONDS], floats: &[f32; FLOATS], counts: &[usize; COUNTS], flags: &[bool; FLAGS], codes: &[u32; CODES]) -> bool;
    pub safe fn fivvarul_any_click(seconds: &[f64; SECONDS], floats: &[f32; FLOATS], counts: &[usize; COUNTS], flags: &[bool; FLAGS], codes: &[u32; CODES]) -> bool;
    pub safe fn fivvarul_button_pressed(seconds: &[f64; SECONDS], floats: &[f32; FLOATS], counts: &[usize; COUNTS], flags: &[bool; FLAGS], codes: &[u32; CODES], button: u32) -> bool;
    pub safe fn fivvarul_button_released(seconds: &[f64; SECONDS], floats: &[f32; FLOATS], counts: &[usize; COUNTS], flags: &[bool; FLAGS], codes: &[u32; CODES], button: u32) -> bool;
    pub safe fn fivvarul_button_clicked(seconds: &[f64; SECONDS], floats: &[f32; FLOATS], counts: &[usize; COUNTS], flags: &[bool; FLAGS], codes: &[u32; CODES], button: u32) -> bool;
    pub safe fn fivvarul_button_double_clicked(seconds: &[f64; SECONDS], floats: &[f32; FLOATS], counts: &[usize; COUNTS], flags: &[bool; FLAGS], codes: &[u32; CODES], button: u32) -> bool;
    pub safe fn fivvarul_button_triple_clicked(seconds: &[f64; SECONDS], floats: &[f32; FLOATS], counts: &[usize; COUNTS], flags: &[bool; FLAGS], codes: &[u32; CODES], button: u32) -> bool;
    pub safe fn fivvarul_time_since_last_click(seconds: &[f64; SECONDS], floats: &[f32; FLOATS], counts: &[usize; COUNTS], flags: &[bool; FLAGS]) -> f32;
    pub safe fn fivvarul_could_any_button_be_click(seconds: &[f64; SECONDS], floats: &[f32; FLOATS], counts: &[usize; COUNTS], flags: &[bool; FLAGS], codes: &[u32; CODES]) -> bool;
    pub safe fn fivvarul_is_decidedly_dragging(seconds: &[f64; SECONDS], floats: &[f32; FLOATS], counts: &[usize; COUNTS], flags: &[bool; FLAGS], codes: &[u32; CODES]) -> bool;
    pub safe fn fivvarul_is_long_press(seconds: &[f64; SECONDS], floats: &[f32; FLOATS], counts: &[usize; COUNTS], flags: &[bool; FLAGS]) -> bool;
    pub safe fn fivvarul_time(seconds: &[f64; SECONDS], floats: &[f32; FLOATS]) -> f64;
    pub safe fn fivvarul_unstable_dt(seconds: &[f64; SECONDS], floats: &[f32; FLOATS]) -> f32;
    pub safe fn fivvarul_predicted_dt(seconds: &[f64; SECONDS], floats: &[f32; FLOATS]) -> f32;
    pub safe fn fivvarul_stable_dt(seconds: &[f64; SECONDS], floats: &[f32; FLOATS]) -> f32;
    pub safe fn fivvarul_focused(seconds: &[f64; SECONDS], floats: &[f32; FLOATS], flags: &[bool; FLAGS]) -> bool;
    pub safe fn fivvarul_viewport_rect(seconds: &[f64; SECONDS], floats: &[f32; FLOATS], flags: &[bool; FLAGS]) -> Rect;
    pub safe fn fivvarul_pixels_per_point(seconds: &[f64; SECONDS], floats: &[f32; FLOATS], flags: &[bool; FLAGS]) -> f32;
    pub safe fn fivvarul_physical_pixel_size(seconds: &[f64; SECONDS], floats: &[f32; FLOATS], flags: &[bool; FLAGS]) -> f32;
    pub safe fn fivvarul_aim_radius(seconds: &[f64; SECONDS], floats: &[f32; FLOATS], flags: &[bool; FLAGS]) -> f32;
    pub safe fn fivvarul_dragged(held_ids: &[u64; HELD], held_flags: &[bool; HELD]) -> HostId;
    pub safe fn fivvarul_potential_click_id(held_ids: &[u64; HELD], held_flags: &[bool; HELD]) -> HostId;
    pub safe fn fivvarul_potential_drag_id(held_ids: &[u64; HELD], held_flags: &[bool; HELD]) -> HostId;
    pub safe fn fivvarul_tally(tally: &[u32; 1]) -> u32;
    pub safe fn fivvarul_pointer_event_count(seconds: &[f64; SECONDS], floats: &[f32; FLOATS], counts: &[usize; COUNTS], flags: &[bool; FLAGS]) -> usize;
    pub safe fn fivvarul_pointer_event(seconds: &[f64; SECONDS], floats: &[f32; FLOATS], counts: &[usize; COUNTS], flags: &[bool; FLAGS], codes: &[u32; CODES], places: &[f32; PLACES], i: usize) -> HostPointerEvent;
    pub safe fn fivvarul_key_down(flags: &[bool; FLAGS], keys_down: &[u64; KEYS], key: u32) -> bool;
    pub safe fn fivvarul_key_pressed(presses: &[u8; PRESSES], key: u32) -> bool;
    pub safe fn fivvarul_num_presses(presses: &[u8; PRESSES], key: u32) -> u8;
    pub safe fn fivvarul_feed_was_empty(flags: &[bool; FLAGS], keys_down: &[u64; KEYS]) -> bool;
    pub safe fn fivvarul_modifiers(flags: &[bool; FLAGS], keys_down: &[u64; KEYS]) -> u32;
    pub safe fn fivvarul_delta(floats: &[f32; FLOATS], counts: &[usize; COUNTS], flags: &[bool; FLAGS]) -> HostVector;
    pub safe fn fivvarul_motion(floats: &[f32; FLOATS], counts: &[usize; COUNTS], flags: &[bool; FLAGS]) -> HostMaybeVector;
    pub safe fn fivvarul_velocity(floats: &[f32; FLOATS], counts: &[usize; COUNTS], flags: &[bool; FLAGS]) -> HostVector;
    pub safe fn fivvarul_direction(floats: &[f32; FLOATS], counts: &[usize; COUNTS], flags: &[bool; FLAGS]) -> HostVector;
    pub safe fn fivvarul_latest_pos(floats: &[f32; FLOATS], counts: &[usize; COUNTS], flags: &[bool; FLAGS]) -> HostPosition;
    pub safe fn fivvarul_hover_pos(floats: &[f32; FLOATS], counts: &[usize; COUNTS], flags: &[bool; FLAGS]) -> HostPosition;
    pub safe fn fivvarul_interact_pos(floats: &[f32; FLOATS], counts: &[usize; COUNTS], flags: &[bool; FLAGS]) -> HostPosition;
    pub safe fn fivvarul_has_pointer(floats: &[f32; FLOATS], counts: &[usize; COUNTS], flags: &[bool; FLAGS]) -> bool;
    pub safe fn fivvarul_is_still(floats: &[f32; FLOATS], counts: &[usize; COUNTS], flags: &[bool; FLAGS]) -> bool;
    pub safe fn fivvarul_is_moving(floats: &[f32; FLOATS], counts: &[usize; COUNTS], flags: &[bool; FLAGS]) -> bool;
    pub safe fn fivvarul_time_since_last_movement(seconds: &[f64; SECONDS], floats: &[f32; FLOATS], counts: &[usize; COUNTS], flags: &[bool; FLAGS]) -> HostNumber;
    pub safe fn fivvarul_total_drag_delta(seconds: &[f64; SECONDS], floats: &[f32; FLOATS], counts: &[usize; COUNTS], flags: &[bool; FLAGS]) -> HostMaybeVector;
    pub safe fn fivvarul_wants_repaint_after(seconds: &[f64; SECONDS], floats: &[f32; FLOATS], counts: &[usize; COUNTS], flags: &[bool; FLAGS], keys_down: &[u64; KEYS], ids0: &[u64; IDS], floats0: &[f32; DEVICE_FLOATS], flags0: &[bool; DEVICE_FLAGS], ids1: &[u64; IDS], floats1: &[f32; DEVICE_FLOATS], flags1: &[bool; DEVICE_FLAGS], ids2: &[u64; IDS], floats2: &[f32; DEVICE_FLOATS], flags2: &[bool; DEVICE_FLAGS], ids3: &[u64; IDS], floats3: &[f32; DEVICE_FLOATS], flags3: &[bool; DEVICE_FLAGS], starts: &[f64; MAX_DEVICES], codes: &[u32; CODES]) -> HostSeconds;
    pub safe fn fivvarul_smooth_scroll_delta(floats: &[f32; FLOATS]) -> HostVector;
    pub safe fn fivvarul_is_scrolling(seconds: &[f64; SECONDS], floats: &[f32; FLOATS], flags: &[bool; FLAGS]) -> bool;
    pub safe fn fivvarul_scroll_source(seconds: &[f64; SECONDS], floats: &[f32; FLOATS], flags: &[bool; FLAGS]) -> HostSource;
    pub safe fn fivvarul_time_since_last_scroll(seconds: &[f64; SECONDS], floats: &[f32; FLOATS], flags: &[bool; FLAGS]) -> f32;
    pub safe fn fivvarul_any_touches(counts: &[usize; COUNTS], ids0: &[u64; IDS], floats0: &[f32; DEVICE_FLOATS], flags0: &[bool; DEVICE_FLAGS], ids1: &[u64; IDS], floats1: &[f32; DEVICE_FLOATS], flags1: &[bool; DEVICE_FLAGS], ids2: &[u64; IDS], floats2: &[f32; DEVICE_FLOATS], flags2: &[bool; DEVICE_FLAGS], ids3: &[u64; IDS], floats3: &[f32; DEVICE_FLOATS], flags3: &[bool; DEVICE_FLAGS], starts: &[f64; MAX_DEVICES]) -> bool;
    pub safe fn fivvarul_has_touch_screen(counts: &[usize; COUNTS], ids0: &[u64; IDS], floats0: &[f32; DEVICE_FLOATS], flags0: &[bool; DEVICE_FLAGS], ids1: &[u64; IDS], floats1: &[f32; DEVICE_FLOATS], flags1: &[bool; DEVICE_FLAGS], ids2: &[u64; IDS], floats2: &[f32; DEVICE_FLOATS], flags2: &[bool; DEVICE_FLAGS], ids3: &[u64; IDS], floats3: &[f32; DEVICE_FLOATS], flags3: &[bool; DEVICE_FLAGS], starts: &[f64; MAX_DEVICES]) -> bool;
    pub safe fn fivvarul_multi_touch(counts: &[usize; COUNTS], ids0: &[u64; IDS], floats0: &[f32; DEVICE_FLOATS], flags0: &[bool; DEVICE_FLAGS], ids1: &[u64; IDS], floats1: &[f32; DEVICE_FLOATS], flags1: &[bool; DEVICE_FLAGS], ids2: &[u64; IDS], floats2: &[f32; DEVICE_FLOATS], flags2: &[bool; DEVICE_FLAGS], ids3: &[u64; IDS], floats3: &[f32; DEVICE_FLOATS], flags3: &[bool; DEVICE_FLAGS], starts: &[f64; MAX_DEVICES]) -> HostGesture;
    pub safe fn fivvarul_info(counts: &[usize; COUNTS], ids0: &[u64; IDS], floats0: &[f32; DEVICE_FLOATS], flags0: &[bool; DEVICE_FLAGS], ids1: &[u64; IDS], floats1: &[f32; DEVICE_FLOATS], flags1: &[bool; DEVICE_FLAGS], ids2: &[u64; IDS], floats2: &[f32; DEVICE_FLOATS], flags2: &[bool; DEVICE_FLAGS], ids3: &[u64; IDS], floats3: &[f32; DEVICE_FLOATS], flags3: &[bool; DEVICE_FLAGS], starts: &[f64; MAX_DEVICES], device_id: u64) -> HostGesture;
    pub safe fn fivvarul_any_touches_of(counts: &[usize; COUNTS], ids0: &[u64; IDS], floats0: &[f32; DEVICE_FLOATS], flags0: &[bool; DEVICE_FLAGS], ids1: &[u64; IDS], floats1: &[f32; DEVICE_FLOATS], flags1: &[bool; DEVICE_FLAGS], ids2: &[u64; IDS], floats2: &[f32; DEVICE_FLOATS], flags2: &[bool; DEVICE_FLAGS], ids3: &[u64; IDS], floats3: &[f32; DEVICE_FLOATS], flags3: &[bool; DEVICE_FLAGS], starts: &[f64; MAX_DEVICES], device_id: u64) -> bool;
    pub safe fn fivvarul_is_long_touch(seconds: &[f64; SECONDS], floats: &[f32; FLOATS], counts: &[usize; COUNTS], flags: &[bool; FLAGS], ids0: &[u64; IDS], floats0: &[f32; DEVICE_FLOATS], flags0: &[bool; DEVICE_FLAGS], ids1: &[u64; IDS], floats1: &[f32; DEVICE_FLOATS], flags1: &[bool; DEVICE_FLAGS], ids2: &[u64; IDS], floats2: &[f32; DEVICE_FLOATS], flags2: &[bool; DEVICE_FLAGS], ids3: &[u64; IDS], floats3: &[f32; DEVICE_FLOATS], flags3: &[bool; DEVICE_FLAGS], starts: &[f64; MAX_DEVICES]) -> bool;
    pub safe fn fivvarul_empty() -> HostSet;
    pub safe fn fivvarul_contains(widgets: usize, layers: usize, words: &[u64; WORDS], numbers: &[u32; NUMBERS], id: u64) -> bool;
    pub safe fn fivvarul_get(widgets: usize, layers: usize, words: &[u64; WORDS], numbers: &[u32; NUMBERS], edges: &[f32; EDGES], id: u64) -> HostWidget;
    pub safe fn fivvarul_order(widgets: usize, layers: usize, words: &[u64; WORDS], numbers: &[u32; NUMBERS], edges: &[f32; EDGES], id: u64) -> HostOrder;
    pub safe fn fivvarul_layer_count(widgets: usize, layers: usize, words: &[u64; WORDS], numbers: &[u32; NUMBERS], layer: LayerId) -> usize;
    pub safe fn fivvarul_layer_id(widgets: usize, layers: usize, words: &[u64; WORDS], numbers: &[u32; NUMBERS], i: usize) -> HostLayer;
    pub safe fn fivvarul_zoom_delta(floats: &[f32; FLOATS], counts: &[usize; COUNTS], ids0: &[u64; IDS], floats0: &[f32; DEVICE_FLOATS], flags0: &[bool; DEVICE_FLAGS], ids1: &[u64; IDS], floats1: &[f32; DEVICE_FLOATS], flags1: &[bool; DEVICE_FLAGS], ids2: &[u64; IDS], floats2: &[f32; DEVICE_FLOATS], flags2: &[bool; DEVICE_FLAGS], ids3: &[u64; IDS], floats3: &[f32; DEVICE_FLOATS], flags3: &[bool; DEVICE_FLAGS], starts: &[f64; MAX_DEVICES]) -> HostZoom;
    pub safe fn fivvarul_zoom_delta_2d(seconds: &[f64; SECONDS], floats: &[f32; FLOATS], counts: &[usize; COUNTS], flags: &[bool; FLAGS], keys_down: &[u64; KEYS], ids0: &[u64; IDS], floats0: &[f32; DEVICE_FLOATS], flags0: &[bool; DEVICE_FLAGS], ids1: &[u64; IDS], floats1: &[f32; DEVICE_FLOATS], flags1: &[bool; DEVICE_FLAGS], ids2: &[u64; IDS], floats2: &[f32; DEVICE_FLOATS], flags2: &[bool; DEVICE_FLAGS], ids3: &[u64; IDS], floats3: &[f32; DEVICE_FLOATS], flags3: &[bool; DEVICE_FLAGS], starts: &[f64; MAX_DEVICES]) -> HostZoom2d;
    pub safe fn fivvarul_rotation_delta(floats: &[f32; FLOATS], counts: &[usize; COUNTS], ids0: &[u64; IDS], floats0: &[f32; DEVICE_FLOATS], flags0: &[bool; DEVICE_FLAGS], ids1: &[u64; IDS], floats1: &[f32; DEVICE_FLOATS], flags1: &[bool; DEVICE_FLAGS], ids2: &[u64; IDS], floats2: &[f32; DEVICE_FLOATS], flags2: &[bool; DEVICE_FLAGS], ids3: &[u64; IDS], floats3: &[f32; DEVICE_FLOATS], flags3: &[bool; DEVICE_FLAGS], starts: &[f64; MAX_DEVICES]) -> HostRotation;
    pub safe fn fivvarul_translation_delta(floats: &[f32; FLOATS], counts: &[usize; COUNTS], ids0: &[u64; IDS], floats0: &[f32; DEVICE_FLOATS], flags0: &[bool; DEVICE_FLAGS], ids1: &[u64; IDS], floats1: &[f32; DEVICE_FLOATS], flags1: &[bool; DEVICE_FLAGS], ids2: &[u64; IDS], floats2: &[f32; DEVICE_FLOATS], flags2: &[bool; DEVICE_FLAGS], ids3: &[u64; IDS], floats3: &[f32; DEVICE_FLOATS], flags3: &[bool; DEVICE_FLAGS], starts: &[f64; MAX_DEVICES]) -> HostVector;
}

/// The words of a hit list: id and sense of each entry.
pub fn words_of(hits: &[crate::Hit]) -> &[u64] {
    // A Hit is two u64 in C's layout, so the list is a list of twice as many u64.
    unsafe { core::slice::from_raw_parts(hits.as_ptr().cast(), 2 * hits.len()) }
}

impl Memory {
    /// The memory of a fresh panel: egui's initial state, no device, no drag, tally 0. The devices' arrays and the other lent arrays may hold anything.
    pub fn fresh(&mut self) {
        fivvarul_fresh(&mut self.seconds, &mut self.floats, &mut self.counts, &mut self.flags, &mut self.keys_down, &mut self.presses, &mut self.held_ids, &mut self.held_flags, &mut self.tally)
    }

    /// Inserts a widget into its own layer, whose widgets are lent in `layer`. Refused, every place is as before; taken, the answer has the set after it.
    pub fn insert(&mut self, set: HostSet, layer: &mut [WidgetRect], widget: WidgetRect, move_to_top: bool) -> HostInsertion {
        unsafe { fivvarul_insert(set, &mut self.words, &mut self.numbers, &mut self.edges, layer.as_mut_ptr(), layer.len(), widget, move_to_top) }
    }

    /// Refused, with every place as before; or taken. The hits are two words an entry, id and sense; `top` gets the hovered ids, `all` those that contain the pointer, both ascending; 66 places each. The widgets are those of the set of so many widgets and layers.
    pub fn interact(&mut self, widgets: usize, layers: usize, close: &[u64], within: &[u64], click_given: bool, click_id: u64, click_sense: u64, drag_given: bool, drag_id: u64, drag_sense: u64, top: &mut [u64], all: &mut [u64]) -> HostSnapshot {
        unsafe { fivvarul_interact(&self.seconds, &self.floats, &self.counts, &self.flags, &self.ids0, &self.floats0, &self.flags0, &self.ids1, &self.floats1, &self.flags1, &self.ids2, &self.floats2, &self.flags2, &self.ids3, &self.floats3, &self.flags3, &self.starts, &self.codes, &self.presses, &mut self.held_ids, &mut self.held_flags, &mut self.tally, widgets, layers, &self.words, &self.numbers, close.as_ptr(), close.len(), within.as_ptr(), within.len(), click_given, click_id, click_sense, drag_given, drag_id, drag_sense, top.as_mut_ptr(), top.len(), all.as_mut_ptr(), all.len()) }
    }

    /// Refused, with every place as before; or taken.
    pub fn pass(&mut self, given: HostPass, feed: &[u32]) -> HostRefusal {
        unsafe { fivvarul_pass(&mut self.seconds, &mut self.floats, &mut self.counts, &mut self.flags, &mut self.keys_down, &mut self.ids0, &mut self.floats0, &mut self.flags0, &mut self.ids1, &mut self.floats1, &mut self.flags1, &mut self.ids2, &mut self.floats2, &mut self.flags2, &mut self.ids3, &mut self.floats3, &mut self.flags3, &mut self.starts, &mut self.times, &mut self.positions, &mut self.codes, &mut self.places, &mut self.presses, given, feed.as_ptr(), feed.len()) }
    }

    /// Of an exponent of size at most 1; a greater one is the host's to split: e^(a + b) = e^a · e^b.
    pub fn zoom_factor(exponent: f32) -> HostFactor {
        fivvarul_zoom_factor(exponent)
    }

    /// No finger in any slot.
    pub fn kernel_fresh() -> KernelTouches {
        fivvarul_kernel_fresh()
    }

    /// The bytes of a call become events of `device` in the feed buffer. Refused, every place of the buffer is as before.
    pub fn read_records(kernel: KernelTouches, device: u64, bytes: &[u8], feed: &mut [u32]) -> HostKernelRead {
        unsafe { fivvarul_read_records(kernel, device, bytes.as_ptr(), bytes.len(), feed.as_mut_ptr(), feed.len()) }
    }

    pub fn press_origin(&self) -> HostPosition {
        fivvarul_press_origin(&self.seconds, &self.floats, &self.counts, &self.flags)
    }

    pub fn press_start_time(&self) -> HostSeconds {
        fivvarul_press_start_time(&self.seconds, &self.floats, &self.counts, &self.flags)
    }

    pub fn any_down(&self) -> bool {
        fivvarul_any_down(&self.seconds, &self.floats, &self.counts, &self.flags)
    }

    pub fn button_down(&self, button: u32) -> bool {
        fivvarul_button_down(&self.seconds, &self.floats, &self.counts, &self.flags, button)
    }

    pub fn any_pressed(&self) -> bool {
        fivvarul_any_pressed(&self.seconds, &self.floats, &self.counts, &self.flags, &self.codes)
    }

    pub fn any_released(&self) -> bool {
        fivvarul_any_released(&self.seconds, &self.floats, &self.counts, &self.flags, &self.codes)
    }

    pub fn any_click(&self) -> bool {
        fivvarul_any_click(&self.seconds, &self.floats, &self.counts, &self.flags, &self.codes)
    }

    pub fn button_pressed(&self, button: u32) -> bool {
        fivvarul_button_pressed(&self.seconds, &self.floats, &self.counts, &self.flags, &self.codes, button)
    }

    pub fn button_released(&self, button: u32) -> bool {
        fivvarul_button_released(&self.seconds, &self.floats, &self.counts, &self.flags, &self.codes, button)
    }

    pub fn button_clicked(&self, button: u32) -> bool {
        fivvarul_button_clicked(&self.seconds, &self.floats, &self.counts, &self.flags, &self.codes, button)
    }

    pub fn button_double_clicked(&self, button: u32) -> bool {
        fivvarul_button_double_clicked(&self.seconds, &self.floats, &self.counts, &self.flags, &self.codes, button)
    }

    pub fn button_triple_clicked(&self, button: u32) -> bool {
        fivvarul_button_triple_clicked(&self.seconds, &self.floats, &self.counts, &self.flags, &self.codes, button)
    }

    pub fn time_since_last_click(&self) -> f32 {
        fivvarul_time_since_last_click(&self.seconds, &self.floats, &self.counts, &self.flags)
    }

    pub fn could_any_button_be_click(&self) -> bool {
        fivvarul_could_any_button_be_click(&self.seconds, &self.floats, &self.counts, &self.flags, &self.codes)
    }

    pub fn is_decidedly_dragging(&self) -> bool {
        fivvarul_is_decidedly_dragging(&self.seconds, &self.floats, &self.counts, &self.flags, &self.codes)
    }

    pub fn is_long_press(&self) -> bool {
        fivvarul_is_long_press(&self.seconds, &self.floats, &self.counts, &self.flags)
    }

    pub fn time(&self) -> f64 {
        fivvarul_time(&self.seconds, &self.floats)
    }

    pub fn unstable_dt(&self) -> f32 {
        fivvarul_unstable_dt(&self.seconds, &self.floats)
    }

    pub fn predicted_dt(&self) -> f32 {
        fivvarul_predicted_dt(&self.seconds, &self.floats)
    }

    pub fn stable_dt(&self) -> f32 {
        fivvarul_stable_dt(&self.seconds, &self.floats)
    }

    pub fn focused(&self) -> bool {
        fivvarul_focused(&self.seconds, &self.floats, &self.flags)
    }

    pub fn viewport_rect(&self) -> Rect {
        fivvarul_viewport_rect(&self.seconds, &self.floats, &self.flags)
    }

    pub fn pixels_per_point(&self) -> f32 {
        fivvarul_pixels_per_point(&self.seconds, &self.floats, &self.flags)
    }

    pub fn physical_pixel_size(&self) -> f32 {
        fivvarul_physical_pixel_size(&self.seconds, &self.floats, &self.flags)
    }

    pub fn aim_radius(&self) -> f32 {
        fivvarul_aim_radius(&self.seconds, &self.floats, &self.flags)
    }

    pub fn dragged(&self) -> HostId {
        fivvarul_dragged(&self.held_ids, &self.held_flags)
    }

    pub fn potential_click_id(&self) -> HostId {
        fivvarul_potential_click_id(&self.held_ids, &self.held_flags)
    }

    pub fn potential_drag_id(&self) -> HostId {
        fivvarul_potential_drag_id(&self.held_ids, &self.held_flags)
    }

    /// How many drags were started.
    pub fn tally(&self) -> u32 {
        fivvarul_tally(&self.tally)
    }

    /// How many there were.
    pub fn pointer_event_count(&self) -> usize {
        fivvarul_pointer_event_count(&self.seconds, &self.floats, &self.counts, &self.flags)
    }

    /// Event `i`, if there were so many.
    pub fn pointer_event(&self, i: usize) -> HostPointerEvent {
        fivvarul_pointer_event(&self.seconds, &self.floats, &self.counts, &self.flags, &self.codes, &self.places, i)
    }

    pub fn key_down(&self, key: u32) -> bool {
        fivvarul_key_down(&self.flags, &self.keys_down, key)
    }

    pub fn key_pressed(&self, key: u32) -> bool {
        fivvarul_key_pressed(&self.presses, key)
    }

    pub fn num_presses(&self, key: u32) -> u8 {
        fivvarul_num_presses(&self.presses, key)
    }

    pub fn feed_was_empty(&self) -> bool {
        fivvarul_feed_was_empty(&self.flags, &self.keys_down)
    }

    /// 01's five bits: alt, ctrl, shift, mac_cmd, command.
    pub fn modifiers(&self) -> u32 {
        fivvarul_modifiers(&self.flags, &self.keys_down)
    }

    pub fn delta(&self) -> HostVector {
        fivvarul_delta(&self.floats, &self.counts, &self.flags)
    }

    pub fn motion(&self) -> HostMaybeVector {
        fivvarul_motion(&self.floats, &self.counts, &self.flags)
    }

    pub fn velocity(&self) -> HostVector {
        fivvarul_velocity(&self.floats, &self.counts, &self.flags)
    }

    pub fn direction(&self) -> HostVector {
        fivvarul_direction(&self.floats, &self.counts, &self.flags)
    }

    pub fn latest_pos(&self) -> HostPosition {
        fivvarul_latest_pos(&self.floats, &self.counts, &self.flags)
    }

    pub fn hover_pos(&self) -> HostPosition {
        fivvarul_hover_pos(&self.floats, &self.counts, &self.flags)
    }

    pub fn interact_pos(&self) -> HostPosition {
        fivvarul_interact_pos(&self.floats, &self.counts, &self.flags)
    }

    pub fn has_pointer(&self) -> bool {
        fivvarul_has_pointer(&self.floats, &self.counts, &self.flags)
    }

    pub fn is_still(&self) -> bool {
        fivvarul_is_still(&self.floats, &self.counts, &self.flags)
    }

    pub fn is_moving(&self) -> bool {
        fivvarul_is_moving(&self.floats, &self.counts, &self.flags)
    }

    pub fn time_since_last_movement(&self) -> HostNumber {
        fivvarul_time_since_last_movement(&self.seconds, &self.floats, &self.counts, &self.flags)
    }

    pub fn total_drag_delta(&self) -> HostMaybeVector {
        fivvarul_total_drag_delta(&self.seconds, &self.floats, &self.counts, &self.flags)
    }

    pub fn wants_repaint_after(&self) -> HostSeconds {
        fivvarul_wants_repaint_after(&self.seconds, &self.floats, &self.counts, &self.flags, &self.keys_down, &self.ids0, &self.floats0, &self.flags0, &self.ids1, &self.floats1, &self.flags1, &self.ids2, &self.floats2, &self.flags2, &self.ids3, &self.floats3, &self.flags3, &self.starts, &self.codes)
    }

    pub fn smooth_scroll_delta(&self) -> HostVector {
        fivvarul_smooth_scroll_delta(&self.floats)
    }

    pub fn is_scrolling(&self) -> bool {
        fivvarul_is_scrolling(&self.seconds, &self.floats, &self.flags)
    }

    pub fn scroll_source(&self) -> HostSource {
        fivvarul_scroll_source(&self.seconds, &self.floats, &self.flags)
    }

    pub fn time_since_last_scroll(&self) -> f32 {
        fivvarul_time_since_last_scroll(&self.seconds, &self.floats, &self.flags)
    }

    pub fn any_touches(&self) -> bool {
        fivvarul_any_touches(&self.counts, &self.ids0, &self.floats0, &self.flags0, &self.ids1, &self.floats1, &self.flags1, &self.ids2, &self.floats2, &self.flags2, &self.ids3, &self.floats3, &self.flags3, &self.starts)
    }

    pub fn has_touch_screen(&self) -> bool {
        fivvarul_has_touch_screen(&self.counts, &self.ids0, &self.floats0, &self.flags0, &self.ids1, &self.floats1, &self.flags1, &self.ids2, &self.floats2, &self.flags2, &self.ids3, &self.floats3, &self.flags3, &self.starts)
    }

    pub fn multi_touch(&self) -> HostGesture {
        fivvarul_multi_touch(&self.counts, &self.ids0, &self.floats0, &self.flags0, &self.ids1, &self.floats1, &self.flags1, &self.ids2, &self.floats2, &self.flags2, &self.ids3, &self.floats3, &self.flags3, &self.starts)
    }

    pub fn info(&self, device_id: u64) -> HostGesture {
        fivvarul_info(&self.counts, &self.ids0, &self.floats0, &self.flags0, &self.ids1, &self.floats1, &self.flags1, &self.ids2, &self.floats2, &self.flags2, &self.ids3, &self.floats3, &self.flags3, &self.starts, device_id)
    }

    pub fn any_touches_of(&self, device_id: u64) -> bool {
        fivvarul_any_touches_of(&self.counts, &self.ids0, &self.floats0, &self.flags0, &self.ids1, &self.floats1, &self.flags1, &self.ids2, &self.floats2, &self.flags2, &self.ids3, &self.floats3, &self.flags3, &self.starts, device_id)
    }

    pub fn is_long_touch(&self) -> bool {
        fivvarul_is_long_touch(&self.seconds, &self.floats, &self.counts, &self.flags, &self.ids0, &self.floats0, &self.flags0, &self.ids1, &self.floats1, &self.flags1, &self.ids2, &self.floats2, &self.flags2, &self.ids3, &self.floats3, &self.flags3, &self.starts)
    }

    /// A new set, or one that is emptied. Its arrays may hold anything.
    pub fn empty() -> HostSet {
        fivvarul_empty()
    }

    pub fn contains(&self, widgets: usize, layers: usize, id: u64) -> bool {
        fivvarul_contains(widgets, layers, &self.words, &self.numbers, id)
    }

    pub fn get(&self, widgets: usize, layers: usize, id: u64) -> HostWidget {
        fivvarul_get(widgets, layers, &self.words, &self.numbers, &self.edges, id)
    }

    /// In which layer, and in which order in that layer?
    pub fn order(&self, widgets: usize, layers: usize, id: u64) -> HostOrder {
        fivvarul_order(widgets, layers, &self.words, &self.numbers, &self.edges, id)
    }

    /// How many widgets the set counts in a layer.
    pub fn layer_count(&self, widgets: usize, layers: usize, layer: LayerId) -> usize {
        fivvarul_layer_count(widgets, layers, &self.words, &self.numbers, layer)
    }

    /// The layers in the order of their first insertion: the one at i, if there is one.
    pub fn layer_id(&self, widgets: usize, layers: usize, i: usize) -> HostLayer {
        fivvarul_layer_id(widgets, layers, &self.words, &self.numbers, i)
    }

    pub fn zoom_delta(&self) -> HostZoom {
        fivvarul_zoom_delta(&self.floats, &self.counts, &self.ids0, &self.floats0, &self.flags0, &self.ids1, &self.floats1, &self.flags1, &self.ids2, &self.floats2, &self.flags2, &self.ids3, &self.floats3, &self.flags3, &self.starts)
    }

    pub fn zoom_delta_2d(&self) -> HostZoom2d {
        fivvarul_zoom_delta_2d(&self.seconds, &self.floats, &self.counts, &self.flags, &self.keys_down, &self.ids0, &self.floats0, &self.flags0, &self.ids1, &self.floats1, &self.flags1, &self.ids2, &self.floats2, &self.flags2, &self.ids3, &self.floats3, &self.flags3, &self.starts)
    }

    pub fn rotation_delta(&self) -> HostRotation {
        fivvarul_rotation_delta(&self.floats, &self.counts, &self.ids0, &self.floats0, &self.flags0, &self.ids1, &self.floats1, &self.flags1, &self.ids2, &self.floats2, &self.flags2, &self.ids3, &self.floats3, &self.flags3, &self.starts)
    }

    pub fn translation_delta(&self) -> HostVector {
        fivvarul_translation_delta(&self.floats, &self.counts, &self.ids0, &self.floats0, &self.flags0, &self.ids1, &self.floats1, &self.flags1, &self.ids2, &self.floats2, &self.flags2, &self.ids3, &self.floats3, &self.flags3, &self.starts)
    }
}
