//! What the questions answer.
use crate::ffi;
use crate::{pos2, vec2, Modifiers, PointerButton, Pos2, Refusal, Vec2};

pub(crate) fn vector(v: ffi::HostVector) -> Vec2 {
    vec2(v.x, v.y)
}

pub(crate) fn maybe_vector(v: ffi::HostMaybeVector) -> Option<Vec2> {
    v.given.then_some(vec2(v.x, v.y))
}

pub(crate) fn position(p: ffi::HostPosition) -> Option<Pos2> {
    p.given.then_some(pos2(p.x, p.y))
}

pub(crate) fn seconds(s: ffi::HostSeconds) -> Option<f64> {
    s.given.then_some(s.value)
}

pub(crate) fn number(n: ffi::HostNumber) -> Option<f32> {
    n.given.then_some(n.value)
}

pub(crate) fn id(d: ffi::HostId) -> Option<u64> {
    d.given.then_some(d.id)
}

/// egui's zoom factor in two parts: it is `factor` times the exponential of `exponent`. See [`zoom_factor`].
#[derive(Clone, Copy, Debug, PartialEq)]
#[allow(missing_docs)]
pub struct Zoom {
    pub factor: f32,
    pub exponent: f32,
}

/// The same by axis.
#[derive(Clone, Copy, Debug, PartialEq)]
#[allow(missing_docs)]
pub struct Zoom2d {
    pub factor: Vec2,
    pub exponent: Vec2,
}

/// A rotation: no angle is taken in the library.
#[derive(Clone, Copy, Debug, PartialEq)]
pub enum Rotation {
    /// The sum of the pass's rotate events.
    Radians(f32),
    /// A gesture's heading before and now: the rotation is the difference of their angles.
    Headings(Vec2, Vec2),
}

/// egui's `MultiTouchInfo`, with headings in place of an angle.
#[derive(Clone, Copy, Debug, PartialEq)]
#[allow(missing_docs)]
pub struct MultiTouchInfo {
    pub start_time: f64,
    pub start_pos: Pos2,
    pub center_pos: Pos2,
    pub num_touches: usize,
    pub zoom_delta: f32,
    pub zoom_delta_2d: Vec2,
    pub previous_heading: Vec2,
    pub heading: Vec2,
    pub translation_delta: Vec2,
    pub force: f32,
}

pub(crate) fn gesture(g: ffi::HostGesture) -> Option<MultiTouchInfo> {
    g.given.then_some(MultiTouchInfo {
        start_time: g.start_time,
        start_pos: g.start_pos,
        center_pos: g.center_pos,
        num_touches: g.num_touches,
        zoom_delta: g.zoom_delta,
        zoom_delta_2d: vector(g.zoom_delta_2d),
        previous_heading: vector(g.previous_heading),
        heading: vector(g.heading),
        translation_delta: vector(g.translation_delta),
        force: g.force,
    })
}

pub(crate) fn rotation(r: ffi::HostRotation) -> Rotation {
    if r.by_headings {
        return Rotation::Headings(vec2(r.previous_x, r.previous_y), vec2(r.x, r.y));
    }
    Rotation::Radians(r.radians)
}

/// The exponential of a zoom exponent of size at most 1, within a millionth of it; another exponent is refused with 13. A greater one is the
/// host's to split: the factor of `a + b` is that of `a` by that of `b`.
///
/// ```
/// let half = fivvarul::zoom_factor(0.5)?;
/// assert!((half - 1.6487213).abs() < 2e-6);
/// assert_eq!(fivvarul::zoom_factor(1.5).unwrap_err().number(), 13);
/// # Ok::<(), fivvarul::Refusal>(())
/// ```
pub fn zoom_factor(exponent: f32) -> Result<f32, Refusal> {
    let answer = ffi::Memory::zoom_factor(exponent);
    Refusal::of(answer.number, 0)?;
    Ok(answer.factor)
}

/// A click of a button.
#[derive(Clone, Copy, Debug, PartialEq)]
#[allow(missing_docs)]
pub struct Click {
    pub pos: Pos2,
    pub count: u32,
    pub modifiers: Modifiers,
}

/// What the pointer did, as egui's pointer keeps it.
#[derive(Clone, Copy, Debug, PartialEq)]
#[allow(missing_docs)]
pub enum PointerEvent {
    Moved(Pos2),
    Pressed { pos: Pos2, button: PointerButton },
    Released { click: Option<Click>, button: PointerButton },
}

pub(crate) fn pointer_event(e: ffi::HostPointerEvent) -> Option<PointerEvent> {
    let button = PointerButton::ALL[(e.button as usize).min(4)];
    let click = Click { pos: e.pos, count: e.count, modifiers: Modifiers::from_bits(e.modifiers) };
    e.given.then_some(match e.kind {
        0 => PointerEvent::Moved(e.pos),
        1 => PointerEvent::Pressed { pos: e.pos, button },
        kind => PointerEvent::Released { click: (kind == 3).then_some(click), button },
    })
}
