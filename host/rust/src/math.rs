//! Positions, vectors and rectangles, as egui's emath names them.
pub use crate::ffi::{Pos2, Rect};

/// A position on the screen.
pub const fn pos2(x: f32, y: f32) -> Pos2 {
    Pos2 { x, y }
}

impl Rect {
    /// The rectangle between two corners.
    pub const fn from_min_max(min: Pos2, max: Pos2) -> Rect {
        Rect { min, max }
    }

    /// Whether a position is inside or on the edge.
    pub fn contains(&self, p: Pos2) -> bool {
        self.min.x <= p.x && p.x <= self.max.x && self.min.y <= p.y && p.y <= self.max.y
    }
}

/// A difference of two positions.
#[derive(Clone, Copy, Debug, Default, PartialEq)]
pub struct Vec2 {
    /// To the right.
    pub x: f32,
    /// Down.
    pub y: f32,
}

/// A difference of two positions.
pub const fn vec2(x: f32, y: f32) -> Vec2 {
    Vec2 { x, y }
}
