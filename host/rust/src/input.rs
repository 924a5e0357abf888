//! What a pass is given: egui's `RawInput`, with the numbers that egui's context hands to `begin_pass`.
use crate::{ffi, Event, Rect};

/// The modifier keys that are down.
#[derive(Clone, Copy, Debug, Default, PartialEq, Eq)]
#[allow(missing_docs)]
pub struct Modifiers {
    pub alt: bool,
    pub ctrl: bool,
    pub shift: bool,
    pub mac_cmd: bool,
    pub command: bool,
}

impl Modifiers {
    /// None.
    pub const NONE: Modifiers = Modifiers { alt: false, ctrl: false, shift: false, mac_cmd: false, command: false };
    /// Alt alone.
    pub const ALT: Modifiers = Modifiers { alt: true, ..Modifiers::NONE };
    /// Control alone.
    pub const CTRL: Modifiers = Modifiers { ctrl: true, ..Modifiers::NONE };
    /// Shift alone.
    pub const SHIFT: Modifiers = Modifiers { shift: true, ..Modifiers::NONE };
    /// The command key alone.
    pub const COMMAND: Modifiers = Modifiers { command: true, ..Modifiers::NONE };

    /// The five bits of a feed's word: alt, ctrl, shift, mac_cmd, command.
    pub const fn bits(self) -> u32 {
        self.alt as u32 | (self.ctrl as u32) << 1 | (self.shift as u32) << 2 | (self.mac_cmd as u32) << 3 | (self.command as u32) << 4
    }

    /// The modifiers of these five bits; others are not read.
    pub const fn from_bits(bits: u32) -> Modifiers {
        Modifiers { alt: bits & 1 != 0, ctrl: bits & 2 != 0, shift: bits & 4 != 0, mac_cmd: bits & 8 != 0, command: bits & 16 != 0 }
    }
}

/// egui's `InputOptions`, with egui's defaults.
#[derive(Clone, Copy, Debug, PartialEq)]
pub struct InputOptions {
    /// Points for each line of a wheel, 0 to 65,536.
    pub line_scroll_speed: f32,
    /// Zoom exponent for each point of a wheel, 0 to 1.
    pub scroll_zoom_speed: f32,
    /// How far a press may move and still be a click, 0 to 65,536.
    pub max_click_dist: f32,
    /// How long a press may last and still be a click, in seconds, 0 to 3,600.
    pub max_click_duration: f64,
    /// How long after a click another one is a double click, in seconds, 0 to 3,600.
    pub max_double_click_delay: f64,
    /// With these a wheel zooms.
    pub zoom_modifier: Modifiers,
    /// With these a wheel scrolls sideways.
    pub horizontal_scroll_modifier: Modifiers,
    /// With these a wheel scrolls up and down.
    pub vertical_scroll_modifier: Modifiers,
}

impl Default for InputOptions {
    fn default() -> Self {
        InputOptions {
            line_scroll_speed: 40.0,
            scroll_zoom_speed: 1.0 / 200.0,
            max_click_dist: 6.0,
            max_click_duration: 0.8,
            max_double_click_delay: 0.3,
            zoom_modifier: Modifiers::COMMAND,
            horizontal_scroll_modifier: Modifiers::SHIFT,
            vertical_scroll_modifier: Modifiers::ALT,
        }
    }
}

/// What a pass is given.
#[derive(Clone, Copy, Debug, PartialEq)]
pub struct RawInput<'a> {
    /// Seconds, not below the last pass's; without it, the last pass's and `predicted_dt`.
    pub time: Option<f64>,
    /// The screen; without it, the one before stays.
    pub screen_rect: Option<Rect>,
    /// Seconds until the next pass, 0 to 1.
    pub predicted_dt: f32,
    /// The part of a wheel's delta that this pass applies, 0 to 1: egui's `exponential_smooth_factor` of the time since the last pass.
    pub smoothing_factor: f32,
    /// Pixels of a point, 0 to 1,024.
    pub pixels_per_point: f32,
    /// Whether the window has the focus.
    pub focused: bool,
    /// Whether a repaint was asked for in the pass before.
    pub requested_repaint_last_pass: bool,
    /// Speeds and limits.
    pub options: InputOptions,
    /// What happened since the last pass, at most 64 events.
    pub events: &'a [Event],
}

impl Default for RawInput<'_> {
    fn default() -> Self {
        RawInput {
            time: None,
            screen_rect: None,
            predicted_dt: 1.0 / 60.0,
            smoothing_factor: 1.0,
            pixels_per_point: 1.0,
            focused: true,
            requested_repaint_last_pass: false,
            options: InputOptions::default(),
            events: &[],
        }
    }
}

impl RawInput<'_> {
    pub(crate) fn given(&self) -> ffi::HostPass {
        let rect = self.screen_rect.unwrap_or_default();
        let o = &self.options;
        ffi::HostPass {
            time: self.time.unwrap_or_default(),
            max_click_duration: o.max_click_duration,
            max_double_click_delay: o.max_double_click_delay,
            min_x: rect.min.x,
            min_y: rect.min.y,
            max_x: rect.max.x,
            max_y: rect.max.y,
            predicted_dt: self.predicted_dt,
            smoothing_factor: self.smoothing_factor,
            pixels_per_point: self.pixels_per_point,
            line_scroll_speed: o.line_scroll_speed,
            scroll_zoom_speed: o.scroll_zoom_speed,
            max_click_dist: o.max_click_dist,
            zoom_modifier: o.zoom_modifier.bits(),
            horizontal_scroll_modifier: o.horizontal_scroll_modifier.bits(),
            vertical_scroll_modifier: o.vertical_scroll_modifier.bits(),
            time_given: self.time.is_some(),
            screen_rect_given: self.screen_rect.is_some(),
            focused: self.focused,
            requested_repaint: self.requested_repaint_last_pass,
        }
    }
}
