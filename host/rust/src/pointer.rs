//! The questions about the pointer.
use crate::answers::{maybe_vector, number, pointer_event, position, seconds, vector};
use crate::{Panel, PointerButton, PointerEvent, Pos2, Vec2};

/// egui's `PointerState`: what the panel knows of the pointer after its last pass.
#[derive(Clone, Copy)]
pub struct PointerState<'a>(pub(crate) &'a Panel);

impl PointerState<'_> {
    /// How much the pointer moved in the last pass.
    pub fn delta(&self) -> Vec2 {
        vector(self.0.memory.delta())
    }

    /// The sum of the last pass's relative motions, where there was one.
    pub fn motion(&self) -> Option<Vec2> {
        maybe_vector(self.0.memory.motion())
    }

    /// Points a second, of the last tenth of a second.
    pub fn velocity(&self) -> Vec2 {
        vector(self.0.memory.velocity())
    }

    /// The velocity's direction, or zero.
    pub fn direction(&self) -> Vec2 {
        vector(self.0.memory.direction())
    }

    /// Where the pointer is, unless it is gone.
    pub fn latest_pos(&self) -> Option<Pos2> {
        position(self.0.memory.latest_pos())
    }

    /// Where the pointer hovers, unless it is gone.
    pub fn hover_pos(&self) -> Option<Pos2> {
        position(self.0.memory.hover_pos())
    }

    /// Where the pointer was last, gone or not: that is where a touch was released.
    pub fn interact_pos(&self) -> Option<Pos2> {
        position(self.0.memory.interact_pos())
    }

    /// Whether there is a pointer.
    pub fn has_pointer(&self) -> bool {
        self.0.memory.has_pointer()
    }

    /// Whether the velocity is zero.
    pub fn is_still(&self) -> bool {
        self.0.memory.is_still()
    }

    /// Whether the velocity is not zero.
    pub fn is_moving(&self) -> bool {
        self.0.memory.is_moving()
    }

    /// Seconds since the pointer last moved; none as long as it never has.
    pub fn time_since_last_movement(&self) -> Option<f32> {
        number(self.0.memory.time_since_last_movement())
    }

    /// Where the button was pressed that is down.
    pub fn press_origin(&self) -> Option<Pos2> {
        position(self.0.memory.press_origin())
    }

    /// How far the pointer is from where it was pressed.
    pub fn total_drag_delta(&self) -> Option<Vec2> {
        maybe_vector(self.0.memory.total_drag_delta())
    }

    /// When the button was pressed that is down.
    pub fn press_start_time(&self) -> Option<f64> {
        seconds(self.0.memory.press_start_time())
    }

    /// Whether a button is down.
    pub fn any_down(&self) -> bool {
        self.0.memory.any_down()
    }

    /// Whether a button was pressed in the last pass.
    pub fn any_pressed(&self) -> bool {
        self.0.memory.any_pressed()
    }

    /// Whether a button was released in the last pass.
    pub fn any_released(&self) -> bool {
        self.0.memory.any_released()
    }

    /// Whether a button was clicked in the last pass. A host acts on no click of a clearing pass.
    pub fn any_click(&self) -> bool {
        self.0.memory.any_click()
    }

    /// Whether this button is down.
    pub fn button_down(&self, button: PointerButton) -> bool {
        self.0.memory.button_down(button as u32)
    }

    /// Whether this button was pressed in the last pass.
    pub fn button_pressed(&self, button: PointerButton) -> bool {
        self.0.memory.button_pressed(button as u32)
    }

    /// Whether this button was released in the last pass.
    pub fn button_released(&self, button: PointerButton) -> bool {
        self.0.memory.button_released(button as u32)
    }

    /// Whether this button was clicked in the last pass.
    pub fn button_clicked(&self, button: PointerButton) -> bool {
        self.0.memory.button_clicked(button as u32)
    }

    /// Whether this button was clicked twice.
    pub fn button_double_clicked(&self, button: PointerButton) -> bool {
        self.0.memory.button_double_clicked(button as u32)
    }

    /// Whether this button was clicked three times.
    pub fn button_triple_clicked(&self, button: PointerButton) -> bool {
        self.0.memory.button_triple_clicked(button as u32)
    }

    /// Whether the primary button is down.
    pub fn primary_down(&self) -> bool {
        self.button_down(PointerButton::Primary)
    }

    /// Whether the primary button was pressed in the last pass.
    pub fn primary_pressed(&self) -> bool {
        self.button_pressed(PointerButton::Primary)
    }

    /// Whether the primary button was released in the last pass.
    pub fn primary_released(&self) -> bool {
        self.button_released(PointerButton::Primary)
    }

    /// Whether the primary button was clicked in the last pass.
    pub fn primary_clicked(&self) -> bool {
        self.button_clicked(PointerButton::Primary)
    }

    /// Whether the secondary button is down.
    pub fn secondary_down(&self) -> bool {
        self.button_down(PointerButton::Secondary)
    }

    /// Whether the secondary button was pressed in the last pass.
    pub fn secondary_pressed(&self) -> bool {
        self.button_pressed(PointerButton::Secondary)
    }

    /// Whether the secondary button was released in the last pass.
    pub fn secondary_released(&self) -> bool {
        self.button_released(PointerButton::Secondary)
    }

    /// Whether the secondary button was clicked in the last pass.
    pub fn secondary_clicked(&self) -> bool {
        self.button_clicked(PointerButton::Secondary)
    }

    /// Whether the middle button is down.
    pub fn middle_down(&self) -> bool {
        self.button_down(PointerButton::Middle)
    }

    /// The last pass's pointer events, in order.
    pub fn events(&self) -> impl Iterator<Item = PointerEvent> + '_ {
        (0..self.0.memory.pointer_event_count()).map_while(|i| pointer_event(self.0.memory.pointer_event(i)))
    }

    /// Seconds since the last click.
    pub fn time_since_last_click(&self) -> f32 {
        self.0.memory.time_since_last_click()
    }

    /// Whether the press may still become a click.
    pub fn could_any_button_be_click(&self) -> bool {
        self.0.memory.could_any_button_be_click()
    }

    /// Whether the press is too long or has moved too far to be a click.
    pub fn is_decidedly_dragging(&self) -> bool {
        self.0.memory.is_decidedly_dragging()
    }

    /// Whether the press has lasted too long to be a click without moving too far.
    pub fn is_long_press(&self) -> bool {
        self.0.memory.is_long_press()
    }
}
