//! The panel: a pass, an interact, and the questions about the input.
use crate::answers::{gesture, id, rotation, seconds, vector};
use crate::ffi::{words_of, HostSet, Memory};
use crate::{
    vec2, Feed, Hits, IdSet, Interacted, InteractionSnapshot, Modifiers, MouseWheelSource, MultiTouchInfo, PointerState, RawInput, Rect, Refusal, Rotation,
    Vec2, Zoom, Zoom2d,
};

/// The state of one panel: plain memory, without a pointer in it. It may be moved, cloned, sent to another thread and kept in a `static`.
///
/// It is some 90,000 bytes: where the stack is small, keep it in a `Box` or a `static`.
///
/// ```
/// fn sendable<T: Clone + Send + Sync>() {}
/// sendable::<fivvarul::Panel>();
/// ```
#[derive(Clone)]
pub struct Panel {
    pub(crate) memory: Memory,
    /// How many widgets and layers the set knows.
    pub(crate) set: HostSet,
}

impl Default for Panel {
    fn default() -> Self {
        Panel::new()
    }
}

/// The operations. A refused one leaves all as before.
impl Panel {
    /// A fresh panel: egui's initial state, no widget, no drag, tally 0.
    pub fn new() -> Panel {
        let mut panel = Panel { memory: Memory::ZERO, set: Memory::empty() };
        panel.memory.fresh();
        panel
    }

    /// egui's `InputState::begin_pass`: takes the events of `input`, or refuses them all.
    ///
    /// ```
    /// use fivvarul::{pos2, Event, Panel, RawInput};
    /// let mut panel = Panel::new();
    /// panel.begin_pass(&RawInput { events: &[Event::PointerMoved(pos2(3.0, 4.0))], ..RawInput::default() })?;
    /// assert_eq!(panel.pointer().latest_pos(), Some(pos2(3.0, 4.0)));
    /// // a position that is not a number is refused, at the event's first word
    /// let moved = [Event::PointerGone, Event::PointerMoved(pos2(f32::NAN, 4.0))];
    /// let refusal = panel.begin_pass(&RawInput { events: &moved, ..RawInput::default() }).unwrap_err();
    /// assert_eq!((refusal.number(), refusal.index()), (2, 1));
    /// # Ok::<(), fivvarul::Refusal>(())
    /// ```
    pub fn begin_pass(&mut self, input: &RawInput) -> Result<(), Refusal> {
        self.begin_pass_words(input, Feed::of(input.events).words())
    }

    /// The same, of a feed in words in place of `input.events`.
    ///
    /// ```
    /// use fivvarul::{pos2, Panel, RawInput};
    /// let mut panel = Panel::new();
    /// // a primary press at (10, 20)
    /// panel.begin_pass_words(&RawInput::default(), &[0x5000_0100, 0x4120_0000, 0x41a0_0000])?;
    /// assert_eq!(panel.pointer().press_origin(), Some(pos2(10.0, 20.0)));
    /// // an event cut short
    /// assert_eq!(panel.begin_pass_words(&RawInput::default(), &[0x5000_0100]).unwrap_err().number(), 1);
    /// # Ok::<(), fivvarul::Refusal>(())
    /// ```
    pub fn begin_pass_words(&mut self, input: &RawInput, feed: &[u32]) -> Result<(), Refusal> {
        let answer = self.memory.pass(input.given(), feed);
        Refusal::of(answer.number, answer.index)
    }

    /// egui's `interact`: what is clicked, dragged and hovered, by the hits of this pass.
    ///
    /// ```
    /// use fivvarul::{Hit, Hits, Panel, Sense};
    /// let mut panel = Panel::new();
    /// let hit = Hit { id: 7, sense: Sense::click().into() };
    /// let snapshot = panel.interact(&Hits { close: &[hit], contains_pointer: &[hit], click: Some(hit), drag: None })?;
    /// assert_eq!(*snapshot.contains_pointer, [7]);
    /// assert_eq!(snapshot.clicked, None);
    /// # Ok::<(), fivvarul::Refusal>(())
    /// ```
    pub fn interact(&mut self, hits: &Hits) -> Result<InteractionSnapshot, Refusal> {
        let (mut hovered, mut contains_pointer) = (IdSet::EMPTY, IdSet::EMPTY);
        let s = self.interact_into(hits, &mut hovered.ids, &mut contains_pointer.ids)?;
        (hovered.len, contains_pointer.len) = (s.hovered, s.contains_pointer);
        Ok(InteractionSnapshot {
            clicked: s.clicked,
            long_touched: s.long_touched,
            drag_started: s.drag_started,
            dragged: s.dragged,
            drag_stopped: s.drag_stopped,
            hovered,
            contains_pointer,
        })
    }

    /// The same with the ids in buffers of the caller, each of [`IdSet::PLACES`] places or more. Places beyond the ids keep their contents.
    pub fn interact_into(&mut self, hits: &Hits, hovered: &mut [u64], contains_pointer: &mut [u64]) -> Result<Interacted, Refusal> {
        let (click, drag) = (hits.click.unwrap_or_default(), hits.drag.unwrap_or_default());
        let s = self.memory.interact(
            self.set.widgets,
            self.set.layers,
            words_of(hits.close),
            words_of(hits.contains_pointer),
            hits.click.is_some(),
            click.id,
            click.sense,
            hits.drag.is_some(),
            drag.id,
            drag.sense,
            hovered,
            contains_pointer,
        );
        Refusal::of(s.number, s.index)?;
        Ok(s.into())
    }
}

/// What the interacts have left.
impl Panel {
    /// The widget that is dragged.
    pub fn dragged(&self) -> Option<u64> {
        id(self.memory.dragged())
    }

    /// The widget that a release would click.
    pub fn potential_click_id(&self) -> Option<u64> {
        id(self.memory.potential_click_id())
    }

    /// The widget that a move would drag.
    pub fn potential_drag_id(&self) -> Option<u64> {
        id(self.memory.potential_drag_id())
    }

    /// How many drags have started since the panel was fresh.
    pub fn tally(&self) -> u32 {
        self.memory.tally()
    }
}

/// egui's questions of `InputState`, about the last pass taken.
impl Panel {
    /// The questions about the pointer.
    pub fn pointer(&self) -> PointerState<'_> {
        PointerState(self)
    }

    /// Seconds.
    pub fn time(&self) -> f64 {
        self.memory.time()
    }

    /// Seconds since the pass before.
    pub fn unstable_dt(&self) -> f32 {
        self.memory.unstable_dt()
    }

    /// Seconds that a pass is expected to take.
    pub fn predicted_dt(&self) -> f32 {
        self.memory.predicted_dt()
    }

    /// The seconds since the pass before where it asked for a repaint, else the expected ones.
    pub fn stable_dt(&self) -> f32 {
        self.memory.stable_dt()
    }

    /// Whether the window has the focus.
    pub fn focused(&self) -> bool {
        self.memory.focused()
    }

    /// The screen.
    pub fn viewport_rect(&self) -> Rect {
        self.memory.viewport_rect()
    }

    /// Pixels of a point.
    pub fn pixels_per_point(&self) -> f32 {
        self.memory.pixels_per_point()
    }

    /// Points of a pixel.
    pub fn physical_pixel_size(&self) -> f32 {
        self.memory.physical_pixel_size()
    }

    /// How exactly the pointer is expected to be aimed, in points.
    pub fn aim_radius(&self) -> f32 {
        self.memory.aim_radius()
    }

    /// How far to scroll in this pass.
    pub fn smooth_scroll_delta(&self) -> Vec2 {
        vector(self.memory.smooth_scroll_delta())
    }

    /// The zoom of this pass, in two parts.
    pub fn zoom_delta(&self) -> Zoom {
        let z = self.memory.zoom_delta();
        Zoom { factor: z.factor, exponent: z.exponent }
    }

    /// The same by axis.
    pub fn zoom_delta_2d(&self) -> Zoom2d {
        let z = self.memory.zoom_delta_2d();
        Zoom2d { factor: vec2(z.factor_x, z.factor_y), exponent: vec2(z.exponent_x, z.exponent_y) }
    }

    /// The rotation of this pass.
    pub fn rotation_delta(&self) -> Rotation {
        rotation(self.memory.rotation_delta())
    }

    /// How far a gesture, or else the wheel, moved in this pass.
    pub fn translation_delta(&self) -> Vec2 {
        vector(self.memory.translation_delta())
    }

    /// Whether the wheel is in use.
    pub fn is_scrolling(&self) -> bool {
        self.memory.is_scrolling()
    }

    /// What scrolls, where something does.
    pub fn scroll_source(&self) -> Option<MouseWheelSource> {
        let s = self.memory.scroll_source();
        s.given.then(|| MouseWheelSource::of(s.number))
    }

    /// Seconds since the last wheel event.
    pub fn time_since_last_scroll(&self) -> f32 {
        self.memory.time_since_last_scroll()
    }

    /// After how many seconds a repaint is due, where one is.
    pub fn wants_repaint_after(&self) -> Option<f64> {
        seconds(self.memory.wants_repaint_after())
    }

    /// The modifier keys that are down.
    pub fn modifiers(&self) -> Modifiers {
        Modifiers::from_bits(self.memory.modifiers())
    }

    /// Whether a key is down; `key` is its place in egui's `Key`.
    pub fn key_down(&self, key: u32) -> bool {
        self.memory.key_down(key)
    }

    /// Whether it was pressed in this pass.
    pub fn key_pressed(&self, key: u32) -> bool {
        self.memory.key_pressed(key)
    }

    /// How often it was pressed in this pass.
    pub fn num_presses(&self, key: u32) -> u8 {
        self.memory.num_presses(key)
    }

    /// Whether the last pass had no event.
    pub fn feed_was_empty(&self) -> bool {
        self.memory.feed_was_empty()
    }

    /// Whether a finger is down.
    pub fn any_touches(&self) -> bool {
        self.memory.any_touches()
    }

    /// Whether a touch device is known.
    pub fn has_touch_screen(&self) -> bool {
        self.memory.has_touch_screen()
    }

    /// The gesture of the first device by id that has one.
    pub fn multi_touch(&self) -> Option<MultiTouchInfo> {
        gesture(self.memory.multi_touch())
    }

    /// `TouchState::info` of one device.
    pub fn info(&self, device_id: u64) -> Option<MultiTouchInfo> {
        gesture(self.memory.info(device_id))
    }

    /// Whether a finger of this device is down.
    pub fn any_touches_of(&self, device_id: u64) -> bool {
        self.memory.any_touches_of(device_id)
    }

    /// Whether a finger is held still long enough to be a long touch.
    pub fn is_long_touch(&self) -> bool {
        self.memory.is_long_touch()
    }
}
