//! The widget set: insertions and the questions about it.
use crate::ffi::Memory;
use crate::record::{edges, high, low, Recorder};
use crate::{Inserted, LayerId, Panel, Refusal, WidgetRect};

/// egui's `WidgetRects`.
impl Panel {
    /// egui's `WidgetRects::insert`: puts a widget into its own layer.
    ///
    /// `layer` lends the widgets of that layer. Its first places, as many as the set counts there, are read as the layer's widgets whatever they
    /// hold; further places are free. It needs room for the layer's widgets after the insertion.
    ///
    /// ```
    /// use fivvarul::{pos2, LayerId, Panel, Rect, Sense, WidgetRect};
    /// let mut panel = Panel::new();
    /// let mut layer = [WidgetRect::default(); 8];
    /// let rect = Rect::from_min_max(pos2(0.0, 0.0), pos2(180.0, 40.0));
    /// let layer_id = LayerId { order: 1, id: 1 };
    /// let job = WidgetRect { id: 101, parent_id: 1, layer_id, rect, interact_rect: rect, sense: Sense::drag(), enabled: true, visible: true };
    /// let inserted = panel.insert(&mut layer, job, false)?;
    /// assert_eq!((inserted.position, inserted.count), (0, 1));
    /// assert_eq!(layer[0], job);
    /// // no room for a second one
    /// let second = WidgetRect { id: 102, ..job };
    /// assert_eq!(panel.insert(&mut layer[..1], second, false).unwrap_err().number(), 8);
    /// # Ok::<(), fivvarul::Refusal>(())
    /// ```
    pub fn insert(&mut self, layer: &mut [WidgetRect], widget: WidgetRect, move_to_top: bool) -> Result<Inserted, Refusal> {
        let done = self.memory.insert(self.set, layer, widget, move_to_top);
        Refusal::of(done.answer.number, 0)?;
        self.set = done.set;
        Ok(Inserted { position: done.answer.position, count: done.answer.count })
    }

    /// Whether the set knows this widget.
    pub fn contains(&self, id: u64) -> bool {
        self.memory.contains(self.set.widgets, self.set.layers, id)
    }

    /// The set's record of this widget.
    pub fn get(&self, id: u64) -> Option<WidgetRect> {
        let w = self.memory.get(self.set.widgets, self.set.layers, id);
        w.given.then_some(w.widget)
    }

    /// In which layer it is, and in which order in that layer.
    pub fn order(&self, id: u64) -> Option<(LayerId, usize)> {
        let o = self.memory.order(self.set.widgets, self.set.layers, id);
        o.given.then_some((o.layer, o.position))
    }

    /// How many widgets the set counts in a layer.
    pub fn layer_count(&self, layer: LayerId) -> usize {
        self.memory.layer_count(self.set.widgets, self.set.layers, layer)
    }

    /// The layers in the order of their first insertion.
    pub fn layer_ids(&self) -> impl Iterator<Item = LayerId> + '_ {
        (0..).map_while(|i| {
            let l = self.memory.layer_id(self.set.widgets, self.set.layers, i);
            l.given.then_some(l.layer)
        })
    }

    /// Empties the widget set, as at the start of a pass. Drags and clicks under way stay.
    pub fn clear_widgets(&mut self) {
        self.set = Memory::empty();
    }
}

/// A checksum of what the last insertion left in each layer's slice: a replay keeps the same.
#[derive(Clone, Default)]
pub(crate) struct Left {
    layers: [(LayerId, u64); Left::LAYERS],
    len: usize,
}

impl Left {
    /// The layers that a set can have.
    const LAYERS: usize = 32;

    fn contains(&self, layer: LayerId, sum: u64) -> bool {
        self.layers[..self.len].contains(&(layer, sum))
    }

    fn set(&mut self, layer: LayerId, sum: u64) {
        let at = self.layers[..self.len].iter().position(|(l, _)| *l == layer).unwrap_or(self.len);
        if let Some(place) = self.layers.get_mut(at) {
            *place = (layer, sum);
            self.len = self.len.max(at + 1);
        }
    }
}

/// FNV-1a of the records' words.
fn checksum(widgets: &[WidgetRect]) -> u64 {
    let words = widgets.iter().flat_map(|w| record_words(w, false));
    words.fold(0xcbf2_9ce4_8422_2325, |sum, word| (sum ^ u64::from(word)).wrapping_mul(0x0100_0000_01b3))
}

const INSERT: u32 = 2;
const CLEAR_WIDGETS: u32 = 3;
/// The words of a widget's record.
const RECORD: usize = 17;

impl<S: FnMut(&[u32])> Recorder<S> {
    /// [`Panel::insert`]. The trace has what is lent where it is not what the last insertion into that layer left.
    pub fn insert(&mut self, layer: &mut [WidgetRect], widget: WidgetRect, move_to_top: bool) -> Result<Inserted, Refusal> {
        let id = widget.layer_id;
        let count = self.panel.layer_count(id).min(layer.len());
        let written = if self.left.contains(id, checksum(&layer[..count])) { 0 } else { count };
        self.head(INSERT, 1 + RECORD + RECORD * written);
        (self.sink)(&record_words(&widget, move_to_top));
        (self.sink)(&[u32::try_from(layer.len()).unwrap_or(u32::MAX)]);
        for lent in &layer[..written] {
            (self.sink)(&record_words(lent, false));
        }
        let inserted = self.panel.insert(layer, widget, move_to_top)?;
        self.left.set(id, checksum(&layer[..inserted.count]));
        Ok(inserted)
    }

    /// [`Panel::clear_widgets`].
    pub fn clear_widgets(&mut self) {
        self.head(CLEAR_WIDGETS, 0);
        self.left = Left::default();
        self.panel.clear_widgets();
    }
}

fn record_words(w: &WidgetRect, move_to_top: bool) -> [u32; RECORD] {
    let LayerId { order, id: layer } = w.layer_id;
    let ([a, b, c, d], [e, f, g, h]) = (edges(w.rect), edges(w.interact_rect));
    let flags = u32::from(w.enabled) | u32::from(w.visible) << 1 | u32::from(move_to_top) << 2;
    [low(w.id), high(w.id), low(w.parent_id), high(w.parent_id), order, low(layer), high(layer), a, b, c, d, e, f, g, h, w.sense, flags]
}
