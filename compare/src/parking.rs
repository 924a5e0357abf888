//! A.6: a second writer and a second reader of images, written from docs/IMAGE.md alone, over egui's state as DUMP reads it.
use crate::domain::{self, Refusal, refuse, refuse_at};
use crate::input_state::PointerEvent;
use crate::input_state::access::{DynView, Status};
use crate::panel::{Panel, id_of, source_number};
use crate::{Key, Pos2, Rect, Vec2};

/// 13 in the top bits, form 1 below.
pub const FIRST_WORD: u32 = 13 << 28 | 1;
/// The longest image: 1,000 samples, 64 events, 4 devices.
pub const LONGEST: usize = 4_974;
const MAX_SAMPLES: usize = 1_000;
const MAX_EVENTS: usize = 64;
const MAX_TOUCHES: u32 = 10;
const TOUCH_WORDS: usize = 6;
const BUTTONS: u32 = 5;
const ONE_NAN: u32 = 0x7FC0_0000;
const ONE_NAN_F64: u64 = 0x7FF8_0000_0000_0000;

/// Whether images have form 1: A.8 makes them form 2, which is not here.
pub fn is_form_1(level: u32) -> bool {
    (6..8).contains(&level)
}

// ---------------------------------------------------------------- writing

#[derive(Default)]
struct Image(Vec<u32>);

impl Image {
    fn u(&mut self, w: u32) {
        self.0.push(w);
    }
    fn f(&mut self, v: f32) {
        self.u(if v.is_nan() { ONE_NAN } else { v.to_bits() });
    }
    /// The high word first.
    fn id(&mut self, v: u64) {
        self.u((v >> 32) as u32);
        self.u(v as u32);
    }
    fn d(&mut self, v: f64) {
        self.id(if v.is_nan() { ONE_NAN_F64 } else { v.to_bits() });
    }
    fn pos(&mut self, p: Pos2) {
        self.f(p.x);
        self.f(p.y);
    }
    fn vec(&mut self, v: Vec2) {
        self.f(v.x);
        self.f(v.y);
    }
    fn zeros(&mut self, n: usize) {
        self.0.resize(self.0.len() + n, 0);
    }
    fn maybe<T>(&mut self, v: Option<T>, words: usize, put: impl FnOnce(&mut Self, T)) {
        let Some(v) = v else { return self.zeros(1 + words) };
        self.u(1);
        put(self, v);
    }
    fn group(&mut self, name: u32, put: impl FnOnce(&mut Self)) {
        let at = self.0.len();
        self.u(0);
        put(self);
        self.0[at] = name << 28 | (self.0.len() - at - 1) as u32;
    }
}

/// The words of a panel's image.
pub fn image(p: &Panel) -> Vec<u32> {
    let mut o = Image(vec![FIRST_WORD]);
    o.group(1, |o| clock(o, p));
    o.group(2, |o| screen(o, p));
    o.group(3, |o| place(o, p));
    o.group(4, |o| press(o, p));
    o.group(5, |o| wheel(o, p));
    o.group(6, |o| keys(o, p));
    o.group(7, |o| sums(o, p));
    o.group(8, |o| {
        for id in [p.interaction.potential_click_id, p.interaction.potential_drag_id, p.snapshot.dragged] {
            o.maybe(id, 2, |o, id| o.id(id_of(Some(id))));
        }
    });
    o.group(9, |o| o.u(p.tally));
    o.group(10, |o| {
        for (time, at) in p.input.pointer.x_view().pos_history.iter() {
            o.d(time);
            o.pos(at);
        }
    });
    o.group(11, |o| p.input.pointer.pointer_events.iter().for_each(|e| event(o, e)));
    o.group(12, |o| p.input.x_touch_states().keys().for_each(|d| device(o, p, d.0)));
    o.0
}

fn clock(o: &mut Image, p: &Panel) {
    let i = &p.input;
    o.d(i.time);
    o.d(i.pointer.x_view().time);
    o.f(i.unstable_dt);
    o.f(i.stable_dt);
    o.f(i.predicted_dt);
}

fn screen(o: &mut Image, p: &Panel) {
    let (i, q) = (&p.input, p.input.x_options());
    let Rect { min, max } = i.viewport_rect();
    o.pos(min);
    o.pos(max);
    o.f(i.pixels_per_point());
    o.u(i.focused.into());
    o.f(q.line_scroll_speed);
    o.f(q.scroll_zoom_speed);
    o.f(q.max_click_dist);
    o.d(q.max_click_duration);
    o.d(q.max_double_click_delay);
    for m in [&q.zoom_modifier, &q.horizontal_scroll_modifier, &q.vertical_scroll_modifier] {
        o.u(domain::flag_bits(m));
    }
}

fn place(o: &mut Image, p: &Panel) {
    let q = &p.input.pointer;
    o.maybe(q.latest_pos(), 2, Image::pos);
    o.maybe(q.interact_pos(), 2, Image::pos);
    o.vec(q.delta());
    o.maybe(q.motion(), 2, Image::vec);
    o.vec(q.velocity());
    o.vec(q.direction());
}

fn press(o: &mut Image, p: &Panel) {
    let (q, v) = (&p.input.pointer, p.input.pointer.x_view());
    o.u(v.down.iter().enumerate().map(|(k, b)| u32::from(*b) << k).sum());
    o.maybe(q.press_origin(), 2, Image::pos);
    o.maybe(q.press_start_time(), 2, Image::d);
    o.u(q.has_moved_too_much_for_a_click.into());
    o.maybe(v.last_click_pos, 2, Image::pos);
    o.d(v.last_click_time);
    o.d(v.last_last_click_time);
    o.u(q.started_decidedly_dragging.into());
    // A.4: none before any movement
    let moved = v.last_move_time != f64::NEG_INFINITY;
    o.maybe(moved.then_some(v.last_move_time), 2, Image::d);
}

fn wheel(o: &mut Image, p: &Panel) {
    let w = p.input.x_wheel();
    o.u(match w.status {
        Status::Static => 0,
        Status::Smoothing => 1,
        Status::InTouch => 2,
    });
    o.u(source_number(w.source));
    o.u(domain::flag_bits(&w.modifiers));
    o.d(w.last_wheel_event);
    o.vec(w.unprocessed_wheel_delta);
    o.vec(w.smooth_wheel_delta);
}

fn keys(o: &mut Image, p: &Panel) {
    let i = &p.input;
    let all = || (0..Key::COUNT).map(|k| Key(k as u8));
    let mut down = [0u32; Key::COUNT.div_ceil(32)];
    all().enumerate().filter(|(_, key)| i.key_down(*key)).for_each(|(k, _)| down[k / 32] |= 1 << (k % 32));
    down.iter().for_each(|w| o.u(*w));
    o.u(domain::flag_bits(&i.modifiers));
    o.u(i.events.is_empty().into());
    all().for_each(|key| o.u(if i.events.is_empty() { 0 } else { i.num_presses(key) as u32 }));
}

fn sums(o: &mut Image, p: &Panel) {
    let (factor, exponent) = p.own_zoom();
    o.f(factor);
    o.f(exponent);
    o.f(p.input.x_rotation_radians());
    o.vec(p.input.smooth_scroll_delta());
}

fn event(o: &mut Image, e: &PointerEvent) {
    match e {
        PointerEvent::Moved(at) => {
            o.zeros(4);
            o.pos(*at);
        }
        PointerEvent::Pressed { position, button } => {
            o.u(1);
            o.u(*button as u32);
            o.zeros(2);
            o.pos(*position);
        }
        PointerEvent::Released { click: None, button } => {
            o.u(2);
            o.u(*button as u32);
            o.zeros(4);
        }
        PointerEvent::Released { click: Some(c), button } => {
            o.u(3);
            o.u(*button as u32);
            o.u(c.count);
            o.u(domain::flag_bits(&c.modifiers));
            o.pos(c.pos);
        }
    }
}

fn averages(o: &mut Image, d: &DynView, heading: Vec2) {
    o.f(d.avg_distance);
    o.vec(d.avg_abs_distance2);
    o.pos(d.avg_pos);
    o.f(d.avg_force);
    o.vec(heading);
}

fn device(o: &mut Image, p: &Panel, device: u64) {
    let t = &p.input.x_touch_states()[&crate::TouchDeviceId(device)];
    let held = t.x_touches().count();
    o.id(device);
    o.u(held as u32);
    for (id, at, force) in t.x_touches() {
        o.id(id);
        o.pos(at);
        o.maybe(force, 1, Image::f);
    }
    o.zeros((MAX_TOUCHES as usize - held) * TOUCH_WORDS);
    o.maybe(t.x_gesture(), 22, |o, g| {
        let (previous, current) = p.device_headings(device);
        o.d(g.start_time);
        o.pos(g.start_pos);
        o.u(g.pinch);
        o.maybe(g.previous, 8, |o, d| averages(o, &d, previous));
        averages(o, &g.current, current);
    });
}

// ---------------------------------------------------------------- reading

/// What a word of an image is, for who wants to damage it.
#[derive(Clone, Copy, Debug, PartialEq, Eq)]
pub enum Field {
    Leading,
    Word,
    Flag,
    Single,
    Double,
    Id,
    Zero,
}

/// The first wrong word: where it is (or would be), in which group, and what is wrong with it.
#[derive(Clone, Copy, Debug, PartialEq, Eq)]
pub struct Wrong {
    pub at: usize,
    pub group: usize,
    pub why: &'static str,
}
pub const RANGE: &str = "outside its range";
pub const OTHER_NAN: &str = "a not-a-number in another form";
pub const LEADING: &str = "another name or length";
pub const MISSING: &str = "missing";
pub const LEFT_OVER: &str = "left over";
pub const NOT_ABSENT: &str = "a value where its flag says none";
pub const NOT_UNUSED: &str = "a place that is not used";
pub const TWICE: &str = "an id twice";
pub const ORDER: &str = "an id out of order";
/// In the order of words, what can be wrong.
pub const WRONGS: [&str; 9] = [RANGE, OTHER_NAN, LEADING, MISSING, LEFT_OVER, NOT_ABSENT, NOT_UNUSED, TWICE, ORDER];

type Checked<T = ()> = Result<T, Wrong>;

struct Reader<'a> {
    words: &'a [u32],
    at: usize,
    group: usize,
    fields: Vec<(usize, Field)>,
}

impl Reader<'_> {
    fn wrong<T>(&self, at: usize, why: &'static str) -> Checked<T> {
        Err(Wrong { at, group: self.group, why })
    }
    fn next(&mut self) -> Checked<u32> {
        let Some(w) = self.words.get(self.at) else { return self.wrong(self.at, MISSING) };
        self.at += 1;
        Ok(*w)
    }
    fn field(&mut self, kind: Field) -> usize {
        self.fields.push((self.at, kind));
        self.at
    }
    fn word(&mut self, below: u64) -> Checked<u32> {
        let at = self.field(Field::Word);
        let w = self.next()?;
        if u64::from(w) < below { Ok(w) } else { self.wrong(at, RANGE) }
    }
    fn any_word(&mut self) -> Checked<u32> {
        self.word(1 << 32)
    }
    fn flag(&mut self) -> Checked<bool> {
        let at = self.field(Field::Flag);
        match self.next()? {
            0 => Ok(false),
            1 => Ok(true),
            _ => self.wrong(at, RANGE),
        }
    }
    fn flags(&mut self) -> Checked {
        self.word(32).map(drop)
    }
    fn single(&mut self, is_in: impl Fn(f32) -> bool) -> Checked {
        let at = self.field(Field::Single);
        let w = self.next()?;
        match f32::from_bits(w) {
            v if v.is_nan() && w != ONE_NAN => self.wrong(at, OTHER_NAN),
            v if is_in(v) => Ok(()),
            _ => self.wrong(at, RANGE),
        }
    }
    fn singles(&mut self, n: usize) -> Checked {
        (0..n).try_for_each(|_| self.single(|_| true))
    }
    fn two(&mut self) -> Checked<u64> {
        Ok(u64::from(self.next()?) << 32 | u64::from(self.next()?))
    }
    fn double(&mut self, is_in: impl Fn(f64) -> bool) -> Checked {
        let at = self.field(Field::Double);
        let w = self.two()?;
        match f64::from_bits(w) {
            v if v.is_nan() && w != ONE_NAN_F64 => self.wrong(at, OTHER_NAN),
            v if is_in(v) => Ok(()),
            _ => self.wrong(at, RANGE),
        }
    }
    fn any_double(&mut self) -> Checked {
        self.double(|_| true)
    }
    fn id(&mut self) -> Checked {
        self.field(Field::Id);
        self.two().map(drop)
    }
    /// An id above the one before it in its list.
    fn next_id(&mut self, before: &mut Option<u64>) -> Checked {
        let at = self.field(Field::Id);
        let id = self.two()?;
        match *before {
            Some(b) if id == b => return self.wrong(at, TWICE),
            Some(b) if id < b => return self.wrong(at, ORDER),
            _ => {}
        }
        *before = Some(id);
        Ok(())
    }
    fn zeros(&mut self, n: usize, why: &'static str) -> Checked {
        for _ in 0..n {
            let at = self.field(Field::Zero);
            if self.next()? != 0 {
                return self.wrong(at, why);
            }
        }
        Ok(())
    }
    fn maybe(&mut self, words: usize, read: impl FnOnce(&mut Self) -> Checked) -> Checked {
        if self.flag()? { read(self) } else { self.zeros(words, NOT_ABSENT) }
    }
    fn maybe_pair(&mut self) -> Checked {
        self.maybe(2, |r| r.singles(2))
    }
    /// A leading word; how many entries of that size its length says.
    fn leading(&mut self, name: usize, size: usize, most: usize) -> Checked<usize> {
        self.group = name;
        let at = self.field(Field::Leading);
        let w = self.next()?;
        let length = (w & 0x0FFF_FFFF) as usize;
        let is = (w >> 28) as usize == name && length % size == 0 && length / size <= most;
        if is { Ok(length / size) } else { self.wrong(at, LEADING) }
    }
    /// A group of one length.
    fn group(&mut self, name: usize, length: usize) -> Checked {
        match self.leading(name, length, 1)? {
            1 => Ok(()),
            _ => self.wrong(self.at - 1, LEADING),
        }
    }

    fn screen(&mut self) -> Checked {
        (0..4).try_for_each(|_| self.single(domain::coord))?;
        self.single(|v| domain::zero_to(v, 1_024.0))?;
        self.flag()?;
        self.single(|v| domain::zero_to(v, 65_536.0))?;
        self.single(|v| domain::zero_to(v, 1.0))?;
        self.single(|v| domain::zero_to(v, 65_536.0))?;
        (0..2).try_for_each(|_| self.double(|v| domain::zero_to_f64(v, 3_600.0)))?;
        (0..3).try_for_each(|_| self.flags())
    }
    fn place(&mut self) -> Checked {
        self.maybe_pair()?;
        self.maybe_pair()?;
        self.singles(2)?;
        self.maybe_pair()?;
        self.singles(4)
    }
    fn press(&mut self) -> Checked {
        self.word(32)?;
        self.maybe_pair()?;
        self.maybe(2, Self::any_double)?;
        self.flag()?;
        self.maybe_pair()?;
        self.any_double()?;
        self.any_double()?;
        self.flag()?;
        self.maybe(2, Self::any_double)
    }
    fn wheel(&mut self) -> Checked {
        self.word(3)?;
        self.word(4)?;
        self.flags()?;
        self.any_double()?;
        self.singles(4)
    }
    fn keys(&mut self) -> Checked {
        (0..4).try_for_each(|_| self.any_word().map(drop))?;
        self.word(131_072)?;
        self.flags()?;
        self.flag()?;
        (0..Key::COUNT).try_for_each(|_| self.word(256).map(drop))
    }
    fn event(&mut self) -> Checked {
        match self.word(4)? {
            0 => {
                self.zeros(3, NOT_UNUSED)?;
                self.singles(2)
            }
            1 => {
                self.word(BUTTONS.into())?;
                self.zeros(2, NOT_UNUSED)?;
                self.singles(2)
            }
            2 => {
                self.word(BUTTONS.into())?;
                self.zeros(4, NOT_UNUSED)
            }
            _ => {
                self.word(BUTTONS.into())?;
                self.any_word()?;
                self.flags()?;
                self.singles(2)
            }
        }
    }
    fn device(&mut self, before: &mut Option<u64>) -> Checked {
        self.next_id(before)?;
        let held = self.word((MAX_TOUCHES + 1).into())?;
        let mut touch = None;
        for _ in 0..held {
            self.next_id(&mut touch)?;
            self.singles(2)?;
            self.maybe(1, |r| r.singles(1))?;
        }
        self.zeros((MAX_TOUCHES - held) as usize * TOUCH_WORDS, NOT_UNUSED)?;
        self.maybe(22, |r| {
            r.any_double()?;
            r.singles(2)?;
            r.word(3)?;
            r.maybe(8, |r| r.singles(8))?;
            r.singles(8)
        })
    }

    fn groups(&mut self) -> Checked {
        self.group(1, 7)?;
        self.double(|v| domain::zero_to_f64(v, domain::MAX_TIME))?;
        self.any_double()?;
        self.singles(2)?;
        self.single(|v| domain::zero_to(v, 1.0))?;
        self.group(2, 16)?;
        self.screen()?;
        self.group(3, 15)?;
        self.place()?;
        self.group(4, 19)?;
        self.press()?;
        self.group(5, 9)?;
        self.wheel()?;
        self.group(6, 152)?;
        self.keys()?;
        self.group(7, 5)?;
        self.singles(5)?;
        self.group(8, 9)?;
        (0..3).try_for_each(|_| self.maybe(2, Self::id))?;
        self.group(9, 1)?;
        self.any_word()?;
        for _ in 0..self.leading(10, 4, MAX_SAMPLES)? {
            self.any_double()?;
            self.singles(2)?;
        }
        for _ in 0..self.leading(11, 6, MAX_EVENTS)? {
            self.event()?;
        }
        let mut before = None;
        for _ in 0..self.leading(12, 86, domain::MAX_DEVICES)? {
            self.device(&mut before)?;
        }
        if self.at < self.words.len() { self.wrong(self.at, LEFT_OVER) } else { Ok(()) }
    }
}

/// The fields up to the first wrong word or the end, and that word.
fn read(words: &[u32]) -> (Vec<(usize, Field)>, Option<Wrong>) {
    let mut r = Reader { words, at: 1, group: 0, fields: Vec::new() };
    let wrong = r.groups().err();
    (r.fields, wrong)
}

/// Where each field of an image begins.
pub fn fields(words: &[u32]) -> Vec<(usize, Field)> {
    read(words).0
}

/// The first wrong word of an image whose first word is right.
pub fn wrong(words: &[u32]) -> Option<Wrong> {
    read(words).1
}

/// 14, then 15.
pub fn check(words: &[u32]) -> Result<(), Refusal> {
    if words.first() != Some(&FIRST_WORD) {
        return refuse(14);
    }
    match wrong(words) {
        None => Ok(()),
        Some(w) => refuse_at(15, w.at),
    }
}
