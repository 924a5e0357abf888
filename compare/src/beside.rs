//! A program's answers beside egui's, record by record: which is wrong, by the name of its field.
use crate::naming;
use crate::parking;
use crate::words::{self, Stream, call_name};

#[derive(Default)]
pub struct Beside {
    stream: Stream,
    /// After an image of foreign words was taken the panel is not known, until RESET or RESTORE_LAST.
    unknown: bool,
    parked_unknown: bool,
    /// Calls have gone on from an image that no parking wrote: its words are no longer the panel's, until it is one that egui knows.
    strayed: bool,
    /// records that are not compared for that reason
    pub skipped: usize,
    /// the last request but for questions
    last: Vec<u32>,
}

impl Beside {
    pub fn new(level: u32) -> Self {
        Self { stream: Stream::new(level), ..Default::default() }
    }

    /// One request, and the program's answer to it. What is wrong with it, if anything is.
    pub fn record(&mut self, call: u32, w: &[u32], got: &[u32]) -> Option<String> {
        let level = self.stream.panel.level;
        let mut want = Vec::new();
        words::answer(&mut self.stream, call, w, &mut want);
        if call != words::ASK && call != words::DUMP {
            self.last = words::record(call, w);
        }
        self.strayed = self.stream.foreign.is_some() && (self.strayed || matches!(call, words::PASS | words::INTERACT | words::EXTRA | words::SET_TALLY));
        self.known(call, want[0] >> 24 == 0);
        let foreign = self.stream.foreign.is_some() && !matches!(call, words::PARK | words::RESTORE | words::RESTORE_LAST);
        let of_panel = !matches!(call, words::KERNEL | words::EXP | words::BOX);
        let wrong = if (self.unknown || self.strayed || foreign) && of_panel {
            self.skipped += 1;
            None
        } else if words::judge(level, call, w, &want, got) {
            None
        } else {
            Some(format!("({}): {}", call_name(call), naming::first_difference(&self.stream.panel, call, &want, got)))
        };
        self.unknown |= call == words::RESTORE && words::exists(call, level) && !parking::is_form_1(level) && got == [0];
        wrong
    }

    /// egui has the panel that the program has.
    pub fn is_known(&self) -> bool {
        !self.unknown && self.stream.foreign.is_none()
    }

    fn known(&mut self, call: u32, taken: bool) {
        match call {
            words::RESET if taken => self.unknown = false,
            words::PARK if taken => self.parked_unknown = self.unknown || self.strayed,
            words::RESTORE_LAST if taken => self.unknown = self.parked_unknown,
            _ => {}
        }
    }

    /// The last request but for questions, in words.
    pub fn last(&self) -> String {
        self.last.split_first().map_or(String::new(), |(head, w)| naming::decoded(head >> 24, w))
    }
}
