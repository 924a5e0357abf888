//! Why a call was refused.
use core::fmt;

/// Why a call was refused. All is as before: the panel, the lent slice, the id buffers.
#[derive(Clone, Copy, Debug, PartialEq, Eq)]
pub struct Refusal {
    number: u32,
    index: usize,
}

impl Refusal {
    /// The refusal's number: 1 to 10 of a panel's calls, 11 to 13 of the kernel's records and of a zoom exponent.
    pub const fn number(self) -> u32 {
        self.number
    }

    /// The index of the word in the feed at which the refused event starts, or of the entry in its hit list; 0 where neither is meant.
    pub const fn index(self) -> usize {
        self.index
    }

    /// When this number is answered.
    pub const fn meaning(self) -> &'static str {
        match self.number {
            1 => "an unknown kind, field or stray bit, or an event cut short",
            2 => "a number outside the domain",
            3 => "a time below the panel's",
            4 => "more than 64 events, or more than 64 entries of a hit list",
            5 => "a fifth device, or the start of an eleventh touch",
            6 => "a new widget at 1,024, or a new layer at 32",
            7 => "a known widget on another layer",
            8 => "an id buffer under 66 places, a lent slice too short for the layer, or a feed buffer too short",
            9 => "an id of 0",
            10 => "a drag start with the tally at its end",
            11 => "bytes that are not whole records of the kernel",
            12 => "a slot outside 0 to 9",
            13 => "an exponent beyond 1 in size",
            _ => "a number of no listed meaning",
        }
    }

    /// Number 0 is a call that was taken.
    pub(crate) const fn of(number: u32, index: usize) -> Result<(), Refusal> {
        if number == 0 {
            return Ok(());
        }
        Err(Refusal { number, index })
    }
}

impl fmt::Display for Refusal {
    fn fmt(&self, f: &mut fmt::Formatter<'_>) -> fmt::Result {
        write!(f, "refused, {}: {}", self.number, self.meaning())?;
        if matches!(self.number, 1 | 2 | 4 | 5) {
            write!(f, ", at {}", self.index)?;
        }
        Ok(())
    }
}

impl core::error::Error for Refusal {}
