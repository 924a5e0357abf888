//! The Linux kernel's touch records, turned into words of the feed.
use crate::ffi::{self, Memory};
use crate::record::{high, low, Recorder};
use crate::Refusal;

/// The slots of a touch panel, as the kernel's records have left them. One for each device.
///
/// ```
/// use fivvarul::{Feed, KernelTouches, Panel, RawInput};
/// // struct input_event: two words of time, type, code, value; 24 bytes
/// let record = |kind: u16, code: u16, value: i32| {
///     let mut bytes = [0; 24];
///     bytes[16..18].copy_from_slice(&kind.to_le_bytes());
///     bytes[18..20].copy_from_slice(&code.to_le_bytes());
///     bytes[20..].copy_from_slice(&value.to_le_bytes());
///     bytes
/// };
/// // a finger at (100, 50), and the report's end
/// let bytes = [record(3, 0x39, 7), record(3, 0x35, 100), record(3, 0x36, 50), record(0, 0, 0)].concat();
/// let mut kernel = KernelTouches::new();
/// let mut feed = [0; Feed::WORDS];
/// let read = kernel.read_records(1, &bytes, &mut feed)?;
/// assert!(!read.dropped);
/// let mut panel = Panel::new();
/// panel.begin_pass_words(&RawInput::default(), &feed[..read.words])?;
/// assert!(panel.any_touches_of(1));
/// # Ok::<(), fivvarul::Refusal>(())
/// ```
#[derive(Clone, Debug, PartialEq)]
pub struct KernelTouches(pub(crate) ffi::KernelTouches);

/// What the records of a call gave.
#[derive(Clone, Copy, Debug, PartialEq, Eq)]
pub struct KernelRead {
    /// The words written to the feed.
    pub words: usize,
    /// The kernel has dropped records: the host sends a clearing pass.
    pub dropped: bool,
}

impl Default for KernelTouches {
    fn default() -> Self {
        KernelTouches::new()
    }
}

impl KernelTouches {
    /// No finger in any slot.
    pub fn new() -> KernelTouches {
        KernelTouches(Memory::kernel_fresh())
    }

    /// Turns the bytes of whole records into touch events of `device`, in the words of `feed`. Refused, the slots and the feed are as before.
    pub fn read_records(&mut self, device: u64, bytes: &[u8], feed: &mut [u32]) -> Result<KernelRead, Refusal> {
        let read = Memory::read_records(self.0, device, bytes, feed);
        Refusal::of(read.number, 0)?;
        self.0 = read.kernel;
        Ok(KernelRead { words: read.words, dropped: read.dropped })
    }
}

const KERNEL: u32 = 9;

impl<S: FnMut(&[u32])> Recorder<S> {
    /// [`KernelTouches::read_records`], with the recorder's own slots. A replay takes at most 98,304 bytes a call.
    pub fn read_records(&mut self, device: u64, bytes: &[u8], feed: &mut [u32]) -> Result<KernelRead, Refusal> {
        self.head(KERNEL, 4 + bytes.len().div_ceil(4));
        let places = u32::try_from(feed.len()).unwrap_or(u32::MAX);
        (self.sink)(&[low(device), high(device), places, bytes.len() as u32]);
        for four in bytes.chunks(4) {
            let mut word = [0; 4];
            word[..four.len()].copy_from_slice(four);
            (self.sink)(&[u32::from_le_bytes(word)]);
        }
        self.kernel.read_records(device, bytes, feed)
    }
}
