//! A meter of the data pins.

use crate::{raw, Refusal, METER_BYTES};

/// How many of the 1,024 cycles that end with the newest dualoct carried data.
///
/// It is fed data instants in rising order: those of D records, and the instants of RD packets and
/// tCAC. Each dualoct fills the four cycles from its instant on. It is plain bytes: a copy of it is
/// the same meter at the same point.
///
/// ```
/// use rdram::{Meter, Refusal};
/// let mut meter = Meter::fresh();
/// assert_eq!(meter.count(), Ok(0));
/// meter.feed(4)?;
/// meter.feed(8)?;
/// assert_eq!(meter.feed(11), Err(Refusal::Overlap));
/// assert_eq!((meter.count(), meter.share()), (Ok(8), Ok(8.0 / 1024.0)));
/// // one cycle of the first dualoct is left in the window: 7 to 1,030
/// meter.feed(1027)?;
/// assert_eq!(meter.count(), Ok(9));
/// # Ok::<(), Refusal>(())
/// ```
#[derive(Clone, Debug, PartialEq, Eq)]
pub struct Meter {
    held: raw::Meter,
}

impl Meter {
    /// No instant was fed: the count is 0.
    pub fn fresh() -> Meter {
        // SAFETY: the call takes no pointer.
        let held = unsafe { raw::rdram_meter_fresh() };
        Meter { held }
    }

    /// Feeds a data instant, not that of a packet:
    /// [`Record::data_instant`](crate::Record::data_instant) gives it. A refused one changes nothing.
    ///
    /// # Errors
    ///
    /// In this order: [`Refusal::Settings`] for bytes that no feeds give, [`Refusal::Horizon`] for
    /// an instant outside 4 to 1,000,000,000, [`Refusal::Overlap`] for one that is less than 4 after
    /// the newest.
    pub fn feed(&mut self, at: u32) -> Result<(), Refusal> {
        // SAFETY: the pointer is that of a meter which nothing else holds.
        match unsafe { raw::rdram_meter_feed(&mut self.held, at) } {
            0 => Ok(()),
            number => Err(Refusal::of_meter(number)),
        }
    }

    /// How many of the 1,024 cycles that end with the newest dualoct's fourth cycle carried data.
    /// Cycles before the first feed count as idle.
    ///
    /// # Errors
    ///
    /// [`Refusal::Settings`] for bytes that no feeds give.
    pub fn count(&self) -> Result<u32, Refusal> {
        // SAFETY: the call takes no pointer.
        let counted = unsafe { raw::rdram_meter_count(self.held) };
        match counted.number {
            0 => Ok(counted.count),
            number => Err(Refusal::of_meter(number)),
        }
    }

    /// That count over 1,024, exactly.
    ///
    /// # Errors
    ///
    /// [`Refusal::Settings`] for bytes that no feeds give.
    pub fn share(&self) -> Result<f32, Refusal> {
        // SAFETY: the call takes no pointer.
        let shared = unsafe { raw::rdram_meter_share(self.held) };
        match shared.number {
            0 => Ok(shared.share),
            number => Err(Refusal::of_meter(number)),
        }
    }

    /// The meter of bytes that [`Meter::to_bytes`] gave; `rdram_meter.h` has their layout. Any bytes
    /// are taken: each call tests them and answers [`Refusal::Settings`] for those that no feeds
    /// give.
    ///
    /// ```
    /// use rdram::{Meter, Refusal};
    /// let mut meter = Meter::fresh();
    /// meter.feed(1_000_000_000)?;
    /// assert_eq!(Meter::from_bytes(meter.to_bytes()), meter);
    /// assert_eq!(Meter::from_bytes([1; 136]).count(), Err(Refusal::Settings));
    /// # Ok::<(), Refusal>(())
    /// ```
    pub fn from_bytes(bytes: [u8; METER_BYTES]) -> Meter {
        let word = |at: usize| {
            let mut eight = [0; 8];
            eight.copy_from_slice(&bytes[8 * at..8 * at + 8]);
            u64::from_le_bytes(eight)
        };
        let mut marks = [0; 16];
        for (at, mark) in marks.iter_mut().enumerate() {
            *mark = word(at);
        }
        let newest = word(16);
        Meter {
            held: raw::Meter { marks, newest },
        }
    }

    /// The bytes of the meter, to keep them: sixteen words of marks and the newest instant, each low
    /// byte first.
    pub fn to_bytes(&self) -> [u8; METER_BYTES] {
        let mut bytes = [0; METER_BYTES];
        let words = self.held.marks.iter().chain([&self.held.newest]);
        for (eight, word) in bytes.chunks_mut(8).zip(words) {
            eight.copy_from_slice(&word.to_le_bytes());
        }
        bytes
    }
}
