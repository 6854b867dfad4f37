//! The device model: banks, write buffer and store.

use crate::version::debug_check;
use crate::{raw, Refusal, Settings, MODEL_BYTES};

/// What a record that a model took did.
#[derive(Clone, Copy, Debug, PartialEq, Eq)]
pub enum Event {
    /// An RD or RDA: the 16 bytes of its dualoct are at the start of the answer.
    Read,
    /// A NOCOP, WR or WRA that retired the older waiting write and wrote so many bytes: the ones of the
    /// mask that it carries, 16 where it carries none. May be 0.
    Retired(u32),
    /// Neither of the two.
    Neither,
}

/// A device between two records: banks, write buffer, last instants and REFR. Its store is lent to
/// each step.
///
/// It is plain bytes: a copy of it, with one of the store, is the same device at the same point.
///
/// A store has rows × columns × 512 bytes: bank, then row, then column, then byte. A dualoct is the
/// 16 bytes from 16 × ((bank × rows + row) × columns + column).
///
/// ```
/// # let settings = rdram::Settings::SET_H;
/// use rdram::{Event, Model, Planner, Request, RECORD_BYTES, REQUEST_RECORDS};
/// let requests = [
///     Request::Write { bank: 3, row: 1, column: 2, mask: 0x8001, data: [9; 16] },
///     Request::Read { bank: 3, row: 1, column: 2 },
///     Request::Flush,
/// ];
/// let (mut planner, mut model) = (Planner::fresh(), Model::fresh());
/// let mut store = vec![0; settings.store_bytes()];
/// let (mut read, mut written) = ([0; 16], 0);
/// for request in &requests {
///     let mut room = [0; REQUEST_RECORDS * RECORD_BYTES];
///     let made = planner.plan(&settings, request, &mut room)?;
///     for record in made.list(&room).chunks(RECORD_BYTES) {
///         if let Event::Retired(bytes) = model.step(&settings, &mut store, record, &mut read)? {
///             written += bytes;
///         }
///     }
/// }
/// assert_eq!(read, [9, 0, 0, 0, 0, 0, 0, 0, 0, 0, 0, 0, 0, 0, 0, 9]);
/// assert_eq!(written, 2); // the ones of the mask
/// let at = 16 * ((3 * 2 + 1) * 4 + 2);
/// assert_eq!(store[at..at + 16], read);
/// # Ok::<(), rdram::Refusal>(())
/// ```
#[derive(Clone, Debug, PartialEq, Eq)]
pub struct Model {
    bytes: [u8; MODEL_BYTES],
}

impl Model {
    /// Banks closed, write buffer empty, no earlier record, REFR 0.
    ///
    /// ```
    /// assert_eq!(rdram::Model::fresh().refr(), 0);
    /// ```
    pub fn fresh() -> Model {
        let mut bytes = [0; MODEL_BYTES];
        // SAFETY: the pointer and the length are those of `bytes`.
        let number = unsafe { raw::rdram_model_fresh(bytes.as_mut_ptr(), bytes.len()) };
        debug_check(number);
        Model { bytes }
    }

    /// The model of bytes that [`Model::to_bytes`] gave; `rdram_model.h` has their layout. Any bytes are
    /// taken: [`Model::step`] tests them and answers [`Refusal::Settings`] for bad ones.
    pub fn from_bytes(bytes: [u8; MODEL_BYTES]) -> Model {
        Model { bytes }
    }

    /// The state of the model, to go on from later.
    ///
    /// ```
    /// use rdram::Model;
    /// let model = Model::fresh();
    /// assert_eq!(Model::from_bytes(model.to_bytes()), model);
    /// ```
    pub fn to_bytes(&self) -> [u8; MODEL_BYTES] {
        self.bytes
    }

    /// REFR: the row that a refresh is due for. It rises, modulo rows, after REFA to bank 31.
    pub fn refr(&self) -> u16 {
        u16::from_le_bytes([self.bytes[752], self.bytes[753]])
    }

    /// Takes `record`, of 32 bytes, as the device would: tests it by the rules of
    /// [`check`](crate::check), given the records that the model has taken, and does what it says.
    ///
    /// RD and RDA write the 16 bytes of their dualoct to the start of `answer`, whose bytes after them
    /// are unchanged; a waiting write is not in the store yet. NOCOP, WR and WRA retire the older waiting
    /// write to `store`, under the mask that they carry, if tRTR has passed since its WR. An RDA, and
    /// the retire of a WRA, close their bank.
    /// [`Settings::store_bytes`] is the length of `store`; a fresh model takes any bytes.
    ///
    /// Refused, in this order, with model, store and answer unchanged: [`Refusal::Settings`], also
    /// for a model of bytes that are no state; [`Refusal::Store`] for a store of another length;
    /// [`Refusal::Length`] for a record that is not 32 bytes; [`Refusal::Word`] for one that is not
    /// well formed; [`Refusal::Broken`] with the lowest rule that it breaks; [`Refusal::Full`] for
    /// an RD or RDA with fewer than 16 answer bytes: the same record may come again.
    ///
    /// ```
    /// # let settings = rdram::Settings::SET_H;
    /// use rdram::{Event, Model, Packet, Record, Refusal, MASK_FULL};
    /// let act = Record::packet(&settings, 4, Packet::Act { bank: 0, row: 0 })?.to_bytes();
    /// let rd = Packet::Rd { bank: 0, column: 1, mask: MASK_FULL };
    /// let mut rd = Record::packet(&settings, 12, rd)?;
    /// let (mut model, mut store, mut answer) = (Model::fresh(), [7; 2 * 4 * 512], [0; 16]);
    /// assert_eq!(model.step(&settings, &mut store, &act, &mut []), Ok(Event::Neither));
    /// // tRCD is 9, so 12 is too soon after the ACT at 4.
    /// let early = model.step(&settings, &mut store, &rd.to_bytes(), &mut answer);
    /// assert_eq!(early, Err(Refusal::Broken { rule: 10 }));
    /// rd.instant = 13;
    /// let rd = rd.to_bytes();
    /// assert_eq!(model.step(&settings, &mut store, &rd, &mut []), Err(Refusal::Full));
    /// assert_eq!(model.step(&settings, &mut store, &rd, &mut answer), Ok(Event::Read));
    /// assert_eq!(answer, [7; 16]);
    /// # Ok::<(), Refusal>(())
    /// ```
    pub fn step(
        &mut self,
        settings: &Settings,
        store: &mut [u8],
        record: &[u8],
        answer: &mut [u8],
    ) -> Result<Event, Refusal> {
        let s = settings.to_bytes();
        // SAFETY: each pointer and length are those of one slice; `self`, `store` and `answer` are
        // lent by `&mut`, so they overlap neither each other nor `record` nor `s`.
        let stepped = unsafe {
            raw::rdram_model_step(
                s.as_ptr(),
                s.len(),
                self.bytes.as_mut_ptr(),
                self.bytes.len(),
                store.as_mut_ptr(),
                store.len(),
                record.as_ptr(),
                record.len(),
                answer.as_mut_ptr(),
                answer.len(),
            )
        };
        match (stepped.number, stepped.event) {
            (0, 1) => Ok(Event::Read),
            (0, 2) => Ok(Event::Retired(stepped.bytes)),
            (0, _) => Ok(Event::Neither),
            (number, _) => Err(Refusal::of_step(number, stepped.rule)),
        }
    }
}
