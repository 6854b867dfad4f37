//! Direct RDRAM packet words, block logs, timing rules, plans, device model and a meter of the data
//! pins: safe wrappers of `librdram.a`.
//!
//! ```
//! use rdram::{blocks, check, lines, log_encode, records};
//! use rdram::{Planner, Request, Settings, BLOCK_BYTES, RECORD_BYTES, REQUEST_RECORDS};
//!
//! let settings = Settings::SET_H; // or your device's figures
//! let mut room = [0; REQUEST_RECORDS * RECORD_BYTES];
//! let read = Request::Read { bank: 0, row: 0, column: 1 };
//! let made = Planner::fresh().plan(&settings, &read, &mut room)?;
//! let list = made.list(&room); // of records of 32 bytes
//! assert_eq!(check(&settings, list), Ok(()));
//! let texts = lines(records(&settings, list)?).map(|line| line.to_string());
//! assert!(texts.eq(["4 ACT 0 0 -", "13 RD 0 1 -"]));
//!
//! let mut log = [0; BLOCK_BYTES];
//! assert_eq!(log_encode(&settings, list, &mut log)?, 1);
//! assert!(blocks(&settings, &log)?.flatten().eq(records(&settings, list)?));
//! # Ok::<(), rdram::Refusal>(())
//! ```
//!
//! A list is whole records of 32 bytes, a log whole blocks of 512; both are plain bytes, to be kept and
//! sent. [`Record`] is one record taken apart. A planner, a model, a list and a log go on under the
//! settings that they were made with: the types do not tie them to these, so pass the same ones.
#![no_std]
#![deny(missing_docs)]

mod index;
mod lists;
mod meter;
mod model;
mod packet;
mod page;
mod planner;
pub mod raw;
mod record;
mod refusal;
mod request;
mod settings;
mod shortest;
mod stamped;
mod version;

use index::indexed;
pub use index::{index_add, index_banks, index_check, index_make, index_query};
pub use lists::{
    blocks, lines, records, stamped_blocks, stamped_settings, Blocks, Line, Lines, Records,
};
pub use meter::Meter;
pub use model::{Event, Model};
pub use packet::{word_decode, word_encode, Kind, Packet};
pub use page::page;
pub use planner::{Planned, PlannedAll, Planner};
pub use record::{Content, Record};
pub use refusal::Refusal;
pub use request::Request;
pub use settings::{Core, Settings};
pub use shortest::{shortest, ShortestRun};
pub use stamped::{
    log_stamp, log_unstamp, stamped_check, stamped_decode, stamped_encode, stamped_index,
    stamped_query,
};
pub use version::{version, version_check, OtherVersion, Version, VERSION};

/// Bytes of the settings.
pub const SETTINGS_BYTES: usize = 32;
/// Bytes of a record: instant 4, kind 1 (0 ROW, 1 COL, 2 D), zero 3, word 8, data 16.
pub const RECORD_BYTES: usize = 32;
/// Bytes of a block.
pub const BLOCK_BYTES: usize = 512;
/// Most records of a block.
pub const BLOCK_RECORDS: usize = 15;
/// Most records of a block that carries the settings.
pub const STAMPED_RECORDS: usize = 14;
/// Bytes of a request.
pub const REQUEST_BYTES: usize = 24;
/// Most records of a request under any core form; 16 where banks have neighbours.
pub const REQUEST_RECORDS: usize = 32;
/// Bytes of a planner.
pub const PLANNER_BYTES: usize = 768;
/// Bytes of a model.
pub const MODEL_BYTES: usize = 792;
/// Bytes of a meter.
pub const METER_BYTES: usize = 136;
/// Bytes of a word of an index.
pub const INDEX_WORD_BYTES: usize = 4;
/// Bytes of a page: four lines of 72 characters and a line feed.
pub const PAGE_BYTES: usize = 292;
/// Cycles of a page.
pub const PAGE_CYCLES: u32 = 64;
/// Bytes of a dualoct.
pub const DUALOCT_BYTES: usize = 16;
/// The mask of a COL packet that is sent without one (M = 0).
pub const MASK_FULL: u16 = 0xFFFF;

/// Packs `list`, whole records of 32 bytes, into blocks of 512 bytes at the start of `log` and
/// answers the number of blocks. The bytes of `log` after them are unchanged.
///
/// n records need n / 15 blocks, rounded up. Timing rules are not tested.
///
/// Refused, in this order: [`Refusal::Settings`]; [`Refusal::Length`] for a list that is not whole
/// records; [`Refusal::Word`] with the first bad record; [`Refusal::Full`] for a log of fewer
/// whole blocks than needed.
///
/// ```
/// # let settings = rdram::Settings::SET_H;
/// use rdram::{log_encode, Packet, Record, Refusal, MASK_FULL};
/// let act = Record::packet(&settings, 4, Packet::Act { bank: 0, row: 0 })?;
/// let rd = Packet::Rd { bank: 0, column: 1, mask: MASK_FULL };
/// let rd = Record::packet(&settings, 13, rd)?;
/// let list = [act.to_bytes(), rd.to_bytes()].concat();
/// let mut log = [0; 512];
/// assert_eq!(log_encode(&settings, &list, &mut log), Ok(1));
/// assert_eq!(log_encode(&settings, &list, &mut []), Err(Refusal::Full));
/// # Ok::<(), Refusal>(())
/// ```
pub fn log_encode(settings: &Settings, list: &[u8], log: &mut [u8]) -> Result<usize, Refusal> {
    let s = settings.to_bytes();
    // SAFETY: each pointer and length are those of one slice; `log` is lent by `&mut`, so it
    // overlaps neither `list` nor `s`.
    let answer = unsafe {
        raw::rdram_log_encode(
            s.as_ptr(),
            s.len(),
            list.as_ptr(),
            list.len(),
            log.as_mut_ptr(),
            log.len(),
        )
    };
    copied(answer)
}

/// Unpacks `log`, whole blocks of 512 bytes, into records of 32 bytes at the start of `list` and
/// answers the number of records. The bytes of `list` after them are unchanged.
///
/// A block has at most 15 records. Timing rules are not tested.
///
/// Refused, in this order: [`Refusal::Settings`]; [`Refusal::Length`] for a log that is not whole
/// blocks; [`Refusal::Block`] with the first bad block; [`Refusal::Word`] with the first bad
/// record; [`Refusal::Full`] for a list of fewer whole records than needed.
///
/// ```
/// # let settings = rdram::Settings::SET_H;
/// use rdram::{log_decode, log_encode, Packet, Record, Refusal};
/// let act = Record::packet(&settings, 4, Packet::Act { bank: 0, row: 0 })?.to_bytes();
/// let mut log = [0; 512];
/// log_encode(&settings, &act, &mut log)?;
/// let mut list = [0; 15 * 32];
/// assert_eq!(log_decode(&settings, &log, &mut list), Ok(1));
/// assert_eq!(list[..32], act);
/// log[0] ^= 1;
/// let refusal = log_decode(&settings, &log, &mut list).unwrap_err();
/// assert_eq!(refusal, Refusal::Block { place: 0 });
/// assert_eq!((refusal.number(), refusal.place()), (12, Some(0)));
/// # Ok::<(), Refusal>(())
/// ```
pub fn log_decode(settings: &Settings, log: &[u8], list: &mut [u8]) -> Result<usize, Refusal> {
    let s = settings.to_bytes();
    // SAFETY: each pointer and length are those of one slice; `list` is lent by `&mut`, so it
    // overlaps neither `log` nor `s`.
    let answer = unsafe {
        raw::rdram_log_decode(
            s.as_ptr(),
            s.len(),
            log.as_ptr(),
            log.len(),
            list.as_mut_ptr(),
            list.len(),
        )
    };
    copied(answer)
}

/// Tests whether `list`, whole records of 32 bytes, keeps the seventeen rules of documents 01 and 02,
/// from closed banks, an empty write buffer and no earlier record. An empty list passes.
///
/// Refused, in this order: [`Refusal::Settings`]; [`Refusal::Length`] for a list that is not whole
/// records; [`Refusal::Word`] with the first record that is not well formed; [`Refusal::Rule`] with
/// the first record that breaks a rule given the records before it, and the lowest rule it breaks.
///
/// ```
/// # let settings = rdram::Settings::SET_H;
/// use rdram::{check, Packet, Record, Refusal, MASK_FULL};
/// let act = Record::packet(&settings, 4, Packet::Act { bank: 0, row: 0 })?;
/// let after_act = |instant, packet| {
///     let second = Record::packet(&settings, instant, packet)?;
///     check(&settings, &[act.to_bytes(), second.to_bytes()].concat())
/// };
/// let rd = Packet::Rd { bank: 0, column: 1, mask: MASK_FULL };
/// assert_eq!(after_act(13, rd), Ok(()));
/// // tRCD is 9, so 12 is too soon after the ACT at 4.
/// assert_eq!(after_act(12, rd), Err(Refusal::Rule { rule: 10, place: 1 }));
/// // An RDA at 13 has a PRER at 17 in it, and tRAS is 20.
/// let rda = Packet::Rda { bank: 0, column: 1, mask: MASK_FULL };
/// assert_eq!(after_act(13, rda), Err(Refusal::Rule { rule: 6, place: 1 }));
/// assert_eq!(after_act(20, rda), Ok(()));
/// # Ok::<(), Refusal>(())
/// ```
pub fn check(settings: &Settings, list: &[u8]) -> Result<(), Refusal> {
    let s = settings.to_bytes();
    // SAFETY: each pointer and length are those of one slice.
    judged(unsafe { raw::rdram_check(s.as_ptr(), s.len(), list.as_ptr(), list.len()) })
}

/// Tests whether the list that `log` keeps, whole blocks of 512 bytes, passes [`check`].
///
/// Refused, in this order: [`Refusal::Settings`]; [`Refusal::Length`] for a log that is not whole
/// blocks; [`Refusal::Block`] with the first bad block; [`Refusal::Word`] and [`Refusal::Rule`] as
/// in [`check`], with records counted over the whole log.
///
/// ```
/// # let settings = rdram::Settings::SET_H;
/// use rdram::{check_log, log_encode, Packet, Record, Refusal};
/// let act = Record::packet(&settings, 3, Packet::Act { bank: 0, row: 0 })?;
/// let mut log = [0; 512];
/// log_encode(&settings, &act.to_bytes(), &mut log)?;
/// // Instants start at 4.
/// let refused = check_log(&settings, &log).unwrap_err();
/// assert_eq!((refused.number(), refused.rule(), refused.place()), (11, Some(1), Some(0)));
/// # Ok::<(), Refusal>(())
/// ```
pub fn check_log(settings: &Settings, log: &[u8]) -> Result<(), Refusal> {
    let s = settings.to_bytes();
    // SAFETY: each pointer and length are those of one slice.
    judged(unsafe { raw::rdram_check_log(s.as_ptr(), s.len(), log.as_ptr(), log.len()) })
}

fn judged(answer: raw::Judged) -> Result<(), Refusal> {
    match answer.number {
        0 => Ok(()),
        number => Err(Refusal::of_check(number, answer.rule, answer.place)),
    }
}

/// A count is at most the length of a buffer, so it fits `usize`.
fn copied(answer: raw::Copied) -> Result<usize, Refusal> {
    match answer.number {
        0 => Ok(answer.count as usize),
        number => Err(Refusal::of_log(number, answer.place)),
    }
}

/// N bytes of a buffer that has them, from a place on.
fn part<const N: usize>(bytes: &[u8], at: usize) -> [u8; N] {
    let mut part = [0; N];
    part.copy_from_slice(&bytes[at..at + N]);
    part
}
