//! Logs that carry their settings: blocks of 14 records, then the settings record as a stamp.

use crate::{copied, indexed, judged, raw, Refusal, Settings};

/// Packs `list` into a log that carries the settings, at the start of `log`, and answers the number of
/// blocks. A block has at most 14 records. Timing rules are not tested.
///
/// # Errors
///
/// In this order: [`Refusal::Settings`], [`Refusal::Length`], [`Refusal::Word`], [`Refusal::Full`].
///
/// ```
/// # let settings = rdram::Settings::SET_H;
/// use rdram::{log_stamp, log_unstamp, stamped_check, stamped_encode, Packet, Record};
/// let mut log = [0; 512];
/// let act = Record::packet(&settings, 4, Packet::Act { bank: 0, row: 0 })?;
/// assert_eq!(stamped_encode(&settings, &act.to_bytes(), &mut log)?, 1);
/// stamped_check(&log)?; // by the settings that it carries
/// let mut old = [0; 512];
/// assert_eq!(log_unstamp(&log, &mut old)?, 1);
/// let mut back = [0; 512];
/// assert_eq!(log_stamp(&settings, &old, &mut back)?, 1);
/// assert_eq!(back, log);
/// # Ok::<(), rdram::Refusal>(())
/// ```
pub fn stamped_encode(settings: &Settings, list: &[u8], log: &mut [u8]) -> Result<usize, Refusal> {
    let s = settings.to_bytes();
    // SAFETY: each pointer and length are those of one slice; `log` is lent by `&mut`, so it overlaps
    // neither `list` nor `s`.
    copied(unsafe {
        raw::rdram_stamped_encode(
            s.as_ptr(),
            s.len(),
            list.as_ptr(),
            list.len(),
            log.as_mut_ptr(),
            log.len(),
        )
    })
}

/// Unpacks a log that carries its settings into records at the start of `list` and answers their number.
///
/// # Errors
///
/// In this order: [`Refusal::Length`], [`Refusal::Block`], [`Refusal::Stamp`], [`Refusal::Word`],
/// [`Refusal::Full`].
pub fn stamped_decode(log: &[u8], list: &mut [u8]) -> Result<usize, Refusal> {
    // SAFETY: each pointer and length are those of one slice; `list` is lent by `&mut`.
    copied(unsafe {
        raw::rdram_stamped_decode(log.as_ptr(), log.len(), list.as_mut_ptr(), list.len())
    })
}

/// Judges the list that a log keeps by the settings that it carries.
///
/// # Errors
///
/// In this order: [`Refusal::Length`], [`Refusal::Block`], [`Refusal::Stamp`], [`Refusal::Word`],
/// [`Refusal::Rule`].
pub fn stamped_check(log: &[u8]) -> Result<(), Refusal> {
    // SAFETY: the pointer and length are those of one slice, which the call only reads.
    judged(unsafe { raw::rdram_stamped_check(log.as_ptr(), log.len()) })
}

/// Makes the index of a log that carries its settings, of which the first `kept` words are in place
/// already. Answers the number of words.
///
/// # Errors
///
/// In this order: [`Refusal::Length`], [`Refusal::Block`], [`Refusal::Stamp`], [`Refusal::Word`],
/// [`Refusal::Index`], [`Refusal::Full`].
pub fn stamped_index(log: &[u8], kept: usize, index: &mut [u8]) -> Result<usize, Refusal> {
    // SAFETY: each pointer and length are those of one slice; `index` is lent by `&mut`.
    indexed(unsafe {
        raw::rdram_stamped_index(
            log.as_ptr(),
            log.len(),
            kept,
            index.as_mut_ptr(),
            index.len(),
        )
    })
}

/// Lists the numbers of the blocks of a log that carries its settings which touch a bank.
///
/// # Errors
///
/// In this order: [`Refusal::Length`] (log, then index), [`Refusal::Bank`], [`Refusal::Block`],
/// [`Refusal::Stamp`], [`Refusal::Word`], [`Refusal::Index`], [`Refusal::Full`].
pub fn stamped_query(
    log: &[u8],
    index: &[u8],
    bank: u32,
    out: &mut [u8],
) -> Result<usize, Refusal> {
    // SAFETY: each pointer and length are those of one slice; `out` is lent by `&mut`.
    indexed(unsafe {
        raw::rdram_stamped_query(
            log.as_ptr(),
            log.len(),
            index.as_ptr(),
            index.len(),
            bank,
            out.as_mut_ptr(),
            out.len(),
        )
    })
}

/// Moves a log of blocks of 15 records to one that carries the settings. Answers the number of its
/// blocks. Timing rules are not tested.
///
/// # Errors
///
/// In this order: [`Refusal::Settings`], [`Refusal::Length`], [`Refusal::Block`], [`Refusal::Word`],
/// [`Refusal::Full`].
pub fn log_stamp(settings: &Settings, log: &[u8], out: &mut [u8]) -> Result<usize, Refusal> {
    let s = settings.to_bytes();
    // SAFETY: each pointer and length are those of one slice; `out` is lent by `&mut`.
    copied(unsafe {
        raw::rdram_log_stamp(
            s.as_ptr(),
            s.len(),
            log.as_ptr(),
            log.len(),
            out.as_mut_ptr(),
            out.len(),
        )
    })
}

/// Moves a log that carries its settings to one of blocks of 15 records. Answers the number of its
/// blocks.
///
/// # Errors
///
/// In this order: [`Refusal::Length`], [`Refusal::Block`], [`Refusal::Stamp`], [`Refusal::Word`],
/// [`Refusal::Full`].
pub fn log_unstamp(log: &[u8], out: &mut [u8]) -> Result<usize, Refusal> {
    // SAFETY: each pointer and length are those of one slice; `out` is lent by `&mut`.
    copied(unsafe { raw::rdram_log_unstamp(log.as_ptr(), log.len(), out.as_mut_ptr(), out.len()) })
}
