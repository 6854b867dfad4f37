//! The index of a log: which blocks touch a bank.

use crate::{raw, Refusal, Settings};

pub(crate) fn indexed(answer: raw::Indexed) -> Result<usize, Refusal> {
    match answer.number {
        0 => Ok(answer.count as usize),
        number => Err(Refusal::of_index(number, answer.rule, answer.place)),
    }
}

/// Makes the index of a log at the start of a buffer: one word of four bytes, low byte first, for each
/// block, with bit b set where a ROW packet, RD, WR, RDA or WRA of the block names bank b. Answers the number of
/// words; every other byte stays.
///
/// # Errors
///
/// In this order: [`Refusal::Settings`], [`Refusal::Length`], [`Refusal::Block`], [`Refusal::Word`],
/// [`Refusal::Full`].
///
/// ```
/// # let settings = rdram::Settings::SET_H;
/// use rdram::{index_banks, index_make, index_query, log_encode, Packet, Record};
/// let act = Record::packet(&settings, 4, Packet::Act { bank: 0, row: 0 })?;
/// let mut log = [0; 512];
/// log_encode(&settings, &act.to_bytes(), &mut log)?;
/// let mut index = [0; 4];
/// assert_eq!(index_make(&settings, &log, &mut index), Ok(1));
/// assert_eq!(index, [1, 0, 0, 0]);
/// assert_eq!(index_banks(u32::from_le_bytes(index)), 1);
/// let mut blocks = [0; 4];
/// assert_eq!(index_query(&settings, &log, &index, 0, &mut blocks), Ok(1));
/// assert_eq!(index_query(&settings, &log, &index, 1, &mut blocks), Ok(0));
/// # Ok::<(), rdram::Refusal>(())
/// ```
pub fn index_make(settings: &Settings, log: &[u8], index: &mut [u8]) -> Result<usize, Refusal> {
    index_add(settings, log, 0, index)
}

/// The same where the first `kept` words of the buffer are in place already: they are compared and
/// stay, and only the words after them are written. For a log that has grown, pass the number of full
/// blocks that it had.
///
/// # Errors
///
/// As [`index_make`], and after 10 [`Refusal::Index`] for the first of the kept words that is wrong,
/// missing or surplus.
pub fn index_add(
    settings: &Settings,
    log: &[u8],
    kept: usize,
    index: &mut [u8],
) -> Result<usize, Refusal> {
    let s = settings.to_bytes();
    // SAFETY: each pointer and length are those of one slice; `index` is lent by `&mut`, so it
    // overlaps neither `log` nor `s`.
    indexed(unsafe {
        raw::rdram_index_add(
            s.as_ptr(),
            s.len(),
            log.as_ptr(),
            log.len(),
            kept,
            index.as_mut_ptr(),
            index.len(),
        )
    })
}

/// Lists the numbers of the blocks that touch a bank at the start of a buffer, four bytes each, low
/// byte first, in rising order. Answers how many there are; every other byte stays.
///
/// # Errors
///
/// In this order: [`Refusal::Settings`], [`Refusal::Length`] (log, then index), [`Refusal::Bank`],
/// [`Refusal::Block`], [`Refusal::Word`], [`Refusal::Index`], [`Refusal::Full`].
pub fn index_query(
    settings: &Settings,
    log: &[u8],
    index: &[u8],
    bank: u32,
    out: &mut [u8],
) -> Result<usize, Refusal> {
    let s = settings.to_bytes();
    // SAFETY: each pointer and length are those of one slice; `out` is lent by `&mut`, so it overlaps
    // none of the others.
    indexed(unsafe {
        raw::rdram_index_query(
            s.as_ptr(),
            s.len(),
            log.as_ptr(),
            log.len(),
            index.as_ptr(),
            index.len(),
            bank,
            out.as_mut_ptr(),
            out.len(),
        )
    })
}

/// Judges a log with its index by every rule. Answers the number of words where both pass.
///
/// # Errors
///
/// In this order: [`Refusal::Settings`], [`Refusal::Length`] (log, then index), [`Refusal::Block`],
/// [`Refusal::Word`], [`Refusal::Index`], [`Refusal::Rule`].
pub fn index_check(settings: &Settings, log: &[u8], index: &[u8]) -> Result<usize, Refusal> {
    let s = settings.to_bytes();
    // SAFETY: each pointer and length are those of one slice, which the call only reads.
    indexed(unsafe {
        raw::rdram_index_check(
            s.as_ptr(),
            s.len(),
            log.as_ptr(),
            log.len(),
            index.as_ptr(),
            index.len(),
        )
    })
}

/// How many banks a block names: the ones of its word.
pub fn index_banks(word: u32) -> u32 {
    // SAFETY: the call takes no pointer.
    unsafe { raw::rdram_index_banks(word) }
}
