//! A page of the channel as text.

use crate::{raw, Refusal, Settings};

/// Draws 64 cycles of a list from cycle `start` on, in [`crate::PAGE_BYTES`] bytes at the start of `room`:
/// the lines ROW, COL and DQ and a scale, each of 72 characters and a line feed. Every other byte of
/// `room` stays. A packet stands at the four cycles before its instant, data at four from theirs on.
///
/// # Errors
///
/// In this order: [`Refusal::Settings`]; [`Refusal::Length`] for a list that is not whole records;
/// [`Refusal::Horizon`] for a start above 1,000,000,000; [`Refusal::Word`] and [`Refusal::Rule`] as in
/// [`crate::check`]; [`Refusal::Full`] for a room of fewer bytes than a page has.
///
/// ```
/// # let settings = rdram::Settings::SET_H;
/// use rdram::{page, Packet, Record, MASK_FULL, PAGE_BYTES};
/// let act = Record::packet(&settings, 4, Packet::Act { bank: 0, row: 0 })?;
/// let rd = Packet::Rd { bank: 0, column: 1, mask: MASK_FULL };
/// let rd = Record::packet(&settings, 13, rd)?;
/// let mut room = [0; PAGE_BYTES];
/// page(&settings, &[act.to_bytes(), rd.to_bytes()].concat(), 2, &mut room)?;
/// let lines: Vec<&str> = core::str::from_utf8(&room).unwrap().lines().collect();
/// assert!(lines[0].starts_with("ROW     AA.........."));
/// assert!(lines[1].starts_with("COL     .......RRRR."));
/// assert!(lines[2].starts_with("DQ      ...................QQQQ."));
/// assert!(lines[3].starts_with("              |       |       "));
/// # Ok::<(), rdram::Refusal>(())
/// ```
pub fn page(settings: &Settings, list: &[u8], start: u32, room: &mut [u8]) -> Result<(), Refusal> {
    let s = settings.to_bytes();
    // SAFETY: each pointer and length are those of one slice; `room` is lent by `&mut`, so it overlaps
    // neither `list` nor `s`.
    let answer = unsafe {
        raw::rdram_page(
            s.as_ptr(),
            s.len(),
            list.as_ptr(),
            list.len(),
            start,
            room.as_mut_ptr(),
            room.len(),
        )
    };
    match answer.number {
        0 => Ok(()),
        number => Err(Refusal::of_page(number, answer.rule, answer.place)),
    }
}
