//! The shortest run of a list that still breaks its rule.

use crate::{raw, Refusal, Settings, RECORD_BYTES};

/// A run of records that [`check`](crate::check) refuses by the rule, and at the record, by which it
/// refuses the whole list.
#[derive(Clone, Copy, Debug, PartialEq, Eq)]
pub struct ShortestRun {
    /// The lowest rule that the last record of the run breaks.
    pub rule: u32,
    /// That record's place in the list, from 0.
    pub place: usize,
    /// The place in the list of the run's first record.
    pub start: usize,
}

impl ShortestRun {
    /// The records of the run, in the list in which it was found.
    pub fn records<'a>(&self, list: &'a [u8]) -> &'a [u8] {
        &list[RECORD_BYTES * self.start..RECORD_BYTES * (self.place + 1)]
    }
}

/// The shortest run of `list`, whole records of 32 bytes, that ends at the first record which breaks a
/// rule, and which [`check`](crate::check) of its records alone refuses first at its last record by the
/// same rule. `None` where the list passes.
///
/// # Errors
///
/// In this order: [`Refusal::Settings`], [`Refusal::Length`], [`Refusal::Word`] as in
/// [`check`](crate::check).
///
/// ```
/// # let settings = rdram::Settings::SET_H;
/// use rdram::{check, shortest, Packet, Record, Refusal, ShortestRun, MASK_FULL};
/// let packets = [
///     (4, Packet::Act { bank: 0, row: 0 }),
///     (13, Packet::Rd { bank: 0, column: 1, mask: MASK_FULL }),
///     (35, Packet::Prer { bank: 5 }),
///     (38, Packet::Prer { bank: 9 }),
/// ];
/// let mut list = Vec::new();
/// for (instant, packet) in packets {
///     list.extend(Record::packet(&settings, instant, packet)?.to_bytes());
/// }
/// // ROW to ROW is 4: of the four records two tell it. A run from the RD is refused at the RD.
/// let run = shortest(&settings, &list)?.unwrap();
/// assert_eq!(run, ShortestRun { rule: 2, place: 3, start: 2 });
/// let refused = check(&settings, run.records(&list));
/// assert_eq!(refused, Err(Refusal::Rule { rule: 2, place: 1 }));
/// assert_eq!(shortest(&settings, &list[..96])?, None);
/// # Ok::<(), Refusal>(())
/// ```
pub fn shortest(settings: &Settings, list: &[u8]) -> Result<Option<ShortestRun>, Refusal> {
    let s = settings.to_bytes();
    // SAFETY: each pointer and length are those of one slice, which the call only reads.
    let answer = unsafe { raw::rdram_shortest(s.as_ptr(), s.len(), list.as_ptr(), list.len()) };
    match answer.number {
        0 => Ok(None),
        11 => Ok(Some(ShortestRun {
            rule: answer.rule,
            place: answer.place as usize,
            start: answer.start as usize,
        })),
        number => Err(Refusal::of_check(number, answer.rule, answer.place)),
    }
}
