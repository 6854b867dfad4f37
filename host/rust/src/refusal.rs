//! Refusals and what they say.

use core::fmt;

/// Why a call was refused. A refused call has changed none of its buffers.
#[derive(Clone, Copy, Debug, PartialEq, Eq)]
#[non_exhaustive]
pub enum Refusal {
    /// 1: a figure of the settings is outside its range, or the bytes of a planner or a model are
    /// no state under these settings, or those of a meter are no meter.
    Settings,
    /// 2: a request kind above 7.
    Kind,
    /// 3: a byte of a request that its kind does not use is not 0.
    Spare,
    /// 4: a bank above 31.
    Bank,
    /// 5: a row that is not below the settings' rows.
    Row,
    /// 6: a column that is not below the settings' columns.
    Column,
    /// 7: a packet, its data, a PRER that it implies or now would pass instant 1,000,000,000, or an
    /// instant that is fed to a meter is outside 4 to that, or a page would start after it.
    Horizon,
    /// 8: the buffer for the answer is too short.
    Full,
    /// 9: the store is not of the settings' rows × columns × 512 bytes.
    Store,
    /// 10: a packet, word or record has no coding under the settings. Of a list the first such record
    /// is named; a single packet, word or record has no place.
    Word {
        /// The record, from 0.
        place: Option<u64>,
    },
    /// 11: a record breaks a rule, given the records before it: the first such record, and the lowest
    /// rule that it breaks.
    Rule {
        /// 1 to 17.
        rule: u32,
        /// The record, from 0.
        place: u64,
    },
    /// 11: the record that a model was given breaks a rule, given the records that it has taken: the
    /// lowest that it breaks.
    Broken {
        /// 1 to 17.
        rule: u32,
    },
    /// 12: a block is damaged or out of order: the first such block.
    Block {
        /// The block, from 0.
        place: u64,
    },
    /// 13: a length is not one of whole records or blocks, or of one request or record.
    Length,
    /// 14: an index differs from its log: the first word that is wrong, missing or surplus.
    Index {
        /// The word, from 0.
        place: u64,
    },
    /// 15: a close while a write waits.
    Unretired,
    /// 16: an instant that is fed to a meter is less than 4 after the newest.
    Overlap,
    /// 17: a block of a stamped log whose settings are out of range or differ from block 0's: the first
    /// such block.
    Stamp {
        /// The block, from 0.
        place: u64,
    },
    /// A number that this crate does not know: crate and archive are of different versions.
    Other {
        /// The number.
        number: u32,
    },
}

impl Refusal {
    /// The number of the refusal in the tables of documents 01 and 02.
    pub fn number(&self) -> u32 {
        match *self {
            Refusal::Settings => 1,
            Refusal::Kind => 2,
            Refusal::Spare => 3,
            Refusal::Bank => 4,
            Refusal::Row => 5,
            Refusal::Column => 6,
            Refusal::Horizon => 7,
            Refusal::Full => 8,
            Refusal::Store => 9,
            Refusal::Word { .. } => 10,
            Refusal::Rule { .. } | Refusal::Broken { .. } => 11,
            Refusal::Block { .. } => 12,
            Refusal::Length => 13,
            Refusal::Index { .. } => 14,
            Refusal::Unretired => 15,
            Refusal::Overlap => 16,
            Refusal::Stamp { .. } => 17,
            Refusal::Other { number } => number,
        }
    }

    /// The first bad record or block, from 0, where the refusal names one.
    pub fn place(&self) -> Option<u64> {
        match *self {
            Refusal::Word { place } => place,
            Refusal::Rule { place, .. }
            | Refusal::Block { place }
            | Refusal::Index { place }
            | Refusal::Stamp { place } => Some(place),
            _ => None,
        }
    }

    /// The broken rule, 1 to 17, where the refusal names one.
    pub fn rule(&self) -> Option<u32> {
        match *self {
            Refusal::Rule { rule, .. } | Refusal::Broken { rule } => Some(rule),
            _ => None,
        }
    }

    /// The refusal of a call on one packet or word.
    pub(crate) fn of_word(number: u32) -> Refusal {
        match number {
            1 => Refusal::Settings,
            4 => Refusal::Bank,
            5 => Refusal::Row,
            6 => Refusal::Column,
            10 => Refusal::Word { place: None },
            number => Refusal::Other { number },
        }
    }

    /// The refusal of a call on a list or log.
    pub(crate) fn of_log(number: u32, place: u64) -> Refusal {
        match number {
            1 => Refusal::Settings,
            8 => Refusal::Full,
            10 => Refusal::Word { place: Some(place) },
            12 => Refusal::Block { place },
            13 => Refusal::Length,
            17 => Refusal::Stamp { place },
            number => Refusal::Other { number },
        }
    }

    /// The refusal of a plan.
    pub(crate) fn of_plan(number: u32) -> Refusal {
        match number {
            1 => Refusal::Settings,
            2 => Refusal::Kind,
            3 => Refusal::Spare,
            4 => Refusal::Bank,
            5 => Refusal::Row,
            6 => Refusal::Column,
            7 => Refusal::Horizon,
            8 => Refusal::Full,
            13 => Refusal::Length,
            15 => Refusal::Unretired,
            number => Refusal::Other { number },
        }
    }

    /// The refusal of a model's step.
    pub(crate) fn of_step(number: u32, rule: u32) -> Refusal {
        match number {
            1 => Refusal::Settings,
            8 => Refusal::Full,
            9 => Refusal::Store,
            10 => Refusal::Word { place: None },
            11 => Refusal::Broken { rule },
            13 => Refusal::Length,
            number => Refusal::Other { number },
        }
    }

    /// The refusal of a call on a meter.
    pub(crate) fn of_meter(number: u32) -> Refusal {
        match number {
            1 => Refusal::Settings,
            7 => Refusal::Horizon,
            16 => Refusal::Overlap,
            number => Refusal::Other { number },
        }
    }

    /// The refusal of a call on an index.
    pub(crate) fn of_index(number: u32, rule: u32, place: u64) -> Refusal {
        match number {
            4 => Refusal::Bank,
            14 => Refusal::Index { place },
            number => Refusal::of_check(number, rule, place),
        }
    }

    /// The refusal of a page.
    pub(crate) fn of_page(number: u32, rule: u32, place: u64) -> Refusal {
        match number {
            7 => Refusal::Horizon,
            number => Refusal::of_check(number, rule, place),
        }
    }

    /// The refusal of a check.
    pub(crate) fn of_check(number: u32, rule: u32, place: u64) -> Refusal {
        match number {
            11 => Refusal::Rule { rule, place },
            number => Refusal::of_log(number, place),
        }
    }
}

const LATER: &str = "send it later";

/// What a record does that breaks rule 1, 2, .. 17, and what to do. An implied PRER, of an RDA or of the
/// retire of a WRA, is a PRER here.
#[rustfmt::skip]
const RULES: [(&str, &str); 17] = [
    ("its instant is below that of an earlier packet, or it, its data or its implied PRER are outside 4 to 1,000,000,000",
     "put packets in the order of their instants, within the range"),
    ("a ROW packet less than 4 after a ROW packet", LATER),
    ("a COL packet less than tCC after a COL packet", LATER),
    ("ACT or REFA while its bank or a neighbour is not closed", "send PRER to that one first"),
    ("ACT or REFA less than tRC after one to the same or a neighbour bank, or less than tRR after one to another", LATER),
    ("PRER or REFP less than tRAS after ACT or REFA to the same or a neighbour bank", LATER),
    ("ACT or REFA less than tRP after a PRER or REFP to its bank or a neighbour, or one that closed a neighbour", LATER),
    ("PRER or REFP less than tPP after PRER or REFP", LATER),
    ("RD, WR or a retire in a bank that is not open by ACT", "send ACT to that bank first"),
    ("RD or a retire less than tRCD after ACT to its bank, or WR less than tRCD - tRTR after it", LATER),
    ("WR less than tCC + tCAC - tCWD after RD", LATER),
    ("NOCOP, or WR while two writes wait, less than tRTR after the WR of the older one, or RD while two wait",
     "send it later, RD after a NOCOP"),
    ("PRER or REFP less than tRDP after RD, or less than tRTP after a retire, in the same or a neighbour bank", LATER),
    ("PRER or REFP closes the bank of a write that is not retired", "send NOCOP first"),
    ("a WR without its D directly after it, at WR + tCWD, or a D elsewhere", "put one D after each WR, at that instant"),
    ("a mask (M = 1) on a packet that retires no write", "send it with M = 0"),
    ("a ROW packet before an implied PRER, or a ROW packet or WR before a WRA has retired",
     "send it later, and NOCOP after a WRA"),
];

/// What breaks a rule, and what to do; also for a number that is no rule.
fn rule_text(rule: u32) -> (&'static str, &'static str) {
    let known = RULES.get((rule as usize).wrapping_sub(1));
    *known.unwrap_or(&(
        "unknown rule",
        "use the crate and the archive of the same version",
    ))
}

impl fmt::Display for Refusal {
    fn fmt(&self, f: &mut fmt::Formatter<'_>) -> fmt::Result {
        write!(f, "refusal {}: ", self.number())?;
        match *self {
            Refusal::Settings => f.write_str(
                "a figure of the settings or of the planner, model or meter is outside its range; \
                 correct the settings, or go on from a state that the library made under them",
            ),
            Refusal::Kind => f.write_str("a request's kind is above 7; correct the kind"),
            Refusal::Spare => f.write_str(
                "a byte of a request that its kind does not use is not 0; clear that byte",
            ),
            Refusal::Bank => f.write_str("a bank is above 31; correct the bank"),
            Refusal::Row => f.write_str("a row is not below the settings' rows; correct the row"),
            Refusal::Column => {
                f.write_str("a column is not below the settings' columns; correct the column")
            }
            Refusal::Horizon => f.write_str(
                "an instant would pass 1,000,000,000, or is below 4; \
                 go on with a fresh planner or meter, or wait for fewer cycles",
            ),
            Refusal::Full => f.write_str(
                "the buffer for the answer is too short; pass a longer one, or a shorter list",
            ),
            Refusal::Store => f.write_str(
                "the store is not rows x columns x 512 bytes; pass the whole store of these settings",
            ),
            Refusal::Word { place: None } => f.write_str(
                "the packet, word or record has no coding under these settings; \
                 check its fields and the device number",
            ),
            Refusal::Word { place: Some(place) } => write!(
                f,
                "record {place} (from 0) is not well formed under these settings; \
                 correct the record, or use the settings under which it was written"
            ),
            Refusal::Rule { rule, place } => {
                let (what, remedy) = rule_text(rule);
                write!(
                    f,
                    "record {place} (from 0) breaks rule {rule}: {what}; {remedy}"
                )
            }
            Refusal::Broken { rule } => {
                let (what, remedy) = rule_text(rule);
                write!(f, "the record breaks rule {rule}: {what}; {remedy}")
            }
            Refusal::Block { place } => write!(
                f,
                "block {place} (from 0) is damaged or out of order; \
                 restore the log, or pass only the blocks before it"
            ),
            Refusal::Length => f.write_str(
                "the length is not one of whole records (32 bytes) or blocks (512 bytes), \
                 or of one request (24 bytes) or record; pass whole ones",
            ),
            Refusal::Index { place } => write!(
                f,
                "word {place} (from 0) of the index is wrong, missing or surplus; \
                 make the index of this log afresh"
            ),
            Refusal::Stamp { place } => write!(
                f,
                "the settings that block {place} (from 0) carries are out of range or differ from block 0's; \
                 restore the log, or pass only the blocks before it"
            ),
            Refusal::Unretired => f.write_str(
                "a write waits, and a close would lose it; send a flush first, then the close",
            ),
            Refusal::Overlap => f.write_str(
                "an instant is less than 4 after the newest; \
                 feed each dualoct once, in rising order",
            ),
            Refusal::Other { .. } => {
                f.write_str("unknown number; use the crate and the archive of the same version")
            }
        }
    }
}

impl core::error::Error for Refusal {}
