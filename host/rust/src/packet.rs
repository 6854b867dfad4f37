//! Packets and their words.

use crate::{raw, Refusal, Settings, MASK_FULL};
use core::fmt;

/// The kind of a packet and of its word.
#[derive(Clone, Copy, Debug, PartialEq, Eq)]
pub enum Kind {
    /// A ROW packet, whose word has 24 bits.
    Row,
    /// A COL packet, whose word has 40 bits.
    Col,
}

/// A ROW packet (`Act` to `Refp`) or a COL packet (`Nocop` to `Rda`). `Wra` and `Rda` are `Wr` and
/// `Rd` that close their bank: tOFFP after the retire, or after themselves, they have a PRER in them.
///
/// `mask` is the mask that a COL packet carries; [`MASK_FULL`] is sent as M = 0. It governs the
/// write that the packet retires, not the packet's own.
///
/// Its text is what the listing prints after the instant: name, bank, row or column (0 if none), and
/// the mask in four hexadecimal digits, or `-` where M = 0 and for a ROW packet.
///
/// ```
/// use rdram::{Packet, MASK_FULL};
/// assert_eq!(Packet::Act { bank: 5, row: 300 }.to_string(), "ACT 5 300 -");
/// assert_eq!(Packet::Nocop { mask: 3 }.to_string(), "NOCOP 0 0 0003");
/// assert_eq!(Packet::Rd { bank: 31, column: 2, mask: MASK_FULL }.to_string(), "RD 31 2 -");
/// ```
#[derive(Clone, Copy, Debug, PartialEq, Eq)]
pub enum Packet {
    /// Opens a row of a bank.
    Act {
        /// 0 to 31.
        bank: u8,
        /// Below the settings' rows.
        row: u16,
    },
    /// Closes a bank and its neighbours.
    Prer {
        /// 0 to 31.
        bank: u8,
    },
    /// Puts a bank under refresh.
    Refa {
        /// 0 to 31.
        bank: u8,
    },
    /// Ends the refresh of a bank, as `Prer` closes one.
    Refp {
        /// 0 to 31.
        bank: u8,
    },
    /// Retires a waiting write and does nothing else.
    Nocop {
        /// The mask of the write that is retired.
        mask: u16,
    },
    /// Loads a write, whose data come with its D.
    Wr {
        /// 0 to 31.
        bank: u8,
        /// Below the settings' columns.
        column: u8,
        /// The mask of the write that is retired.
        mask: u16,
    },
    /// Reads a dualoct.
    Rd {
        /// 0 to 31.
        bank: u8,
        /// Below the settings' columns.
        column: u8,
        /// It retires no write, so that rule 16 asks for [`MASK_FULL`].
        mask: u16,
    },
    /// Loads a write, whose retire closes its bank.
    Wra {
        /// 0 to 31.
        bank: u8,
        /// Below the settings' columns.
        column: u8,
        /// The mask of the write that is retired.
        mask: u16,
    },
    /// Reads a dualoct and closes its bank.
    Rda {
        /// 0 to 31.
        bank: u8,
        /// Below the settings' columns.
        column: u8,
        /// It retires no write, so that rule 16 asks for [`MASK_FULL`].
        mask: u16,
    },
}

/// The names of the commands, as the library counts them.
const NAMES: [&str; 9] = [
    "ACT", "PRER", "REFA", "REFP", "NOCOP", "WR", "RD", "WRA", "RDA",
];

impl Packet {
    /// Whether it is a ROW or a COL packet.
    ///
    /// ```
    /// use rdram::{Kind, Packet};
    /// assert_eq!(Packet::Prer { bank: 0 }.kind(), Kind::Row);
    /// assert_eq!(Packet::Nocop { mask: 0 }.kind(), Kind::Col);
    /// ```
    pub fn kind(&self) -> Kind {
        match self.fields().0 {
            0..=3 => Kind::Row,
            _ => Kind::Col,
        }
    }

    /// The name of its command, as the data sheet and the listing have it.
    ///
    /// ```
    /// assert_eq!(rdram::Packet::Refa { bank: 0 }.name(), "REFA");
    /// ```
    pub fn name(&self) -> &'static str {
        NAMES[self.fields().0 as usize]
    }

    /// Command, bank, place and mask as the library counts them.
    pub(crate) fn fields(self) -> (u32, u8, u16, u16) {
        match self {
            Packet::Act { bank, row } => (0, bank, row, 0),
            Packet::Prer { bank } => (1, bank, 0, 0),
            Packet::Refa { bank } => (2, bank, 0, 0),
            Packet::Refp { bank } => (3, bank, 0, 0),
            Packet::Nocop { mask } => (4, 0, 0, mask),
            Packet::Wr { bank, column, mask } => (5, bank, column.into(), mask),
            Packet::Rd { bank, column, mask } => (6, bank, column.into(), mask),
            Packet::Wra { bank, column, mask } => (7, bank, column.into(), mask),
            Packet::Rda { bank, column, mask } => (8, bank, column.into(), mask),
        }
    }

    /// The packet of an accepted answer: its fields fit, since banks are below 32, rows below 512
    /// and columns below 128.
    fn of(answer: raw::Packet) -> Packet {
        let (bank, mask) = (answer.bank as u8, answer.mask as u16);
        let (row, column) = (answer.place as u16, answer.place as u8);
        match answer.command {
            0 => Packet::Act { bank, row },
            1 => Packet::Prer { bank },
            2 => Packet::Refa { bank },
            3 => Packet::Refp { bank },
            4 => Packet::Nocop { mask },
            5 => Packet::Wr { bank, column, mask },
            6 => Packet::Rd { bank, column, mask },
            7 => Packet::Wra { bank, column, mask },
            _ => Packet::Rda { bank, column, mask },
        }
    }
}

impl fmt::Display for Packet {
    fn fmt(&self, f: &mut fmt::Formatter<'_>) -> fmt::Result {
        let (_, bank, place, mask) = self.fields();
        write!(f, "{} {bank} {place} ", self.name())?;
        match self.kind() {
            Kind::Col if mask != MASK_FULL => write!(f, "{mask:04x}"),
            _ => f.write_str("-"),
        }
    }
}

/// The word of a packet: 24 bits for a ROW packet, 40 for a COL packet.
///
/// Refused: [`Refusal::Settings`], then [`Refusal::Bank`] for a bank above 31, and [`Refusal::Row`]
/// or [`Refusal::Column`] for one not below that of the settings.
///
/// ```
/// # let settings = rdram::Settings::SET_H;
/// use rdram::{word_encode, Packet, Refusal};
/// assert_eq!(word_encode(&settings, Packet::Act { bank: 0, row: 0 }), Ok(0x401000));
/// // The settings have two rows.
/// let refused = word_encode(&settings, Packet::Act { bank: 0, row: 2 });
/// assert_eq!(refused, Err(Refusal::Row));
/// ```
pub fn word_encode(settings: &Settings, packet: Packet) -> Result<u64, Refusal> {
    let s = settings.to_bytes();
    let (command, bank, place, mask) = packet.fields();
    // SAFETY: the pointer and the length are those of `s`.
    let answer = unsafe {
        raw::rdram_word_encode(
            s.as_ptr(),
            s.len(),
            command,
            bank.into(),
            place.into(),
            mask.into(),
        )
    };
    match answer.number {
        0 => Ok(answer.word),
        number => Err(Refusal::of_word(number)),
    }
}

/// The packet of a word.
///
/// Refused: [`Refusal::Settings`], then [`Refusal::Word`] for a word that no packet has under the
/// settings.
///
/// ```
/// # let settings = rdram::Settings::SET_H;
/// use rdram::{word_decode, Kind, Packet, MASK_FULL};
/// let packet = word_decode(&settings, Kind::Col, 0x80_0026_0000)?;
/// assert_eq!(packet, Packet::Rd { bank: 0, column: 1, mask: MASK_FULL });
/// assert!(word_decode(&settings, Kind::Row, 0x80_0026_0000).is_err());
/// # Ok::<(), rdram::Refusal>(())
/// ```
pub fn word_decode(settings: &Settings, kind: Kind, word: u64) -> Result<Packet, Refusal> {
    let s = settings.to_bytes();
    // SAFETY: the pointer and the length are those of `s`.
    let answer = unsafe { raw::rdram_word_decode(s.as_ptr(), s.len(), kind as u32, word) };
    match answer.number {
        0 => Ok(Packet::of(answer)),
        number => Err(Refusal::of_word(number)),
    }
}
