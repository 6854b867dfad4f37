//! A record of a list.

use crate::{part, word_decode, word_encode, Kind, Packet, Refusal, Settings};
use crate::{DUALOCT_BYTES, RECORD_BYTES};
use core::fmt;

/// What a record holds beside its instant.
///
/// ```
/// # let settings = rdram::Settings::SET_H;
/// use rdram::{Content, Packet, Record};
/// let sent = |record: &Record| match record.content() {
///     Content::Packet { packet, word } => format!("{:?} word {word:x}", packet.kind()),
///     Content::Data(data) => format!("first byte {:x}", data[0]),
/// };
/// let act = Record::packet(&settings, 4, Packet::Act { bank: 0, row: 0 })?;
/// assert_eq!(sent(&act), "Row word 401000");
/// assert_eq!(sent(&Record::data(11, [7; 16])), "first byte 7");
/// # Ok::<(), rdram::Refusal>(())
/// ```
#[derive(Clone, Copy, Debug, PartialEq, Eq)]
pub enum Content {
    /// A ROW or COL packet.
    Packet {
        /// The packet.
        packet: Packet,
        /// Its word under the settings that the record was made with.
        word: u64,
    },
    /// A D: the data of the WR or WRA before it.
    Data([u8; DUALOCT_BYTES]),
}

/// A record that is well formed under the settings that it was made with: a packet that has a word, or
/// data. Rules are not tested: [`check`](crate::check) judges a list.
///
/// Its text is that of the listing: instant, name, bank, row or column, mask. A D alone does not tell
/// which write it belongs to, so its text has the data, byte 0 first; [`lines`](crate::lines) gives the
/// listing's text of a D, with its write's bank and column.
///
/// ```
/// # let settings = rdram::Settings::SET_H;
/// use rdram::{Packet, Record, Refusal};
/// let act = Record::packet(&settings, 4, Packet::Act { bank: 0, row: 1 })?;
/// assert_eq!(act.to_string(), "4 ACT 0 1 -");
/// assert_eq!(Record::from_bytes(&settings, &act.to_bytes()), Ok(act));
/// let d = Record::data(11, *b"sixteen bytes: 0");
/// assert_eq!(d.to_string(), "11 D 7369787465656e2062797465733a2030");
/// // Set H has two rows.
/// let none = Record::packet(&settings, 4, Packet::Act { bank: 0, row: 2 });
/// assert_eq!(none, Err(Refusal::Row));
/// # Ok::<(), Refusal>(())
/// ```
#[derive(Clone, Copy, Debug, PartialEq, Eq)]
pub struct Record {
    /// Of a packet its trailing edge, of data their leading edge. Any number is well formed; rule 1
    /// judges it.
    pub instant: u32,
    content: Content,
}

impl Record {
    /// The record of a packet.
    ///
    /// # Errors
    ///
    /// As [`word_encode`].
    ///
    /// ```
    /// # let settings = rdram::Settings::SET_H;
    /// use rdram::{Content, Packet, Record, MASK_FULL};
    /// let packet = Packet::Rd { bank: 0, column: 1, mask: MASK_FULL };
    /// let rd = Record::packet(&settings, 13, packet)?;
    /// assert_eq!(rd.content(), Content::Packet { packet, word: 0x80_0026_0000 });
    /// # Ok::<(), rdram::Refusal>(())
    /// ```
    pub fn packet(settings: &Settings, instant: u32, packet: Packet) -> Result<Record, Refusal> {
        let word = word_encode(settings, packet)?;
        let content = Content::Packet { packet, word };
        Ok(Record { instant, content })
    }

    /// The record of a word, as a board sends or captures it.
    ///
    /// # Errors
    ///
    /// As [`word_decode`].
    ///
    /// ```
    /// # let settings = rdram::Settings::SET_H;
    /// use rdram::{Kind, Record};
    /// let record = Record::word(&settings, 4, Kind::Row, 0x401000)?;
    /// assert_eq!(record.to_string(), "4 ACT 0 0 -");
    /// # Ok::<(), rdram::Refusal>(())
    /// ```
    pub fn word(
        settings: &Settings,
        instant: u32,
        kind: Kind,
        word: u64,
    ) -> Result<Record, Refusal> {
        let packet = word_decode(settings, kind, word)?;
        let content = Content::Packet { packet, word };
        Ok(Record { instant, content })
    }

    /// The record of a D.
    ///
    /// ```
    /// use rdram::{Content, Record};
    /// let d = Record::data(25, [7; 16]);
    /// assert_eq!((d.instant, d.content()), (25, Content::Data([7; 16])));
    /// ```
    pub fn data(instant: u32, data: [u8; DUALOCT_BYTES]) -> Record {
        let content = Content::Data(data);
        Record { instant, content }
    }

    /// What the record holds beside its instant: [`Content`] has an example.
    pub fn content(&self) -> Content {
        self.content
    }

    /// The instant at which the record's data are on the pins, as [`Meter::feed`](crate::Meter::feed)
    /// takes it: that of a D, and tCAC after an RD or RDA. None for another packet.
    ///
    /// ```
    /// # let settings = rdram::Settings::SET_H;
    /// use rdram::{Packet, Record, MASK_FULL};
    /// let rd = Packet::Rd { bank: 0, column: 1, mask: MASK_FULL };
    /// assert_eq!(Record::packet(&settings, 13, rd)?.data_instant(&settings), Some(21));
    /// assert_eq!(Record::data(25, [7; 16]).data_instant(&settings), Some(25));
    /// let prer = Packet::Prer { bank: 0 };
    /// assert_eq!(Record::packet(&settings, 24, prer)?.data_instant(&settings), None);
    /// # Ok::<(), rdram::Refusal>(())
    /// ```
    pub fn data_instant(&self, settings: &Settings) -> Option<u32> {
        match self.content {
            Content::Data(_) => Some(self.instant),
            Content::Packet { packet, .. } => match packet {
                // past the last instant a sum need not be exact
                Packet::Rd { .. } | Packet::Rda { .. } => {
                    Some(self.instant.saturating_add(settings.t_cac.into()))
                }
                _ => None,
            },
        }
    }

    /// The record of 32 bytes: instant 4, kind 1, zeros 3, word 8, data 16, low byte first.
    ///
    /// # Errors
    ///
    /// [`Refusal::Settings`], then [`Refusal::Word`] for a kind above 2, a spare byte that is not 0, a
    /// word that no packet has, a packet with data or a D with a word.
    ///
    /// ```
    /// # let settings = rdram::Settings::SET_H;
    /// use rdram::{Record, Refusal};
    /// let mut bytes = Record::data(25, [7; 16]).to_bytes();
    /// assert_eq!(Record::from_bytes(&settings, &bytes)?.instant, 25);
    /// bytes[4] = 3;
    /// assert_eq!(Record::from_bytes(&settings, &bytes), Err(Refusal::Word { place: None }));
    /// # Ok::<(), Refusal>(())
    /// ```
    pub fn from_bytes(settings: &Settings, bytes: &[u8; RECORD_BYTES]) -> Result<Record, Refusal> {
        settings.check()?;
        Record::read(settings, bytes)
    }

    /// [`Record::from_bytes`] under settings that were tested.
    pub(crate) fn read(settings: &Settings, bytes: &[u8; RECORD_BYTES]) -> Result<Record, Refusal> {
        let (instant, word) = (part(bytes, 0), part(bytes, 8));
        let (instant, word) = (u32::from_le_bytes(instant), u64::from_le_bytes(word));
        let data: [u8; DUALOCT_BYTES] = part(bytes, 16);
        let no_data = data == [0; DUALOCT_BYTES];
        match bytes[4..8] {
            [0, 0, 0, 0] if no_data => Record::word(settings, instant, Kind::Row, word),
            [1, 0, 0, 0] if no_data => Record::word(settings, instant, Kind::Col, word),
            [2, 0, 0, 0] if word == 0 => Ok(Record::data(instant, data)),
            _ => Err(Refusal::Word { place: None }),
        }
    }

    /// The 32 bytes of the record.
    ///
    /// ```
    /// # let settings = rdram::Settings::SET_H;
    /// use rdram::{Packet, Record};
    /// let act = Record::packet(&settings, 4, Packet::Act { bank: 0, row: 0 })?.to_bytes();
    /// assert_eq!(act[..12], [4, 0, 0, 0, 0, 0, 0, 0, 0x00, 0x10, 0x40, 0]);
    /// let d = Record::data(25, [7; 16]).to_bytes();
    /// assert_eq!((d[0], d[4], d[16]), (25, 2, 7));
    /// # Ok::<(), rdram::Refusal>(())
    /// ```
    pub fn to_bytes(&self) -> [u8; RECORD_BYTES] {
        let mut bytes = [0; RECORD_BYTES];
        bytes[..4].copy_from_slice(&self.instant.to_le_bytes());
        match self.content {
            Content::Packet { packet, word } => {
                bytes[4] = packet.kind() as u8;
                bytes[8..16].copy_from_slice(&word.to_le_bytes());
            }
            Content::Data(data) => {
                bytes[4] = 2;
                bytes[16..].copy_from_slice(&data);
            }
        }
        bytes
    }
}

impl fmt::Display for Record {
    fn fmt(&self, f: &mut fmt::Formatter<'_>) -> fmt::Result {
        match self.content {
            Content::Packet { packet, .. } => write!(f, "{} {packet}", self.instant),
            Content::Data(data) => {
                write!(f, "{} D ", self.instant)?;
                data.iter().try_for_each(|byte| write!(f, "{byte:02x}"))
            }
        }
    }
}
