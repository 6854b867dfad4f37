//! Iterators over the records of lists and logs, and the listing's lines.

use crate::{log_decode, log_encode, part, stamped_decode, Content, Packet, Record, Refusal};
use crate::{Settings, BLOCK_BYTES, RECORD_BYTES, SETTINGS_BYTES};
use core::fmt;
use core::iter::FusedIterator;
use core::slice::ChunksExact;

/// The answer of a call that tests its list or log whole and has no room for a copy of it.
fn tested(answer: Result<usize, Refusal>) -> Result<(), Refusal> {
    match answer {
        Ok(_) | Err(Refusal::Full) => Ok(()),
        Err(refusal) => Err(refusal),
    }
}

/// The records of `list`, whole records of 32 bytes, in their order.
///
/// Lengths and the form of each record are tested first, by the library, so that the iterator itself
/// refuses nothing. Rules are not tested: [`check`](crate::check) does that.
///
/// # Errors
///
/// In this order: [`Refusal::Settings`]; [`Refusal::Length`] for a list that is not whole records;
/// [`Refusal::Word`] with the first record that is not well formed.
///
/// ```
/// # let settings = rdram::Settings::SET_H;
/// use rdram::{records, Planner, Refusal, Request, RECORD_BYTES, REQUEST_RECORDS};
/// let mut room = [0; REQUEST_RECORDS * RECORD_BYTES];
/// let read = Request::Read { bank: 0, row: 0, column: 1 };
/// let made = Planner::fresh().plan(&settings, &read, &mut room)?;
/// let list = made.list(&room);
/// let instants: Vec<u32> = records(&settings, list)?.map(|record| record.instant).collect();
/// assert_eq!(instants, [4, 13]);
/// assert_eq!(records(&settings, list)?.len(), 2);
/// assert_eq!(records(&settings, &list[1..]).unwrap_err(), Refusal::Length);
/// # Ok::<(), Refusal>(())
/// ```
pub fn records<'a>(settings: &Settings, list: &'a [u8]) -> Result<Records<'a>, Refusal> {
    tested(log_encode(settings, list, &mut []))?;
    Ok(Records::new(settings, list))
}

/// The iterator of [`records`], and of the records that a block uses: of known size, from both ends.
///
/// ```
/// # let settings = rdram::Settings::SET_H;
/// use rdram::{records, Record};
/// let list = [4, 8, 12].map(|instant| Record::data(instant, [7; 16]).to_bytes()).concat();
/// let mut rest = records(&settings, &list)?;
/// assert_eq!(rest.next_back().map(|record| record.instant), Some(12));
/// assert_eq!((rest.len(), rest.nth(1).map(|record| record.instant)), (2, Some(8)));
/// # Ok::<(), rdram::Refusal>(())
/// ```
#[derive(Clone, Debug)]
pub struct Records<'a> {
    settings: Settings,
    rest: ChunksExact<'a, u8>,
}

impl<'a> Records<'a> {
    /// Of a list whose form was tested under the settings.
    fn new(settings: &Settings, list: &'a [u8]) -> Records<'a> {
        Records {
            settings: *settings,
            rest: list.chunks_exact(RECORD_BYTES),
        }
    }

    fn read(&self, bytes: &[u8]) -> Record {
        let record = Record::read(&self.settings, &part(bytes, 0));
        record.expect("a record whose form was tested")
    }
}

impl Iterator for Records<'_> {
    type Item = Record;

    fn next(&mut self) -> Option<Record> {
        self.rest.next().map(|bytes| self.read(bytes))
    }

    fn nth(&mut self, n: usize) -> Option<Record> {
        self.rest.nth(n).map(|bytes| self.read(bytes))
    }

    fn size_hint(&self) -> (usize, Option<usize>) {
        self.rest.size_hint()
    }
}

impl DoubleEndedIterator for Records<'_> {
    fn next_back(&mut self) -> Option<Record> {
        self.rest.next_back().map(|bytes| self.read(bytes))
    }
}

impl ExactSizeIterator for Records<'_> {}
impl FusedIterator for Records<'_> {}

/// The blocks of `log`, whole blocks of 512 bytes, in their order: of each the records that it uses.
/// `flatten` gives the records of the log one after the other.
///
/// The log is tested first, as [`log_decode`] does, so that the iterator itself refuses nothing. Rules
/// are not tested: [`check_log`](crate::check_log) does that.
///
/// # Errors
///
/// In this order: [`Refusal::Settings`]; [`Refusal::Length`] for a log that is not whole blocks;
/// [`Refusal::Block`] with the first bad block; [`Refusal::Word`] with the first bad record.
///
/// ```
/// # let settings = rdram::Settings::SET_H;
/// use rdram::{blocks, log_encode, Packet, Record, Refusal};
/// let prer = Record::packet(&settings, 4, Packet::Prer { bank: 0 })?;
/// let list = [prer.to_bytes(); 16];
/// let mut log = [0; 2 * 512];
/// log_encode(&settings, list.as_flattened(), &mut log)?;
/// let used: Vec<usize> = blocks(&settings, &log)?.map(|records| records.len()).collect();
/// assert_eq!(used, [15, 1]);
/// assert!(blocks(&settings, &log)?.flatten().all(|record| record == prer));
/// log[600] ^= 1;
/// assert_eq!(blocks(&settings, &log).unwrap_err(), Refusal::Block { place: 1 });
/// # Ok::<(), Refusal>(())
/// ```
pub fn blocks<'a>(settings: &Settings, log: &'a [u8]) -> Result<Blocks<'a>, Refusal> {
    tested(log_decode(settings, log, &mut []))?;
    Ok(Blocks::new(settings, log))
}

/// [`blocks`] of a log that carries its settings.
///
/// # Errors
///
/// In this order: [`Refusal::Length`], [`Refusal::Block`], [`Refusal::Stamp`], [`Refusal::Word`].
///
/// ```
/// use rdram::{stamped_blocks, stamped_encode, Packet, Record, Settings};
/// let settings = Settings { rows: 512, ..Settings::SET_H };
/// let act = Record::packet(&settings, 4, Packet::Act { bank: 0, row: 511 })?;
/// let mut log = [0; 512];
/// stamped_encode(&settings, &act.to_bytes(), &mut log)?;
/// assert!(stamped_blocks(&log)?.flatten().eq([act]));
/// # Ok::<(), rdram::Refusal>(())
/// ```
pub fn stamped_blocks(log: &[u8]) -> Result<Blocks<'_>, Refusal> {
    // a log without a block has no settings, and no record that would be read under any
    let settings = stamped_settings(log)?.unwrap_or(Settings::SET_H);
    Ok(Blocks::new(&settings, log))
}

/// The settings that a log carries; none where it has no block.
///
/// # Errors
///
/// In this order: [`Refusal::Length`], [`Refusal::Block`], [`Refusal::Stamp`], [`Refusal::Word`].
///
/// ```
/// use rdram::{stamped_encode, stamped_settings, Record, Settings};
/// let mut log = [0; 512];
/// stamped_encode(&Settings::SET_H, &Record::data(4, [7; 16]).to_bytes(), &mut log)?;
/// assert_eq!(stamped_settings(&log)?, Some(Settings::SET_H));
/// assert_eq!(stamped_settings(&[])?, None);
/// # Ok::<(), rdram::Refusal>(())
/// ```
pub fn stamped_settings(log: &[u8]) -> Result<Option<Settings>, Refusal> {
    tested(stamped_decode(log, &mut []))?;
    let stamp = log.get(STAMP..STAMP + SETTINGS_BYTES);
    stamp.map(|s| Settings::from_bytes(&part(s, 0))).transpose()
}

/// Where a block has its settings, and the count of the records that it uses.
const STAMP: usize = 448;
const USED: usize = 484;

/// The iterator of [`blocks`] and [`stamped_blocks`]: of known size, from both ends.
///
/// ```
/// # let settings = rdram::Settings::SET_H;
/// use rdram::{blocks, log_encode, Record};
/// let list = [Record::data(4, [7; 16]).to_bytes(); 31].concat();
/// let mut log = [0; 3 * 512];
/// log_encode(&settings, &list, &mut log)?;
/// let mut rest = blocks(&settings, &log)?;
/// assert_eq!((rest.len(), rest.next_back().map(|records| records.len())), (3, Some(1)));
/// # Ok::<(), rdram::Refusal>(())
/// ```
#[derive(Clone, Debug)]
pub struct Blocks<'a> {
    settings: Settings,
    rest: ChunksExact<'a, u8>,
}

impl<'a> Blocks<'a> {
    /// Of a log that was tested under the settings.
    fn new(settings: &Settings, log: &'a [u8]) -> Blocks<'a> {
        Blocks {
            settings: *settings,
            rest: log.chunks_exact(BLOCK_BYTES),
        }
    }

    fn read(&self, block: &'a [u8]) -> Records<'a> {
        let used = u32::from_le_bytes(part(block, USED)) as usize;
        Records::new(&self.settings, &block[..used * RECORD_BYTES])
    }
}

impl<'a> Iterator for Blocks<'a> {
    type Item = Records<'a>;

    fn next(&mut self) -> Option<Records<'a>> {
        self.rest.next().map(|block| self.read(block))
    }

    fn nth(&mut self, n: usize) -> Option<Records<'a>> {
        self.rest.nth(n).map(|block| self.read(block))
    }

    fn size_hint(&self) -> (usize, Option<usize>) {
        self.rest.size_hint()
    }
}

impl DoubleEndedIterator for Blocks<'_> {
    fn next_back(&mut self) -> Option<Self::Item> {
        self.rest.next_back().map(|block| self.read(block))
    }
}

impl ExactSizeIterator for Blocks<'_> {}
impl FusedIterator for Blocks<'_> {}

/// The lines of records as the listing prints them, without line feeds. A D shows the bank and column
/// of the latest WR or WRA before it, so give it the records of the whole list or log.
///
/// ```
/// # let settings = rdram::Settings::SET_H;
/// use rdram::{lines, records, Planner, Request, RECORD_BYTES, REQUEST_RECORDS};
/// let mut room = [0; REQUEST_RECORDS * RECORD_BYTES];
/// let write = Request::Write { bank: 0, row: 0, column: 1, mask: 3, data: [9; 16] };
/// let made = Planner::fresh().plan(&settings, &write, &mut room)?;
/// let texts = lines(records(&settings, made.list(&room))?).map(|line| line.to_string());
/// assert!(texts.eq(["4 ACT 0 0 -", "5 WR 0 1 -", "11 D 0 1 -"]));
/// # Ok::<(), rdram::Refusal>(())
/// ```
pub fn lines<I: IntoIterator<Item = Record>>(records: I) -> Lines<I::IntoIter> {
    Lines {
        records: records.into_iter(),
        write: (0, 0),
    }
}

/// A record as a line of the listing: instant, name, bank, row or column (0 if none), mask. The mask is
/// four hexadecimal digits, or `-` where M = 0 and on every ROW and D line.
///
/// ```
/// # let settings = rdram::Settings::SET_H;
/// use rdram::{lines, Packet, Record, MASK_FULL};
/// let wr = Packet::Wr { bank: 3, column: 2, mask: MASK_FULL };
/// let wr = Record::packet(&settings, 5, wr)?;
/// let d = lines([wr, Record::data(11, [7; 16])]).last().unwrap();
/// assert_eq!((d.bank, d.place, d.record.instant), (3, 2, 11));
/// assert_eq!(d.to_string(), "11 D 3 2 -");
/// # Ok::<(), rdram::Refusal>(())
/// ```
#[derive(Clone, Copy, Debug, PartialEq, Eq)]
pub struct Line {
    /// The record.
    pub record: Record,
    /// The bank that the line shows: of a D that of its write, 0 for a NOCOP.
    pub bank: u8,
    /// The row or column that it shows: of a D the column of its write, 0 where there is none.
    pub place: u16,
}

impl fmt::Display for Line {
    fn fmt(&self, f: &mut fmt::Formatter<'_>) -> fmt::Result {
        match self.record.content() {
            Content::Packet { .. } => self.record.fmt(f),
            Content::Data(_) => {
                let Line { bank, place, .. } = self;
                write!(f, "{} D {bank} {place} -", self.record.instant)
            }
        }
    }
}

/// The iterator of [`lines`]: of known size where that of the records is.
///
/// ```
/// use rdram::{lines, Record};
/// let mut rest = lines([Record::data(4, [7; 16])]);
/// assert_eq!(rest.len(), 1);
/// assert_eq!(rest.next().unwrap().to_string(), "4 D 0 0 -"); // no write before it
/// ```
#[derive(Clone, Debug)]
pub struct Lines<I> {
    records: I,
    /// Bank and column of the latest WR or WRA; 0 and 0 before any.
    write: (u8, u16),
}

impl<I> Lines<I> {
    fn line(&mut self, record: Record) -> Line {
        let (bank, place) = match record.content() {
            Content::Packet { packet, .. } => {
                let (_, bank, place, _) = packet.fields();
                if let Packet::Wr { .. } | Packet::Wra { .. } = packet {
                    self.write = (bank, place);
                }
                (bank, place)
            }
            Content::Data(_) => self.write,
        };
        Line {
            record,
            bank,
            place,
        }
    }
}

impl<I: Iterator<Item = Record>> Iterator for Lines<I> {
    type Item = Line;

    fn next(&mut self) -> Option<Line> {
        self.records.next().map(|record| self.line(record))
    }

    fn size_hint(&self) -> (usize, Option<usize>) {
        self.records.size_hint()
    }
}

impl<I: ExactSizeIterator<Item = Record>> ExactSizeIterator for Lines<I> {}
impl<I: FusedIterator<Item = Record>> FusedIterator for Lines<I> {}
