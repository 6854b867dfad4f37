//! What a planner in plain Rust takes and makes, written for speed from documents 01 and 02 (a, c, d, f):
//! requests of bytes, and the records of a call.

use super::tuned_state::{Figures, FULL};

/// The most records that a request makes.
pub const RECORDS: usize = 32;

/// A refusal number.
pub type Refused = u32;
pub type Records = [[u8; 32]; RECORDS];

pub enum Request {
    Read,
    Write,
    Refresh,
    Wait,
    Flush,
    Close,
    ReadClose,
    WriteClose,
}

/// A request: its kind, its place, and its mask and data or cycles as they stand in the bytes.
pub struct Asked {
    pub kind: Request,
    pub bank: usize,
    pub row: u32,
    pub column: u32,
    pub mask: u16,
    pub low: u64,
    pub high: u64,
}

impl Asked {
    #[inline(always)]
    pub fn of(f: &Figures, request: &[u8]) -> Result<Asked, Refused> {
        let request: &[u8; 24] = request.try_into().map_err(|_| 13u32)?;
        let number = |at: usize| u64::from_le_bytes(request[at..at + 8].try_into().unwrap());
        let (head, low, high) = (number(0), number(8), number(16));
        let (kind, spare) = match head & 0xFF {
            0 => (Request::Read, head >> 40 | low | high),
            1 => (Request::Write, head & 0xFF << 40),
            2 => (Request::Refresh, head >> 8 | low | high),
            3 => (Request::Wait, head >> 8 | low >> 32 | high),
            4 => (Request::Flush, head >> 8 | low | high),
            5 => (Request::Close, head >> 8 | low | high),
            6 => (Request::ReadClose, head >> 40 | low | high),
            7 => (Request::WriteClose, head & 0xFF << 40),
            _ => return Err(2),
        };
        let asked = Asked {
            kind,
            bank: (head >> 8 & 0xFF) as usize,
            row: (head >> 16 & 0xFFFF) as u32,
            column: (head >> 32 & 0xFF) as u32,
            mask: (head >> 48) as u16,
            low,
            high,
        };
        if spare != 0 {
            return Err(3);
        }
        // The place of the other kinds is 0/0/0.
        if asked.bank > 31 {
            return Err(4);
        }
        if asked.row >= f.rows {
            return Err(5);
        }
        if asked.column >= f.columns {
            return Err(6);
        }
        Ok(asked)
    }
}

/// The records of a call.
pub struct Out<'a> {
    pub records: &'a mut Records,
    pub used: usize,
}

impl Out<'_> {
    #[inline]
    pub fn add(&mut self, at: u32, kind: u64, word: u64, low: u64, high: u64) {
        let record = &mut self.records[self.used];
        record[..8].copy_from_slice(&(kind << 32 | u64::from(at)).to_le_bytes());
        record[8..16].copy_from_slice(&word.to_le_bytes());
        record[16..24].copy_from_slice(&low.to_le_bytes());
        record[24..].copy_from_slice(&high.to_le_bytes());
        self.used += 1;
    }

    pub fn row(&mut self, f: &Figures, at: u32, bank: usize, code: u64) {
        self.add(at, 0, f.row_device | (bank as u64) << 13 | code, 0, 0);
    }

    #[inline]
    pub fn col(&mut self, f: &Figures, at: u32, cop: u64, bank: usize, column: u32, mask: u16) {
        let tail = match mask {
            FULL => f.second_device,
            mask => 0x10000 | u64::from(mask),
        };
        let place = (bank as u64) << 29 | u64::from(column) << 21;
        self.add(at, 1, f.col_device | place | cop << 17 | tail, 0, 0);
    }
}
