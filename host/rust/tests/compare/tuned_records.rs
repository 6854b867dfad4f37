//! What a device model in plain Rust takes, written for speed from documents 01 and 02 (a, f): records of
//! bytes, and the dualocts of a store.

use super::tuned_state::{Figures, ACT, FULL, NOCOP, PRER, RD, RDA, REFA, REFP, WR, WRA};

/// The number of a refusal, and the rule where it is 11.
#[derive(Clone, Copy, Debug, PartialEq, Eq)]
pub struct Refused {
    pub number: u32,
    pub rule: u32,
}

pub fn refused<T>(number: u32) -> Result<T, Refused> {
    Err(Refused { number, rule: 0 })
}

pub type Dualoct = [u8; 16];

/// What a well formed record is.
#[derive(Clone, Copy)]
pub enum Record {
    Act {
        bank: usize,
        row: u16,
    },
    Refa {
        bank: usize,
    },
    /// PRER or REFP.
    Prer {
        bank: usize,
    },
    /// RD, or RDA, which closes its bank.
    Rd {
        bank: usize,
        column: u32,
        mask: u16,
        close: bool,
    },
    /// WR, or WRA, whose retire closes its bank.
    Wr {
        bank: usize,
        column: u32,
        mask: u16,
        close: bool,
    },
    Nocop {
        mask: u16,
    },
    D {
        data: Dualoct,
    },
}

fn row_record(f: &Figures, word: u64) -> Option<Record> {
    let bank = (word >> 13 & 31) as usize;
    match (word ^ f.row_device) & !(31 << 13) {
        PRER | REFP => Some(Record::Prer { bank }),
        REFA => Some(Record::Refa { bank }),
        rest if rest.wrapping_sub(ACT) < f.rows.into() => {
            let row = (rest - ACT) as u16;
            Some(Record::Act { bank, row })
        }
        _ => None,
    }
}

fn col_record(f: &Figures, word: u64) -> Option<Record> {
    let rest = word ^ f.col_device;
    let low = rest & 0x1FFFF;
    let mask = if low == f.second_device {
        FULL
    } else if (0x10000..0x1FFFF).contains(&low) {
        low as u16
    } else {
        return None;
    };
    let column = (rest & !(31 << 29)) >> 21;
    if column >= f.columns.into() {
        return None;
    }
    let (bank, column) = ((rest >> 29 & 31) as usize, column as u32);
    let cop = rest >> 17 & 15;
    match cop {
        WR | WRA => Some(Record::Wr {
            bank,
            column,
            mask,
            close: cop == WRA,
        }),
        RD | RDA => Some(Record::Rd {
            bank,
            column,
            mask,
            close: cop == RDA,
        }),
        NOCOP if rest >> 17 == 0 => Some(Record::Nocop { mask }),
        _ => None,
    }
}

fn record_of(f: &Figures, bytes: &[u8; 32]) -> Option<Record> {
    let number = |at: usize| u64::from_le_bytes(bytes[at..at + 8].try_into().unwrap());
    let (kind, word) = (number(0) >> 32, number(8));
    if kind == 2 {
        let data = bytes[16..].try_into().unwrap();
        return (word == 0).then_some(Record::D { data });
    }
    if number(16) | number(24) != 0 {
        return None;
    }
    match kind {
        0 => row_record(f, word),
        1 => col_record(f, word),
        _ => None,
    }
}

/// The record of a call and its instant, by refusals 9, 13 and 10.
#[inline(always)]
pub fn received(f: &Figures, store: &[u8], record: &[u8]) -> Result<(u32, Record), Refused> {
    if store.len() != 512 * (f.rows * f.columns) as usize {
        return refused(9);
    }
    let Ok(bytes) = <&[u8; 32]>::try_from(record) else {
        return refused(13);
    };
    let Some(record) = record_of(f, bytes) else {
        return refused(10);
    };
    Ok((u32::from_le_bytes(bytes[..4].try_into().unwrap()), record))
}

/// The dualoct of a column in a row of a bank.
pub fn dualoct<'a>(
    f: &Figures,
    store: &'a mut [u8],
    bank: usize,
    row: u32,
    column: u32,
) -> &'a mut Dualoct {
    let row = bank as u32 * f.rows + row;
    let at = 16 * (row * f.columns + column) as usize;
    (&mut store[at..at + 16]).try_into().unwrap()
}
