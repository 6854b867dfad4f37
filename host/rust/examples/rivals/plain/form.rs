//! The records that the check of the rival "plain" takes.

use crate::rivals::tuned_state::{Figures, ACT, NOCOP, PRER, RD, RDA, REFA, REFP, WR, WRA};

/// What a well formed record is.
#[derive(Clone, Copy)]
pub enum Record {
    Act {
        bank: usize,
        opens: bool,
    },
    Prer {
        bank: usize,
    },
    Rd {
        bank: usize,
        masked: bool,
        close: bool,
    },
    Wr {
        bank: usize,
        masked: bool,
        close: bool,
    },
    Nocop {
        masked: bool,
    },
    D,
}

/// What a well formed record depends on.
pub struct Form {
    rows: u64,
    columns: u64,
    row_device: u64,
    col_device: u64,
    second_device: u64,
}

impl Form {
    pub fn of(f: &Figures) -> Form {
        Form {
            rows: f.rows.into(),
            columns: f.columns.into(),
            row_device: f.row_device,
            col_device: f.col_device,
            second_device: f.second_device,
        }
    }

    fn row(&self, word: u64) -> Option<Record> {
        let bank = (word >> 13 & 31) as usize;
        match (word ^ self.row_device) & !(31 << 13) {
            PRER | REFP => Some(Record::Prer { bank }),
            REFA => Some(Record::Act { bank, opens: false }),
            rest if rest.wrapping_sub(ACT) < self.rows => Some(Record::Act { bank, opens: true }),
            _ => None,
        }
    }

    fn col(&self, word: u64) -> Option<Record> {
        let rest = word ^ self.col_device;
        let (masked, low) = (rest & 0x10000 != 0, rest & 0xFFFF);
        let low_fits = (masked & (low != 0xFFFF)) | (!masked & (low == self.second_device));
        if !low_fits | ((rest & !(31 << 29)) >> 21 >= self.columns) {
            return None;
        }
        let bank = (rest >> 29 & 31) as usize;
        let cop = rest >> 17 & 15;
        match cop {
            WR | WRA => Some(Record::Wr {
                bank,
                masked,
                close: cop == WRA,
            }),
            RD | RDA => Some(Record::Rd {
                bank,
                masked,
                close: cop == RDA,
            }),
            NOCOP if rest >> 17 == 0 => Some(Record::Nocop { masked }),
            _ => None,
        }
    }

    pub fn record(&self, bytes: &[u8; 32]) -> Option<Record> {
        let number = |at: usize| u64::from_le_bytes(bytes[at..at + 8].try_into().unwrap());
        let (kind, word) = (number(0) >> 32, number(8));
        if kind == 2 {
            return (word == 0).then_some(Record::D);
        }
        if number(16) | number(24) != 0 {
            return None;
        }
        match kind {
            0 => self.row(word),
            1 => self.col(word),
            _ => None,
        }
    }
}
