//! Streams of requests for the planner.

use crate::random::Random;
use crate::reference::{COLUMNS, ROWS};
use crate::reference_state::put;

pub const READ: u8 = 0;
pub const WRITE: u8 = 1;
pub const REFRESH: u8 = 2;
pub const WAIT: u8 = 3;
pub const FLUSH: u8 = 4;
pub const CLOSE: u8 = 5;
pub const READ_CLOSE: u8 = 6;
pub const WRITE_CLOSE: u8 = 7;

/// A request without place, mask and data.
pub fn bare(kind: u8) -> Vec<u8> {
    let mut request = vec![0; 24];
    request[0] = kind;
    request
}

pub fn read(bank: u8, row: u16, column: u8) -> Vec<u8> {
    let mut request = bare(READ);
    (request[1], request[4]) = (bank, column);
    put(&mut request, 2, 2, row.into());
    request
}

pub fn write(bank: u8, row: u16, column: u8, mask: u16, data: &[u8]) -> Vec<u8> {
    let mut request = read(bank, row, column);
    request[0] = WRITE;
    put(&mut request, 6, 2, mask.into());
    request[8..].copy_from_slice(data);
    request
}

/// Read and close of a read, write and close of a write.
pub fn closing(mut request: Vec<u8>) -> Vec<u8> {
    request[0] += READ_CLOSE;
    request
}

pub fn wait(cycles: u32) -> Vec<u8> {
    let mut request = bare(WAIT);
    put(&mut request, 8, 4, cycles.into());
    request
}

/// Requests that often meet the same banks, rows and columns.
pub struct Maker {
    rows: u16,
    columns: u16,
    banks: [u8; 4],
    row_choice: [u16; 3],
    column_choice: [u8; 3],
    /// One in so many requests is damaged, or none where it is 0.
    damaged: usize,
    /// Most requests are writes to one row.
    fills: bool,
    /// One in so many reads and writes closes its bank, or none where it is 0.
    closes: usize,
}

impl Maker {
    pub fn new(random: &mut Random, numbers: &[u16; 16]) -> Maker {
        let (rows, columns) = (numbers[ROWS], numbers[COLUMNS]);
        let (low, any) = (random.below(29) as u8, random.below(32) as u8);
        let first = random.pick(&[0, 13, 14, 15, 28, low]);
        let row = random.below(rows.into()) as u16;
        let column = random.below(columns.into()) as u8;
        Maker {
            rows,
            columns,
            banks: [first, first + 1, first + 2, any],
            row_choice: [0, rows - 1, row],
            column_choice: [0, (columns - 1) as u8, column],
            damaged: random.pick(&[0, 0, 0, 8]),
            fills: random.chance(3),
            closes: random.pick(&[0, 1, 2, 2, 4, 8]),
        }
    }

    /// Requests that are right, of which every other read or write closes its bank.
    pub fn mixed(random: &mut Random, numbers: &[u16; 16]) -> Maker {
        Maker {
            damaged: 0,
            closes: 2,
            ..Maker::new(random, numbers)
        }
    }

    fn mask(random: &mut Random) -> u16 {
        let any = random.word() as u16;
        random.pick(&[0xFFFF, 0xFFFF, any, any, 0, 3, 0x8000, 0xFFFE])
    }

    fn cycles(random: &mut Random) -> u32 {
        let (few, more) = (random.below(12) as u32, random.below(200) as u32);
        random.pick(&[0, 1, few, few, more])
    }

    fn place(&self, random: &mut Random) -> (u8, u16, u8) {
        let any = random.below(32) as u8;
        let often = random.pick(&self.banks);
        let bank = random.pick(&[often, often, often, any]);
        let row = random.pick(&self.row_choice);
        (bank, row, random.pick(&self.column_choice))
    }

    /// A request with right fields, of which reads and writes do not close their bank.
    fn plain(&self, random: &mut Random) -> Vec<u8> {
        let (bank, row, column) = self.place(random);
        if self.fills && !random.chance(3) {
            let (mask, data) = (Self::mask(random), random.bytes(16));
            return write(self.banks[0], self.row_choice[0], column, mask, &data);
        }
        match random.below(23) {
            0..8 => read(bank, row, column),
            8..15 => {
                let (mask, data) = (Self::mask(random), random.bytes(16));
                write(bank, row, column, mask, &data)
            }
            15 | 16 => bare(REFRESH),
            17 | 18 => wait(Self::cycles(random)),
            19 | 20 => bare(FLUSH),
            _ => bare(CLOSE),
        }
    }

    /// Damages a request: a field at the first value out of range, a byte, or the length.
    fn damage(&self, random: &mut Random, request: &mut Vec<u8>) {
        match random.below(8) {
            0 => request[1] = random.pick(&[31, 32, 33, 64, 255]),
            1 => put(request, 2, 2, self.rows.into()),
            2 => put(request, 4, 1, self.columns.into()),
            3 => request[0] = random.pick(&[0, 1, 2, 3, 4, 5, 6, 7, 8, 255]),
            4 => request[random.below(24)] = random.word() as u8,
            5 => request.truncate(random.below(24)),
            6 => request.extend(vec![0; 1 + random.below(24)]),
            _ => request[random.below(24)] ^= 1 << random.below(8),
        }
    }

    pub fn request(&self, random: &mut Random) -> Vec<u8> {
        let mut request = self.plain(random);
        if request[0] <= WRITE && self.closes > 0 && random.chance(self.closes) {
            request = closing(request);
        }
        if self.damaged > 0 && random.chance(self.damaged) {
            self.damage(random, &mut request);
        }
        request
    }
}

/// As many banks as a core lets be open at once: all where none are neighbours, else one of each
/// pair, in each run first the lower and then the upper.
pub fn most_banks(random: &mut Random, core: u16) -> Vec<u8> {
    if core == 2 {
        return (0..32).collect();
    }
    let pairs = if core == 0 { 8 } else { 16 }; // of a run
    let turn = [random.below(pairs + 1), random.below(pairs + 1)];
    let banks = (0..16).map(|pair| {
        let upper = pair % pairs >= turn[pair / pairs];
        (2 * pair + usize::from(upper)) as u8
    });
    banks.collect()
}
