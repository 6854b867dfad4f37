//! Flat memory (document 01, "Flat memory and whole runs"): an array that is fed the plan calls. It
//! sees neither planner nor packets, and a read or write with close is to it one without.

use crate::plan_streams::{READ, READ_CLOSE, WRITE, WRITE_CLOSE};
use crate::reference::{number, COLUMNS, ROWS};

pub struct FlatMemory {
    rows: usize,
    columns: usize,
    pub bytes: Vec<u8>,
}

impl FlatMemory {
    /// The memory of these settings, at first with these bytes.
    pub fn new(numbers: &[u16; 16], bytes: Vec<u8>) -> FlatMemory {
        let (rows, columns) = (numbers[ROWS].into(), numbers[COLUMNS].into());
        assert_eq!(bytes.len(), rows * columns * 512);
        FlatMemory {
            rows,
            columns,
            bytes,
        }
    }

    /// The first byte of the dualoct of a read or write.
    pub fn place(&self, request: &[u8]) -> usize {
        let (bank, column) = (usize::from(request[1]), usize::from(request[4]));
        let row = number(&request[2..4]) as usize;
        16 * ((bank * self.rows + row) * self.columns + column)
    }

    /// A plan call: what an accepted read answers.
    pub fn call(&mut self, request: &[u8], refused: bool) -> Option<[u8; 16]> {
        if refused {
            return None;
        }
        match request[0] {
            READ | READ_CLOSE => {
                let at = self.place(request);
                Some(self.bytes[at..at + 16].try_into().unwrap())
            }
            WRITE | WRITE_CLOSE => {
                let (at, mask) = (self.place(request), number(&request[6..8]));
                for i in (0..16).filter(|i| mask >> i & 1 == 1) {
                    self.bytes[at + i] = request[8 + i];
                }
                None
            }
            // Refresh, wait, flush and close.
            _ => None,
        }
    }
}
