//! Requests.

use crate::{DUALOCT_BYTES, REQUEST_BYTES};

/// What a planner is asked for.
///
/// Bit i of a `mask` governs byte i of the `data`. [`Planner::plan`](crate::Planner::plan) tests that
/// banks are below 32 and rows and columns below those of the settings.
#[derive(Clone, Copy, Debug, PartialEq, Eq)]
pub enum Request {
    /// A read of a dualoct.
    Read {
        /// 0 to 31.
        bank: u8,
        /// Below the settings' rows.
        row: u16,
        /// Below the settings' columns.
        column: u8,
    },
    /// A write of a dualoct, which waits until a later request retires it.
    Write {
        /// 0 to 31.
        bank: u8,
        /// Below the settings' rows.
        row: u16,
        /// Below the settings' columns.
        column: u8,
        /// The bytes that are written.
        mask: u16,
        /// The dualoct.
        data: [u8; DUALOCT_BYTES],
    },
    /// A refresh of the planner's refresh bank, which then rises, modulo 32.
    Refresh,
    /// No packet for so many cycles.
    Wait {
        /// Any number; now may not pass 1,000,000,000.
        cycles: u32,
    },
    /// The waiting writes are retired; rows stay open.
    Flush,
    /// Every open bank is closed. No write may wait: send a flush first.
    Close,
    /// A read after which its bank is closed, without a ROW packet: an RDA.
    ReadClose {
        /// 0 to 31.
        bank: u8,
        /// Below the settings' rows.
        row: u16,
        /// Below the settings' columns.
        column: u8,
    },
    /// A write that is retired at once and after which its bank is closed, without a ROW packet: a WRA.
    WriteClose {
        /// 0 to 31.
        bank: u8,
        /// Below the settings' rows.
        row: u16,
        /// Below the settings' columns.
        column: u8,
        /// The bytes that are written.
        mask: u16,
        /// The dualoct.
        data: [u8; DUALOCT_BYTES],
    },
}

impl Request {
    /// The request as the library reads it: kind 1, bank 1, row 2, column 1, zero 1, mask 2,
    /// data 16, low byte first. A wait has its cycles in bytes 8 to 11.
    ///
    /// ```
    /// use rdram::Request;
    /// let write = Request::Write { bank: 31, row: 258, column: 4, mask: 3, data: [7; 16] };
    /// assert_eq!(write.to_bytes()[..9], [1, 31, 2, 1, 4, 0, 3, 0, 7]);
    /// assert_eq!(Request::Wait { cycles: 500 }.to_bytes()[..12], [3, 0, 0, 0, 0, 0, 0, 0, 244, 1, 0, 0]);
    /// ```
    pub fn to_bytes(&self) -> [u8; REQUEST_BYTES] {
        let mut bytes = [0; REQUEST_BYTES];
        bytes[0] = self.kind();
        match *self {
            Request::Read { bank, row, column } | Request::ReadClose { bank, row, column } => {
                place(&mut bytes, bank, row, column);
            }
            Request::Write {
                bank,
                row,
                column,
                mask,
                data,
            }
            | Request::WriteClose {
                bank,
                row,
                column,
                mask,
                data,
            } => {
                place(&mut bytes, bank, row, column);
                bytes[6..8].copy_from_slice(&mask.to_le_bytes());
                bytes[8..].copy_from_slice(&data);
            }
            Request::Wait { cycles } => bytes[8..12].copy_from_slice(&cycles.to_le_bytes()),
            Request::Refresh | Request::Flush | Request::Close => {}
        }
        bytes
    }

    fn kind(&self) -> u8 {
        match self {
            Request::Read { .. } => 0,
            Request::Write { .. } => 1,
            Request::Refresh => 2,
            Request::Wait { .. } => 3,
            Request::Flush => 4,
            Request::Close => 5,
            Request::ReadClose { .. } => 6,
            Request::WriteClose { .. } => 7,
        }
    }
}

/// Bank, row and column.
fn place(bytes: &mut [u8; REQUEST_BYTES], bank: u8, row: u16, column: u8) {
    (bytes[1], bytes[4]) = (bank, column);
    bytes[2..4].copy_from_slice(&row.to_le_bytes());
}
