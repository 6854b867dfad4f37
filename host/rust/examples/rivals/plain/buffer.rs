//! The write buffer of the rival "plain".

use super::{put_word, word};
use crate::rivals::tuned_state::Write;

/// The waiting writes, oldest first.
#[derive(Clone, Copy)]
pub enum Buffer {
    Empty,
    One(Write),
    Two(Write, Write),
}

impl Buffer {
    pub fn older(self) -> Option<Write> {
        match self {
            Buffer::Empty => None,
            Buffer::One(x) | Buffer::Two(x, _) => Some(x),
        }
    }

    pub fn newest(self) -> Option<Write> {
        match self {
            Buffer::Empty => None,
            Buffer::One(x) | Buffer::Two(_, x) => Some(x),
        }
    }

    /// Whether some write that waits passes a test.
    pub fn any(self, test: impl Fn(Write) -> bool) -> bool {
        match self {
            Buffer::Empty => false,
            Buffer::One(x) => test(x),
            Buffer::Two(x, y) => test(x) || test(y),
        }
    }

    /// Without the older write.
    pub fn left(self) -> Buffer {
        match self {
            Buffer::Empty | Buffer::One(_) => Buffer::Empty,
            Buffer::Two(_, y) => Buffer::One(y),
        }
    }

    /// With one more; no third write waits.
    pub fn joined(self, w: Write) -> Buffer {
        match self {
            Buffer::Empty => Buffer::One(w),
            Buffer::One(x) | Buffer::Two(x, _) => Buffer::Two(x, w),
        }
    }

    /// None where the numbers of writes and of data due are of no buffer, or a byte that is not used
    /// is not 0.
    pub fn of(bytes: &[u8; 24]) -> Option<Buffer> {
        let write = |at: usize| Write {
            bank: bytes[at].into(),
            column: bytes[at + 1].into(),
            at: word(bytes, at + 4),
            closes: bytes[at + 2] == 1,
        };
        let buffer = match bytes[0] {
            0 => Buffer::Empty,
            1 => Buffer::One(write(8)),
            2 => Buffer::Two(write(8), write(16)),
            _ => return None,
        };
        (buffer.bytes(bytes[1] == 1) == *bytes).then_some(buffer)
    }

    pub fn bytes(self, due: bool) -> [u8; 24] {
        let mut bytes = [0; 24];
        let mut put = |at: usize, w: Write| {
            (bytes[at], bytes[at + 1]) = (w.bank as u8, w.column as u8);
            bytes[at + 2] = w.closes.into();
            put_word(&mut bytes, at + 4, w.at);
        };
        let count = match self {
            Buffer::Empty => 0,
            Buffer::One(x) => {
                put(8, x);
                1
            }
            Buffer::Two(x, y) => {
                put(8, x);
                put(16, y);
                2
            }
        };
        (bytes[0], bytes[1]) = (count, due.into());
        bytes
    }
}
