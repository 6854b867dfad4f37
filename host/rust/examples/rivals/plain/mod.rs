//! The rival "plain". Planner and device model have the forms that document 01 names: a bank is an
//! enum in a struct with its last instants, in an array of structs; planner and model are taken by
//! value, and the next one is handed back. Log and checker are written for speed. Settings, requests,
//! words and records are those of the rival "tuned" (`tests/compare/tuned_*.rs`), whose channel is a
//! struct of arrays.

pub mod buffer;
mod check_bank;
pub mod checker;
mod form;
pub mod log;
pub mod model;
pub mod planner;

pub use buffer::Buffer;

use crate::rivals::tuned_state::{beside, since, Figures, Write, MOST, UNDER_REFRESH};

pub const CHANNEL_BYTES: usize = 752;

#[derive(Clone, Copy, PartialEq, Eq)]
pub enum Bank {
    Closed,
    Open(u16),
    Refresh,
}

/// A bank with the instants of its last packets; an instant is counted from `BASE`, as in the bytes,
/// and 0 for never.
#[derive(Clone, Copy)]
pub struct Track {
    pub bank: Bank,
    /// ACT or REFA.
    pub opened: u32,
    pub act: u32,
    /// PRER, implied ones too, or REFP to it, or that closed it.
    pub pre: u32,
    pub rd: u32,
    pub retire: u32,
}

/// Banks, last instants and write buffer.
#[derive(Clone, Copy)]
pub struct Channel {
    pub banks: [Track; 32],
    pub last: u32,
    pub last_row: u32,
    pub last_col: u32,
    pub last_pre: u32,
    pub last_rd: u32,
    pub last_implied: u32,
    pub buffer: Buffer,
    /// Whether the data of the newest write have not come.
    pub due: bool,
}

/// The latest that some last instants and a distance ask.
fn latest(instants: impl Iterator<Item = u32>, gap: u32) -> u32 {
    since(instants.max().unwrap_or(0), gap)
}

impl Channel {
    pub fn fresh() -> Channel {
        Channel {
            banks: [Track::CLOSED; 32],
            last: 0,
            last_row: 0,
            last_col: 0,
            last_pre: 0,
            last_rd: 0,
            last_implied: 0,
            buffer: Buffer::Empty,
            due: false,
        }
    }

    /// A bank and its neighbours.
    pub fn near(&self, f: &Figures, bank: usize) -> &[Track] {
        let (below, above) = beside(f, bank);
        &self.banks[below..=above]
    }

    /// The write that a COL packet other than RD retires at an instant.
    pub fn retires(&self, f: &Figures, at: u32) -> Option<Write> {
        self.buffer.older().filter(|w| at >= w.at + f.rtr)
    }

    // ---- The least instants that the rules allow ----

    pub fn rule_2(&self) -> u32 {
        since(self.last_row, 4)
    }

    pub fn rule_3(&self, f: &Figures) -> u32 {
        since(self.last_col, f.cc)
    }

    pub fn rule_5(&self, f: &Figures, bank: usize) -> u32 {
        let (below, above) = beside(f, bank);
        let near = latest(self.near(f, bank).iter().map(|t| t.opened), f.rc);
        let others = self.banks[..below].iter().chain(&self.banks[above + 1..]);
        near.max(latest(others.map(|t| t.opened), f.rr))
    }

    pub fn rule_6(&self, f: &Figures, bank: usize) -> u32 {
        latest(self.near(f, bank).iter().map(|t| t.opened), f.ras)
    }

    pub fn rule_7(&self, f: &Figures, bank: usize) -> u32 {
        latest(self.near(f, bank).iter().map(|t| t.pre), f.rp)
    }

    pub fn rule_8(&self, f: &Figures) -> u32 {
        since(self.last_pre, f.pp)
    }

    pub fn rule_10_rd(&self, f: &Figures, bank: usize) -> u32 {
        since(self.banks[bank].act, f.rcd)
    }

    pub fn rule_10_wr(&self, f: &Figures, bank: usize) -> u32 {
        since(self.banks[bank].act, f.act_to_wr)
    }

    pub fn rule_11(&self, f: &Figures) -> u32 {
        since(self.last_rd, f.rd_to_wr)
    }

    /// Rules 10 and 12 of the retire of a write.
    pub fn retire_from(&self, f: &Figures, w: Write) -> u32 {
        self.rule_10_rd(f, w.bank).max(w.at + f.rtr)
    }

    pub fn rule_13(&self, f: &Figures, bank: usize) -> u32 {
        let near = self.near(f, bank).iter();
        latest(near.clone().map(|t| t.rd), f.rdp).max(latest(near.map(|t| t.retire), f.rtp))
    }

    /// Rules 6, 8 and 13 of a packet that implies a PRER of a bank.
    pub fn implied_from(&self, f: &Figures, bank: usize) -> u32 {
        let prer = self
            .rule_6(f, bank)
            .max(self.rule_8(f))
            .max(self.rule_13(f, bank));
        prer.saturating_sub(f.offp)
    }

    // ---- What a packet changes ----

    /// ACT on a row, or REFA.
    pub fn open(&mut self, at: u32, bank: usize, state: Bank) {
        let t = &mut self.banks[bank];
        (t.bank, t.opened) = (state, at);
        if let Bank::Open(_) = state {
            t.act = at;
        }
        (self.last, self.last_row) = (at, at);
    }

    /// PRER or REFP.
    pub fn close(&mut self, f: &Figures, at: u32, bank: usize) {
        self.close_banks(f, at, bank);
        (self.last, self.last_row) = (at, at);
    }

    /// The PRER that a packet at an instant implies.
    pub fn imply(&mut self, f: &Figures, at: u32, bank: usize) {
        self.close_banks(f, at + f.offp, bank);
        self.last_implied = at + f.offp;
    }

    fn close_banks(&mut self, f: &Figures, at: u32, bank: usize) {
        let (below, above) = beside(f, bank);
        for x in below..=above {
            let t = &mut self.banks[x];
            if x == bank || t.bank != Bank::Closed {
                (t.bank, t.pre) = (Bank::Closed, at);
            }
        }
        self.last_pre = at;
    }

    pub fn read(&mut self, at: u32, bank: usize) {
        self.banks[bank].rd = at;
        (self.last, self.last_col, self.last_rd) = (at, at, at);
    }

    /// A COL packet other than RD; answers the write that it retires.
    pub fn retire(&mut self, f: &Figures, at: u32) -> Option<Write> {
        (self.last, self.last_col) = (at, at);
        let retired = self.retires(f, at)?;
        self.banks[retired.bank].retire = at;
        self.buffer = self.buffer.left();
        Some(retired)
    }

    // ---- Bytes ----

    /// None where the bytes from 728 on are of no buffer.
    pub fn decode(bytes: &[u8; CHANNEL_BYTES]) -> Option<Channel> {
        let mut banks = [Track::CLOSED; 32];
        for (x, t) in banks.iter_mut().enumerate() {
            *t = Track {
                bank: Bank::of(half(bytes, 640 + 2 * x)),
                opened: word(bytes, 4 * x),
                act: word(bytes, 128 + 4 * x),
                pre: word(bytes, 256 + 4 * x),
                rd: word(bytes, 384 + 4 * x),
                retire: word(bytes, 512 + 4 * x),
            };
        }
        Some(Channel {
            banks,
            last: word(bytes, 704),
            last_row: word(bytes, 708),
            last_col: word(bytes, 712),
            last_pre: word(bytes, 716),
            last_rd: word(bytes, 720),
            last_implied: word(bytes, 724),
            buffer: Buffer::of(bytes.last_chunk().unwrap())?,
            due: bytes[729] == 1,
        })
    }

    /// Whether refusal 1 has nothing against the channel.
    pub fn valid(&self, f: &Figures) -> bool {
        let closed = |t: &Track| t.bank == Bank::Closed;
        let apart = |pair: &[Track]| pair.iter().any(closed);
        let runs_of = |n: usize| self.banks.chunks(n).all(|run| run.windows(2).all(apart));
        let runs_apart = match f.run {
            15 => runs_of(16),
            31 => runs_of(32),
            _ => true,
        };
        is_last(self.last)
            && is_last(self.last_row)
            && is_last(self.last_col)
            && is_last(self.last_pre)
            && is_last(self.last_rd)
            && is_last(self.last_implied)
            && self.banks.iter().all(|t| t.valid(f))
            && runs_apart
            && !self.buffer.any(|w| !self.write_valid(f, w))
            && !(self.due && self.buffer.older().is_none())
    }

    fn write_valid(&self, f: &Figures, w: Write) -> bool {
        w.bank < 32
            && w.column < f.columns
            && is_instant(w.at)
            && matches!(self.banks[w.bank].bank, Bank::Open(_))
    }

    pub fn encode(&self, bytes: &mut [u8; CHANNEL_BYTES]) {
        for (x, t) in self.banks.iter().enumerate() {
            put_word(bytes, 4 * x, t.opened);
            put_word(bytes, 128 + 4 * x, t.act);
            put_word(bytes, 256 + 4 * x, t.pre);
            put_word(bytes, 384 + 4 * x, t.rd);
            put_word(bytes, 512 + 4 * x, t.retire);
            put_half(bytes, 640 + 2 * x, t.bank.tag());
        }
        put_word(bytes, 704, self.last);
        put_word(bytes, 708, self.last_row);
        put_word(bytes, 712, self.last_col);
        put_word(bytes, 716, self.last_pre);
        put_word(bytes, 720, self.last_rd);
        put_word(bytes, 724, self.last_implied);
        *bytes.last_chunk_mut().unwrap() = self.buffer.bytes(self.due);
    }
}

impl Bank {
    fn of(tag: u16) -> Bank {
        match tag {
            0 => Bank::Closed,
            UNDER_REFRESH => Bank::Refresh,
            tag => Bank::Open(tag - 1),
        }
    }

    fn tag(self) -> u16 {
        match self {
            Bank::Closed => 0,
            Bank::Open(row) => row + 1,
            Bank::Refresh => UNDER_REFRESH,
        }
    }
}

impl Track {
    const CLOSED: Track = Track {
        bank: Bank::Closed,
        opened: 0,
        act: 0,
        pre: 0,
        rd: 0,
        retire: 0,
    };

    fn valid(&self, f: &Figures) -> bool {
        let row_fits = match self.bank {
            Bank::Open(row) => u32::from(row) < f.rows,
            Bank::Closed | Bank::Refresh => true,
        };
        row_fits
            && is_last(self.opened)
            && is_last(self.act)
            && is_last(self.pre)
            && is_last(self.rd)
            && is_last(self.retire)
    }
}

pub fn is_instant(at: u32) -> bool {
    (1..=MOST).contains(&at)
}

fn is_last(at: u32) -> bool {
    at <= MOST
}

pub fn word(bytes: &[u8], at: usize) -> u32 {
    u32::from_le_bytes(bytes[at..at + 4].try_into().unwrap())
}

pub fn half(bytes: &[u8], at: usize) -> u16 {
    u16::from_le_bytes(bytes[at..at + 2].try_into().unwrap())
}

pub fn put_word(bytes: &mut [u8], at: usize, number: u32) {
    bytes[at..at + 4].copy_from_slice(&number.to_le_bytes());
}

pub fn put_half(bytes: &mut [u8], at: usize, number: u16) {
    bytes[at..at + 2].copy_from_slice(&number.to_le_bytes());
}
