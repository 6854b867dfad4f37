//! The device model in plain Rust, written for speed from documents 01 and 02 (a, c, f): banks, write
//! buffer and last instants in a struct of numbers, and no list (the rival "tuned" of the benches). It goes on from
//! any state that is not refused, also one that no run reaches.

use super::tuned_records::{dualoct, received, refused, Dualoct, Record, Refused};
use super::tuned_state::{beside, Channel, Figures, Write, BASE, MOST, UNDER_REFRESH};

pub const MODEL_BYTES: usize = 792;

#[derive(Clone, Copy, Debug, PartialEq, Eq)]
pub enum Event {
    Neither,
    Read,
    Retired(u32),
}

#[derive(Clone)]
pub struct Model {
    channel: Channel,
    refr: u16,
    /// The data of the older and the newer waiting write.
    data: Dualoct,
    second: Dualoct,
}

impl Model {
    pub fn fresh() -> Model {
        Model {
            channel: Channel::FRESH,
            refr: 0,
            data: [0; 16],
            second: [0; 16],
        }
    }

    // ---- What a record does that breaks no rule ----

    fn row_taken(&mut self, at: u32) {
        (self.channel.last, self.channel.last_row) = (at, at);
    }

    fn open(&mut self, at: u32, bank: usize, tag: u16) {
        self.channel.opened[bank] = at;
        self.channel.tags[bank] = tag;
        // Rule 5 has put it after all others.
        self.channel.last_opened = Some(at);
        self.row_taken(at);
    }

    fn close(&mut self, f: &Figures, at: u32, bank: usize) {
        let ch = &mut self.channel;
        let (below, above) = beside(f, bank);
        ch.last_pre = at;
        ch.pre[bank] = at;
        for b in below..=above {
            if ch.tags[b] != 0 {
                (ch.tags[b], ch.pre[b]) = (0, at);
            }
        }
        self.row_taken(at);
    }

    /// A COL packet other than RD.
    fn retire(&mut self, f: &Figures, at: u32, mask: u16, store: &mut [u8]) -> Event {
        (self.channel.last, self.channel.last_col) = (at, at);
        let Some(w) = self.channel.retires(f, at) else {
            return Event::Neither;
        };
        self.channel.retired(at);
        let row = row_of(self.channel.tags[w.bank & 31]);
        let dualoct = dualoct(f, store, w.bank & 31, row, w.column);
        for (i, (byte, new)) in dualoct.iter_mut().zip(&self.data).enumerate() {
            *byte = if mask >> i & 1 == 1 { *new } else { *byte };
        }
        if w.closes {
            self.channel.imply(f, at, w.bank);
        }
        self.data = self.second;
        Event::Retired(mask.count_ones())
    }

    fn read(&mut self, at: u32, bank: usize) {
        let ch = &mut self.channel;
        (ch.last, ch.last_col, ch.last_rd) = (at, at, at);
        ch.rd[bank] = at;
    }

    fn refresh(&mut self, f: &Figures, at: u32, bank: usize) {
        self.open(at, bank, UNDER_REFRESH);
        if bank == 31 {
            self.refr = (self.refr + 1) % f.rows as u16;
        }
    }

    /// Takes a record of 32 bytes.
    #[inline]
    pub fn step(
        &mut self,
        f: &Figures,
        store: &mut [u8],
        record: &[u8],
        answer: &mut [u8],
    ) -> Result<Event, Refused> {
        let (at, record) = received(f, store, record)?;
        let at = at.wrapping_sub(BASE); // out of range where it wraps
        if let Err(rule) = self.channel.judge(f, at, &record) {
            return Err(Refused { number: 11, rule });
        }
        self.take(f, at, record, store, answer)
    }

    /// Takes a record that breaks no rule.
    #[inline(always)]
    fn take(
        &mut self,
        f: &Figures,
        at: u32,
        record: Record,
        store: &mut [u8],
        answer: &mut [u8],
    ) -> Result<Event, Refused> {
        match record {
            Record::Act { bank, row } => {
                self.channel.act[bank] = at;
                self.open(at, bank, row + 1);
            }
            Record::Refa { bank } => self.refresh(f, at, bank),
            Record::Prer { bank } => self.close(f, at, bank),
            Record::D { data } => {
                match self.channel.count {
                    2 => self.second = data,
                    _ => self.data = data,
                }
                self.channel.due = false;
            }
            Record::Nocop { mask } => return Ok(self.retire(f, at, mask, store)),
            Record::Wr {
                bank,
                column,
                mask,
                close: closes,
            } => {
                let event = self.retire(f, at, mask, store);
                self.channel.joined(Write {
                    bank,
                    column,
                    at,
                    closes,
                });
                self.channel.due = true;
                return Ok(event);
            }
            Record::Rd {
                bank,
                column,
                close,
                ..
            } => {
                let Some(answer) = answer.first_chunk_mut() else {
                    return refused(8);
                };
                *answer = *dualoct(f, store, bank, row_of(self.channel.tags[bank]), column);
                self.read(at, bank);
                if close {
                    self.channel.imply(f, at, bank);
                }
                return Ok(Event::Read);
            }
        }
        Ok(Event::Neither)
    }

    // ---- State bytes ----

    /// The model of bytes that need not be one: `fits` tells.
    fn decode(state: &[u8; MODEL_BYTES]) -> Model {
        Model {
            channel: Channel::decode(state.first_chunk().unwrap()),
            refr: u16::from_le_bytes([state[752], state[753]]),
            data: state[760..776].try_into().unwrap(),
            second: state[776..].try_into().unwrap(),
        }
    }

    /// Whether the bytes are those of a model that is not refused under 1.
    fn fits(&self, f: &Figures, state: &[u8; MODEL_BYTES]) -> bool {
        let ch = &self.channel;
        let refr = u64::from_le_bytes(state[752..760].try_into().unwrap());
        // A bank under refresh comes before 0.
        let most = ch.tags.iter().fold(0, |m, tag| tag.wrapping_add(1).max(m));
        ch.lasts_are(MOST)
            & (most <= f.rows as u16 + 1)
            & ch.apart(f)
            & (refr < f.rows.into())
            & ch.buffer_fits(f, state.first_chunk().unwrap())
    }

    pub fn encode(&self, state: &mut [u8; MODEL_BYTES]) {
        self.channel.encode(state.first_chunk_mut().unwrap());
        state[752..760].copy_from_slice(&u64::from(self.refr).to_le_bytes());
        state[760..776].copy_from_slice(&self.data);
        state[776..].copy_from_slice(&self.second);
    }
}

/// The row that an open bank's tag says.
fn row_of(tag: u16) -> u32 {
    u32::from(tag) - 1
}

/// The call on bytes: settings and model are tested, and the next model is written.
pub fn step(
    settings: &[u8],
    state: &mut [u8],
    store: &mut [u8],
    record: &[u8],
    answer: &mut [u8],
) -> Result<Event, Refused> {
    let Some(f) = Figures::of(settings) else {
        return refused(1);
    };
    let Ok(state) = <&mut [u8; MODEL_BYTES]>::try_from(state) else {
        return refused(1);
    };
    let mut model = Model::decode(state);
    if !model.fits(&f, state) {
        return refused(1);
    }
    let event = model.step(&f, store, record, answer)?;
    model.encode(state);
    Ok(event)
}
