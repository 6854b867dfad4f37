//! The device model of the rival "plain".

use super::{half, put_half, Bank, Buffer, Channel};
use crate::rivals::tuned_model::{Event, MODEL_BYTES};
use crate::rivals::tuned_records::{dualoct, received, refused, Record, Refused};
use crate::rivals::tuned_state::{beside, Figures, Write, BASE, FULL, MOST};

#[derive(Clone, Copy)]
pub struct Model {
    channel: Channel,
    refr: u16,
    /// The data of the older and the newer waiting write.
    data: [u8; 16],
    second: [u8; 16],
}

fn rule(number: u32, holds: bool) -> Result<(), u32> {
    if holds {
        Ok(())
    } else {
        Err(number)
    }
}

impl Model {
    pub fn fresh() -> Model {
        Model {
            channel: Channel::fresh(),
            refr: 0,
            data: [0; 16],
            second: [0; 16],
        }
    }

    /// The next model, and what the record did. A refused call leaves store and answer.
    pub fn step(
        mut self,
        f: &Figures,
        store: &mut [u8],
        record: &[u8],
        answer: &mut [u8],
    ) -> Result<(Model, Event), Refused> {
        let (at, record) = received(f, store, record)?;
        let at = at.wrapping_sub(BASE); // out of range where it wraps
        if let Err(rule) = self.judge(f, at, &record) {
            return Err(Refused { number: 11, rule });
        }
        let event = self.take(f, at, record, store, answer)?;
        Ok((self, event))
    }

    // ---- Rules: each answers the lowest that is broken ----

    fn judge(&self, f: &Figures, at: u32, record: &Record) -> Result<(), u32> {
        let last = self.channel.last;
        let (from, delay) = match record {
            Record::Rd { close: true, .. } => (last, f.cac.max(f.offp)),
            Record::Rd { .. } => (last, f.cac),
            Record::Wr { .. } => (last, f.cwd),
            Record::D { .. } => (0, 0),
            _ => (last, 0),
        };
        rule(1, at >= from.max(1) && at <= MOST - delay)?;
        match *record {
            Record::Act { bank, .. } | Record::Refa { bank } => self.judge_opening(f, at, bank),
            Record::Prer { bank } => self.judge_prer(f, at, bank),
            Record::Rd {
                bank, mask, close, ..
            } => self.judge_rd(f, at, bank, mask, close),
            Record::Wr { bank, mask, .. } => self.judge_other(f, at, Some(bank), mask),
            Record::Nocop { mask } => self.judge_other(f, at, None, mask),
            Record::D { .. } => {
                let newest = self.channel.buffer.newest().filter(|_| self.due());
                rule(15, newest.is_some_and(|w| at == w.at + f.cwd))
            }
        }
    }

    fn judge_opening(&self, f: &Figures, at: u32, bank: usize) -> Result<(), u32> {
        let ch = &self.channel;
        rule(2, at >= ch.rule_2())?;
        rule(4, ch.near(f, bank).iter().all(|t| t.bank == Bank::Closed))?;
        rule(5, at >= ch.rule_5(f, bank))?;
        rule(7, at >= ch.rule_7(f, bank))?;
        rule(15, !self.due())?;
        rule(17, self.row_in_time(at))
    }

    fn row_in_time(&self, at: u32) -> bool {
        at >= self.channel.last_implied && !self.channel.buffer.any(|w| w.closes)
    }

    fn judge_prer(&self, f: &Figures, at: u32, bank: usize) -> Result<(), u32> {
        let (ch, (below, above)) = (&self.channel, beside(f, bank));
        let near = |w: Write| (below..=above).contains(&w.bank);
        rule(2, at >= ch.rule_2())?;
        rule(6, at >= ch.rule_6(f, bank))?;
        rule(8, at >= ch.rule_8(f))?;
        rule(13, at >= ch.rule_13(f, bank))?;
        rule(14, !ch.buffer.any(near))?;
        rule(15, !self.due())?;
        rule(17, self.row_in_time(at))
    }

    fn judge_rd(
        &self,
        f: &Figures,
        at: u32,
        bank: usize,
        mask: u16,
        close: bool,
    ) -> Result<(), u32> {
        let (ch, prer) = (&self.channel, close.then_some(bank));
        rule(3, at >= ch.rule_3(f))?;
        self.judge_implied(f, at, prer)?;
        rule(9, self.row(bank).is_some())?;
        rule(10, at >= ch.rule_10_rd(f, bank))?;
        rule(12, !matches!(ch.buffer, Buffer::Two(..)))?;
        rule(13, self.implied_in_time(f, at, prer))?;
        rule(14, !close || !ch.buffer.any(|w| w.bank == bank))?;
        rule(15, !self.due())?;
        rule(16, mask == FULL)
    }

    /// Rules 6 and 8 of the PRER of a bank, if any, that a packet implies.
    fn judge_implied(&self, f: &Figures, at: u32, bank: Option<usize>) -> Result<(), u32> {
        let Some(bank) = bank else {
            return Ok(());
        };
        rule(6, at + f.offp >= self.channel.rule_6(f, bank))?;
        rule(8, at + f.offp >= self.channel.rule_8(f))
    }

    /// Rule 13 of it.
    fn implied_in_time(&self, f: &Figures, at: u32, bank: Option<usize>) -> bool {
        bank.is_none_or(|bank| at + f.offp >= self.channel.rule_13(f, bank))
    }

    /// WR of a bank, or NOCOP where there is none.
    fn judge_other(&self, f: &Figures, at: u32, wr: Option<usize>, mask: u16) -> Result<(), u32> {
        let ch = &self.channel;
        let retired = ch.retires(f, at);
        let prer = retired.filter(|w| w.closes).map(|w| w.bank);
        rule(1, prer.is_none() || at <= MOST - f.offp)?;
        rule(3, at >= ch.rule_3(f))?;
        self.judge_implied(f, at, prer)?;
        if let Some(bank) = wr {
            rule(9, self.row(bank).is_some() && prer != wr)?;
            rule(10, at >= ch.rule_10_wr(f, bank))?;
        }
        rule(10, retired.is_none_or(|w| at >= ch.rule_10_rd(f, w.bank)))?;
        rule(11, wr.is_none() || at >= ch.rule_11(f))?;
        let stays = match ch.buffer {
            Buffer::Empty => true,
            Buffer::One(_) => wr.is_some(),
            Buffer::Two(..) => false,
        };
        rule(12, retired.is_some() || stays)?;
        rule(13, self.implied_in_time(f, at, prer))?;
        let left = match ch.buffer {
            Buffer::Two(_, y) if retired.is_some() => Some(y),
            Buffer::One(x) if retired.is_none() => Some(x),
            _ => None, // two writes of which none is retired broke rule 12
        };
        rule(14, left.is_none_or(|w| prer != Some(w.bank)))?;
        rule(15, !self.due())?;
        rule(16, mask == FULL || retired.is_some())?;
        rule(17, wr.is_none() || left.is_none_or(|w| !w.closes))
    }

    fn due(&self) -> bool {
        self.channel.due
    }

    /// The row that a bank is open on.
    fn row(&self, bank: usize) -> Option<u32> {
        match self.channel.banks[bank].bank {
            Bank::Open(row) => Some(row.into()),
            Bank::Closed | Bank::Refresh => None,
        }
    }

    // ---- What a record does that breaks no rule ----

    fn retire(&mut self, f: &Figures, at: u32, mask: u16, store: &mut [u8]) -> Event {
        let Some(w) = self.channel.retire(f, at) else {
            return Event::Neither;
        };
        let row = self.row(w.bank).unwrap(); // rule 9
        let dualoct = dualoct(f, store, w.bank, row, w.column);
        for (i, (byte, new)) in dualoct.iter_mut().zip(&self.data).enumerate() {
            if mask >> i & 1 == 1 {
                *byte = *new;
            }
        }
        if w.closes {
            self.channel.imply(f, at, w.bank);
        }
        self.data = self.second;
        Event::Retired(mask.count_ones())
    }

    fn take(
        &mut self,
        f: &Figures,
        at: u32,
        record: Record,
        store: &mut [u8],
        answer: &mut [u8],
    ) -> Result<Event, Refused> {
        match record {
            Record::Act { bank, row } => self.channel.open(at, bank, Bank::Open(row)),
            Record::Refa { bank } => {
                self.channel.open(at, bank, Bank::Refresh);
                if bank == 31 {
                    self.refr = (self.refr + 1) % f.rows as u16;
                }
            }
            Record::Prer { bank } => self.channel.close(f, at, bank),
            Record::Nocop { mask } => return Ok(self.retire(f, at, mask, store)),
            Record::Wr {
                bank,
                column,
                mask,
                close: closes,
            } => {
                let event = self.retire(f, at, mask, store);
                let write = Write {
                    bank,
                    column,
                    at,
                    closes,
                };
                self.channel.buffer = self.channel.buffer.joined(write);
                self.channel.due = true;
                return Ok(event);
            }
            Record::Rd {
                bank,
                column,
                close,
                ..
            } => {
                let Some(answer) = answer.first_chunk_mut() else {
                    return refused(8);
                };
                let row = self.row(bank).unwrap(); // rule 9
                *answer = *dualoct(f, store, bank, row, column);
                self.channel.read(at, bank);
                if close {
                    self.channel.imply(f, at, bank);
                }
                return Ok(Event::Read);
            }
            Record::D { data } => {
                match self.channel.buffer {
                    Buffer::Two(..) => self.second = data,
                    _ => self.data = data,
                }
                self.channel.due = false;
            }
        }
        Ok(Event::Neither)
    }

    // ---- State bytes ----

    /// None where the bytes are of no buffer, or a byte that is not used is not 0.
    fn decode(state: &[u8; MODEL_BYTES]) -> Option<Model> {
        let model = Model {
            channel: Channel::decode(state.first_chunk().unwrap())?,
            refr: half(state, 752),
            data: state[760..776].try_into().unwrap(),
            second: state[776..].try_into().unwrap(),
        };
        (state[754..760] == [0; 6]).then_some(model)
    }

    /// Whether refusal 1 has nothing against the model.
    fn valid(&self, f: &Figures) -> bool {
        self.channel.valid(f) && u32::from(self.refr) < f.rows
    }

    pub fn encode(&self, state: &mut [u8; MODEL_BYTES]) {
        self.channel.encode(state.first_chunk_mut().unwrap());
        state[752..].fill(0);
        put_half(state, 752, self.refr);
        state[760..776].copy_from_slice(&self.data);
        state[776..].copy_from_slice(&self.second);
    }
}

/// The call on bytes: settings and model are tested, and the next model is written.
pub fn step(
    settings: &[u8],
    state: &mut [u8],
    store: &mut [u8],
    record: &[u8],
    answer: &mut [u8],
) -> Result<Event, Refused> {
    let Some(f) = Figures::of(settings) else {
        return refused(1);
    };
    let Ok(state) = <&mut [u8; MODEL_BYTES]>::try_from(state) else {
        return refused(1);
    };
    let Some(model) = Model::decode(state) else {
        return refused(1);
    };
    if !model.valid(&f) {
        return refused(1);
    }
    let (next, event) = model.step(&f, store, record, answer)?;
    next.encode(state);
    Ok(event)
}
