//! The planner of the rival "plain".

use super::{half, is_instant, put_half, put_word, word, Bank, Buffer, Channel};
use crate::rivals::tuned_plan::STATE_BYTES;
use crate::rivals::tuned_requests::{Asked, Out, Refused, Request, RECORDS};
use crate::rivals::tuned_state::{
    beside, Figures, Write, ACT, BASE, FULL, MOST, NOCOP, PRER, RD, RDA, REFA, REFP, WR, WRA,
};

#[derive(Clone, Copy)]
pub struct Planner {
    channel: Channel,
    now: u32,
    refresh: u16,
    /// The masks of the older and the newer waiting write.
    mask: u16,
    second: u16,
}

impl Planner {
    pub fn fresh() -> Planner {
        Planner {
            channel: Channel::fresh(),
            now: 4 - BASE,
            refresh: 0,
            mask: 0,
            second: 0,
        }
    }

    /// The next planner and the number of records that a request makes, at the start of `room`.
    /// They are made in a list of their own, since a refused call changes nothing.
    pub fn plan(
        mut self,
        f: &Figures,
        request: &[u8],
        room: &mut [u8],
    ) -> Result<(Planner, usize), Refused> {
        let asked = Asked::of(f, request)?;
        let mut records = [[0; 32]; RECORDS];
        let mut out = Out {
            records: &mut records,
            used: 0,
        };
        let last = match asked.kind {
            Request::Read => self.read(f, &mut out, &asked, false) + f.cac,
            Request::ReadClose => self.read(f, &mut out, &asked, true) + f.cac.max(f.offp),
            Request::Write => self.write(f, &mut out, &asked, false) + f.cwd,
            Request::WriteClose => self.write_close(f, &mut out, &asked),
            Request::Refresh => self.refresh(f, &mut out),
            Request::Flush => self.flush(f, &mut out),
            Request::Close => self.close_all(f, &mut out).ok_or(15u32)?,
            Request::Wait => self.wait(asked.low).ok_or(7u32)?,
        };
        let used = out.used;
        if last > MOST {
            return Err(7);
        }
        if room.len() / 32 < used {
            return Err(8);
        }
        room[..32 * used].copy_from_slice(records[..used].as_flattened());
        Ok((self, used))
    }

    // ---- Packets, each at the least instant that the rules allow; each answers it ----

    fn from(&self) -> u32 {
        self.now.max(self.channel.last)
    }

    /// Rules 1, 2 and 17.
    fn row_from(&self) -> u32 {
        let ch = &self.channel;
        self.from().max(ch.rule_2()).max(ch.last_implied)
    }

    /// ACT or REFA.
    fn open(&mut self, f: &Figures, bank: usize, state: Bank) -> u32 {
        let ch = &self.channel;
        let at = self
            .row_from()
            .max(ch.rule_5(f, bank))
            .max(ch.rule_7(f, bank));
        self.channel.open(at, bank, state);
        self.now = at;
        at
    }

    /// PRER or REFP.
    fn precharge(&mut self, f: &Figures, out: &mut Out, bank: usize, code: u64) {
        let ch = &self.channel;
        let at = self
            .row_from()
            .max(ch.rule_6(f, bank))
            .max(ch.rule_8(f))
            .max(ch.rule_13(f, bank));
        self.channel.close(f, at, bank);
        self.now = at;
        out.row(f, at + BASE, bank, code);
    }

    /// Retires the write, if any, that a packet other than RD retires at an instant; answers the mask
    /// that the packet carries for it.
    fn retire(&mut self, f: &Figures, at: u32) -> u16 {
        self.now = at;
        let Some(w) = self.channel.retire(f, at) else {
            return FULL;
        };
        if w.closes {
            self.channel.imply(f, at, w.bank);
        }
        std::mem::replace(&mut self.mask, self.second)
    }

    /// NOCOPs while the waiting writes are such.
    fn nocops(&mut self, f: &Figures, out: &mut Out, such: impl Fn(Buffer) -> bool) {
        while let Some(w) = self.channel.buffer.older() {
            if !such(self.channel.buffer) {
                return;
            }
            let ch = &self.channel;
            let mut at = self.from().max(ch.rule_3(f)).max(ch.retire_from(f, w));
            if w.closes {
                at = at.max(ch.implied_from(f, w.bank));
            }
            let mask = self.retire(f, at);
            out.col(f, at + BASE, NOCOP, 0, 0, mask);
        }
    }

    // ---- Requests: each answers now ----

    /// Closes the open ones of some banks.
    fn close(&mut self, f: &Figures, out: &mut Out, banks: std::ops::RangeInclusive<usize>) {
        for bank in banks {
            if self.channel.banks[bank].bank != Bank::Closed {
                self.nocops(f, out, |buffer| buffer.any(|w| w.bank == bank));
                self.precharge(f, out, bank, PRER);
            }
        }
    }

    fn close_near(&mut self, f: &Figures, out: &mut Out, bank: usize) {
        let (below, above) = beside(f, bank);
        self.close(f, out, below..=above);
    }

    fn reach(&mut self, f: &Figures, out: &mut Out, asked: &Asked) {
        let open = Bank::Open(asked.row as u16);
        if self.channel.banks[asked.bank].bank != open {
            self.close_near(f, out, asked.bank);
            let at = self.open(f, asked.bank, open);
            out.row(f, at + BASE, asked.bank, ACT | u64::from(asked.row));
        }
    }

    fn read(&mut self, f: &Figures, out: &mut Out, asked: &Asked, close: bool) -> u32 {
        let (bank, column) = (asked.bank, asked.column);
        self.reach(f, out, asked);
        let own = |w: Write| w.bank == bank && (close || w.column == column);
        let two = |buffer: Buffer| matches!(buffer, Buffer::Two(..));
        self.nocops(f, out, |buffer| two(buffer) || buffer.any(own));
        let ch = &self.channel;
        let mut at = self.from().max(ch.rule_3(f)).max(ch.rule_10_rd(f, bank));
        if close {
            at = at.max(ch.implied_from(f, bank));
        }
        self.channel.read(at, bank);
        self.now = at;
        if close {
            self.channel.imply(f, at, bank);
        }
        out.col(
            f,
            at + BASE,
            if close { RDA } else { RD },
            bank,
            column,
            FULL,
        );
        at
    }

    /// Answers the latest instant: of its D, or of the implied PRER.
    fn write_close(&mut self, f: &Figures, out: &mut Out, asked: &Asked) -> u32 {
        let data = self.write(f, out, asked, true) + f.cwd;
        self.nocops(f, out, |_| true);
        data.max(self.now + f.offp)
    }

    fn write(&mut self, f: &Figures, out: &mut Out, asked: &Asked, closes: bool) -> u32 {
        let (bank, column) = (asked.bank, asked.column);
        self.reach(f, out, asked);
        let ch = &self.channel;
        let from = self
            .from()
            .max(ch.rule_3(f))
            .max(ch.rule_10_wr(f, bank))
            .max(ch.rule_11(f));
        // Beside a single write a WR need not wait until that one retires.
        let at = match ch.buffer {
            Buffer::Empty => from,
            Buffer::One(x) if from < x.at + f.rtr => from,
            Buffer::One(x) | Buffer::Two(x, _) => from.max(ch.retire_from(f, x)),
        };
        let mask = self.retire(f, at);
        match self.channel.buffer {
            Buffer::Empty => self.mask = asked.mask,
            _ => self.second = asked.mask,
        }
        let write = Write {
            bank,
            column,
            at,
            closes,
        };
        self.channel.buffer = self.channel.buffer.joined(write);
        out.col(
            f,
            at + BASE,
            if closes { WRA } else { WR },
            bank,
            column,
            mask,
        );
        out.add(at + BASE + f.cwd, 2, 0, asked.low, asked.high);
        at
    }

    fn refresh(&mut self, f: &Figures, out: &mut Out) -> u32 {
        let bank = usize::from(self.refresh);
        self.close_near(f, out, bank);
        let at = self.open(f, bank, Bank::Refresh);
        out.row(f, at + BASE, bank, REFA);
        self.precharge(f, out, bank, REFP);
        self.refresh = (self.refresh + 1) % 32;
        self.now
    }

    fn flush(&mut self, f: &Figures, out: &mut Out) -> u32 {
        self.nocops(f, out, |_| true);
        self.now
    }

    /// None where a write waits. Stops after the last open bank.
    fn close_all(&mut self, f: &Figures, out: &mut Out) -> Option<u32> {
        if self.channel.buffer.older().is_some() {
            return None;
        }
        let open = |bank: &usize| self.channel.banks[*bank].bank != Bank::Closed;
        if let Some(last) = (0..32).rfind(open) {
            self.close(f, out, 0..=last);
        }
        Some(self.now)
    }

    fn wait(&mut self, cycles: u64) -> Option<u32> {
        self.now = u32::try_from(u64::from(self.now) + cycles).ok()?;
        Some(self.now)
    }

    // ---- State bytes ----

    /// None where the bytes are of no buffer, or a byte that is not used is not 0.
    fn decode(state: &[u8; STATE_BYTES]) -> Option<Planner> {
        let planner = Planner {
            channel: Channel::decode(state.first_chunk().unwrap())?,
            now: word(state, 752),
            refresh: half(state, 756),
            mask: half(state, 760),
            second: half(state, 762),
        };
        (state[758..760] == [0; 2] && state[764..] == [0; 4]).then_some(planner)
    }

    /// Whether refusal 1 has nothing against the planner.
    fn valid(&self, f: &Figures) -> bool {
        let ch = &self.channel;
        ch.valid(f)
            && ch.banks.iter().all(|t| t.bank != Bank::Refresh)
            && !ch.due
            && !ch.buffer.any(|w| w.closes)
            && is_instant(self.now)
            && self.refresh < 32
    }

    pub fn encode(&self, state: &mut [u8; STATE_BYTES]) {
        self.channel.encode(state.first_chunk_mut().unwrap());
        state[752..].fill(0);
        put_word(state, 752, self.now);
        put_half(state, 756, self.refresh);
        put_half(state, 760, self.mask);
        put_half(state, 762, self.second);
    }
}

/// The call on bytes: settings, planner and request are tested, and the next planner is written.
pub fn plan(
    settings: &[u8],
    state: &mut [u8],
    request: &[u8],
    room: &mut [u8],
) -> Result<usize, Refused> {
    let f = Figures::of(settings).ok_or(1u32)?;
    let state: &mut [u8; STATE_BYTES] = state.try_into().map_err(|_| 1u32)?;
    let planner = Planner::decode(state).ok_or(1u32)?;
    if !planner.valid(&f) {
        return Err(1);
    }
    let (next, records) = planner.plan(&f, request, room)?;
    next.encode(state);
    Ok(records)
}
