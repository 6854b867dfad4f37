//! The planner in plain Rust, written for speed from documents 01 and 02 (a, c, d, f): last instants in a
//! struct of numbers, and no list (the rival "tuned" of the benches). It plans from any state that is not
//! refused, also one that no run reaches.

use super::tuned_requests::{Asked, Out, Refused, Request, RECORDS};
use super::tuned_state::{
    beside, near, since, Channel, Figures, Write, ACT, BASE, FULL, MOST, NOCOP, PRER, RD, RDA,
    REFA, REFP, WR, WRA,
};

/// No request gets from here past the last instant: it makes at most 32 packets, each at most 64
/// after the latest instant before it, and data and implied PRERs come at most 32 later.
const SAFE: u32 = MOST - 4_096;
pub const STATE_BYTES: usize = 768;

#[derive(Clone)]
pub struct Planner {
    channel: Channel,
    /// Counted from `BASE`, as the channel's instants.
    now: u32,
    refresh: u16,
    /// The masks of the older and the newer waiting write.
    mask: u16,
    second: u16,
    /// Whether the planner came with an instant past `SAFE`.
    far: bool,
}

impl Planner {
    pub fn fresh() -> Planner {
        Planner {
            channel: Channel::FRESH,
            now: 4 - BASE,
            refresh: 0,
            mask: 0,
            second: 0,
            far: false,
        }
    }

    /// Rules 1, 2 and 17 of a ROW packet, and rules 1 and 3 of a COL packet.
    fn row_from(&self) -> u32 {
        self.now
            .max(self.channel.last)
            .max(since(self.channel.last_row, 4))
            .max(self.channel.last_implied)
    }

    fn col_from(&self, f: &Figures) -> u32 {
        self.now
            .max(self.channel.last)
            .max(since(self.channel.last_col, f.cc))
    }

    fn row_sent(&mut self, at: u32) {
        (self.now, self.channel.last, self.channel.last_row) = (at, at, at);
    }

    fn col_sent(&mut self, at: u32) {
        (self.now, self.channel.last, self.channel.last_col) = (at, at, at);
    }

    /// ACT or REFA.
    fn opening(&mut self, f: &Figures, bank: usize) -> u32 {
        let at = self
            .row_from()
            .max(since(near(f, &self.channel.opened, bank), f.rc))
            .max(self.channel.others_ask(f, bank))
            .max(since(near(f, &self.channel.pre, bank), f.rp));
        self.channel.opened[bank] = at;
        self.channel.last_opened = self.channel.last_opened.map(|last| last.max(at));
        self.row_sent(at);
        at
    }

    fn activate(&mut self, f: &Figures, out: &mut Out, bank: usize, row: u32) {
        let at = self.opening(f, bank);
        self.channel.act[bank] = at;
        self.channel.tags[bank] = row as u16 + 1;
        out.row(f, at + BASE, bank, ACT | u64::from(row));
    }

    /// PRER or REFP; the neighbours are closed.
    fn precharge(&mut self, f: &Figures, out: &mut Out, bank: usize, code: u64) {
        let at = self
            .row_from()
            .max(since(near(f, &self.channel.opened, bank), f.ras))
            .max(since(self.channel.last_pre, f.pp))
            .max(since(near(f, &self.channel.rd, bank), f.rdp))
            .max(since(near(f, &self.channel.retire, bank), f.rtp));
        (self.channel.pre[bank], self.channel.last_pre) = (at, at);
        self.channel.tags[bank] = 0;
        self.row_sent(at);
        out.row(f, at + BASE, bank, code);
    }

    /// The least instant at which the older write retires.
    fn retire_from(&self, f: &Figures) -> u32 {
        let w = self.channel.writes[0];
        since(self.channel.act[w.bank & 31], f.rcd).max(w.at + f.rtr)
    }

    /// Retires the older write; answers its mask.
    fn retire(&mut self, at: u32) -> u16 {
        self.channel.retired(at);
        std::mem::replace(&mut self.mask, self.second)
    }

    /// NOCOP where a write waits, not before an instant; answers its own.
    fn nocop(&mut self, f: &Figures, out: &mut Out, from: u32) -> u32 {
        let at = self.col_from(f).max(self.retire_from(f)).max(from);
        let mask = self.retire(at);
        self.col_sent(at);
        out.col(f, at + BASE, NOCOP, 0, 0, mask);
        at
    }

    /// NOCOPs until a WRA has retired, which waits alone or beside an older write.
    fn nocops_to_close(&mut self, f: &Figures, out: &mut Out) {
        if self.channel.count > 1 {
            self.nocop(f, out, 0);
        }
        let bank = self.channel.writes[0].bank & 31;
        let at = self.nocop(f, out, self.channel.implied_asks(f, bank));
        self.channel.imply(f, at, bank);
    }

    /// Closes a bank if it is open.
    fn close(&mut self, f: &Figures, out: &mut Out, bank: usize) {
        if self.channel.tags[bank] != 0 {
            while self.channel.waiting().iter().any(|w| w.bank == bank) {
                self.nocop(f, out, 0);
            }
            self.precharge(f, out, bank, PRER);
        }
    }

    /// The open ones of a bank and its neighbours.
    fn close_near(&mut self, f: &Figures, out: &mut Out, bank: usize) {
        let (below, above) = beside(f, bank);
        self.close(f, out, below);
        self.close(f, out, bank);
        self.close(f, out, above);
    }

    #[inline]
    fn reach(&mut self, f: &Figures, out: &mut Out, asked: &Asked) {
        if u32::from(self.channel.tags[asked.bank & 31]) != asked.row + 1 {
            self.change_row(f, out, asked.bank & 31, asked.row);
        }
    }

    #[inline(never)] // so that a row hit is short
    fn change_row(&mut self, f: &Figures, out: &mut Out, bank: usize, row: u32) {
        self.close_near(f, out, bank);
        self.activate(f, out, bank, row);
    }

    #[inline(always)]
    fn read(&mut self, f: &Figures, out: &mut Out, asked: &Asked) {
        let (bank, column) = (asked.bank & 31, asked.column);
        self.reach(f, out, asked);
        let own = |w: &Write| (w.bank, w.column) == (bank, column);
        while self.channel.count > 1 || self.channel.waiting().iter().any(own) {
            self.nocop(f, out, 0);
        }
        let at = self.col_from(f).max(since(self.channel.act[bank], f.rcd));
        self.read_sent(at, bank);
        out.col(f, at + BASE, RD, bank, column, FULL);
    }

    fn read_sent(&mut self, at: u32, bank: usize) {
        (self.channel.rd[bank], self.channel.last_rd) = (at, at);
        self.col_sent(at);
    }

    #[inline(never)]
    fn read_close(&mut self, f: &Figures, out: &mut Out, asked: &Asked) {
        let (bank, column) = (asked.bank & 31, asked.column);
        self.reach(f, out, asked);
        while self.channel.count > 1 || self.channel.waiting().iter().any(|w| w.bank == bank) {
            self.nocop(f, out, 0);
        }
        let at = self
            .col_from(f)
            .max(since(self.channel.act[bank], f.rcd))
            .max(self.channel.implied_asks(f, bank));
        self.read_sent(at, bank);
        self.channel.imply(f, at, bank);
        out.col(f, at + BASE, RDA, bank, column, FULL);
    }

    /// Answers the instant of the D.
    #[inline(never)]
    fn write_close(&mut self, f: &Figures, out: &mut Out, asked: &Asked) -> u32 {
        self.write(f, out, asked, WRA);
        let data = self.now + f.cwd;
        self.nocops_to_close(f, out);
        data
    }

    #[inline]
    fn write(&mut self, f: &Figures, out: &mut Out, asked: &Asked, cop: u64) {
        let (bank, column) = (asked.bank & 31, asked.column);
        self.reach(f, out, asked);
        let from = self
            .col_from(f)
            .max(since(self.channel.act[bank], f.act_to_wr))
            .max(since(self.channel.last_rd, f.rd_to_wr));
        // Beside a single write a WR need not wait until that one retires.
        let early = self.channel.count == 1 && from < self.channel.writes[0].at + f.rtr;
        let (at, mask) = if self.channel.count == 0 || early {
            (from, FULL)
        } else {
            let at = from.max(self.retire_from(f));
            (at, self.retire(at))
        };
        match self.channel.count {
            0 => self.mask = asked.mask,
            _ => self.second = asked.mask,
        }
        self.channel.joined(Write {
            bank,
            column,
            at,
            closes: cop == WRA,
        });
        self.col_sent(at);
        out.col(f, at + BASE, cop, bank, column, mask);
        out.add(at + BASE + f.cwd, 2, 0, asked.low, asked.high);
    }

    fn refresh(&mut self, f: &Figures, out: &mut Out) {
        let bank = usize::from(self.refresh);
        self.close_near(f, out, bank);
        let at = self.opening(f, bank);
        out.row(f, at + BASE, bank, REFA);
        self.precharge(f, out, bank, REFP);
        self.refresh = (self.refresh + 1) % 32;
    }

    fn flush(&mut self, f: &Figures, out: &mut Out) {
        while self.channel.count > 0 {
            self.nocop(f, out, 0);
        }
    }

    /// No write waits. Stops after the last open bank.
    fn close_all(&mut self, f: &Figures, out: &mut Out) {
        let last = self.channel.tags.iter().rposition(|tag| *tag != 0);
        for bank in 0..last.map_or(0, |bank| bank + 1) {
            self.close(f, out, bank);
        }
    }

    /// Plans without regard to the horizon; answers the latest instant.
    #[inline(always)]
    fn serve(&mut self, f: &Figures, out: &mut Out, asked: &Asked) -> u32 {
        match asked.kind {
            Request::Read => {
                self.read(f, out, asked);
                return self.now + f.cac;
            }
            Request::Write => {
                self.write(f, out, asked, WR);
                return self.now + f.cwd;
            }
            Request::ReadClose => {
                self.read_close(f, out, asked);
                return self.now + f.cac.max(f.offp);
            }
            Request::WriteClose => {
                let data = self.write_close(f, out, asked);
                return data.max(self.now + f.offp);
            }
            Request::Refresh => self.refresh(f, out),
            Request::Flush => self.flush(f, out),
            Request::Close => self.close_all(f, out),
            Request::Wait => {}
        }
        self.now
    }

    /// Plans on a copy, which takes the planner's place where nothing is refused.
    #[cold]
    fn plan_with_care(
        &mut self,
        f: &Figures,
        asked: &Asked,
        room: &mut [u8],
    ) -> Result<usize, Refused> {
        let (mut next, mut records) = (self.clone(), [[0; 32]; RECORDS]);
        let mut out = Out {
            records: &mut records,
            used: 0,
        };
        let latest = next.serve(f, &mut out, asked);
        let used = out.used;
        if latest > MOST {
            return Err(7);
        }
        if room.len() / 32 < used {
            return Err(8);
        }
        room[..32 * used].copy_from_slice(records[..used].as_flattened());
        *self = next;
        Ok(used)
    }

    fn wait(&mut self, cycles: u64) -> Result<usize, Refused> {
        let now = u64::from(self.now) + cycles;
        if now > u64::from(MOST) {
            return Err(7);
        }
        self.now = now as u32;
        Ok(0)
    }

    /// The number of records that a request makes, at the start of `room`.
    pub fn plan(&mut self, f: &Figures, request: &[u8], room: &mut [u8]) -> Result<usize, Refused> {
        let asked = Asked::of(f, request)?;
        match asked.kind {
            Request::Wait => return self.wait(asked.low),
            Request::Close if self.channel.count > 0 => return Err(15),
            _ => {}
        }
        let safe = !self.far & (self.now <= SAFE);
        match room.as_chunks_mut::<32>().0.first_chunk_mut::<RECORDS>() {
            Some(records) if safe => {
                let mut out = Out { records, used: 0 };
                self.serve(f, &mut out, &asked);
                Ok(out.used)
            }
            _ => self.plan_with_care(f, &asked, room),
        }
    }

    // ---- State bytes ----

    /// The planner of bytes that need not be one: `fits` tells.
    fn decode(state: &[u8; STATE_BYTES]) -> Planner {
        let half = |at: usize| u16::from_le_bytes(state[at..at + 2].try_into().unwrap());
        Planner {
            channel: Channel::decode(state.first_chunk().unwrap()),
            now: u32::from_le_bytes(state[752..756].try_into().unwrap()),
            refresh: half(756),
            mask: half(760),
            second: half(762),
            far: false,
        }
    }

    /// Whether the bytes are those of a planner that is not refused under 1. Notes whether an
    /// instant is far.
    fn fits(&mut self, f: &Figures, state: &[u8; STATE_BYTES]) -> bool {
        let ch = &self.channel;
        let number = |at: usize| u64::from_le_bytes(state[at..at + 8].try_into().unwrap());
        let usual = ch.lasts_are(SAFE);
        self.far = !usual;
        (usual || ch.lasts_are(MOST))
            & (self.now.wrapping_sub(1) < MOST)
            & (ch.tags.iter().fold(0, |most, tag| *tag.max(&most)) <= f.rows as u16)
            & ch.apart(f)
            & (number(752) >> 32 < 32) // the refresh bank and zeros
            & (number(760) >> 32 == 0)
            & !ch.due
            & !(ch.writes[0].closes | ch.writes[1].closes)
            & ch.buffer_fits(f, state.first_chunk().unwrap())
    }

    pub fn encode(&self, state: &mut [u8; STATE_BYTES]) {
        self.channel.encode(state.first_chunk_mut().unwrap());
        state[752..756].copy_from_slice(&self.now.to_le_bytes());
        state[756..760].copy_from_slice(&u32::from(self.refresh).to_le_bytes());
        let masks = u64::from(self.second) << 16 | u64::from(self.mask);
        state[760..].copy_from_slice(&masks.to_le_bytes());
    }
}

/// The call on bytes: settings, planner and request are tested, and the next planner is written.
pub fn plan(
    settings: &[u8],
    state: &mut [u8],
    request: &[u8],
    room: &mut [u8],
) -> Result<usize, Refused> {
    let Some(f) = Figures::of(settings) else {
        return Err(1);
    };
    let Ok(state) = <&mut [u8; STATE_BYTES]>::try_from(state) else {
        return Err(1);
    };
    let mut planner = Planner::decode(state);
    if !planner.fits(&f, state) {
        return Err(1);
    }
    let records = planner.plan(&f, request, room)?;
    planner.encode(state);
    Ok(records)
}
