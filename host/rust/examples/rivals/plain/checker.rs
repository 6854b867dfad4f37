//! The check of the rival "plain", written for speed: one pass, with the first instant that each rule
//! still allows.

use super::check_bank::{Bank, State, CLOSED};
use super::form::{Form, Record};
use crate::rivals::tuned_state::{self as state, Figures};

const LAST: u64 = state::LAST as u64;

/// Number, rule and place.
pub type Refused = (u32, u32, usize);

// The timings' places in `Checker::t`.
const RC: usize = 0;
const RAS: usize = 1;
const RP: usize = 2;
const PP: usize = 3;
const RR: usize = 4;
const RCD: usize = 5;
const RTR: usize = 6;
const RDP: usize = 7;
const RTP: usize = 8;
const CC: usize = 9;
const CAC: usize = 10;
const CWD: usize = 11;
const OFFP: usize = 12;

/// A waiting write: its bank, the instant from which on a packet retires it, and whether it is a WRA.
#[derive(Clone, Copy)]
struct Write {
    bank: usize,
    from: u64,
    closes: bool,
}

pub struct Checker {
    t: [u64; 13],
    form: Form,
    /// The banks of a run, less 1.
    run: usize,
    banks: [Bank; 32],
    now: u64,
    row_2: u64,
    col_3: u64,
    act_5: u64,
    prer_8: u64,
    wr_11: u64,
    row_17: u64,
    older: Option<Write>,
    newer: Option<Write>,
    /// The instant of the D that is due.
    due: Option<u64>,
}

impl Checker {
    pub fn new(settings: &[u8]) -> Option<Checker> {
        let f = Figures::of(settings)?;
        let t = [
            f.rc, f.ras, f.rp, f.pp, f.rr, f.rcd, f.rtr, f.rdp, f.rtp, f.cc, f.cac, f.cwd, f.offp,
        ];
        Some(Checker {
            t: t.map(u64::from),
            form: Form::of(&f),
            run: f.run,
            banks: [CLOSED; 32],
            now: 4,
            row_2: 0,
            col_3: 0,
            act_5: 0,
            prer_8: 0,
            wr_11: 0,
            row_17: 0,
            older: None,
            newer: None,
            due: None,
        })
    }

    /// A bank and its neighbours.
    fn near(&self, bank: usize) -> std::ops::Range<usize> {
        let above = bank + 1;
        bank - usize::from(bank & self.run != 0)..above + usize::from(above & self.run != 0)
    }

    // ---- Rules: each answers the lowest broken rule, or 0 and takes the record ----

    fn act(&mut self, at: u64, bank: usize, opens: bool) -> u32 {
        let (t, near) = (&self.t, self.near(bank));
        let closed = |b: &Bank| b.state == State::Closed;
        if at < self.row_2 {
            return 2;
        }
        if !self.banks[near.clone()].iter().all(closed) {
            return 4;
        }
        if at < self.banks[bank].act_5 || self.too_soon_for_others(at, bank) {
            return 5;
        }
        if at < self.banks[bank].act_7 {
            return 7;
        }
        if self.due.is_some() {
            return 15;
        }
        if self.row_too_early(at) {
            return 17;
        }
        for b in &mut self.banks[near] {
            (b.act_5, b.prer_6) = (at + t[RC], at + t[RAS]);
        }
        let b = &mut self.banks[bank];
        b.last_act = Some(at);
        b.state = State::Refresh;
        if opens {
            b.state = State::Open;
            b.rd_10 = at + t[RCD];
            b.wr_10 = at + t[RCD].saturating_sub(t[RTR]);
        }
        (self.now, self.row_2, self.act_5) = (at, at + 4, at + t[RR]);
        0
    }

    fn row_too_early(&self, at: u64) -> bool {
        let closes = |w: Option<Write>| w.is_some_and(|w| w.closes);
        at < self.row_17 || closes(self.older) || closes(self.newer)
    }

    /// Rule 5 for banks that are not near. Where tRR is at most tRC the last ACT decides.
    fn too_soon_for_others(&self, at: u64, bank: usize) -> bool {
        let (rc, rr) = (self.t[RC], self.t[RR]);
        if rr <= rc || at >= self.act_5 {
            return at < self.act_5;
        }
        let near = self.near(bank);
        let others = (0..32).filter(|b| !near.contains(b));
        let mut instants = others.filter_map(|b| self.banks[b].last_act);
        instants.any(|last| at < last + rr)
    }

    fn prer(&mut self, at: u64, bank: usize) -> u32 {
        if at < self.row_2 {
            return 2;
        }
        if at < self.banks[bank].prer_6 {
            return 6;
        }
        if at < self.prer_8 {
            return 8;
        }
        if at < self.banks[bank].prer_13 {
            return 13;
        }
        let near = self.near(bank);
        let lost = |w: Write| near.contains(&w.bank);
        if self.older.is_some_and(lost) || self.newer.is_some_and(lost) {
            return 14;
        }
        if self.due.is_some() {
            return 15;
        }
        if self.row_too_early(at) {
            return 17;
        }
        self.close(at, bank);
        (self.now, self.row_2) = (at, at + 4);
        0
    }

    /// A PRER, implied or not, at an instant.
    fn close(&mut self, at: u64, bank: usize) {
        let from = at + self.t[RP];
        for b in self.near(bank) {
            if b == bank || self.banks[b].state != State::Closed {
                let beside = self.near(b);
                self.banks[beside].iter_mut().for_each(|c| c.act_7 = from);
            }
            self.banks[b].state = State::Closed;
            self.banks[b].act_7 = from;
        }
        self.prer_8 = at + self.t[PP];
    }

    /// The PRER that a packet at an instant implies: the lowest of rules 6 and 8 that it breaks, or 0.
    fn implied(&self, at: u64, bank: usize) -> u32 {
        match at + self.t[OFFP] {
            prer if prer < self.banks[bank].prer_6 => 6,
            prer if prer < self.prer_8 => 8,
            _ => 0,
        }
    }

    fn imply(&mut self, at: u64, bank: usize) {
        self.row_17 = at + self.t[OFFP];
        self.close(self.row_17, bank);
    }

    fn rd(&mut self, at: u64, bank: usize, masked: bool, close: bool) -> u32 {
        let t = &self.t;
        if at + t[CAC] > LAST || (close && at + t[OFFP] > LAST) {
            return 1;
        }
        if at < self.col_3 {
            return 3;
        }
        if close && self.implied(at, bank) != 0 {
            return self.implied(at, bank);
        }
        if self.banks[bank].state != State::Open {
            return 9;
        }
        if at < self.banks[bank].rd_10 {
            return 10;
        }
        if self.newer.is_some() {
            return 12;
        }
        if close && at + t[OFFP] < self.banks[bank].prer_13 {
            return 13;
        }
        if close && self.older.is_some_and(|w| w.bank == bank) {
            return 14;
        }
        if self.due.is_some() {
            return 15;
        }
        if masked {
            return 16;
        }
        let near = self.near(bank);
        for b in &mut self.banks[near] {
            b.prer_13 = b.prer_13.max(at + t[RDP]);
        }
        self.wr_11 = at + t[CC] + t[CAC] - t[CWD];
        (self.now, self.col_3) = (at, at + t[CC]);
        if close {
            self.imply(at, bank);
        }
        0
    }

    /// WR of a bank, which closes it or not, or NOCOP where there is none.
    fn other_col(&mut self, at: u64, wr: Option<(usize, bool)>, masked: bool) -> u32 {
        let retired = self.older.filter(|w| at >= w.from);
        let bank = wr.map(|(bank, _)| bank);
        let rule = self.judge_other(at, bank, masked, retired);
        if rule != 0 {
            return rule;
        }
        if let Some(w) = retired {
            let near = self.near(w.bank);
            for b in &mut self.banks[near] {
                b.prer_13 = b.prer_13.max(at + self.t[RTP]);
            }
            (self.older, self.newer) = (self.newer, None);
            if w.closes {
                self.imply(at, w.bank);
            }
        }
        if let Some((bank, closes)) = wr {
            let from = at + self.t[RTR];
            let place = if self.older.is_none() {
                &mut self.older
            } else {
                &mut self.newer
            };
            *place = Some(Write { bank, from, closes });
        }
        self.due = wr.map(|_| at + self.t[CWD]);
        (self.now, self.col_3) = (at, at + self.t[CC]);
        0
    }

    fn judge_other(&self, at: u64, wr: Option<usize>, masked: bool, retired: Option<Write>) -> u32 {
        let t = &self.t;
        // The bank that is closed, if a WRA is retired.
        let closed = retired.filter(|w| w.closes).map(|w| w.bank);
        if (wr.is_some() && at + t[CWD] > LAST) || (closed.is_some() && at + t[OFFP] > LAST) {
            return 1;
        }
        if at < self.col_3 {
            return 3;
        }
        if let Some(rule) = closed
            .map(|b| self.implied(at, b))
            .filter(|rule| *rule != 0)
        {
            return rule;
        }
        if wr.is_some_and(|b| self.banks[b].state != State::Open || closed == wr) {
            return 9;
        }
        if wr.is_some_and(|b| at < self.banks[b].wr_10)
            || retired.is_some_and(|w| at < self.banks[w.bank].rd_10)
        {
            return 10;
        }
        if wr.is_some() && at < self.wr_11 {
            return 11;
        }
        let stays = self.newer.is_none() && (wr.is_some() || self.older.is_none());
        if retired.is_none() && !stays {
            return 12;
        }
        if closed.is_some_and(|b| at + t[OFFP] < self.banks[b].prer_13) {
            return 13;
        }
        // No write waits behind a WRA, so none is lost by its retire (14).
        if self.due.is_some() {
            return 15;
        }
        if masked && retired.is_none() {
            return 16;
        }
        let left = if retired.is_some() {
            self.newer
        } else {
            self.older
        };
        if wr.is_some() && left.is_some_and(|w| w.closes) {
            return 17;
        }
        0
    }

    fn data(&mut self, at: u64) -> u32 {
        if !(4..=LAST).contains(&at) {
            return 1;
        }
        if self.due != Some(at) {
            return 15;
        }
        self.due = None;
        0
    }

    fn judge(&mut self, at: u64, record: Record) -> u32 {
        if let Record::D = record {
            return self.data(at);
        }
        if at < self.now || at > LAST {
            return 1;
        }
        match record {
            Record::Act { bank, opens } => self.act(at, bank, opens),
            Record::Prer { bank } => self.prer(at, bank),
            Record::Rd {
                bank,
                masked,
                close,
            } => self.rd(at, bank, masked, close),
            Record::Wr {
                bank,
                masked,
                close,
            } => self.other_col(at, Some((bank, close)), masked),
            Record::Nocop { masked } => self.other_col(at, None, masked),
            Record::D => 0,
        }
    }

    /// The lowest rule that a well formed record breaks, or 0. Only in that case it is taken.
    pub fn take(&mut self, bytes: &[u8; 32]) -> Option<u32> {
        let record = self.form.record(bytes)?;
        let at = u32::from_le_bytes(bytes[..4].try_into().unwrap());
        Some(self.judge(at.into(), record))
    }
}

/// After a broken rule the rest is tested for its form only.
pub fn check(settings: &[u8], list: &[u8]) -> Result<(), Refused> {
    let mut checker = Checker::new(settings).ok_or((1, 0, 0))?;
    let (records, rest) = list.as_chunks::<32>();
    if !rest.is_empty() {
        return Err((13, 0, 0));
    }
    for (place, bytes) in records.iter().enumerate() {
        let rule = checker.take(bytes).ok_or((10, 0, place))?;
        if rule != 0 {
            let mut later = records[place..].iter();
            let bad = later.position(|r| checker.form.record(r).is_none());
            return Err(bad.map_or((11, rule, place), |i| (10, 0, place + i)));
        }
    }
    Ok(())
}
