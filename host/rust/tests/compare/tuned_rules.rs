//! The rules of the tuned model, written for speed from documents 01 and 02 (a, c, f): each function
//! answers the lowest that is broken.

use super::tuned_records::Record;
use super::tuned_state::{beside, near, since, Channel, Figures, Write, FULL, MOST, UNDER_REFRESH};

/// The first broken one of some rules, in rising order.
macro_rules! rules {
    ($($rule:literal: $broken:expr),* $(,)?) => {
        $(if $broken {
            return Err($rule);
        })*
    };
}

impl Channel {
    fn judge_opening(&mut self, f: &Figures, at: u32, bank: usize) -> Result<(), u32> {
        let (below, above) = beside(f, bank);
        rules! {
            2: at < since(self.last_row, 4),
            4: self.tags[below] | self.tags[bank] | self.tags[above] != 0,
            5: at < since(near(f, &self.opened, bank), f.rc) || at < self.others_ask(f, bank),
            7: at < since(near(f, &self.pre, bank), f.rp),
            15: self.due,
            17: self.row_too_early(at),
        }
        Ok(())
    }

    /// Rule 17 of a ROW packet.
    fn row_too_early(&self, at: u32) -> bool {
        at < self.last_implied || self.waiting().iter().any(|w| w.closes)
    }

    fn judge_prer(&self, f: &Figures, at: u32, bank: usize) -> Result<(), u32> {
        let (below, above) = beside(f, bank);
        rules! {
            2: at < since(self.last_row, 4),
            6: at < since(near(f, &self.opened, bank), f.ras),
            8: at < since(self.last_pre, f.pp),
            13: at < since(near(f, &self.rd, bank), f.rdp) || at < since(near(f, &self.retire, bank), f.rtp),
            14: self.waiting().iter().any(|w| (below..=above).contains(&w.bank)),
            15: self.due,
            17: self.row_too_early(at),
        }
        Ok(())
    }

    fn judge_rd(&self, f: &Figures, at: u32, bank: usize, mask: u16) -> Result<(), u32> {
        rules! {
            3: at < since(self.last_col, f.cc),
            9: !self.is_open(bank),
            10: at < since(self.act[bank], f.rcd),
            12: self.count > 1,
            15: self.due,
            16: mask != FULL,
        }
        Ok(())
    }

    fn judge_rda(&self, f: &Figures, at: u32, bank: usize, mask: u16) -> Result<(), u32> {
        rules! { 3: at < since(self.last_col, f.cc) }
        self.judge_implied(f, at, bank)?;
        rules! {
            9: !self.is_open(bank),
            10: at < since(self.act[bank], f.rcd),
            12: self.count > 1,
            13: self.implied_too_early(f, at, bank),
            14: self.waiting().iter().any(|w| w.bank == bank),
            15: self.due,
            16: mask != FULL,
        }
        Ok(())
    }

    /// Rules 6 and 8 of the PRER that a packet implies.
    fn judge_implied(&self, f: &Figures, at: u32, bank: usize) -> Result<(), u32> {
        rules! {
            6: at + f.offp < since(near(f, &self.opened, bank), f.ras),
            8: at + f.offp < since(self.last_pre, f.pp),
        }
        Ok(())
    }

    /// Rule 13 of it.
    fn implied_too_early(&self, f: &Figures, at: u32, bank: usize) -> bool {
        let prer = at + f.offp;
        prer < since(near(f, &self.rd, bank), f.rdp)
            || prer < since(near(f, &self.retire, bank), f.rtp)
    }

    fn judge_wr(&self, f: &Figures, at: u32, bank: usize, mask: u16) -> Result<(), u32> {
        let retired = self.retires(f, at);
        if let Some(closing) = retired.filter(|w| w.closes) {
            return self.judge_closing(f, at, closing, Some(bank));
        }
        rules! {
            3: at < since(self.last_col, f.cc),
            9: !self.is_open(bank),
            10: at < since(self.act[bank], f.act_to_wr) || at < self.retire_asks(f, retired),
            11: at < since(self.last_rd, f.rd_to_wr),
            12: self.count > 1 && retired.is_none(),
            15: self.due,
            16: mask != FULL && retired.is_none(),
            17: self.waiting()[usize::from(retired.is_some())..].iter().any(|w| w.closes),
        }
        Ok(())
    }

    fn judge_nocop(&self, f: &Figures, at: u32, mask: u16) -> Result<(), u32> {
        let retired = self.retires(f, at);
        if let Some(closing) = retired.filter(|w| w.closes) {
            return self.judge_closing(f, at, closing, None);
        }
        rules! {
            3: at < since(self.last_col, f.cc),
            10: at < self.retire_asks(f, retired),
            12: self.count > 0 && retired.is_none(),
            15: self.due,
            16: mask != FULL && retired.is_none(),
        }
        Ok(())
    }

    /// A NOCOP or, of a bank, a WR that retires a WRA, and so closes that one's bank.
    #[cold]
    fn judge_closing(
        &self,
        f: &Figures,
        at: u32,
        closing: Write,
        wr: Option<usize>,
    ) -> Result<(), u32> {
        let bank = closing.bank & 31;
        rules! {
            1: at > MOST - f.offp,
            3: at < since(self.last_col, f.cc),
        }
        self.judge_implied(f, at, bank)?;
        rules! {
            9: wr.is_some_and(|wr| wr == bank || !self.is_open(wr)),
            10: at < since(self.act[bank], f.rcd)
                || wr.is_some_and(|wr| at < since(self.act[wr], f.act_to_wr)),
            11: wr.is_some() && at < since(self.last_rd, f.rd_to_wr),
            13: self.implied_too_early(f, at, bank),
            14: self.count > 1 && self.writes[1].bank == bank,
            15: self.due,
            17: wr.is_some() && self.count > 1 && self.writes[1].closes,
        }
        Ok(())
    }

    fn judge_data(&self, f: &Figures, at: u32) -> Result<(), u32> {
        rules! { 15: !(self.due && self.waiting().last().is_some_and(|w| at == w.at + f.cwd)) }
        Ok(())
    }

    /// The write that a COL packet other than RD retires.
    pub fn retires(&self, f: &Figures, at: u32) -> Option<Write> {
        let w = self.writes[0];
        (self.count > 0 && at >= w.at + f.rtr).then_some(w)
    }

    /// Rule 10 for the bank that is retired to.
    fn retire_asks(&self, f: &Figures, retired: Option<Write>) -> u32 {
        retired.map_or(0, |w| since(self.act[w.bank & 31], f.rcd))
    }

    fn is_open(&self, bank: usize) -> bool {
        (1..UNDER_REFRESH).contains(&self.tags[bank])
    }

    /// The lowest rule that is broken. Rule 1 first: after it all sums fit 32 bits.
    #[inline(always)]
    pub fn judge(&mut self, f: &Figures, at: u32, record: &Record) -> Result<(), u32> {
        let (delay, packet) = match record {
            Record::Rd { close: true, .. } => (f.cac.max(f.offp), true),
            Record::Rd { .. } => (f.cac, true),
            Record::Wr { .. } => (f.cwd, true),
            Record::D { .. } => (0, false),
            _ => (0, true),
        };
        let in_range = (1..=MOST - delay).contains(&at);
        rules! { 1: !in_range | (packet & (at < self.last)) }
        match *record {
            Record::Act { bank, .. } | Record::Refa { bank } => self.judge_opening(f, at, bank),
            Record::Prer { bank } => self.judge_prer(f, at, bank),
            Record::Rd {
                bank,
                mask,
                close: true,
                ..
            } => self.judge_rda(f, at, bank, mask),
            Record::Rd { bank, mask, .. } => self.judge_rd(f, at, bank, mask),
            Record::Wr { bank, mask, .. } => self.judge_wr(f, at, bank, mask),
            Record::Nocop { mask } => self.judge_nocop(f, at, mask),
            Record::D { .. } => self.judge_data(f, at),
        }
    }
}
