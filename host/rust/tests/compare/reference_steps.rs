//! Records as plain Rust, with what they do: what they retire and close, banks and the waiting writes,
//! found by looking back through the list. Written from documents 01 and 02 (a, c, f) alone.

use crate::reference::{number, Fields, ACT, NOCOP, PRER, RD, RDA, REFA, REFP, WR, WRA};

/// The thirteen timings and the core form.
#[derive(Clone, Copy)]
pub struct Timings {
    pub rc: u64,
    pub ras: u64,
    pub rp: u64,
    pub pp: u64,
    pub rr: u64,
    pub rcd: u64,
    pub rtr: u64,
    pub rdp: u64,
    pub rtp: u64,
    pub cc: u64,
    pub cac: u64,
    pub cwd: u64,
    pub offp: u64,
    pub core: u64,
}

impl Timings {
    pub fn of(settings: &[u8]) -> Timings {
        let n = |i: usize| number(&settings[2 * i..2 * i + 2]);
        Timings {
            rc: n(0),
            ras: n(1),
            rp: n(2),
            pp: n(3),
            rr: n(4),
            rcd: n(5),
            rtr: n(6),
            rdp: n(7),
            rtp: n(8),
            cc: n(9),
            cac: n(10),
            cwd: n(11),
            offp: n(12),
            core: n(15) / 256,
        }
    }
}

/// A record, with what it finds and closes given the records before it.
#[derive(Clone, Debug)]
pub struct Step {
    pub at: u64,
    /// None: a D.
    pub packet: Option<Fields>,
    /// The oldest write that waits when the record comes.
    oldest: Option<Oldest>,
    /// The banks that a PRER of this packet's bank closes, one bit each.
    closes: u32,
    offp: u64,
}

/// A waiting write: its place and bank, the instant from which on a packet retires it and, of a WRA,
/// the banks that the PRER closes which its retire implies.
#[derive(Clone, Copy, Debug)]
struct Oldest {
    place: usize,
    bank: u32,
    from: u64,
    closes: Option<u32>,
}

/// A PRER that a record is, or implies: REFP too.
#[derive(Clone, Copy, Debug)]
pub struct Prer {
    pub at: u64,
    pub bank: u32,
    closes: u32,
    pub implied: bool,
}

impl Prer {
    /// Whether it closes a bank.
    pub fn closes(&self, bank: u32) -> bool {
        self.closes >> bank & 1 == 1
    }
}

impl Step {
    pub fn new(t: &Timings, earlier: &[Step], at: u64, packet: Option<Fields>) -> Step {
        let closes = match packet {
            Some(p) if is_prer(p) || p.command == RDA => closed_by(t, earlier, p.bank),
            _ => 0,
        };
        let oldest = waiting(earlier).first().map(|(place, bank)| Oldest {
            place: *place,
            bank: *bank,
            from: earlier[*place].at + t.rtr,
            closes: is_wra(&earlier[*place]).then(|| closed_by(t, earlier, *bank)),
        });
        Step {
            at,
            packet,
            oldest,
            closes,
            offp: t.offp,
        }
    }

    /// The place and bank of the write that this record retires: the oldest, by a COL packet other
    /// than RD, if tRTR has passed since its WR.
    pub fn retired(&self) -> Option<(usize, u32)> {
        let w = self.retires()?;
        Some((w.place, w.bank))
    }

    /// The instant from which on the oldest write is retired, 0 where none waits.
    pub fn retires_from(&self) -> u64 {
        self.oldest.map_or(0, |w| w.from)
    }

    fn retires(&self) -> Option<Oldest> {
        let p = self.packet?;
        let w = self.oldest?;
        (is_col(p) && !p.reads() && self.at >= w.from).then_some(w)
    }

    /// The PRER that the record is, or that its RDA or its retire of a WRA implies: one at most, since
    /// an RD retires nothing.
    pub fn prer(&self) -> Option<Prer> {
        let p = self.packet?;
        let (bank, closes) = match self.retires() {
            Some(w) => (w.bank, w.closes?),
            None if is_prer(p) || p.command == RDA => (p.bank, self.closes),
            None => return None,
        };
        let implied = !is_prer(p);
        Some(Prer {
            at: self.at + if implied { self.offp } else { 0 },
            bank,
            closes,
            implied,
        })
    }

    pub fn follows_wr(earlier: &[Step]) -> Option<u64> {
        let last = earlier.last()?;
        last.packet?.writes().then_some(last.at)
    }
}

impl Fields {
    /// RD, or RDA, which counts as RD.
    pub fn reads(self) -> bool {
        self.command == RD || self.command == RDA
    }

    /// WR, or WRA, which counts as WR.
    pub fn writes(self) -> bool {
        self.command == WR || self.command == WRA
    }
}

/// ACT, or REFA where it counts as ACT.
pub fn is_act(p: Fields) -> bool {
    p.command == ACT || p.command == REFA
}

/// PRER, or REFP where it counts as PRER.
pub fn is_prer(p: Fields) -> bool {
    p.command == PRER || p.command == REFP
}

pub fn is_col(p: Fields) -> bool {
    p.command >= NOCOP
}

pub fn is_wra(step: &Step) -> bool {
    step.packet.is_some_and(|p| p.command == WRA)
}

/// Neighbours differ by 1. In a split core both are in 0 to 15 or both in 16 to 31, and in a core
/// without dependency there are none.
pub fn neighbours(core: u64, a: u32, b: u32) -> bool {
    let in_one_run = match core {
        0 => a / 16 == b / 16,
        1 => true,
        _ => false,
    };
    in_one_run && a.abs_diff(b) == 1
}

pub fn near(core: u64, a: u32, b: u32) -> bool {
    a == b || neighbours(core, a, b)
}

#[derive(Clone, Copy, Debug, PartialEq, Eq)]
pub enum Bank {
    Closed,
    Open,
    Refresh,
}

/// A bank after the earlier records: the last of them that acts on it decides.
pub fn bank(earlier: &[Step], bank: u32) -> Bank {
    for step in earlier.iter().rev() {
        match step.packet {
            Some(p) if p.command == ACT && p.bank == bank => return Bank::Open,
            Some(p) if p.command == REFA && p.bank == bank => return Bank::Refresh,
            _ if step.prer().is_some_and(|prer| prer.closes(bank)) => return Bank::Closed,
            _ => {}
        }
    }
    Bank::Closed
}

/// Whether the last PRER that closed a bank was implied.
pub fn closed_by_implied(earlier: &[Step], bank: u32) -> bool {
    let mut prers = earlier.iter().rev().filter_map(Step::prer);
    prers
        .find(|prer| prer.closes(bank))
        .is_some_and(|prer| prer.implied)
}

/// The place and bank of each waiting write, oldest first: the WRs that no later record retired.
pub fn waiting(earlier: &[Step]) -> Vec<(usize, u32)> {
    let retires = |step: &Step, place| step.retired().is_some_and(|(write, _)| write == place);
    let stays = |place: usize| !earlier[place..].iter().any(|step| retires(step, place));
    let writes = earlier.iter().enumerate().filter_map(|(place, step)| {
        let p = step.packet.filter(|p| p.writes())?;
        Some((place, p.bank))
    });
    writes.filter(|(place, _)| stays(*place)).collect()
}

/// A PRER closes its bank and any neighbour that is open or under refresh.
fn closed_by(t: &Timings, earlier: &[Step], prer: u32) -> u32 {
    let beside = |b: u32| neighbours(t.core, b, prer) && bank(earlier, b) != Bank::Closed;
    let closes = |b: u32| b == prer || beside(b);
    (0..32).filter(|b| closes(*b)).map(|b| 1 << b).sum()
}
