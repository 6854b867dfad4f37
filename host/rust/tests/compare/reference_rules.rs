//! The seventeen rules as plain Rust, written from documents 01 and 02 (a, c, f) alone. A record is
//! judged against each earlier record; no state is carried along (`reference_steps`).

use crate::reference::{
    figures, first_bad_block, first_bad_record, number, packet, records, Fields, ACT,
};
pub use crate::reference_steps::{bank, near, neighbours, waiting, Bank, Step, Timings};
use crate::reference_steps::{closed_by_implied, is_act, is_col, is_wra, Prer};

const FIRST: u64 = 4;
const LAST: u64 = 1_000_000_000;

/// A set of rules, and those of them that an implied PRER is the cause of: the record's own, or an
/// earlier one.
#[derive(Clone, Copy, Debug, Default, PartialEq, Eq)]
pub struct Rules {
    all: u32,
    implied: u32,
}

impl Rules {
    fn add_if(&mut self, rule: u32, broken: bool) {
        self.all |= u32::from(broken) << rule;
    }

    fn add_implied_if(&mut self, rule: u32, broken: bool) {
        self.add_if(rule, broken);
        self.implied |= u32::from(broken) << rule;
    }

    pub fn none(self) -> bool {
        self.all == 0
    }

    pub fn lowest(self) -> u32 {
        self.all.trailing_zeros()
    }

    /// Whether the set has one rule.
    pub fn single(self) -> bool {
        self.all.is_power_of_two()
    }

    /// Whether an implied PRER is the cause of the lowest rule.
    pub fn by_implied(self) -> bool {
        self.implied.trailing_zeros() == self.lowest()
    }
}

// ---- Rules ----

/// What a distance asks: its rule, the first instant that it allows the record, and whether one of the
/// two is an implied PRER.
type Asked<'a> = &'a mut dyn FnMut(u32, u64, bool);

/// Every distance that `b` must keep from the earlier record `a`.
fn distances(t: &Timings, a: &Step, b: &Step, asked: Asked) {
    let (Some(p), Some(q)) = (a.packet, b.packet) else {
        return;
    };
    asked(1, a.at, false);
    if !is_col(p) && !is_col(q) {
        asked(2, a.at + 4, false);
    }
    if is_col(p) && is_col(q) {
        asked(3, a.at + t.cc, false);
    }
    if is_act(p) && is_act(q) {
        let near_banks = near(t.core, p.bank, q.bank);
        asked(5, a.at + if near_banks { t.rc } else { t.rr }, false);
    }
    if p.command == ACT && q.reads() && p.bank == q.bank {
        asked(10, a.at + t.rcd, false);
    }
    if p.command == ACT && b.retired().is_some_and(|(_, bank)| bank == p.bank) {
        asked(10, a.at + t.rcd, false);
    }
    if p.command == ACT && q.writes() && p.bank == q.bank {
        asked(10, a.at + t.rcd.saturating_sub(t.rtr), false);
    }
    if p.reads() && q.writes() {
        asked(11, a.at + t.cc + t.cac - t.cwd, false);
    }
    if let Some(prer) = a.prer() {
        from_prer(t, &prer, q, asked);
    }
    if let Some(prer) = b.prer() {
        let lead = prer.at - b.at;
        to_prer(t, a, &prer, &mut |rule, from, implied| {
            asked(rule, from.saturating_sub(lead), implied || prer.implied);
        });
    }
}

/// Those of a ROW packet from an earlier PRER: of an ACT and, where the PRER is implied, of any.
fn from_prer(t: &Timings, prer: &Prer, q: Fields, asked: Asked) {
    let beside_closed = (0..32).any(|c| prer.closes(c) && neighbours(t.core, c, q.bank));
    if is_act(q) && (near(t.core, prer.bank, q.bank) || beside_closed) {
        asked(7, prer.at + t.rp, prer.implied);
    }
    if prer.implied && !is_col(q) {
        asked(17, prer.at, true);
    }
}

/// Those of a PRER, implied or not, from an earlier record; the instants are of the PRER. Its own read
/// or retire is no earlier record.
fn to_prer(t: &Timings, a: &Step, prer: &Prer, asked: Asked) {
    let near_bank = |bank: u32| near(t.core, bank, prer.bank);
    if a.packet.is_some_and(|p| is_act(p) && near_bank(p.bank)) {
        asked(6, a.at + t.ras, false);
    }
    if let Some(earlier) = a.prer() {
        asked(8, earlier.at + t.pp, earlier.implied);
    }
    if a.packet.is_some_and(|p| p.reads() && near_bank(p.bank)) {
        asked(13, a.at + t.rdp, false);
    }
    if a.retired().is_some_and(|(_, bank)| near_bank(bank)) {
        asked(13, a.at + t.rtp, false);
    }
}

/// Rule 1, the range: the record's instant and that of its data; those of an implied PRER apart.
fn out_of_range(t: &Timings, new: &Step) -> bool {
    let data = match new.packet {
        Some(p) if p.reads() => new.at + t.cac,
        Some(p) if p.writes() => new.at + t.cwd,
        _ => new.at,
    };
    new.at < FIRST || data > LAST
}

/// Rule 12: a COL packet other than RD retires a waiting write, or is a WR beside a single one; no
/// RD comes while two wait.
fn leaves_writes(new: &Step, p: Fields, waiting: usize) -> bool {
    match waiting {
        0 => false,
        _ if p.reads() => waiting > 1,
        1 if p.writes() => false,
        _ => is_col(p) && new.retired().is_none(),
    }
}

/// Rule 9, and of an ACT rule 4.
fn breaks_by_banks(t: &Timings, earlier: &[Step], new: &Step, p: Fields, broken: &mut Rules) {
    let not_closed = |b: u32| bank(earlier, b) != Bank::Closed;
    let not_open = |b: u32| bank(earlier, b) != Bank::Open;
    let taken = |b: u32| near(t.core, b, p.bank) && not_closed(b);
    broken.add_if(4, is_act(p) && (0..32).any(taken));
    let used = (p.reads() || p.writes()) && not_open(p.bank);
    broken.add_if(9, used || new.retired().is_some_and(|(_, b)| not_open(b)));
    broken.add_implied_if(9, used && closed_by_implied(earlier, p.bank));
    // A WR finds the bank closed of the WRA that it retires.
    let closed = new.prer().is_some_and(|prer| prer.closes(p.bank));
    broken.add_implied_if(9, p.writes() && closed);
}

/// Rules 12, 14, 16 and, of a waiting WRA, 17.
fn breaks_by_writes(earlier: &[Step], new: &Step, p: Fields, broken: &mut Rules) {
    let waiting = waiting(earlier);
    broken.add_if(12, leaves_writes(new, p, waiting.len()));
    let retired = new.retired().map(|(place, _)| place);
    let mut left = waiting.iter().filter(|(place, _)| Some(*place) != retired);
    if let Some(prer) = new.prer() {
        let lost = left.clone().any(|(_, b)| prer.closes(*b));
        broken.add_if(14, lost);
        broken.add_implied_if(14, lost && prer.implied);
    }
    let masked = is_col(p) && p.mask != 0xFFFF;
    broken.add_if(16, masked && retired.is_none());
    let closing = left.any(|(place, _)| is_wra(&earlier[*place]));
    broken.add_if(17, closing && (!is_col(p) || p.writes()));
}

/// The rules that a record breaks, given the records before it.
pub fn broken(t: &Timings, earlier: &[Step], new: &Step) -> Rules {
    let mut broken = Rules::default();
    broken.add_if(1, out_of_range(t, new));
    let implied = new.prer().filter(|prer| prer.implied);
    broken.add_implied_if(1, implied.is_some_and(|prer| prer.at > LAST));
    for a in earlier {
        distances(t, a, new, &mut |rule, from, implied| {
            broken.add_if(rule, new.at < from);
            broken.add_implied_if(rule, implied && new.at < from);
        });
    }
    if let Some(p) = new.packet {
        breaks_by_banks(t, earlier, new, p, &mut broken);
        breaks_by_writes(earlier, new, p, &mut broken);
    }
    let due = Step::follows_wr(earlier).map(|at| at + t.cwd);
    let found = new.packet.is_none().then_some(new.at);
    broken.add_if(15, due != found);
    broken
}

/// The least instant at which a packet keeps every distance and rule 12, if it can.
pub fn least(t: &Timings, earlier: &[Step], packet: Fields) -> u64 {
    let mut new = Step::new(t, earlier, FIRST, Some(packet));
    let asked = |new: &Step| {
        let mut least = new.at;
        for a in earlier {
            distances(t, a, new, &mut |_, from, _| least = least.max(from));
        }
        least
    };
    new.at = asked(&new);
    let from = new.retires_from();
    if leaves_writes(&new, packet, waiting(earlier).len()) {
        new.at = new.at.max(from);
    }
    // What a retire asks besides.
    asked(&new)
}

// ---- Calls ----

/// The answer of a check. `broken` has all rules that the named record breaks; its command, None for
/// a D, and for each waiting write whether the record closes its bank are told too.
#[derive(Clone, Debug, Default, PartialEq, Eq)]
pub struct Answer {
    pub number: u32,
    pub rule: u32,
    pub place: u64,
    pub broken: Rules,
    pub command: Option<u32>,
    pub closes: Vec<bool>,
}

fn refused(number: u32, place: usize) -> Answer {
    Answer {
        number,
        place: place as u64,
        ..Answer::default()
    }
}

/// The answer for records that are all well formed.
fn judge(settings: &[u8], list: &[u8]) -> Answer {
    let (f, t) = (figures(settings).unwrap(), Timings::of(settings));
    let mut earlier = Vec::new();
    for (place, record) in list.chunks(32).enumerate() {
        let word = number(&record[8..16]);
        let new = Step::new(
            &t,
            &earlier,
            number(&record[..4]),
            packet(&f, record[4].into(), word),
        );
        let broken = broken(&t, &earlier, &new);
        if !broken.none() {
            return Answer {
                rule: broken.lowest(),
                broken,
                command: new.packet.map(|p| p.command),
                closes: waiting(&earlier)
                    .iter()
                    .map(|(_, b)| new.prer().is_some_and(|prer| prer.closes(*b)))
                    .collect(),
                ..refused(11, place)
            };
        }
        earlier.push(new);
    }
    Answer::default()
}

pub fn check(settings: &[u8], list: &[u8]) -> Answer {
    let Some(f) = figures(settings) else {
        return refused(1, 0);
    };
    if !list.len().is_multiple_of(32) {
        return refused(13, 0);
    }
    match first_bad_record(&f, list) {
        Some(place) => refused(10, place),
        None => judge(settings, list),
    }
}

pub fn check_log(settings: &[u8], log: &[u8]) -> Answer {
    if figures(settings).is_none() {
        return refused(1, 0);
    }
    if !log.len().is_multiple_of(512) {
        return refused(13, 0);
    }
    match first_bad_block(log) {
        Some(place) => refused(12, place),
        None => check(settings, &records(log)),
    }
}
