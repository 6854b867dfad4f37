//! The bytes 0 to 751 that the states of planner and model have in common, in the layout of
//! `rdram.h`: read off a list of records that break no rule, and what is asked of them.

use crate::reference::{device_and_core, number, Fields, ACT, COLUMNS, NOCOP, REFA, ROWS, WRA};
use crate::reference_rules::{self as rules, neighbours, Bank, Step};

pub const LAST: u64 = 1_000_000_000;
pub const CHANNEL_BYTES: usize = 752;
pub const UNDER_REFRESH: u64 = 65_535;

// The bytes of the write buffer: how many writes wait, whether data are due, and the places of the
// older and the newer write.
pub const WAITING: usize = 728;
pub const DUE: usize = 729;
pub const WRITES: [usize; 2] = [736, 744];
/// In the place of a write: whether its retire closes the bank, two bytes.
pub const CLOSES: usize = 2;

/// Writes a number, low byte first.
pub fn put(bytes: &mut [u8], at: usize, width: usize, number: u64) {
    bytes[at..at + width].copy_from_slice(&number.to_le_bytes()[..width]);
}

/// Writes an instant as states keep it: less 3, and 0 for never.
pub fn put_instant(state: &mut [u8], at: usize, instant: u64) {
    let stored = if instant == 0 { 0 } else { instant - 3 };
    put(state, at, 4, stored);
}

/// The instant that four bytes of a state say, 0 for never.
pub fn instant(state: &[u8], at: usize) -> u64 {
    match number(&state[at..at + 4]) {
        0 => 0,
        stored => stored + 3,
    }
}

/// A waiting write: bank, column, the instant of its WR, and whether that is a WRA.
pub type Write = (u32, u32, u64, bool);

/// Writes the waiting writes, oldest first; the data of the newest are due or not.
pub fn put_writes(state: &mut [u8], writes: &[Write], due: bool) {
    (state[WAITING], state[DUE]) = (writes.len() as u8, due.into());
    for ((bank, column, at, closes), place) in writes.iter().zip(WRITES) {
        (state[place], state[place + 1]) = (*bank as u8, *column as u8);
        put(state, place + CLOSES, 2, (*closes).into());
        put_instant(state, place + 4, *at);
    }
}

/// The instant of the WR of the newest waiting write.
pub fn newest(state: &[u8]) -> u64 {
    let place = if state[WAITING] == 2 { 1 } else { 0 };
    instant(state, WRITES[place] + 4)
}

/// The row on which a bank is open: that of the last ACT to it, if it is not closed since.
pub fn open_row(steps: &[Step], bank: u32) -> Option<u32> {
    if rules::bank(steps, bank) != Bank::Open {
        return None;
    }
    let mut packets = steps.iter().rev().filter_map(|step| step.packet);
    packets
        .find(|p| p.command == ACT && p.bank == bank)
        .map(|p| p.place)
}

/// The waiting writes, oldest first.
pub fn waiting(steps: &[Step]) -> Vec<Write> {
    let write = |(place, bank): (usize, u32)| {
        let step = &steps[place];
        let wr = step.packet.expect("a WR");
        (bank, wr.place, step.at, wr.command == WRA)
    };
    rules::waiting(steps).into_iter().map(write).collect()
}

/// The number of the WR at a place, from 0, or of those before it.
pub fn write_number(steps: &[Step], place: usize) -> usize {
    let is_wr = |step: &&Step| step.packet.is_some_and(Fields::writes);
    steps[..place].iter().filter(is_wr).count()
}

/// The numbers of the writes whose masks or data stand in the two places of a state; those of the
/// first `come` writes have come. The second place keeps what came last while an older write
/// waited. The first has what is the older waiting write's; where that has not come, or none waits,
/// it is the same as the second.
pub fn kept(steps: &[Step], come: usize) -> [Option<usize>; 2] {
    let (mut writes, mut retires, mut second) = (0, 0, None);
    for step in steps {
        retires += usize::from(step.retired().is_some());
        if step.packet.is_some_and(Fields::writes) {
            if writes > retires && writes < come {
                second = Some(writes);
            }
            writes += 1;
        }
    }
    let older = (retires < writes.min(come)).then_some(retires);
    [older.or(second), second]
}

/// Whether the list ends with a WR, so that its D is due.
fn data_due(steps: &[Step]) -> bool {
    let last = steps.last().and_then(|step| step.packet);
    last.is_some_and(Fields::writes)
}

pub fn channel_bytes(steps: &[Step]) -> Vec<u8> {
    let mut state = vec![0; CHANNEL_BYTES];
    for step in steps {
        if let Some(p) = step.packet {
            note(&mut state, step, p);
        }
    }
    for bank in 0..32 {
        let tag = match open_row(steps, bank) {
            Some(row) => u64::from(row) + 1,
            None if rules::bank(steps, bank) == Bank::Refresh => UNDER_REFRESH,
            None => 0,
        };
        put(&mut state, 640 + 2 * bank as usize, 2, tag);
    }
    put_writes(&mut state, &waiting(steps), data_due(steps));
    state
}

/// Notes the instants of a packet, and of the PRER that it is or implies, in the fields of which they
/// are now the last.
fn note(state: &mut [u8], step: &Step, p: Fields) {
    let bank = 4 * p.bank as usize;
    let mut fields = vec![704, if p.command < NOCOP { 708 } else { 712 }];
    match p.command {
        ACT => fields.extend([bank, 128 + bank]),
        REFA => fields.push(bank),
        _ if p.reads() => fields.extend([384 + bank, 720]),
        _ => {}
    }
    if let Some((_, bank)) = step.retired() {
        fields.push(512 + 4 * bank as usize);
    }
    for at in fields {
        put_instant(state, at, step.at);
    }
    if let Some(prer) = step.prer() {
        let closed = (0..32).filter(|b| prer.closes(*b));
        let banks = closed.map(|b| 256 + 4 * b as usize).chain([716]);
        for at in banks.chain(prer.implied.then_some(724)) {
            put_instant(state, at, prer.at);
        }
    }
}

// ---- States that are not refused ----

/// The number of a bank: 0 closed, 1 + row open, or under refresh.
pub fn tag(state: &[u8], bank: usize) -> u64 {
    number(&state[640 + 2 * bank..642 + 2 * bank])
}

/// Whether some bytes are all 0.
pub fn zero(bytes: &[u8]) -> bool {
    bytes.iter().all(|b| *b == 0)
}

/// Whether bytes 0 to 751 are not refused under 1.
pub fn channel_fits(numbers: &[u16; 16], state: &[u8]) -> bool {
    let mut lasts = (0..640).chain(704..728).step_by(4);
    let row_fits = |tag: u64| tag <= numbers[ROWS].into() || tag == UNDER_REFRESH;
    let core = device_and_core(numbers).1.into();
    let closed = |bank: u32| tag(state, bank as usize) == 0;
    lasts.all(|at| instant(state, at) <= LAST)
        && (0..32).all(|bank| row_fits(tag(state, bank)))
        && (0..31).all(|b| !neighbours(core, b, b + 1) || closed(b) || closed(b + 1))
        && zero(&state[730..736])
        && buffer_fits(numbers, state)
}

/// Two writes wait at most, and data are due only of one that waits.
fn buffer_fits(numbers: &[u16; 16], state: &[u8]) -> bool {
    let count = usize::from(state[WAITING]);
    let place_fits = |(i, at): (usize, usize)| {
        if i < count {
            write_fits(numbers, state, at)
        } else {
            zero(&state[at..at + 8])
        }
    };
    count <= 2
        && state[DUE] <= u8::from(count > 0)
        && WRITES.into_iter().enumerate().all(place_fits)
}

/// The bank of a waiting write is open by ACT.
fn write_fits(numbers: &[u16; 16], state: &[u8], at: usize) -> bool {
    let (bank, column) = (usize::from(state[at]), u16::from(state[at + 1]));
    let open = bank < 32 && (1..UNDER_REFRESH).contains(&tag(state, bank));
    open && column < numbers[COLUMNS]
        && number(&state[at + CLOSES..at + 4]) <= 1
        && (4..=LAST).contains(&instant(state, at + 4))
}
