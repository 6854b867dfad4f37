//! What the tests of planner states and of model states have in common: the fields of bytes 0 to 751,
//! and instants for them.

use crate::random::Random;
use crate::reference::{COLUMNS, ROWS};
use crate::reference_state::{put_instant, Write, CLOSES, DUE, LAST, WAITING, WRITES};
use std::ops::Range;

/// Offset and width.
pub type Field = (usize, usize);

/// Bytes that no field uses, which are 0.
pub const UNUSED: Range<usize> = 730..736;

/// Such bytes, each as a field.
pub fn unused(bytes: Range<usize>) -> impl Iterator<Item = Field> {
    bytes.map(|at| (at, 1))
}

/// The fields of a state, of which those from byte 752 on are its own, with the bytes that are 0.
pub fn fields(own: &[Field]) -> Vec<Field> {
    let instants = (0..160).map(|i| (4 * i, 4));
    let banks = (0..32).map(|i| (640 + 2 * i, 2));
    let lasts = (0..6).map(|i| (704 + 4 * i, 4));
    let count = [(WAITING, 1), (DUE, 1)].into_iter().chain(unused(UNUSED));
    let write = |at: usize| [(at, 1), (at + 1, 1), (at + CLOSES, 2), (at + 4, 4)];
    let buffer = count.chain(WRITES.into_iter().flat_map(write));
    let channel = instants.chain(banks).chain(lasts).chain(buffer);
    channel.chain(own.iter().copied()).collect()
}

/// Numbers at and beyond the ends of what a field may be.
pub fn ends(numbers: &[u16; 16]) -> Vec<u64> {
    let (rows, columns) = (u64::from(numbers[ROWS]), u64::from(numbers[COLUMNS]));
    let small = [0, 1, 2, 3, 4, 5, 31, 32, 128, 255, 256];
    let places = [
        rows - 1,
        rows,
        rows + 1,
        columns - 1,
        columns,
        512,
        513,
        65_534,
        65_535,
    ];
    let instants = [LAST - 4, LAST - 3, LAST - 2, LAST - 1, LAST, LAST + 1];
    // With 3 added the second and third are 0 and 1 in 32 bits.
    let large = [1 << 31, (1 << 32) - 3, (1 << 32) - 2, u64::MAX];
    [&small[..], &places, &instants, &large].concat()
}

/// How many writes wait and whether data are due, also what is out of range, and of how many writes
/// the fields are there.
pub fn any_counts() -> impl Iterator<Item = (u8, u8, usize)> {
    let counts = [0, 1, 2, 3, 4, 16, 128, 255];
    let pairs = counts
        .into_iter()
        .flat_map(move |n| counts.map(|due| (n, due)));
    pairs.flat_map(|(n, due)| [0, 1, 2].map(|writes| (n, due, writes)))
}

/// Two waiting writes of bank 0.
pub const TWO: [Write; 2] = [(0, 3, 4, false), (0, 2, 8, false)];

/// Numbers in the place of a WRA's flag, of the older write or the newer, and how many writes wait.
pub fn any_flags() -> impl Iterator<Item = (u64, usize, usize)> {
    let flags = [0, 1, 2, 3, 128, 255, 256, 257, 65_535];
    let places = flags.into_iter().flat_map(|flag| [(flag, 0), (flag, 1)]);
    places.flat_map(|(flag, at)| [0, 1, 2].map(|writes| (flag, at, writes)))
}

/// All pairs of banks.
pub fn pairs_of_banks() -> impl Iterator<Item = (usize, usize)> {
    (0..32).flat_map(|a| (0..32).map(move |b| (a, b)))
}

/// The neighbours of a core, pair by pair.
pub fn are_neighbours(core: u16, a: usize, b: usize) -> bool {
    match (a.min(b), a.max(b)) {
        (15, 16) => core == 1,
        (low, high) => high == low + 1 && core != 2,
    }
}

/// Fields follow each other and end with the state.
pub fn assert_every_byte(fields: &[Field], bytes: usize) {
    let ends = fields.iter().scan(0, |end, (at, width)| {
        assert_eq!(at, end);
        *end += width;
        Some(*end)
    });
    assert_eq!(ends.last(), Some(bytes));
}

/// Instants of one state: most of them about the same one.
pub struct Instants {
    centre: u64,
    spread: usize,
    rare: usize,
}

impl Instants {
    /// One in `rare` is anywhere. The latest are about `end` before the last instant.
    pub fn new(random: &mut Random, rare: usize, end: u64) -> Instants {
        let middle = 4 + random.below(LAST as usize - 4) as u64;
        let centre = random.pick(&[100, 100, middle, LAST - 200, LAST - end]);
        let spread = random.pick(&[1, 40, 200]);
        Instants {
            centre,
            spread,
            rare,
        }
    }

    /// An instant, or also 0 where it may be never.
    pub fn instant(&self, random: &mut Random, never: bool) -> u64 {
        let about = (self.centre + random.below(self.spread) as u64).clamp(4, LAST);
        let any = 4 + random.below(LAST as usize - 3) as u64;
        let rare = if random.chance(self.rare) { any } else { about };
        match random.below(8) {
            0 | 1 if never => 0,
            2 => random.pick(&[4, about, about, rare]),
            _ => rare,
        }
    }

    /// Up to two waiting writes in open banks, of any order in time; WRAs among them or not.
    pub fn writes(
        &self,
        random: &mut Random,
        open: &[usize],
        columns: u16,
        closing: bool,
    ) -> Vec<Write> {
        let count = if open.is_empty() { 0 } else { random.below(3) };
        let mut write = || {
            let column = random.below(columns.into()) as u32;
            let bank = random.pick(open) as u32;
            let at = self.instant(random, false);
            (bank, column, at, closing && random.chance(3))
        };
        (0..count).map(|_| write()).collect()
    }

    /// Writes all last instants of a state.
    pub fn put_lasts(&self, random: &mut Random, state: &mut [u8]) {
        for at in (0..640).chain(704..728).step_by(4) {
            let instant = self.instant(random, true);
            put_instant(state, at, instant);
        }
    }
}
