//! Rivals of the meter, both written for speed and updated in place. "plain" has the library's 136
//! bytes and tests them on each call, as it must. "tuned" keeps the instants of the window in a ring
//! with no test of its state: a program that never hands its meter out may do so.

const LAST: u32 = 1_000_000_000;

/// The refusal of an instant, or 0.
fn answer(newest: u32, at: u32) -> u32 {
    if !(4..=LAST).contains(&at) {
        7
    } else if at < newest + 4 {
        16
    } else {
        0
    }
}

/// The bits of a word that have another less than 4 after them.
fn near(low: u64, high: u64) -> u64 {
    low & (low >> 1 | high << 63 | low >> 2 | high << 62 | low >> 3 | high << 61)
}

#[derive(Clone, Copy, PartialEq, Eq, Debug)]
pub struct Plain {
    pub marks: [u64; 16],
    pub newest: u64,
}

impl Plain {
    pub fn fresh() -> Plain {
        let (marks, newest) = ([0; 16], 0);
        Plain { marks, newest }
    }

    /// Every mark is of an instant from 4 on.
    fn all_from_4(&self) -> bool {
        let limit = (self.newest as usize).saturating_sub(3);
        let words = self.marks.iter().enumerate();
        let mut rest = words.map(|(k, w)| match limit.saturating_sub(64 * k) {
            n @ 0..=63 => w >> n,
            _ => 0,
        });
        rest.all(|rest| rest == 0)
    }

    fn right(&self) -> bool {
        let mut clash = near(self.marks[15], 0);
        for k in 0..15 {
            clash |= near(self.marks[k], self.marks[k + 1]);
        }
        let marked = self.newest == 0 || self.marks[0] & 1 == 1;
        let fits = self.newest <= LAST.into() && (self.newest >= 1027 || self.all_from_4());
        clash == 0 && marked && fits
    }

    pub fn feed(&mut self, at: u32) -> u32 {
        if !self.right() {
            return 1;
        }
        let number = answer(self.newest as u32, at);
        if number != 0 {
            return number;
        }
        let later = (u64::from(at) - self.newest) as usize;
        let (words, bits) = (later / 64, later % 64);
        if words > 0 {
            let kept = 16 - words.min(16);
            self.marks.copy_within(..kept, 16 - kept);
            self.marks[..16 - kept].fill(0);
        }
        let mut low = 0;
        for word in &mut self.marks {
            let high = *word;
            *word = high << bits | low >> 1 >> (63 - bits);
            low = high;
        }
        self.marks[0] |= 1;
        self.newest = at.into();
        0
    }

    pub fn count(&self) -> u32 {
        if !self.right() {
            return 0;
        }
        let marks: u32 = self.marks.iter().map(|w| w.count_ones()).sum();
        let oldest = (self.marks[15] >> 61) as u32;
        4 * marks - (oldest & 1) - 2 * (oldest >> 1 & 1) - 3 * (oldest >> 2)
    }
}

pub struct Tuned {
    /// The instants of the window: `taken % 256` is the place of the next one, and the oldest stands
    /// at `left % 256`.
    instants: [u32; 256],
    taken: u32,
    left: u32,
    newest: u32,
}

impl Tuned {
    pub fn fresh() -> Tuned {
        Tuned {
            instants: [0; 256],
            taken: 0,
            left: 0,
            newest: 0,
        }
    }

    pub fn feed(&mut self, at: u32) -> u32 {
        let number = answer(self.newest, at);
        if number == 0 {
            while self.left != self.taken && self.instants[self.left as usize % 256] + 1024 <= at {
                self.left += 1;
            }
            self.instants[self.taken as usize % 256] = at;
            self.taken += 1;
            self.newest = at;
        }
        number
    }

    pub fn count(&self) -> u32 {
        if self.taken == 0 {
            return 0;
        }
        let age = self.newest - self.instants[self.left as usize % 256];
        4 * (self.taken - self.left) - age.saturating_sub(1020)
    }
}
