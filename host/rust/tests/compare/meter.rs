//! The meter against counts that keep every accepted instant: one over a prefix sum of busy cycles,
//! one over the definition, cycle by cycle; feeds of planned lists; and states against the feeds that
//! would give them.

use crate::calls::typed;
use crate::plan_streams::Maker;
use crate::random::{bytes, rounds, Random};
use crate::reference::T_CAC;
use rdram::{Meter, Planner, Refusal, METER_BYTES, RECORD_BYTES, REQUEST_RECORDS};

const LAST: u32 = 1_000_000_000;

/// Every accepted instant, and how many cycles before each one were busy.
#[derive(Default)]
struct History {
    instants: Vec<u32>,
    busy_before: Vec<u64>,
}

impl History {
    /// The answer of the next feed, by document 02.
    fn answer(&self, at: u32) -> Result<(), Refusal> {
        if !(4..=LAST).contains(&at) {
            return Err(Refusal::Horizon);
        }
        match self.instants.last() {
            Some(newest) if at < newest + 4 => Err(Refusal::Overlap),
            _ => Ok(()),
        }
    }

    fn accept(&mut self, at: u32) {
        self.busy_before.push(4 * self.instants.len() as u64);
        self.instants.push(at);
    }

    /// How many cycles before a cycle were busy, over all accepted instants.
    fn busy_until(&self, cycle: i64) -> u64 {
        match self.instants.partition_point(|&at| i64::from(at) < cycle) {
            0 => 0,
            n => self.busy_before[n - 1] + 4.min((cycle - i64::from(self.instants[n - 1])) as u64),
        }
    }

    /// How many of the 1,024 cycles that end with the newest dualoct's fourth cycle were busy.
    fn count(&self) -> u32 {
        let end = self.instants.last().map_or(0, |&at| i64::from(at) + 4);
        (self.busy_until(end) - self.busy_until(end - 1024)) as u32
    }
}

/// One feed: answer, count and share are the history's, and a refused feed changes nothing.
fn feed(meter: &mut Meter, history: &mut History, at: u32) {
    let before = meter.clone();
    let answer = history.answer(at);
    assert_eq!(meter.feed(at), answer, "feed of {at}");
    match answer {
        Ok(()) => history.accept(at),
        Err(_) => assert_eq!(*meter, before, "refused feed of {at}"),
    }
    let count = history.count();
    assert!(count <= 1024);
    assert_eq!(meter.count(), Ok(count), "after {at}");
    assert_eq!(
        meter.share().map(f64::from),
        Ok(f64::from(count) / 1024.0),
        "after {at}"
    );
}

/// The distance to the next instant: dense, sparse, at the window's edges, mixed with overlaps.
fn distance(random: &mut Random, stream: usize) -> u32 {
    (match stream {
        0 => 4 + random.below(3),
        1 => 100 + random.below(3000),
        2 => random.pick(&[
            4, 4, 5, 1017, 1018, 1019, 1020, 1021, 1022, 1023, 1024, 1025,
        ]),
        _ => match random.below(9) {
            0 => random.below(2000),
            1 => 60 + random.below(8),
            _ => random.below(12),
        },
    }) as u32
}

/// Millions of feeds, from any instant on and up to the last one.
#[test]
fn streams() {
    let mut random = Random::new(71);
    let (mut accepted, mut refused) = (0, 0);
    for round in 0..rounds(80) {
        let stream = round % 4;
        let mut at = random.pick(&[4, 5, 1000, LAST - 200_000]) + random.below(900) as u32;
        let (mut meter, mut history) = (Meter::fresh(), History::default());
        for _ in 0..40_000 {
            let far = random.chance(500);
            feed(
                &mut meter,
                &mut history,
                if far { random.word() as u32 } else { at },
            );
            at = history
                .instants
                .last()
                .map_or(at, |&newest| newest + distance(&mut random, stream));
        }
        accepted += history.instants.len();
        refused += 40_000 - history.instants.len();
    }
    println!("{accepted} feeds accepted, {refused} refused");
    assert!(accepted > 1_000_000 && refused > 10_000);
}

/// The definition: a cycle is busy where a dualoct fills it, and 1,024 of them are looked at.
#[test]
fn cycle_by_cycle() {
    let mut random = Random::new(72);
    for round in 0..rounds(40) {
        let (mut meter, mut busy) = (Meter::fresh(), vec![false; 60_000]);
        let mut at = 4 + random.below(2000);
        while at + 4 < busy.len() {
            meter.feed(at as u32).unwrap();
            busy[at..at + 4].fill(true);
            let window = &busy[(at + 4).saturating_sub(1024)..at + 4];
            let count = window.iter().filter(|&&busy| busy).count();
            assert_eq!(meter.count(), Ok(count as u32), "after {at}");
            at += distance(&mut random, round % 3) as usize;
        }
    }
}

/// The data instants of the records: those of D, and of RD and tCAC.
fn data_instants(numbers: &[u16; 16], records: &[u8]) -> Vec<u32> {
    let number = |bytes: &[u8]| {
        bytes
            .iter()
            .rev()
            .fold(0, |n, &byte| n << 8 | u64::from(byte))
    };
    let instant = |record: &[u8]| match record[4] {
        1 if number(&record[8..16]) >> 17 & 15 == 3 => {
            Some(number(&record[..4]) + u64::from(numbers[T_CAC]))
        }
        2 => Some(number(&record[..4])),
        _ => None,
    };
    let instants = records.chunks(RECORD_BYTES).filter_map(instant);
    instants.map(|at| at as u32).collect()
}

/// The data instants of planned lists rise by 4 or more: every one is accepted.
#[test]
fn planned_lists() {
    let mut random = Random::new(73);
    let mut fed = 0;
    for _ in 0..rounds(60) {
        let numbers = random.numbers();
        let settings = typed(&bytes(&numbers)).expect("valid settings");
        let maker = Maker::new(&mut random, &numbers);
        let mut planner = Planner::fresh();
        let (mut meter, mut history) = (Meter::fresh(), History::default());
        for _ in 0..400 {
            let mut room = [0; REQUEST_RECORDS * RECORD_BYTES];
            let request = maker.request(&mut random);
            let Ok(made) = planner.plan_bytes(&settings, &request, &mut room) else {
                continue;
            };
            let records = &room[..made.records * RECORD_BYTES];
            for at in data_instants(&numbers, records) {
                assert_eq!(history.answer(at), Ok(()));
                feed(&mut meter, &mut history, at);
                fed += 1;
            }
        }
    }
    println!("{fed} data instants of planned lists");
    assert!(fed > 10_000);
}

/// Whether feeds give the bytes: the instants that they mark, fed to a fresh meter, do.
fn given(bytes: &[u8; METER_BYTES]) -> bool {
    let newest = u64::from_le_bytes(bytes[128..].try_into().unwrap());
    let mut meter = Meter::fresh();
    for age in (0..1024)
        .rev()
        .filter(|age| bytes[age / 8] >> (age % 8) & 1 == 1)
    {
        let at = newest
            .checked_sub(age as u64)
            .and_then(|at| u32::try_from(at).ok());
        if at.is_none_or(|at| meter.feed(at).is_err()) {
            return false;
        }
    }
    meter.to_bytes() == *bytes
}

/// Bytes of a meter with a few bits changed, or of any kind: every call refuses exactly those that no
/// feeds give, first of all, and changes nothing.
#[test]
fn states() {
    let mut random = Random::new(74);
    let mut good = 0;
    let count = rounds(40_000);
    for round in 0..count {
        let (mut meter, mut history) = (Meter::fresh(), History::default());
        let mut at = random.pick(&[4, 4, 5, 900, 1023, LAST - 5000]);
        for _ in 0..random.below(40) {
            feed(&mut meter, &mut history, at);
            at += distance(&mut random, round % 4);
        }
        let mut bytes = meter.to_bytes();
        for _ in 0..random.below(3) {
            let bit = random.pick(&[8 * 128, 64, 1088]);
            let bit = random.below(bit);
            bytes[bit / 8] ^= 1 << (bit % 8);
        }
        let mut state = Meter::from_bytes(bytes);
        assert_eq!(state.to_bytes(), bytes);
        let expected = if given(&bytes) {
            Ok(())
        } else {
            Err(Refusal::Settings)
        };
        good += usize::from(expected.is_ok());
        assert_eq!(state.count().map(drop), expected);
        assert_eq!(state.share().map(drop), expected);
        let fed = state.feed(random.pick(&[0, 3, LAST + 1, u32::MAX]));
        assert_eq!(fed, expected.and(Err(Refusal::Horizon)));
        assert_eq!(state.to_bytes(), bytes, "a refused feed");
    }
    println!("{good} of {count} states are given by feeds");
    assert!(good > count / 10 && good < count / 10 * 9);
}
