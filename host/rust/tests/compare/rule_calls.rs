//! The checks of the library, each compared with the reference: C functions and safe wrappers.

use crate::calls::{typed, Seen};
use crate::reference::{blocks, NOCOP, RD, RDA, WR, WRA};
use crate::reference_rules::{self as rules, Answer};
use rdram::{raw, Refusal, Settings};
use std::collections::BTreeMap;

/// How many checks had each answer number and each rule.
#[derive(Default)]
pub struct Verdicts {
    numbers: Seen,
    rules: [u64; 18],
    /// Those in which the named record breaks no other rule.
    single: [u64; 18],
    /// Those in which the waiting writes decide.
    shapes: [u64; Self::SHAPES.len()],
    /// Those of which an implied PRER is the cause, by rule and packet.
    implied: BTreeMap<(u32, &'static str), u64>,
}

impl Verdicts {
    const SHAPES: [&'static str; 11] = [
        "12 by NOCOP, one waits",
        "12 by NOCOP, two wait",
        "12 by WR, two wait",
        "12 by RD, two wait",
        "14 of the older of two",
        "14 of the newer of two",
        "16 by NOCOP, none waits",
        "16 by WR, one waits",
        "17 by ROW, a WRA waits",
        "17 by WR, one waits",
        "17 by WR, two wait",
    ];

    /// Rules of which an implied PRER is the cause, with the packets that break them: its own rules, and
    /// those that an earlier one is in the way of.
    const IMPLIED: [(u32, &'static str); 19] = [
        (1, "RDA"),
        (1, "NOCOP"),
        (1, "WR"),
        (6, "RDA"),
        (6, "NOCOP"),
        (6, "WR"),
        (7, "ROW"),
        (8, "RDA"),
        (8, "NOCOP"),
        (8, "WR"),
        (8, "ROW"),
        (9, "RD"),
        (9, "RDA"),
        (9, "WR"),
        (13, "RDA"),
        (13, "NOCOP"),
        (13, "WR"),
        (14, "RDA"),
        (17, "ROW"),
    ];

    fn add(&mut self, answer: &Answer) {
        self.numbers.add(answer.number);
        if answer.number == 11 {
            let rule = answer.rule as usize;
            self.rules[rule] += 1;
            self.single[rule] += u64::from(answer.broken.single());
            let by = |n, command, waiting| {
                answer.rule == n
                    && answer.command == Some(command)
                    && answer.closes.len() == waiting
            };
            let shapes = [
                by(12, NOCOP, 1),
                by(12, NOCOP, 2),
                by(12, WR, 2),
                by(12, RD, 2),
                rule == 14 && answer.closes == [true, false],
                rule == 14 && answer.closes == [false, true],
                by(16, NOCOP, 0),
                by(16, WR, 1),
                rule == 17 && !answer.broken.by_implied() && answer.command < Some(NOCOP),
                by(17, WR, 1) || by(17, WRA, 1),
                by(17, WR, 2) || by(17, WRA, 2),
            ];
            if answer.broken.by_implied() {
                let packet = match answer.command {
                    Some(RDA) => "RDA",
                    Some(RD) => "RD",
                    Some(WR | WRA) => "WR",
                    Some(NOCOP) => "NOCOP",
                    _ => "ROW",
                };
                *self.implied.entry((answer.rule, packet)).or_default() += 1;
            }
            for (count, shape) in self.shapes.iter_mut().zip(shapes) {
                *count += u64::from(shape);
            }
        }
    }

    /// Prints the counts; fails unless exactly these numbers were seen.
    pub fn report(&self, name: &str, expected: &[u32]) {
        self.numbers.report(name, expected);
        let counts: Vec<String> = (1..=17)
            .map(|n| format!("{n}: {} ({})", self.rules[n], self.single[n]))
            .collect();
        if expected.contains(&11) {
            println!("{name}: rules (as the only one): {}", counts.join(", "));
            let shapes = Self::SHAPES.iter().zip(self.shapes);
            let shapes: Vec<String> = shapes.map(|(name, n)| format!("{name}: {n}")).collect();
            println!("{name}: {}", shapes.join(", "));
            let implied = self.implied.iter();
            let implied: Vec<String> = implied
                .map(|((n, p), c)| format!("{n} by {p}: {c}"))
                .collect();
            println!("{name}: by implied PRERs: {}", implied.join(", "));
        }
    }

    /// Fails unless each of the rules was named, also for a record that breaks it alone.
    pub fn all_rules(&self, name: &str) {
        for rule in 1..=17 {
            assert!(self.single[rule] > 0, "{name}: rule {rule} alone");
        }
    }

    /// Fails unless the waiting writes decided in each way.
    pub fn all_shapes(&self, name: &str) {
        assert!(
            self.shapes.iter().all(|n| *n > 0),
            "{name}: {:?}",
            self.shapes
        );
    }

    /// Fails unless implied PRERs were the cause of each rule that they can be the cause of.
    pub fn implied_rules(&self, name: &str) {
        for (rule, _) in Self::IMPLIED {
            let named = self.implied.keys().any(|(n, _)| *n == rule);
            assert!(named, "{name}: rule {rule} by an implied PRER");
        }
    }

    /// Fails unless implied PRERs were the cause in each way.
    pub fn all_implied(&self, name: &str) {
        for way in Self::IMPLIED {
            assert!(self.implied.contains_key(&way), "{name}: {way:?}");
        }
    }
}

type CFunction = unsafe extern "C" fn(*const u8, usize, *const u8, usize) -> raw::Judged;
type Wrapper = fn(&Settings, &[u8]) -> Result<(), Refusal>;

/// What a wrapper must say.
fn wrapped(answer: &Answer) -> Result<(), Refusal> {
    let place = answer.place;
    Err(match answer.number {
        0 => return Ok(()),
        1 => Refusal::Settings,
        10 => Refusal::Word { place: Some(place) },
        11 => Refusal::Rule {
            rule: answer.rule,
            place,
        },
        12 => Refusal::Block { place },
        13 => Refusal::Length,
        number => panic!("no refusal {number} of a check"),
    })
}

/// Runs C function and wrapper, compares with the wanted answer, and sees that no input changes.
fn compare(calls: (CFunction, Wrapper), settings: &[u8], input: &[u8], want: &Answer) {
    let (s, i) = (settings.to_vec(), input.to_vec());
    // SAFETY: each pointer and length are those of one slice.
    let got = unsafe { calls.0(s.as_ptr(), s.len(), i.as_ptr(), i.len()) };
    let raw = raw::Judged {
        number: want.number,
        rule: want.rule,
        place: want.place,
    };
    assert_eq!(
        got, raw,
        "{want:?}, settings {settings:?}, input {input:02x?}"
    );
    assert!(s == settings && i == input, "an input was changed");
    if let Some(settings) = typed(settings) {
        assert_eq!(calls.1(&settings, input), wrapped(want));
    }
}

pub fn check(seen: &mut Verdicts, settings: &[u8], list: &[u8]) -> Answer {
    let want = rules::check(settings, list);
    compare((raw::rdram_check, rdram::check), settings, list, &want);
    seen.add(&want);
    want
}

pub fn check_log(seen: &mut Verdicts, settings: &[u8], log: &[u8]) -> Answer {
    let want = rules::check_log(settings, log);
    compare(
        (raw::rdram_check_log, rdram::check_log),
        settings,
        log,
        &want,
    );
    seen.add(&want);
    want
}

/// A list of well formed records and its log have the same answer.
pub fn check_both(seen: &mut Verdicts, settings: &[u8], list: &[u8]) -> Answer {
    let want = check(seen, settings, list);
    let calls: (CFunction, Wrapper) = (raw::rdram_check_log, rdram::check_log);
    compare(calls, settings, &blocks(list), &want);
    want
}
