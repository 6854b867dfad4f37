//! The shortest run that still breaks, against trying every start by the rules of the reference.

use crate::calls::typed;
use crate::lists::{any_items, change, half_legal, legal, list_bytes, over_implied, over_writes};
use crate::random::{bytes, rounds, Random};
use crate::reference_rules::check;
use crate::rule_settings::rule_numbers;
use rdram::{raw, ShortestRun};

/// The answer by document 02 l: of all starts up to the bad record the last whose run is refused first
/// at its last record by the same rule, with all starts that have this.
fn by_all_starts(settings: &[u8], list: &[u8]) -> (raw::Shortest, Vec<u64>) {
    let whole = check(settings, list);
    let mut answer = raw::Shortest {
        number: whole.number,
        rule: whole.rule,
        place: whole.place,
        start: 0,
    };
    if whole.number != 11 {
        return (answer, Vec::new());
    }
    let end = 32 * (whole.place as usize + 1);
    let still = |start: &u64| {
        let run = check(settings, &list[32 * *start as usize..end]);
        (run.number, run.rule, run.place) == (11, whole.rule, whole.place - start)
    };
    let starts: Vec<u64> = (0..=whole.place).filter(still).collect();
    answer.start = *starts.last().expect("the whole list has the property");
    (answer, starts)
}

/// Whether the run from a later start breaks another rule at the bad record, and none before it.
fn has_other_rule(settings: &[u8], list: &[u8], answer: &raw::Shortest) -> bool {
    let end = 32 * (answer.place as usize + 1);
    (answer.start + 1..=answer.place).any(|start| {
        let run = check(settings, &list[32 * start as usize..end]);
        run.number == 11 && run.place == answer.place - start
    })
}

/// What was seen of the answers.
#[derive(Default)]
struct Found {
    numbers: [u64; 14],
    rules: [u64; 18],
    /// Runs by their length: one record, two, three to nine, more.
    lengths: [u64; 4],
    /// Lists in which the starts with the property are not all in one piece.
    broken_up: u64,
    /// Lists whose run starts after record 0.
    inside: u64,
    /// Lists in which the run from a later start breaks another rule at the bad record.
    other_rule: u64,
}

impl Found {
    fn add(&mut self, settings: &[u8], list: &[u8]) {
        let given = list.to_vec();
        // SAFETY: each pointer and length are those of one slice, which the call only reads.
        let answer = unsafe {
            raw::rdram_shortest(settings.as_ptr(), settings.len(), list.as_ptr(), list.len())
        };
        let (expected, starts) = by_all_starts(settings, list);
        assert_eq!(answer, expected);
        assert_eq!(list, given);
        self.numbers[answer.number as usize] += 1;
        if let Some(settings) = typed(settings) {
            let run = rdram::shortest(&settings, list);
            let (rule, place, start) = (answer.rule, answer.place as usize, answer.start as usize);
            match answer.number {
                0 => assert_eq!(run, Ok(None)),
                11 => {
                    let found = ShortestRun { rule, place, start };
                    assert_eq!(run, Ok(Some(found)));
                    assert_eq!(found.records(list), &list[32 * start..32 * place + 32]);
                }
                number => assert_eq!(run.unwrap_err().number(), number),
            }
        }
        if answer.number == 11 {
            self.rules[answer.rule as usize] += 1;
            let length = answer.place - answer.start + 1;
            self.lengths[[1, 2, 9, u64::MAX]
                .iter()
                .position(|most| length <= *most)
                .unwrap()] += 1;
            self.broken_up += u64::from(starts.windows(2).any(|pair| pair[0] + 1 < pair[1]));
            self.inside += u64::from(answer.start > 0);
            self.other_rule += u64::from(has_other_rule(settings, list, &answer));
        }
    }

    fn report(&self, name: &str) {
        println!(
            "{name}: by number {:?}, by rule {:?}",
            self.numbers,
            &self.rules[1..]
        );
        println!(
            "{name}: runs of 1, 2, up to 9 and more records {:?}",
            self.lengths
        );
        println!(
            "{name}: starts in several pieces {}, run inside the list {}, another rule later {}",
            self.broken_up, self.inside, self.other_rule
        );
        assert!(self.numbers[11] > 0 && self.broken_up > 0, "{name}");
        assert!(self.inside > 0 && self.other_rule > 0, "{name}");
        assert!(self.lengths.iter().all(|count| *count > 0), "{name}");
    }
}

/// Legal lists with one record changed, or two.
#[test]
fn changed_lists() {
    let (mut found, mut random) = (Found::default(), Random::new(81));
    for _ in 0..rounds(1_500) {
        let numbers = rule_numbers(&mut random);
        let settings = bytes(&numbers);
        let packets = 1 + random.below(24);
        let items = legal(&mut random, &numbers, packets);
        for _ in 0..8 {
            let mut changed = items.clone();
            change(&mut random, &numbers, &mut changed);
            if random.chance(8) && !changed.is_empty() {
                change(&mut random, &numbers, &mut changed);
            }
            found.add(&settings, &list_bytes(&settings, &changed));
        }
    }
    found.report("shortest, changed lists");
    assert!(found.rules[1..].iter().all(|count| *count > 0));
}

/// Short lists in which many rules break.
#[test]
fn short_lists() {
    let (mut found, mut random) = (Found::default(), Random::new(82));
    for round in 0..rounds(20_000) {
        let numbers = rule_numbers(&mut random);
        let settings = bytes(&numbers);
        let records = 1 + random.below(14);
        let items = match round % 5 {
            0 => any_items(&mut random, &numbers, records),
            1 => over_writes(&mut random, &numbers),
            2 => over_implied(&mut random, &numbers),
            _ => half_legal(&mut random, &numbers, records),
        };
        found.add(&settings, &list_bytes(&settings, &items));
    }
    found.report("shortest, short lists");
    assert!(found.rules[1..].iter().all(|count| *count > 0));
}

/// Lists of some hundred records with one changed.
#[test]
fn long_lists() {
    let (mut found, mut random) = (Found::default(), Random::new(83));
    for _ in 0..12 {
        let numbers = rule_numbers(&mut random);
        let settings = bytes(&numbers);
        let items = legal(&mut random, &numbers, 120);
        for _ in 0..6 {
            let mut changed = items.clone();
            change(&mut random, &numbers, &mut changed);
            found.add(&settings, &list_bytes(&settings, &changed));
        }
    }
    println!("shortest, long lists: runs by length {:?}", found.lengths);
    assert!(found.numbers[11] > 0 && found.lengths[3] > 0);
}

/// Refusals 1, 13 and 10 beside broken rules.
#[test]
fn refused_calls() {
    let (mut found, mut random) = (Found::default(), Random::new(84));
    for _ in 0..rounds(4_000) {
        let mut numbers = rule_numbers(&mut random);
        let records = 1 + random.below(12);
        let items = half_legal(&mut random, &numbers, records);
        let mut list = list_bytes(&bytes(&numbers), &items);
        if random.chance(3) {
            let at = 32 * random.below(list.len() / 32) + random.pick(&[4, 5, 8, 12, 15, 20]);
            list[at] ^= 1 << random.below(8);
        }
        if random.chance(8) {
            numbers[random.below(13)] = random.pick(&[0, 3, 65]);
        }
        let mut settings = bytes(&numbers);
        settings.truncate(random.pick(&[32, 32, 32, 32, 32, 31, 0]));
        let cut = random.pick(&[0, 0, 0, 0, 1, 31]).min(list.len());
        found.add(&settings, &list[..list.len() - cut]);
    }
    println!("shortest, refused calls: {:?}", found.numbers);
    for number in [0, 1, 10, 11, 13] {
        assert!(found.numbers[number] > 0, "number {number}");
    }
    found.add(&bytes(&rule_numbers(&mut random)), &[]);
}
