//! The rules on random lists, as lists and as logs.

use crate::lists::{
    any_items, change, half_legal, legal, list_bytes, over_implied, over_writes, LAST,
};
use crate::random::{bytes, rounds, Random};
use crate::reference::{blocks, seal};
use crate::rule_calls::{check, check_both, check_log, Verdicts};
use crate::rule_settings::{rule_numbers, SettingsSeen};

/// Legal lists pass, and so does each list of their first records.
#[test]
fn legal_lists() {
    let name = "rules, legal lists";
    let (mut seen, mut random) = (Verdicts::default(), Random::new(41));
    let mut settings_seen = SettingsSeen::default();
    for _ in 0..rounds(20_000) {
        let numbers = rule_numbers(&mut random);
        settings_seen.add(&numbers);
        let packets = random.below(40);
        let settings = bytes(&numbers);
        let list = list_bytes(&settings, &legal(&mut random, &numbers, packets));
        assert_eq!(check_both(&mut seen, &settings, &list).number, 0);
        let part = 32 * random.below(list.len() / 32 + 1);
        assert_eq!(check(&mut seen, &settings, &list[..part]).number, 0);
    }
    seen.report(name, &[0]);
    settings_seen.report(name);
}

/// Legal lists with one record changed, or two.
#[test]
fn changed_lists() {
    let name = "rules, changed lists";
    let (mut seen, mut random) = (Verdicts::default(), Random::new(42));
    let mut settings_seen = SettingsSeen::default();
    for _ in 0..rounds(12_000) {
        let numbers = rule_numbers(&mut random);
        settings_seen.add(&numbers);
        let packets = 1 + random.below(30);
        let settings = bytes(&numbers);
        let items = legal(&mut random, &numbers, packets);
        for _ in 0..12 {
            let mut changed = items.clone();
            change(&mut random, &numbers, &mut changed);
            if random.chance(8) && !changed.is_empty() {
                change(&mut random, &numbers, &mut changed);
            }
            check_both(&mut seen, &settings, &list_bytes(&settings, &changed));
        }
    }
    seen.report(name, &[0, 11]);
    settings_seen.report(name);
    seen.all_rules(name);
    seen.implied_rules(name);
}

/// Lists of some hundred records.
#[test]
fn long_lists() {
    let name = "rules, long lists";
    let (mut seen, mut random) = (Verdicts::default(), Random::new(47));
    for _ in 0..24 {
        let numbers = rule_numbers(&mut random);
        let settings = bytes(&numbers);
        let items = legal(&mut random, &numbers, 500);
        check_both(&mut seen, &settings, &list_bytes(&settings, &items));
        for _ in 0..12 {
            let mut changed = items.clone();
            change(&mut random, &numbers, &mut changed);
            check_both(&mut seen, &settings, &list_bytes(&settings, &changed));
        }
    }
    seen.report(name, &[0, 11]);
}

/// Short lists with small instants in which many rules break.
#[test]
fn short_lists() {
    let name = "rules, short lists";
    let (mut seen, mut random) = (Verdicts::default(), Random::new(43));
    for round in 0..150_000 {
        let numbers = rule_numbers(&mut random);
        let records = 1 + random.below(14);
        let settings = bytes(&numbers);
        let items = match round % 5 {
            0 => any_items(&mut random, &numbers, records),
            1 => over_writes(&mut random, &numbers),
            2 => over_implied(&mut random, &numbers),
            _ => half_legal(&mut random, &numbers, records),
        };
        check(&mut seen, &settings, &list_bytes(&settings, &items));
    }
    seen.report(name, &[0, 11]);
    seen.all_rules(name);
    seen.all_shapes(name);
    seen.all_implied(name);
}

/// Lists moved so that a record lies near 4, near the last instant or near 2^32 - 1.
#[test]
fn far_instants() {
    let name = "rules, far instants";
    let (mut seen, mut random) = (Verdicts::default(), Random::new(44));
    for _ in 0..rounds(40_000) {
        let numbers = rule_numbers(&mut random);
        let records = 1 + random.below(12);
        let settings = bytes(&numbers);
        let mut items = match random.below(4) {
            0 => any_items(&mut random, &numbers, records),
            _ => legal(&mut random, &numbers, records),
        };
        let target = random.pick(&[4, LAST, LAST, u32::MAX]);
        let target = target
            .wrapping_add(random.below(30) as u32)
            .wrapping_sub(15);
        let from = random.below(items.len());
        let shift = target.wrapping_sub(items[from].at);
        let start = random.pick(&[0, 0, from]);
        for item in &mut items[start..] {
            item.at = item.at.wrapping_add(shift);
        }
        if random.chance(2) {
            change(&mut random, &numbers, &mut items);
        }
        if random.chance(4) && !items.is_empty() {
            let last = items.len() - 1;
            items[last].at = random.pick(&[0, 3, 4, LAST, LAST + 1, 1 << 31, u32::MAX]);
        }
        check_both(&mut seen, &settings, &list_bytes(&settings, &items));
    }
    seen.report(name, &[0, 11]);
}

/// The list of one of the kinds above.
fn any_list(random: &mut Random, numbers: &[u16; 16], records: usize) -> Vec<u8> {
    let mut items = match random.below(4) {
        0 => half_legal(random, numbers, records),
        _ => legal(random, numbers, records),
    };
    if random.chance(2) && !items.is_empty() {
        change(random, numbers, &mut items);
    }
    list_bytes(&bytes(numbers), &items)
}

fn spoil_record(random: &mut Random, list: &mut [u8]) {
    let start = 32 * random.below(list.len() / 32);
    let any = random.below(32);
    let at = start + random.pick(&[4, 5, 8, 9, 10, 11, 12, 15, 20, any]);
    list[at] ^= 1 << random.below(8);
}

/// Lists with a bad record, a bad length or bad settings beside broken rules.
#[test]
fn spoiled_lists() {
    let name = "rules, spoiled lists";
    let (mut seen, mut random) = (Verdicts::default(), Random::new(45));
    for _ in 0..rounds(40_000) {
        let mut numbers = rule_numbers(&mut random);
        let records = 1 + random.below(24);
        let mut list = any_list(&mut random, &numbers, records);
        for _ in 0..random.below(3) {
            if !list.is_empty() {
                spoil_record(&mut random, &mut list);
            }
        }
        if random.chance(8) {
            let figure = random.below(16);
            numbers[figure] = random.pick(&[0, 3, 33, 65, 513, 1 << 8]);
        }
        let mut settings = bytes(&numbers);
        settings.truncate(random.pick(&[32, 32, 32, 32, 32, 32, 31, 0]));
        let cut = random.pick(&[0, 0, 0, 0, 0, 1, 16, 31]).min(list.len());
        check(&mut seen, &settings, &list[..list.len() - cut]);
    }
    seen.report(name, &[0, 1, 10, 11, 13]);
}

/// Changes a log: bytes with and without a right check, blocks exchanged, left out and doubled.
fn spoil_log(random: &mut Random, log: &mut Vec<u8>) {
    let blocks = log.len() / 512;
    let (a, b) = (512 * random.below(blocks), 512 * random.below(blocks));
    match random.below(8) {
        0 => (0..512).for_each(|i| log.swap(a + i, b + i)),
        1 => drop(log.drain(a..a + 512)),
        2 => log.extend_from_within(a..a + 512),
        3 => log.truncate(log.len() - 1 - random.below(511)),
        4 => log[a + random.below(512)] ^= 1 << random.below(8),
        5 => {
            let at = random.pick(&[480, 484, 488, 500]);
            log[a + at] = random.below(17) as u8;
            seal(&mut log[a..a + 512]);
        }
        _ => {
            let record = a + 32 * random.below(15);
            let byte = random.pick(&[0, 0, 1, 4, 8, 9, 10, 11, 12]);
            log[record + byte] ^= 1 << random.below(8);
            seal(&mut log[a..a + 512]);
        }
    }
}

/// Logs of up to five blocks, most of them damaged.
#[test]
fn logs() {
    let name = "rules, logs";
    let (mut seen, mut random) = (Verdicts::default(), Random::new(46));
    for _ in 0..rounds(12_000) {
        let mut numbers = rule_numbers(&mut random);
        let records = random.below(70);
        let list = any_list(&mut random, &numbers, records);
        let log = blocks(&list);
        if random.chance(32) {
            numbers[random.below(13)] = 0;
        }
        check_log(&mut seen, &bytes(&numbers), &log);
        for _ in 0..4 {
            let mut spoiled = log.clone();
            for _ in 0..1 + random.below(2) {
                if spoiled.len() >= 512 {
                    spoil_log(&mut random, &mut spoiled);
                }
            }
            check_log(&mut seen, &bytes(&numbers), &spoiled);
        }
    }
    seen.report(name, &[0, 1, 10, 11, 12, 13]);
}
