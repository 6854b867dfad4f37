//! Logs both ways.

use crate::calls::{log_decode, log_encode, Seen};
use crate::random::{bytes, rounds, set_h, Random};
use crate::reference::{block, blocks, seal};

/// Room for a call that needs `need` pieces of `size` bytes: none, less, just enough, more.
fn rooms(random: &mut Random, need: usize, size: usize) -> Vec<usize> {
    let exact = need * size;
    let mut rooms = vec![
        0,
        exact,
        exact + 1,
        exact + size - 1,
        exact + size,
        random.below(exact + 2 * size),
    ];
    for less in [1, size - 1, size, size + 1] {
        rooms.push(exact.saturating_sub(less));
    }
    rooms
}

#[test]
fn valid_lists() {
    let (mut seen, mut random) = (Seen::default(), Random::new(21));
    for round in 0..10 {
        for records in 0..=100 {
            let numbers = random.numbers();
            let settings = bytes(&numbers);
            let list = random.list(&numbers, records);
            let log = blocks(&list);
            assert_eq!(log.len() / 512, records.div_ceil(15), "round {round}");
            for room in rooms(&mut random, log.len() / 512, 512) {
                log_encode(&mut seen, &settings, &list, room);
            }
            for room in rooms(&mut random, records, 32) {
                log_decode(&mut seen, &settings, &log, room);
            }
        }
    }
    seen.report("logs, valid lists of 0 to 100 records", &[0, 8]);
}

#[test]
fn every_room() {
    let (mut seen, mut random) = (Seen::default(), Random::new(22));
    let numbers = set_h(512, 128, 31);
    let settings = bytes(&numbers);
    let list = random.list(&numbers, 31);
    let log = blocks(&list);
    for room in 0..=log.len() + 600 {
        log_encode(&mut seen, &settings, &list, room);
        log_decode(&mut seen, &settings, &log, room);
    }
    seen.report("logs, every room for 31 records", &[0, 8]);
}

#[test]
fn every_length() {
    let (mut seen, mut random) = (Seen::default(), Random::new(23));
    let numbers = set_h(512, 128, 15);
    let settings = bytes(&numbers);
    let list = random.list(&numbers, 50);
    let log = blocks(&list);
    for length in 0..=list.len() {
        log_encode(&mut seen, &settings, &list[..length], log.len());
    }
    for length in 0..=log.len() {
        log_decode(&mut seen, &settings, &log[..length], list.len());
        log_decode(&mut seen, &settings, &log[..length], 0);
    }
    seen.report("logs, every length", &[0, 8, 13]);
}

/// A record of a list with one to three bytes changed, or a wrong word.
fn damage_record(random: &mut Random, record: &mut [u8]) {
    match random.below(4) {
        0 => record[random.pick(&[4, 5, 6, 7])] = random.word() as u8,
        1 => record[8 + random.below(8)] ^= 1 << random.below(8),
        2 => record[random.below(32)] = random.word() as u8,
        _ => (0..3).for_each(|_| record[random.below(32)] ^= 1 << random.below(8)),
    }
}

#[test]
fn damaged_lists() {
    let (mut seen, mut random) = (Seen::default(), Random::new(24));
    for _ in 0..rounds(20_000) {
        let numbers = random.numbers();
        let records = 1 + random.below(40);
        let mut list = random.list(&numbers, records);
        for _ in 0..1 + random.below(3) {
            let at = 32 * random.below(records);
            damage_record(&mut random, &mut list[at..at + 32]);
        }
        let log = blocks(&list);
        let (log_room, list_room) = (
            random.below(log.len() + 1024),
            random.below(list.len() + 64),
        );
        log_encode(&mut seen, &bytes(&numbers), &list, log_room);
        log_decode(&mut seen, &bytes(&numbers), &log, list_room);
    }
    seen.report("logs, damaged records", &[0, 8, 10]);
}

#[test]
fn lists_of_other_settings() {
    let (mut seen, mut random) = (Seen::default(), Random::new(25));
    for _ in 0..rounds(20_000) {
        let numbers = random.numbers();
        let mut other = numbers;
        let at = random.pick(&[13, 14, 15]);
        other[at] = random.numbers()[at];
        let records = random.below(20);
        let list = random.list(&numbers, records);
        log_encode(&mut seen, &bytes(&other), &list, 1024);
        log_decode(&mut seen, &bytes(&other), &blocks(&list), 640);
    }
    seen.report("logs, lists of other settings", &[0, 10]);
}

/// Every byte of every block changed, with the check left and with the check made right.
#[test]
fn damaged_bytes() {
    let (mut seen, mut random) = (Seen::default(), Random::new(26));
    for records in [1, 14, 15, 16, 31, 45] {
        let numbers = random.numbers();
        let settings = bytes(&numbers);
        let list = random.list(&numbers, records);
        let log = blocks(&list);
        for at in 0..log.len() {
            for change in [1, 0x80, 0xFF, 1 + random.below(255) as u8] {
                let mut damaged = log.clone();
                damaged[at] ^= change;
                assert_eq!(log_decode(&mut seen, &settings, &damaged, list.len()), 12);
                let start = at / 512 * 512;
                seal(&mut damaged[start..start + 512]);
                log_decode(&mut seen, &settings, &damaged, list.len());
            }
        }
    }
    seen.report("logs, every byte damaged", &[0, 10, 12]);
}

/// Blocks exchanged, left out, doubled and put in front.
#[test]
fn moved_blocks() {
    let (mut seen, mut random) = (Seen::default(), Random::new(27));
    for _ in 0..rounds(3_000) {
        let numbers = random.numbers();
        let records = 1 + random.below(90);
        let list = random.list(&numbers, records);
        let mut parts: Vec<Vec<u8>> = blocks(&list).chunks(512).map(<[u8]>::to_vec).collect();
        let (a, b) = (random.below(parts.len()), random.below(parts.len()));
        match random.below(4) {
            0 => parts.swap(a, b),
            1 => drop(parts.remove(a)),
            2 => parts.insert(a, parts[b].clone()),
            _ => parts.truncate(a + 1),
        }
        log_decode(&mut seen, &bytes(&numbers), &parts.concat(), list.len());
    }
    seen.report("logs, moved blocks", &[0, 12]);
}

/// Blocks with any count, right in all else: short ones in the middle, empty ones, too long ones.
#[test]
fn block_counts() {
    let (mut seen, mut random) = (Seen::default(), Random::new(28));
    for _ in 0..rounds(20_000) {
        let numbers = random.numbers();
        let count = 1 + random.below(4);
        let mut log = Vec::new();
        for k in 0..count {
            let (short, wrong) = (random.below(16), random.below(18));
            let held = random.pick(&[15, 15, 15, 15, short]);
            let used = random.pick(&[held, held, held, held, held, wrong, 15, 0]);
            let list = random.list(&numbers, held);
            log.extend(block(k as u32, used as u32, &list));
        }
        let short = random.below(60 * 32);
        let room = random.pick(&[60 * 32, 60 * 32, short]);
        log_decode(&mut seen, &bytes(&numbers), &log, room);
    }
    seen.report("logs, block counts", &[0, 8, 10, 12]);
}

/// Block numbers and counts with high bytes set, in blocks whose check is right.
#[test]
fn block_fields() {
    let (mut seen, mut random) = (Seen::default(), Random::new(29));
    for _ in 0..rounds(20_000) {
        let numbers = random.numbers();
        let mut log = blocks(&random.list(&numbers, 31));
        let start = 512 * random.below(3);
        let (field, zero, any) = (
            480 + random.below(8),
            488 + random.below(20),
            random.word() as u8,
        );
        let at = random.pick(&[480, 484, field, zero]);
        log[start + at] = random.pick(&[0, 1, 2, 14, 15, 16, any]);
        seal(&mut log[start..start + 512]);
        log_decode(&mut seen, &bytes(&numbers), &log, 45 * 32);
    }
    seen.report("logs, block fields", &[0, 10, 12]);
}

/// Several faults at once: the order of the refusals and the first place decide.
#[test]
fn several_faults() {
    let (mut seen, mut random) = (Seen::default(), Random::new(30));
    for _ in 0..rounds(30_000) {
        let mut numbers = random.numbers();
        let records = 1 + random.below(45);
        let mut list = random.list(&numbers, records);
        if random.chance(2) {
            list[32 * random.below(records) + 5] = 1;
        }
        let mut log = blocks(&list);
        if random.chance(3) {
            log[random.below(records.div_ceil(15)) * 512 + random.below(512)] ^= 4;
        }
        if random.chance(8) {
            numbers[random.below(12)] = 0;
        }
        let cut = random.pick(&[0, 0, 0, 1]);
        let (list_len, log_len) = (list.len() - cut, log.len() - cut);
        let (log_room, list_room) = (random.below(2 * log_len), random.below(2 * list_len));
        log_encode(&mut seen, &bytes(&numbers), &list[..list_len], log_room);
        log_decode(&mut seen, &bytes(&numbers), &log[..log_len], list_room);
    }
    seen.report("logs, several faults", &[0, 1, 8, 10, 12, 13]);
}

#[test]
fn random_bytes() {
    let (mut seen, mut random) = (Seen::default(), Random::new(31));
    for _ in 0..rounds(5_000) {
        let settings = bytes(&random.numbers());
        let other = random.below(2000);
        let length = random.pick(&[0, 32, 512, 1024, other]);
        let any = random.bytes(length);
        log_encode(&mut seen, &settings, &any, 2048);
        log_decode(&mut seen, &settings, &any, 2048);
        log_decode(&mut seen, &settings, &vec![0; length], 2048);
    }
    seen.report("logs, random bytes", &[0, 10, 12, 13]);
}
