//! Random lists of records through the library's model and the reference.

use crate::calls::Seen as Numbers;
use crate::hand_lists::item;
use crate::lists::{any_items, change, half_legal, legal, list_bytes, over_writes, Item, LAST};
use crate::model_calls::{any_store, compare, fresh, small_numbers, Case, Run, Seen};
use crate::random::{bytes, rounds, set_h, Random};
use crate::reference::{number, COLUMNS, NOCOP, ROWS, T_CWD};
use crate::reference_state::{newest, put, DUE};
use crate::rule_settings::SettingsSeen;

/// Gives some masks another number of ones, so that each number comes often.
fn remask(random: &mut Random, items: &mut [Item]) {
    for item in items {
        if let Some(p) = &mut item.packet {
            if p.command >= NOCOP && p.mask != 0xFFFF && random.chance(2) {
                let ones = random.below(17);
                p.mask = 0;
                while p.mask.count_ones() < ones as u32 {
                    p.mask |= 1 << random.below(16);
                }
            }
        }
    }
}

fn items(random: &mut Random, numbers: &[u16; 16], records: usize) -> Vec<Item> {
    let mut items = match random.below(9) {
        0 => any_items(random, numbers, records),
        8 => over_writes(random, numbers),
        1 | 2 => half_legal(random, numbers, records),
        _ => legal(random, numbers, records),
    };
    remask(random, &mut items);
    for _ in 0..random.below(3) {
        if !items.is_empty() {
            change(random, numbers, &mut items);
        }
    }
    items
}

/// The bytes of a list, with any data in each D.
fn list(random: &mut Random, numbers: &[u16; 16], records: usize) -> Vec<u8> {
    let items = items(random, numbers, records);
    let mut list = list_bytes(&bytes(numbers), &items);
    for (item, record) in items.iter().zip(list.chunks_mut(32)) {
        if item.packet.is_none() {
            record[16..].copy_from_slice(&random.bytes(16));
        }
    }
    list
}

/// A record with one or two bits changed, or of another length.
fn damaged(random: &mut Random, record: &[u8]) -> Vec<u8> {
    let mut damaged = record.to_vec();
    match random.below(8) {
        0 => damaged.truncate(random.below(32)),
        1 => damaged.extend(vec![0; 1 + random.below(33)]),
        _ => {
            for _ in 0..1 + random.below(2) {
                let any = random.below(32);
                let at = random.pick(&[0, 4, 5, 7, 8, 9, 10, 11, 12, 13, 15, 16, 31, any]);
                damaged[at] ^= 1 << random.below(8);
            }
        }
    }
    damaged
}

/// The D that is due, if any.
fn due_data(random: &mut Random, run: &Run) -> Option<Vec<u8>> {
    let at = newest(&run.state) + number(&run.settings[2 * T_CWD..2 * T_CWD + 2]);
    let mut record = vec![0; 32];
    put(&mut record, 0, 4, at);
    record[4] = 2;
    record[16..].copy_from_slice(&random.bytes(16));
    (run.state[DUE] == 1).then_some(record)
}

/// Gives the model a list: each record now and then damaged first, or with too little room. Where
/// the list has lost a D, it comes after some records that are refused for want of it.
fn run_list(random: &mut Random, seen: &mut Seen, run: &mut Run, list: &[u8]) {
    for record in list.chunks(32) {
        if random.chance(16) {
            let damaged = damaged(random, record);
            _ = run.call(seen, &damaged, 40);
        }
        let some = random.below(24);
        let room = random.pick(&[16, 16, 16, some]);
        match run.call(seen, record, room) {
            Err((8, 0)) => {
                let more = 16 + random.below(20);
                run.call(seen, record, more).unwrap();
            }
            Err((11, 15)) if random.chance(2) => {
                if let Some(data) = due_data(random, run) {
                    run.call(seen, &data, 0).unwrap();
                    _ = run.call(seen, record, 16);
                }
            }
            _ => {}
        }
    }
}

#[test]
fn random_lists() {
    let name = "model, random lists";
    let (mut seen, mut random) = (Seen::default(), Random::new(81));
    let mut settings_seen = SettingsSeen::default();
    for _ in 0..rounds(12_000) {
        let numbers = small_numbers(&mut random);
        settings_seen.add(&numbers);
        let store = any_store(&mut random, &numbers);
        let mut run = Run::new(&numbers, store);
        let records = 1 + random.below(40);
        let list = list(&mut random, &numbers, records);
        run_list(&mut random, &mut seen, &mut run, &list);
    }
    seen.report(name, &[0, 8, 10, 11, 13]);
    seen.all_events();
    seen.all_rules();
    settings_seen.report(name);
}

#[test]
fn long_lists() {
    let (mut seen, mut random) = (Seen::default(), Random::new(82));
    for _ in 0..60 {
        let numbers = small_numbers(&mut random);
        let store = any_store(&mut random, &numbers);
        let mut run = Run::new(&numbers, store);
        let list = list(&mut random, &numbers, 250);
        run_list(&mut random, &mut seen, &mut run, &list);
    }
    seen.report("model, long lists", &[0, 8, 10, 11, 13]);
    seen.all_events();
}

/// Records moved to instants near 4, near the last one and near 2^32 - 1.
#[test]
fn far_instants() {
    let (mut seen, mut random) = (Seen::default(), Random::new(83));
    for _ in 0..rounds(6_000) {
        let numbers = small_numbers(&mut random);
        let store = any_store(&mut random, &numbers);
        let mut run = Run::new(&numbers, store);
        let records = 1 + random.below(12);
        let mut items = items(&mut random, &numbers, records);
        let target = random.pick(&[4, LAST, LAST, LAST, u32::MAX]);
        let target = target
            .wrapping_add(random.below(60) as u32)
            .wrapping_sub(50);
        let last = items.last().map_or(0, |item| item.at);
        let shift = target.wrapping_sub(last);
        for item in &mut items {
            item.at = item.at.wrapping_add(shift);
        }
        let list = list_bytes(&bytes(&numbers), &items);
        run_list(&mut random, &mut seen, &mut run, &list);
    }
    seen.report("model, far instants", &[0, 8, 10, 11, 13]);
}

/// Each byte of a record at many values, in states with and without a waiting write.
#[test]
fn damaged_records() {
    let (mut seen, mut random) = (Seen::default(), Random::new(84));
    for round in 0..12 {
        let mut numbers = small_numbers(&mut random);
        (numbers[ROWS], numbers[COLUMNS]) = [(2, 4), (1, 1), (3, 1)][round % 3];
        let store = any_store(&mut random, &numbers);
        let mut run = Run::new(&numbers, store);
        let list = list(&mut random, &numbers, 24);
        for record in list.chunks(32) {
            for byte in 0..32 {
                let any = random.word() as u8;
                for value in [0, 1, 2, 3, 16, 32, 64, 128, 255, any, record[byte] ^ 1] {
                    let mut damaged = record.to_vec();
                    damaged[byte] = value;
                    _ = run.clone().call(&mut seen, &damaged, 16);
                }
            }
            _ = run.call(&mut seen, record, 16);
        }
    }
    seen.report("model, records damaged byte by byte", &[0, 10, 11]);
}

/// A call that is refused with a number and rule 0.
fn refuse(seen: &mut Numbers, case: &Case, number: u32) {
    compare(case, &Err((number, 0)));
    seen.add(number);
}

/// ACT of bank 0, row 0, device 0, at 4.
fn act() -> Vec<u8> {
    let mut record = vec![0; 32];
    (record[0], record[9], record[10]) = (4, 0x10, 0x40);
    record
}

#[test]
fn lengths() {
    let mut seen = Numbers::default();
    for (rows, columns) in [(1, 1), (2, 1), (1, 2)] {
        let settings = bytes(&set_h(rows, columns, 0));
        let size = 512 * usize::from(rows) * usize::from(columns);
        let (model, store, record) = (fresh(), vec![7; 2 * size + 40], [act(), act()].concat());
        let case = Case {
            settings: &settings,
            model: &model,
            store: &store[..size],
            record: &record[..32],
            room: 0,
        };
        for length in (0..=store.len()).filter(|n| *n != size) {
            let store = &store[..length];
            refuse(&mut seen, &Case { store, ..case }, 9);
        }
        for length in (0..=64).filter(|n| *n != 32) {
            let record = &record[..length];
            refuse(&mut seen, &Case { record, ..case }, 13);
        }
        let long = [&model[..], &model[..]].concat();
        for length in (0..=long.len()).filter(|n| *n != model.len()) {
            let model = &long[..length];
            refuse(&mut seen, &Case { model, ..case }, 1);
        }
        let long = [&settings[..], &settings[..]].concat();
        for length in (0..=64).filter(|n| *n != 32) {
            let settings = &long[..length];
            refuse(&mut seen, &Case { settings, ..case }, 1);
        }
    }
    seen.report("model, lengths", &[1, 9, 13]);
}

/// Faults from the first that is tested to the last, each with all that come after it.
#[test]
fn order_of_refusals() {
    let (numbers, mut seen) = (set_h(2, 4, 0), Numbers::default());
    let settings = bytes(&numbers);
    let mut run = Run::new(&numbers, vec![7; 4096]);
    run.call(&mut Seen::default(), &act(), 0).unwrap();
    // RD of bank 0 at 12: rule 10. At 13 it passes, and needs 16 bytes.
    let mut early = list_bytes(&settings, &[item("12 RD 0")]);
    let late = list_bytes(&settings, &[item("13 RD 0")]);
    let case = Case {
        settings: &settings,
        model: &run.state,
        store: &run.store,
        record: &late,
        room: 15,
    };
    refuse(&mut seen, &case, 8);
    let record = &early.clone();
    compare(&Case { record, ..case }, &Err((11, 10)));
    early[5] = 1;
    let record = &early;
    refuse(&mut seen, &Case { record, ..case }, 10);
    let record = &early[..31];
    refuse(&mut seen, &Case { record, ..case }, 13);
    let store = &run.store[1..];
    let case = Case {
        record,
        store,
        ..case
    };
    refuse(&mut seen, &Case { ..case }, 9);
    let model = &run.state[1..];
    refuse(&mut seen, &Case { model, ..case }, 1);
    let mut bad = run.state.clone();
    bad[759] = 1;
    refuse(
        &mut seen,
        &Case {
            model: &bad,
            ..case
        },
        1,
    );
    let settings = &settings[1..];
    refuse(&mut seen, &Case { settings, ..case }, 1);
    seen.report("model, order of refusals", &[1, 8, 9, 10, 13]);
}

/// Each figure of the settings out of its range.
#[test]
fn settings_out_of_range() {
    let mut seen = Numbers::default();
    for figure in 0..16 {
        for value in [0xFFFF, 0x8000, 0x0300] {
            let mut numbers = set_h(2, 4, 0);
            numbers[figure] = value;
            let (settings, model) = (bytes(&numbers), fresh());
            let case = Case {
                settings: &settings,
                model: &model,
                store: &[7; 4096],
                record: &act(),
                room: 16,
            };
            refuse(&mut seen, &case, 1);
        }
    }
    seen.report("model, settings out of range", &[1]);
}
