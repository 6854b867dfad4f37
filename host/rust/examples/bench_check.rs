//! Times `check` on a legal list of 1,000,000 records, and on short ones, by the library and by
//! plain Rust that makes the same tests: `bench_check [RECORDS [RUNS [STREAM]]]`. The stream
//! "close pages" has RDA and WRA for RD and WR, the stream "" has none. And times `shortest` on these
//! lists with a fault as their last record, beside plain Rust that tries one start after another.

mod common;
mod rivals;

use common::{below, best, print_head, print_row, timed, Size, SETTINGS};
use rdram::{Packet, Record, Refusal, MASK_FULL};
use rivals::plain::checker::{self as plain, Checker};
use std::hint::black_box;

/// Records that are checked in so short a time that mostly no other program runs meanwhile.
const SHORT: usize = 15_000;

fn random_packet(x: &mut u64, close: bool) -> Packet {
    let (bank, row, column) = (
        below(x, 32) as u8,
        below(x, 512) as u16,
        below(x, 128) as u8,
    );
    let mask = MASK_FULL;
    match below(x, 64) {
        0..8 => Packet::Act { bank, row },
        8..14 => Packet::Prer { bank },
        14 => Packet::Refa { bank },
        15 => Packet::Refp { bank },
        16..40 if close => Packet::Rda { bank, column, mask },
        40..52 if close => Packet::Wra { bank, column, mask },
        16..40 => Packet::Rd { bank, column, mask },
        40..60 if !close => Packet::Wr { bank, column, mask },
        _ => Packet::Nocop {
            mask: below(x, 0xFFFF) as u16,
        },
    }
}

/// A legal list: each packet at the least instant that the rules allow, banks interleaved.
fn make_list(records: usize, close: bool) -> Vec<u8> {
    let mut checker = Checker::new(&SETTINGS.to_bytes()).unwrap();
    let (mut list, mut now, mut x) = (Vec::new(), 4, 0x9E37_79B9_7F4A_7C15);
    while list.len() < 32 * records {
        let packet = random_packet(&mut x, close);
        let mut record = Record::packet(&SETTINGS, now, packet).unwrap();
        for at in now.. {
            record.instant = at;
            match checker.take(&record.to_bytes()).unwrap() {
                0 => {
                    list.extend(record.to_bytes());
                    now = at;
                    break;
                }
                4 | 9 | 14 | 16 | 17 => break, // not for any instant, or not before a retire
                12 if matches!(packet, Packet::Rd { .. } | Packet::Rda { .. }) => break, // two writes wait
                _ => {}
            }
        }
        if let Packet::Wr { .. } | Packet::Wra { .. } = packet {
            let data = [below(&mut x, 256) as u8; 16];
            let data = Record::data(now + 6, data).to_bytes();
            if checker.take(&data) == Some(0) {
                list.extend(data);
            }
        }
    }
    list.truncate(32 * records);
    list
}

fn refused(answer: Result<(), Refusal>) -> Result<(), plain::Refused> {
    answer.map_err(|r| {
        let place = r.place().unwrap_or(0) as usize;
        (r.number(), r.rule().unwrap_or(0), place)
    })
}

/// Library and plain Rust agree on the list, and on its first records with one byte changed.
fn compare_answers(list: &[u8]) {
    let settings = SETTINGS.to_bytes();
    assert_eq!(rdram::check(&SETTINGS, list), Ok(()));
    assert_eq!(plain::check(&settings, list), Ok(()));
    let (mut x, records) = (7, (list.len() / 32).min(1_000));
    for _ in 0..2 * records {
        let mut part = list[..32 * records].to_vec();
        let record = 32 * below(&mut x, records as u64) as usize;
        let byte = [0, 0, 1, 4, 8, 9, 10, 12][below(&mut x, 8) as usize];
        part[record + byte] ^= 1 << below(&mut x, 8);
        let answer = plain::check(&settings, &part);
        assert_eq!(refused(rdram::check(&SETTINGS, &part)), answer);
    }
}

#[inline(never)]
fn plain_check(settings: &[u8], list: &[u8]) -> bool {
    plain::check(settings, list).is_ok()
}

fn measure(records: usize, runs: usize, close: bool) {
    let settings = SETTINGS.to_bytes();
    let list = make_list(records, close);
    compare_answers(&list);
    let [library, plain] = best(
        records,
        runs,
        [
            &mut || vec![timed(|| rdram::check(&SETTINGS, black_box(&list)))],
            &mut || vec![timed(|| plain_check(&settings, black_box(&list)))],
        ],
    );
    let kind = if close { ", close pages" } else { "" };
    let stream = format!("{records} records{kind}");
    print_row("`rdram_check`", &stream, library, plain, None);
}

/// The list with one record more: an ACT whose bank or a neighbour is not closed, and which breaks no
/// lower rule.
fn with_fault(list: &[u8]) -> Vec<u8> {
    let last = &list[list.len() - 32..];
    let at = u32::from_le_bytes(last[..4].try_into().unwrap()) + 64;
    for bank in 0..32 {
        let act = Record::packet(&SETTINGS, at, Packet::Act { bank, row: 0 });
        let broken = [list, &act.unwrap().to_bytes()].concat();
        let found = rdram::check(&SETTINGS, &broken).map_err(|r| r.rule());
        if found == Err(Some(4)) {
            return broken;
        }
    }
    panic!("every bank is closed");
}

/// The start of the shortest run by trying one after another, down from the bad record.
#[inline(never)]
fn plain_shortest(settings: &[u8], list: &[u8]) -> Option<(u32, usize, usize)> {
    let (number, rule, place) = plain::check(settings, list).err()?;
    let starts_there = |start: &usize| {
        let run = &list[32 * start..32 * (place + 1)];
        plain::check(settings, run) == Err((number, rule, place - start))
    };
    (0..=place)
        .rev()
        .find(starts_there)
        .map(|start| (rule, place, start))
}

fn measure_shortest(records: usize, runs: usize, close: bool) {
    let settings = SETTINGS.to_bytes();
    let list = with_fault(&make_list(records - 1, close));
    let run = rdram::shortest(&SETTINGS, &list).unwrap().unwrap();
    let found = (run.rule, run.place, run.start);
    assert_eq!(Some(found), plain_shortest(&settings, &list));
    let [library, plain] = best(
        records,
        runs,
        [
            &mut || vec![timed(|| rdram::shortest(&SETTINGS, black_box(&list)))],
            &mut || vec![timed(|| plain_shortest(&settings, black_box(&list)))],
        ],
    );
    let kind = if close { ", close pages" } else { "" };
    let length = run.place - run.start + 1;
    let stream = format!("{records} records{kind}, a run of {length}");
    print_row("`rdram_shortest`", &stream, library, plain, None);
}

fn main() {
    let size = Size::from_arguments(1_000_000, 21);
    print_head();
    for (stream, close) in [("", false), ("close pages", true)] {
        if !size.has(stream) {
            continue;
        }
        measure(size.count, size.runs, close);
        measure_shortest(size.count, size.runs, close);
        if size.count > SHORT {
            measure(SHORT, 50 * size.runs, close);
        }
    }
}
