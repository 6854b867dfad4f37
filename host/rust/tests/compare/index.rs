//! The index of a log, and queries by bank, against a scan of the log's records.

use crate::random::{bytes, Random};
use crate::reference::{
    blocks, figures, first_bad_block, first_bad_record, number, packet, records, NOCOP,
};
use rdram::raw;

/// A refusal's number and place, or the count.
type Answer = (u32, u64, u64);

fn seen(a: raw::Indexed) -> Answer {
    assert!(a.rule == 0 || a.number == 11);
    (a.number, a.place, a.count)
}

/// 1, 13, then 4 where a bank is asked, then 12, 10.
fn tests(settings: &[u8], log: &[u8], index: Option<&[u8]>, bank: u32) -> Option<Answer> {
    let refused = |number, place: usize| Some((number, place as u64, 0));
    let Some(f) = figures(settings) else {
        return refused(1, 0);
    };
    if log.len() % 512 != 0 || index.is_some_and(|i| i.len() % 4 != 0) {
        return refused(13, 0);
    }
    if bank > 31 {
        return refused(4, 0);
    }
    if let Some(place) = first_bad_block(log) {
        return refused(12, place);
    }
    first_bad_record(&f, &records(log)).and_then(|place| refused(10, place))
}

/// The word of each block.
fn scanned(settings: &[u8], log: &[u8]) -> Vec<u32> {
    let f = figures(settings).unwrap();
    let word = |block: &[u8]| {
        let used = number(&block[484..488]) as usize;
        let banks = block[..32 * used]
            .chunks(32)
            .filter(|r| r[4] < 2)
            .filter_map(|r| {
                let p = packet(&f, r[4].into(), number(&r[8..16]))?;
                (p.command != NOCOP).then_some(p.bank)
            });
        banks.fold(0, |word, bank| word | 1 << bank)
    };
    log.chunks(512).map(word).collect()
}

fn in_bytes(words: &[u32]) -> Vec<u8> {
    words.iter().flat_map(|w| w.to_le_bytes()).collect()
}

/// The first word that differs, of so many.
fn first_wrong(index: &[u8], words: &[u32], n: usize) -> Option<usize> {
    (0..n).find(|&k| {
        k >= words.len() || index.get(4 * k..4 * k + 4) != Some(&words[k].to_le_bytes()[..])
    })
}

/// What is to be answered, and what the buffer is to hold then.
fn finish(
    tested: Option<Answer>,
    wrong: impl Fn() -> Option<usize>,
    new: impl Fn() -> Vec<u8>,
    buffer: &mut [u8],
) -> Answer {
    if let Some(answer) = tested {
        return answer;
    }
    if let Some(place) = wrong() {
        return (14, place as u64, 0);
    }
    let new = new();
    if buffer.len() / 4 < new.len() / 4 {
        return (8, 0, 0);
    }
    buffer[..new.len()].copy_from_slice(&new);
    (0, 0, new.len() as u64 / 4)
}

fn add(settings: &[u8], log: &[u8], kept: usize, buffer: &[u8]) {
    let (mut wanted, mut got) = (buffer.to_vec(), buffer.to_vec());
    let tested = tests(settings, log, None, 0);
    let words = || scanned(settings, log);
    let answer = finish(
        tested,
        || first_wrong(buffer, &words(), kept),
        || in_bytes(&words()),
        &mut wanted,
    );
    // SAFETY: each pointer and length are those of one vector.
    let a = unsafe {
        raw::rdram_index_add(
            settings.as_ptr(),
            settings.len(),
            log.as_ptr(),
            log.len(),
            kept,
            got.as_mut_ptr(),
            got.len(),
        )
    };
    assert_eq!((seen(a), got), (answer, wanted), "{kept} words kept");
}

fn query(settings: &[u8], log: &[u8], index: &[u8], bank: u32, room: &[u8]) -> u32 {
    let (mut wanted, mut got) = (room.to_vec(), room.to_vec());
    let tested = tests(settings, log, Some(index), bank);
    let words = || scanned(settings, log);
    let wrong = || first_wrong(index, &words(), (log.len() / 512).max(index.len() / 4));
    let list = || {
        in_bytes(
            &words()
                .iter()
                .enumerate()
                .filter(|w| w.1 >> bank & 1 == 1)
                .map(|w| w.0 as u32)
                .collect::<Vec<_>>(),
        )
    };
    let answer = finish(tested, wrong, list, &mut wanted);
    // SAFETY: each pointer and length are those of one vector.
    let a = unsafe {
        raw::rdram_index_query(
            settings.as_ptr(),
            settings.len(),
            log.as_ptr(),
            log.len(),
            index.as_ptr(),
            index.len(),
            bank,
            got.as_mut_ptr(),
            got.len(),
        )
    };
    assert_eq!((seen(a), got), (answer, wanted), "bank {bank}");
    answer.0
}

#[test]
fn index_and_queries() {
    let mut random = Random::new(201);
    let mut counts = [0; 15];
    for _ in 0..2000 {
        let numbers = random.numbers();
        let mut settings = bytes(&numbers);
        let n = random.below(100);
        let mut log = blocks(&random.list(&numbers, n));
        let mut index = in_bytes(&scanned(&settings, &log));
        let full = index.clone();
        match random.below(8) {
            0 if !index.is_empty() => {
                let at = random.below(index.len());
                index[at] ^= 1 << random.below(8);
            }
            1 => index.truncate(random.below(index.len() + 1)),
            2 => {
                let more = 4 + random.below(2);
                index.extend(random.bytes(more));
            }
            3 if !log.is_empty() => {
                let at = random.below(log.len());
                log[at] ^= 1 << random.below(8);
            }
            4 if random.chance(4) => settings[0] = 255,
            5 if random.chance(4) => log.push(0),
            _ => {}
        }
        let room = random.below(index.len() + 9);
        let buffer = random.bytes(room);
        counts[query(&settings, &log, &index, random.below(33) as u32, &buffer) as usize] += 1;
        let mut buffer = full;
        buffer.extend(random.bytes(8));
        if random.chance(4) {
            let at = random.below(buffer.len());
            buffer[at] ^= 1;
        }
        buffer.truncate(random.below(buffer.len() + 1));
        add(&settings, &log, random.below(9), &buffer);
        add(&settings, &log, 0, &buffer);
    }
    println!("queries by answer: {counts:?}");
    assert!([0, 1, 4, 8, 12, 13, 14].iter().all(|&n| counts[n] > 0));
}
