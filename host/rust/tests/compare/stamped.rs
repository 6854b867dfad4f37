//! Logs that carry their settings, against an implementation written from document 02 i alone.

use crate::random::{bytes, rounds, set_h, Random};
use crate::reference::{
    blocks, figures, first_bad_block, first_bad_record, number, packet, records, seal, NOCOP,
};
use crate::reference_rules::check;
use rdram::raw;

/// A refusal's number and place, or the count.
type Answer = (u32, u64, u64);

// ---- the papers ----

/// The blocks of a list: 14 records, the settings, then as in every block.
fn stamped(settings: &[u8], list: &[u8]) -> Vec<u8> {
    let mut log = Vec::new();
    for (k, part) in list.chunks(14 * 32).enumerate() {
        let mut block = vec![0; 512];
        block[..part.len()].copy_from_slice(part);
        block[448..480].copy_from_slice(settings);
        block[480..484].copy_from_slice(&(k as u32).to_le_bytes());
        block[484..488].copy_from_slice(&(part.len() as u32 / 32).to_le_bytes());
        seal(&mut block);
        log.extend(block);
    }
    log
}

fn block_fits(block: &[u8], k: usize, n: usize) -> bool {
    let used = number(&block[484..488]) as usize;
    let sum = block
        .chunks(4)
        .fold(0u32, |s, w| s.wrapping_add(number(w) as u32));
    (used == 14 || (k + 1 == n && (1..14).contains(&used)))
        && number(&block[480..484]) == k as u64
        && block[32 * used..448].iter().all(|b| *b == 0)
        && block[488..508].iter().all(|b| *b == 0)
        && sum == 0
}

/// 13, 12, 17, 10: a refusal, or the settings and the list.
fn tested(log: &[u8]) -> Result<(Vec<u8>, Vec<u8>), (u32, usize)> {
    if !log.len().is_multiple_of(512) {
        return Err((13, 0));
    }
    let blocks: Vec<&[u8]> = log.chunks(512).collect();
    if let Some(k) = (0..blocks.len()).find(|&k| !block_fits(blocks[k], k, blocks.len())) {
        return Err((12, k));
    }
    let stamp = |k: usize| &blocks[k][448..480];
    if let Some(k) =
        (0..blocks.len()).find(|&k| figures(stamp(k)).is_none() || stamp(k) != stamp(0))
    {
        return Err((17, k));
    }
    let list = records(log);
    if blocks.is_empty() {
        return Ok((Vec::new(), list));
    }
    match first_bad_record(&figures(stamp(0)).unwrap(), &list) {
        Some(place) => Err((10, place)),
        None => Ok((stamp(0).to_vec(), list)),
    }
}

/// The bytes made, put to the start of the buffer if they have room in pieces of `size`.
fn put(made: Result<Vec<u8>, (u32, usize)>, size: usize, buffer: &mut [u8]) -> Answer {
    match made {
        Err((number, place)) => (number, place as u64, 0),
        Ok(new) if buffer.len() / size < new.len() / size => (8, 0, 0),
        Ok(new) => {
            buffer[..new.len()].copy_from_slice(&new);
            (0, 0, (new.len() / size) as u64)
        }
    }
}

/// 1, 13, 12, 10 of a log of the old form: a refusal, or its list.
fn old_tested(settings: &[u8], log: &[u8]) -> Result<Vec<u8>, (u32, usize)> {
    let f = figures(settings).ok_or((1, 0))?;
    if !log.len().is_multiple_of(512) {
        return Err((13, 0));
    }
    if let Some(place) = first_bad_block(log) {
        return Err((12, place));
    }
    let list = records(log);
    match first_bad_record(&f, &list) {
        Some(place) => Err((10, place)),
        None => Ok(list),
    }
}

fn words(settings: &[u8], log: &[u8]) -> Vec<u32> {
    let Some(f) = figures(settings) else {
        return Vec::new();
    };
    let word = |block: &[u8]| {
        let used = number(&block[484..488]) as usize;
        let banks = block[..32 * used]
            .chunks(32)
            .filter(|r| r[4] < 2)
            .filter_map(|r| {
                let p = packet(&f, r[4].into(), number(&r[8..16]))?;
                (p.command != NOCOP).then_some(p.bank)
            });
        banks.fold(0, |word, bank| word | 1 << bank)
    };
    log.chunks(512).map(word).collect()
}

fn in_bytes(words: &[u32]) -> Vec<u8> {
    words.iter().flat_map(|w| w.to_le_bytes()).collect()
}

// ---- the calls beside the papers ----

#[derive(Default)]
struct Seen([usize; 18]);

impl Seen {
    fn copied(&mut self, name: &str, a: raw::Copied, got: Vec<u8>, wanted: (Answer, Vec<u8>)) {
        assert_eq!(((a.number, a.place, a.count), got), wanted, "{name}");
        self.0[a.number as usize] += 1;
    }

    fn encode(&mut self, settings: &[u8], list: &[u8], room: &[u8]) {
        let (mut wanted, mut got) = (room.to_vec(), room.to_vec());
        let made = match figures(settings) {
            None => Err((1, 0)),
            Some(_) if !list.len().is_multiple_of(32) => Err((13, 0)),
            Some(f) => match first_bad_record(&f, list) {
                Some(place) => Err((10, place)),
                None => Ok(stamped(settings, list)),
            },
        };
        let answer = put(made, 512, &mut wanted);
        // SAFETY: here and below, each pointer and length are those of one vector.
        let a = unsafe {
            raw::rdram_stamped_encode(
                settings.as_ptr(),
                settings.len(),
                list.as_ptr(),
                list.len(),
                got.as_mut_ptr(),
                got.len(),
            )
        };
        self.copied("encode", a, got, (answer, wanted));
    }

    fn decode(&mut self, log: &[u8], room: &[u8]) {
        let (mut wanted, mut got) = (room.to_vec(), room.to_vec());
        let answer = put(tested(log).map(|t| t.1), 32, &mut wanted);
        let a = unsafe {
            raw::rdram_stamped_decode(log.as_ptr(), log.len(), got.as_mut_ptr(), got.len())
        };
        self.copied("decode", a, got, (answer, wanted));
    }

    fn unstamp(&mut self, log: &[u8], room: &[u8]) {
        let (mut wanted, mut got) = (room.to_vec(), room.to_vec());
        let answer = put(tested(log).map(|t| blocks(&t.1)), 512, &mut wanted);
        let a =
            unsafe { raw::rdram_log_unstamp(log.as_ptr(), log.len(), got.as_mut_ptr(), got.len()) };
        self.copied("unstamp", a, got, (answer, wanted));
    }

    fn stamp(&mut self, settings: &[u8], log: &[u8], room: &[u8]) {
        let (mut wanted, mut got) = (room.to_vec(), room.to_vec());
        let answer = put(
            old_tested(settings, log).map(|list| stamped(settings, &list)),
            512,
            &mut wanted,
        );
        let a = unsafe {
            raw::rdram_log_stamp(
                settings.as_ptr(),
                settings.len(),
                log.as_ptr(),
                log.len(),
                got.as_mut_ptr(),
                got.len(),
            )
        };
        self.copied("stamp", a, got, (answer, wanted));
    }

    fn check(&mut self, log: &[u8]) {
        let wanted = match tested(log) {
            Err((number, place)) => (number, 0, place as u64),
            Ok((_, list)) if list.is_empty() => (0, 0, 0),
            Ok((settings, list)) => {
                let a = check(&settings, &list);
                (a.number, a.rule, a.place)
            }
        };
        let a = unsafe { raw::rdram_stamped_check(log.as_ptr(), log.len()) };
        assert_eq!((a.number, a.rule, a.place), wanted, "check");
        self.0[a.number as usize] += 1;
    }

    fn index(&mut self, log: &[u8], kept: usize, room: &[u8]) {
        let (mut wanted, mut got) = (room.to_vec(), room.to_vec());
        let made = tested(log).and_then(|(settings, _)| {
            let words = words(&settings, log);
            let wrong = (0..kept).find(|&k| {
                k >= words.len() || room.get(4 * k..4 * k + 4) != Some(&words[k].to_le_bytes()[..])
            });
            wrong.map_or(Ok(in_bytes(&words)), |k| Err((14, k)))
        });
        let answer = put(made, 4, &mut wanted);
        let a = unsafe {
            raw::rdram_stamped_index(log.as_ptr(), log.len(), kept, got.as_mut_ptr(), got.len())
        };
        assert_eq!(
            ((a.number, a.place, a.count), a.rule, got),
            (answer, 0, wanted),
            "index"
        );
        self.0[a.number as usize] += 1;
    }

    fn query(&mut self, log: &[u8], index: &[u8], bank: u32, room: &[u8]) {
        let (mut wanted, mut got) = (room.to_vec(), room.to_vec());
        let made = if !log.len().is_multiple_of(512) || !index.len().is_multiple_of(4) {
            Err((13, 0))
        } else if bank > 31 {
            Err((4, 0))
        } else {
            tested(log).and_then(|(settings, _)| {
                let words = words(&settings, log);
                let n = words.len().max(index.len() / 4);
                let wrong = (0..n).find(|&k| {
                    k >= words.len()
                        || index.get(4 * k..4 * k + 4) != Some(&words[k].to_le_bytes()[..])
                });
                let found: Vec<u32> = (0..words.len())
                    .filter(|&k| words[k] >> bank & 1 == 1)
                    .map(|k| k as u32)
                    .collect();
                wrong.map_or(Ok(in_bytes(&found)), |k| Err((14, k)))
            })
        };
        let answer = put(made, 4, &mut wanted);
        let a = unsafe {
            raw::rdram_stamped_query(
                log.as_ptr(),
                log.len(),
                index.as_ptr(),
                index.len(),
                bank,
                got.as_mut_ptr(),
                got.len(),
            )
        };
        assert_eq!(
            ((a.number, a.place, a.count), a.rule, got),
            (answer, 0, wanted),
            "query"
        );
        self.0[a.number as usize] += 1;
    }

    fn report(&self, name: &str, expected: &[usize]) {
        println!("{name}: by answer {:?}", self.0);
        assert!(
            expected.iter().all(|&n| self.0[n] > 0),
            "{name}: an answer is missing"
        );
    }
}

#[test]
fn lists_of_every_length() {
    let (mut seen, mut random) = (Seen::default(), Random::new(301));
    for records in 0..=100 {
        for _ in 0..rounds(3) {
            let numbers = random.numbers();
            let settings = bytes(&numbers);
            let list = random.list(&numbers, records);
            let (old, new) = (blocks(&list), stamped(&settings, &list));
            let index = in_bytes(&words(&settings, &new));
            for room in [0, new.len(), new.len().saturating_sub(1), new.len() + 700] {
                let room = random.bytes(room);
                seen.encode(&settings, &list, &room);
                seen.stamp(&settings, &old, &room);
                seen.unstamp(&new, &room);
                seen.decode(&new, &room);
                seen.index(&new, 0, &room[..room.len() / 128]);
                seen.query(
                    &new,
                    &index,
                    random.below(33) as u32,
                    &room[..room.len() / 128],
                );
            }
            seen.check(&new);
            seen.encode(
                &settings,
                &list[..list.len() - list.len().min(1)],
                &random.bytes(600),
            );
        }
    }
    seen.report("stamped logs of 0 to 100 records", &[0, 4, 8, 11, 13]);
}

/// Every byte of a log of three blocks is damaged, with and without a right check word.
#[test]
fn every_byte_damaged() {
    let (mut seen, mut random) = (Seen::default(), Random::new(302));
    let numbers = set_h(512, 128, 31);
    let settings = bytes(&numbers);
    let list = random.list(&numbers, 31);
    let (old, new) = (blocks(&list), stamped(&settings, &list));
    let index = in_bytes(&words(&settings, &new));
    for at in 0..new.len() {
        for sealed in [false, true] {
            for bit in [0, random.below(7) + 1] {
                let (mut old, mut new) = (old.clone(), new.clone());
                let block = at / 512 * 512;
                for log in [&mut old, &mut new] {
                    log[at] ^= 1 << bit;
                    if sealed && at % 512 < 508 {
                        seal(&mut log[block..block + 512]);
                    }
                }
                let room = random.bytes(2000);
                seen.stamp(&settings, &old, &room);
                seen.unstamp(&new, &room);
                seen.decode(&new, &room);
                seen.check(&new);
                seen.index(&new, 0, &room);
                seen.query(&new, &index, 3, &room);
            }
        }
    }
    seen.report("stamped logs, every byte damaged", &[0, 10, 11, 12, 17]);
}

/// The stamp of one block is altered, within the ranges and outside them.
#[test]
fn stamps_altered() {
    let (mut seen, mut random) = (Seen::default(), Random::new(303));
    let mut places = [0; 4];
    for _ in 0..rounds(2000) {
        let numbers = random.numbers();
        let settings = bytes(&numbers);
        let n = 30 + random.below(13);
        let mut log = stamped(&settings, &random.list(&numbers, n));
        let k = random.below(log.len() / 512);
        let other = if random.chance(2) {
            bytes(&random.numbers())
        } else {
            let mut other = settings.clone();
            other[random.below(32)] = random.word() as u8;
            other
        };
        log[512 * k + 448..512 * k + 480].copy_from_slice(&other);
        seal(&mut log[512 * k..512 * k + 512]);
        if let Err((17, place)) = tested(&log) {
            places[place] += 1;
        }
        let room = random.bytes(2000);
        seen.decode(&log, &room);
        seen.unstamp(&log, &room);
        seen.check(&log);
        seen.index(&log, 0, &room);
    }
    println!("17 by block: {places:?}");
    assert!(places[0] > 0 && places[1] > 0 && places[2] > 0);
    seen.report("stamps altered", &[0, 17]);
}

/// Settings refused under 1, logs that are not of whole blocks, indexes that are not of the log.
#[test]
fn other_refusals() {
    let (mut seen, mut random) = (Seen::default(), Random::new(304));
    for _ in 0..rounds(500) {
        let numbers = random.numbers();
        let mut settings = bytes(&numbers);
        let n = random.below(60);
        let list = random.list(&numbers, n);
        let (mut old, mut new) = (blocks(&list), stamped(&settings, &list));
        let mut index = in_bytes(&words(&settings, &new));
        match random.below(4) {
            0 => settings[random.below(32)] = 255,
            1 => {
                old.push(0);
                new.truncate(new.len().saturating_sub(1 + random.below(511)));
            }
            2 if !index.is_empty() => {
                let at = random.below(index.len());
                index[at] ^= 1;
            }
            _ => index.extend(random.bytes(4)),
        }
        let room = random.bytes(6000);
        seen.encode(&settings, &list, &room);
        seen.stamp(&settings, &old, &room);
        seen.decode(&new, &room);
        seen.query(&new, &index, random.below(33) as u32, &room);
        let mut buffer = index.clone();
        buffer.extend(random.bytes(40));
        seen.index(&new, random.below(8), &buffer);
    }
    seen.report("stamped logs, other refusals", &[0, 1, 4, 13, 14]);
}
