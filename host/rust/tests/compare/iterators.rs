//! Iterators over the records of lists and logs, against the bytes that the log calls write and what
//! these calls say.

use crate::calls::{typed, Seen};
use crate::random::{bytes, rounds, Random};
use crate::reference::seal;
use rdram::{blocks, log_decode, log_encode, records, stamped_blocks, stamped_settings};
use rdram::{stamped_decode, stamped_encode};
use rdram::{Blocks, Record, Records, Refusal, Settings};

/// Random settings, and random records under them.
fn some_list(random: &mut Random, records: usize) -> (Settings, Vec<u8>) {
    let numbers = random.numbers();
    let settings = typed(&bytes(&numbers)).expect("settings of the struct");
    (settings, random.list(&numbers, records))
}

/// The records of a list, one by one.
fn read(settings: &Settings, list: &[u8]) -> Vec<Record> {
    let record = |bytes: &[u8]| Record::from_bytes(settings, bytes.try_into().unwrap()).unwrap();
    list.chunks(32).map(record).collect()
}

/// An iterator from the front, from the back and by leaps; its size at each step.
fn compare_records(got: &Records, want: &[Record]) {
    assert_eq!(got.clone().collect::<Vec<_>>(), want);
    assert!(got.clone().rev().eq(want.iter().rev().copied()));
    let mut rest = got.clone();
    for left in (0..want.len()).rev() {
        assert_eq!(
            (rest.len(), rest.size_hint()),
            (left + 1, (left + 1, Some(left + 1)))
        );
        assert!(rest.next().is_some());
    }
    assert_eq!((rest.len(), rest.next(), rest.next()), (0, None, None));
    for n in 0..=want.len() {
        let mut rest = got.clone();
        assert_eq!(rest.nth(n), want.get(n).copied());
        assert_eq!(rest.len(), want.len().saturating_sub(n + 1));
    }
}

/// Blocks of so many records each, the last one apart.
fn compare_blocks(got: &Blocks, want: &[Record], most: usize) {
    let parts: Vec<&[Record]> = want.chunks(most).collect();
    assert_eq!(got.len(), parts.len());
    let counts = |n: usize| parts.get(n).map(|part| part.len());
    for (n, (block, part)) in got.clone().zip(&parts).enumerate() {
        compare_records(&block, part);
        assert_eq!(got.clone().nth(n).map(|block| block.len()), counts(n));
    }
    assert!(got.clone().nth(parts.len()).is_none());
    let mut last = got.clone();
    assert_eq!(
        last.next_back().map(|b| b.len()),
        parts.last().map(|p| p.len())
    );
    assert!(got.clone().flatten().eq(want.iter().copied()));
}

#[test]
fn every_length_to_46() {
    let random = &mut Random::new(84);
    for round in 0..20 {
        for n in 0..=46 {
            let (settings, list) = some_list(random, n);
            let want = read(&settings, &list);
            compare_records(&records(&settings, &list).unwrap(), &want);
            let mut log = vec![0; 512 * n.div_ceil(15)];
            assert_eq!(log_encode(&settings, &list, &mut log), Ok(n.div_ceil(15)));
            compare_blocks(&blocks(&settings, &log).unwrap(), &want, 15);
            let mut log = vec![0; 512 * n.div_ceil(14)];
            assert_eq!(
                stamped_encode(&settings, &list, &mut log),
                Ok(n.div_ceil(14))
            );
            compare_blocks(&stamped_blocks(&log).unwrap(), &want, 14);
            let carried = (n > 0).then_some(settings);
            assert_eq!(stamped_settings(&log), Ok(carried), "round {round}");
        }
    }
}

/// The refusal of a call that has room enough, and that of an iterator, are the same.
fn same<T>(seen: &mut Seen, call: Result<usize, Refusal>, iterator: Result<T, Refusal>) {
    let (call, iterator) = (call.err(), iterator.err());
    assert_eq!(call, iterator);
    seen.add(call.map_or(0, |refusal| refusal.number()));
}

/// Changes a byte, in a block with the check left or made right, or cuts one off, or does neither.
fn damage(random: &mut Random, buffer: &mut Vec<u8>, size: usize) {
    if buffer.is_empty() || random.chance(3) {
        return;
    }
    if random.chance(8) {
        buffer.pop();
        return;
    }
    let any = random.below(buffer.len());
    let stamp = any / size * size + random.pick(&[0, 16, 22, 26]) + size.saturating_sub(64);
    let at = random.pick(&[any, stamp]);
    buffer[at] ^= 1 << random.below(8);
    if size == 512 && random.chance(2) {
        seal(&mut buffer[at / 512 * 512..][..512]);
    }
}

/// Lists and logs with a byte changed or cut off, and settings out of range.
#[test]
fn refused() {
    let (mut seen, random) = (Seen::default(), &mut Random::new(85));
    for _ in 0..rounds(20_000) {
        let n = random.below(47);
        let (mut settings, mut list) = some_list(random, n);
        let mut log = vec![0; 512 * n.div_ceil(15)];
        log_encode(&settings, &list, &mut log).unwrap();
        let mut stamped = vec![0; 512 * n.div_ceil(14)];
        stamped_encode(&settings, &list, &mut stamped).unwrap();
        damage(random, &mut list, 32);
        damage(random, &mut log, 512);
        damage(random, &mut stamped, 512);
        if random.chance(16) {
            settings.t_cc = 3;
        }
        let mut room = vec![0; 47 * 512];
        let call = log_encode(&settings, &list, &mut room);
        same(&mut seen, call, records(&settings, &list));
        let call = log_decode(&settings, &log, &mut room);
        same(&mut seen, call, blocks(&settings, &log));
        let call = stamped_decode(&stamped, &mut room);
        same(&mut seen, call, stamped_blocks(&stamped));
        same(&mut seen, call, stamped_settings(&stamped));
    }
    seen.report("iterators refused", &[0, 1, 10, 12, 13, 17]);
}

/// A list whose records are read and written goes back to the same bytes.
#[test]
fn written_again() {
    let random = &mut Random::new(86);
    for n in 0..=46 {
        let (settings, list) = some_list(random, n);
        let again: Vec<u8> = records(&settings, &list)
            .unwrap()
            .flat_map(|record| record.to_bytes())
            .collect();
        assert_eq!(again, list);
    }
}
