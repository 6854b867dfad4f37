//! Pages of the channel against a drawing from document 02 k alone: cell by cell, of the items that a list
//! was made of, so that no word is read back.

use crate::buffers::{guarded, lent, pattern};
use crate::calls::{typed, Seen};
use crate::hand_lists::{lines, PASS};
use crate::lists::{change, legal, list_bytes, Item, LAST};
use crate::random::{bytes, rounds, set_h, Random};
use crate::reference::{ACT, NOCOP, PRER, RD, RDA, REFA, REFP, T_CAC};
use crate::reference_rules::check;
use rdram::raw;

const PAGE: usize = 292;

/// A number with its rule and place.
type Answer = (u32, u32, u64);

/// What an item marks: the line, the first of four cycles, the letter.
fn marks(cac: i64, item: &Item) -> Vec<(usize, i64, char)> {
    let at = i64::from(item.at);
    let Some(p) = item.packet else {
        return vec![(2, at, 'D')];
    };
    let letter = match p.command {
        ACT => 'A',
        PRER => 'P',
        REFA => 'F',
        REFP => 'E',
        NOCOP => 'N',
        RD | RDA => 'R',
        _ => 'W',
    };
    let packet = (usize::from(p.command >= NOCOP), at - 4, letter);
    match letter {
        'R' => vec![packet, (2, at + cac, 'Q')],
        _ => vec![packet],
    }
}

/// The character of a cycle; fails where two marks meet.
fn character(marked: &[(usize, i64, char)], line: usize, cycle: i64) -> char {
    if line == 3 {
        return if cycle % 8 == 0 { '|' } else { ' ' };
    }
    let mut found = marked
        .iter()
        .filter(|(l, first, _)| *l == line && *first <= cycle && cycle <= first + 3);
    let letter = found.next().map_or('.', |m| m.2);
    assert!(
        found.next().is_none(),
        "two marks at cycle {cycle} of line {line}"
    );
    letter
}

fn drawing(numbers: &[u16; 16], items: &[Item], start: u32) -> Vec<u8> {
    let marked: Vec<_> = items
        .iter()
        .flat_map(|i| marks(numbers[T_CAC].into(), i))
        .collect();
    let mut text = String::new();
    for (line, name) in ["ROW", "COL", "DQ", ""].iter().enumerate() {
        text += &format!("{name:8}");
        text.extend((0..64).map(|k| character(&marked, line, i64::from(start) + k)));
        text.push('\n');
    }
    text.into_bytes()
}

/// 1, 13, 7, 10, 11, 8.
fn answer(settings: &[u8], list: &[u8], start: u32, room: usize) -> Answer {
    let judged = check(settings, list);
    match judged.number {
        1 | 13 => (judged.number, 0, 0),
        _ if start > LAST => (7, 0, 0),
        0 if room < PAGE => (8, 0, 0),
        _ => (judged.number, judged.rule, judged.place),
    }
}

/// Calls by the C function and by the safe wrapper: answer and every byte of the room.
fn compare(
    seen: &mut Seen,
    numbers: &[u16; 16],
    (settings, list): (&[u8], &[u8]),
    items: &[Item],
    start: u32,
    room: usize,
) {
    let want = answer(settings, list, start, room);
    let mut left = pattern(room);
    if want.0 == 0 {
        left[..PAGE].copy_from_slice(&drawing(numbers, items, start));
    }
    let mut buffer = guarded(&pattern(room));
    let out = lent(&mut buffer);
    // SAFETY: each pointer and length are those of one slice.
    let a = unsafe {
        raw::rdram_page(
            settings.as_ptr(),
            settings.len(),
            list.as_ptr(),
            list.len(),
            start,
            out.as_mut_ptr(),
            out.len(),
        )
    };
    assert_eq!(
        (a.number, a.rule, a.place),
        want,
        "start {start}, room {room}"
    );
    assert!(
        buffer == guarded(&left),
        "start {start}:\n{}",
        String::from_utf8_lossy(lent(&mut buffer))
    );
    if let Some(s) = typed(settings) {
        let mut buffer = pattern(room);
        let said = rdram::page(&s, list, start, &mut buffer);
        let said = said.map_or_else(
            |r| (r.number(), r.rule().unwrap_or(0), r.place().unwrap_or(0)),
            |()| (0, 0, 0),
        );
        assert_eq!(said, want);
        assert!(buffer == left);
    }
    seen.add(want.0);
}

/// A start: at an edge, about an item, or any.
fn some_start(random: &mut Random, items: &[Item]) -> u32 {
    let edges = [
        0,
        1,
        2,
        3,
        4,
        LAST - 63,
        LAST - 3,
        LAST - 1,
        LAST,
        LAST + 1,
        u32::MAX,
    ];
    match random.below(8) {
        0 | 1 => random.pick(&edges),
        2 => LAST - random.below(100) as u32,
        3 => random.below(100) as u32,
        _ if items.is_empty() => random.below(8) as u32,
        _ => (items[random.below(items.len())].at.min(LAST) + 20)
            .saturating_sub(random.below(90) as u32),
    }
}

#[test]
fn hand_lists_at_every_edge() {
    let numbers = set_h(2, 4, 0);
    let settings = bytes(&numbers);
    let mut seen = Seen::default();
    for text in PASS {
        let items = lines(text);
        let list = list_bytes(&settings, &items);
        let ends = items
            .iter()
            .flat_map(|i| i.at.saturating_sub(70)..=i.at + 13);
        for start in (0..4).chain(ends).chain(LAST - 70..=LAST + 1) {
            compare(&mut seen, &numbers, (&settings, &list), &items, start, PAGE);
        }
    }
    seen.report("pages of hand lists", &[0, 7]);
}

#[test]
fn random_lists() {
    let mut seen = Seen::default();
    let random = &mut Random::new(25);
    for _ in 0..rounds(3000) {
        let numbers = random.numbers();
        let mut settings = bytes(&numbers);
        let size = random.below(50);
        let mut items = legal(random, &numbers, size);
        if random.chance(4) && !items.is_empty() {
            change(random, &numbers, &mut items);
        }
        let mut list = list_bytes(&settings, &items);
        match random.below(30) {
            0 => list.push(0),
            1 => settings[19] = 1,
            2 if !list.is_empty() => {
                let at = 32 * random.below(items.len()) + 5;
                list[at] = 1;
            }
            _ => {}
        }
        for _ in 0..4 {
            let start = some_start(random, &items);
            let room = random.pick(&[PAGE, PAGE, PAGE, 300, 1000, 291, 0]);
            compare(&mut seen, &numbers, (&settings, &list), &items, start, room);
        }
    }
    seen.report("pages of random lists", &[0, 1, 7, 8, 10, 11, 13]);
}

/// The records after the last one that meets a page count for nothing in it.
#[test]
fn records_outside() {
    let mut seen = Seen::default();
    let random = &mut Random::new(26);
    for _ in 0..rounds(300) {
        let numbers = random.numbers();
        let settings = bytes(&numbers);
        let items = legal(random, &numbers, 60);
        let start = some_start(random, &items).min(LAST);
        let meets = |i: &Item| {
            let (first, end) = (i64::from(start), i64::from(start) + 64);
            marks(numbers[T_CAC].into(), i)
                .iter()
                .any(|m| first < m.1 + 4 && m.1 < end)
        };
        let about = items.iter().rposition(meets).map_or(0, |last| last + 1);
        let list = list_bytes(&settings, &items);
        compare(
            &mut seen,
            &numbers,
            (&settings, &list),
            &items[..about],
            start,
            PAGE,
        );
        compare(
            &mut seen,
            &numbers,
            (&settings, &list[..32 * about]),
            &items,
            start,
            PAGE,
        );
    }
    seen.report("records outside", &[0]);
}
