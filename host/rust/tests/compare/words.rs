//! Words both ways.

use crate::calls::{word_decode, word_encode, Seen};
use crate::random::{bytes, rounds, set_h, Random};
use crate::reference::{Fields, ACT, COLUMNS, NOCOP, PRER, RD, RDA, REFP, ROWS, WR, WRA};

const MASKS: [u32; 8] = [0, 1, 3, 0x8000, 0xFFFE, 0xFFFF, 0x10000, u32::MAX];

/// Encodes, and decodes the word to the same packet.
fn both_ways(seen: &mut Seen, settings: &[u8], p: Fields) {
    if let Some(word) = word_encode(seen, settings, p) {
        let kind = u32::from(p.command >= NOCOP);
        assert_eq!(word_decode(seen, settings, kind, word), Some(p));
    }
}

#[test]
fn worked_words() {
    let settings = bytes(&set_h(2, 4, 0));
    let mut seen = Seen::default();
    let act = Fields {
        command: ACT,
        bank: 0,
        place: 0,
        mask: 0,
    };
    let rd = Fields {
        command: RD,
        bank: 0,
        place: 1,
        mask: 0xFFFF,
    };
    assert_eq!(word_encode(&mut seen, &settings, act), Some(0x401000));
    assert_eq!(word_encode(&mut seen, &settings, rd), Some(0x80_0026_0000));
    for (command, word) in [(WRA, 0x80_002A_0000), (RDA, 0x80_002E_0000)] {
        let closing = Fields { command, ..rd };
        assert_eq!(word_encode(&mut seen, &settings, closing), Some(word));
    }
    seen.report("words of the papers", &[0]);
}

/// Rows, columns and what lies beside them.
fn places(numbers: &[u16; 16]) -> Vec<u32> {
    let (rows, columns) = (u32::from(numbers[ROWS]), u32::from(numbers[COLUMNS]));
    let mut places = vec![0, 1, 127, 128, 511, 512, 0x10000, u32::MAX];
    for n in [rows, columns] {
        places.extend([n - 1, n, n + 1]);
    }
    places
}

#[test]
fn fields_at_the_ends() {
    let (mut seen, mut random) = (Seen::default(), Random::new(11));
    for _ in 0..40 {
        let numbers = random.numbers();
        let settings = bytes(&numbers);
        for command in (0..=RDA + 2).chain([0x100, u32::MAX]) {
            for bank in (0..=32).chain([63, 64, 0x100, u32::MAX]) {
                for place in places(&numbers) {
                    for mask in MASKS {
                        both_ways(
                            &mut seen,
                            &settings,
                            Fields {
                                command,
                                bank,
                                place,
                                mask,
                            },
                        );
                    }
                }
            }
        }
    }
    seen.report("words, fields at the ends", &[0, 4, 5, 6, 10]);
}

#[test]
fn every_bank_row_and_column() {
    let (mut seen, mut random) = (Seen::default(), Random::new(12));
    for _ in 0..20 {
        let numbers = random.numbers();
        let settings = bytes(&numbers);
        for bank in 0..32 {
            for place in 0..=u32::from(numbers[ROWS]) {
                both_ways(
                    &mut seen,
                    &settings,
                    Fields {
                        command: ACT,
                        bank,
                        place,
                        mask: 0,
                    },
                );
            }
            for place in 0..=u32::from(numbers[COLUMNS]) {
                let mask = random.below(0x10000) as u32;
                for (command, mask) in [(WR, 0xFFFF), (RD, mask), (WRA, mask), (RDA, 0xFFFF)] {
                    both_ways(
                        &mut seen,
                        &settings,
                        Fields {
                            command,
                            bank,
                            place,
                            mask,
                        },
                    );
                }
            }
            for command in PRER..=REFP {
                both_ways(
                    &mut seen,
                    &settings,
                    Fields {
                        command,
                        bank,
                        place: 0,
                        mask: 0,
                    },
                );
            }
        }
    }
    seen.report("words, every bank, row and column", &[0, 5, 6]);
}

#[test]
fn every_mask() {
    let (mut seen, mut random) = (Seen::default(), Random::new(13));
    for mask in 0..=0x10000 {
        let numbers = random.numbers();
        for command in NOCOP..=RDA {
            let p = Fields {
                mask,
                command,
                bank: 0,
                place: 0,
            };
            both_ways(&mut seen, &bytes(&numbers), p);
        }
    }
    seen.report("words, every mask", &[0, 10]);
}

#[test]
fn flipped_bits() {
    let (mut seen, mut random) = (Seen::default(), Random::new(14));
    for _ in 0..rounds(20_000) {
        let numbers = random.numbers();
        let settings = bytes(&numbers);
        let p = random.packet(&numbers);
        let word = word_encode(&mut seen, &settings, p).unwrap();
        for bit in 0..64 {
            for kind in 0..2 {
                word_decode(&mut seen, &settings, kind, word ^ 1 << bit);
            }
        }
    }
    seen.report("words, single bits flipped", &[0, 10]);
}

#[test]
fn random_words() {
    let (mut seen, mut random) = (Seen::default(), Random::new(15));
    for _ in 0..rounds(300_000) {
        let numbers = random.numbers();
        let settings = bytes(&numbers);
        let any = random.word();
        let p = random.packet(&numbers);
        let near =
            word_encode(&mut seen, &settings, p).unwrap() ^ any & random.word() & random.word();
        for word in [
            any,
            any & 0xFF_FFFF,
            any & 0xFF_FFFF_FFFF,
            near,
            near & 0xFF_FFFF_FFFF,
        ] {
            for kind in [0, 1, 2, random.word() as u32] {
                word_decode(&mut seen, &settings, kind, word);
            }
        }
    }
    seen.report("words, random", &[0, 10]);
}

#[test]
fn every_row_word() {
    let mut seen = Seen::default();
    let settings = bytes(&set_h(300, 100, 21));
    for word in 0..1 << 24 {
        word_decode(&mut seen, &settings, 0, word);
    }
    seen.report("words, every ROW word of 24 bits", &[0, 10]);
}

/// Every value of bits 39 to 16, with low bits that fit M = 0, M = 1 or neither.
#[test]
fn every_col_front() {
    let (mut seen, mut random) = (Seen::default(), Random::new(16));
    let settings = bytes(&set_h(300, 100, 21));
    for front in 0..1 << 24 {
        let any = random.word() & 0xFFFF;
        let low = random.pick(&[21 << 11, 21 << 11, any, any, 0, 0xFFFF]);
        word_decode(&mut seen, &settings, 1, front << 16 | low);
    }
    seen.report("words, every front of a COL word", &[0, 10]);
}
