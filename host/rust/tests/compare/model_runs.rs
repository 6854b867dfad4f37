//! Short lists under set H, and what the model does with each record. A record is written as in the
//! paper's listings: instant, name, bank, row or column, mask where M = 1.

use crate::closing;
use crate::hand_lists::{item, set_h_list, ONE, PASS};
use crate::lists::list_bytes;
use crate::model_calls::{Run, Seen};
use crate::random::{bytes, set_h};
use crate::reference::{Fields, NOCOP};
use crate::reference_model::Event;

/// What becomes of a record.
enum Becomes {
    Neither,
    /// An RD of these writes over the first bytes: masks, and instants of their D.
    Reads(&'static [(u16, u32)]),
    Retires(u32),
    Breaks(u32),
}
use Becomes::{Breaks, Neither, Reads, Retires};

type Lines = &'static [(&'static str, Becomes)];

#[rustfmt::skip]
const RUNS: [Lines; 18] = [
    // Run 1 of the paper.
    &[("4 ACT 0 0", Neither), ("13 RD 0 1", Reads(&[])), ("19 WR 0 1", Neither), ("25 D", Neither),
      ("27 NOCOP 0 0 0003", Retires(2)), ("31 RD 0 1", Reads(&[(3, 25)])), ("35 PRER 0", Neither),
      ("43 ACT 1 0", Neither), ("52 RD 1 0", Reads(&[])), ("63 PRER 1", Neither)],
    // Two writes to one dualoct wait, older first; no RD comes while they do.
    &[("4 ACT 0", Neither), ("5 WR 0", Neither), ("11 D", Neither), ("9 WR 0 0 0003", Breaks(16)),
      ("9 WR 0", Neither), ("11 D", Breaks(15)), ("15 D", Neither), ("13 RD 0", Breaks(12)),
      ("13 NOCOP 0 0 0003", Retires(2)), ("16 NOCOP 0 0 0006", Breaks(3)),
      ("17 RD 0", Reads(&[(3, 11)])), ("21 NOCOP 0 0 0006", Retires(2)),
      ("25 RD 0", Reads(&[(3, 11), (6, 15)])), ("29 NOCOP", Neither)],
    // A WR every tCC: from the third on each retires the write before the last.
    &[("4 ACT 0", Neither), ("5 WR 0 0", Neither), ("11 D", Neither), ("9 WR 0 1", Neither),
      ("15 D", Neither), ("13 WR 0 2 00FF", Retires(8)), ("19 D", Neither), ("17 WR 0 3", Retires(16)),
      ("23 D", Neither), ("24 PRER 1", Breaks(14)), ("24 NOCOP 0 0 0000", Retires(0)),
      ("28 RD 0 0", Reads(&[(0x00FF, 11)])), ("32 RD 0 1", Reads(&[(0xFFFF, 15)])),
      ("36 RD 0 2", Reads(&[])), ("40 RD 0 3", Reads(&[])), ("44 NOCOP", Retires(16)),
      ("48 RD 0 3", Reads(&[(0xFFFF, 23)]))],
    // Writes of two banks: neither is closed under its write, and each is retired to its own.
    &[("4 ACT 0 1", Neither), ("12 ACT 20", Neither), ("14 WR 20 3", Neither), ("20 D", Neither),
      ("18 WR 0 3", Neither), ("24 D", Neither), ("32 PRER 0", Breaks(14)), ("32 PRER 20", Breaks(14)),
      ("32 NOCOP", Retires(16)), ("32 PRER 1", Breaks(14)), ("36 RD 20 3", Reads(&[(0xFFFF, 20)])),
      ("40 PRER 20", Neither), ("40 NOCOP 0 0 F000", Retires(4)),
      ("44 RD 0 3", Reads(&[(0xF000, 24)])), ("48 PRER 1", Neither)],
    // Two writes to one dualoct: the second WR carries the first's mask, the NOCOP its own.
    &[("4 ACT 0", Neither), ("5 WR 0", Neither), ("11 D", Neither), ("13 WR 0 0 0003", Retires(2)),
      ("19 D", Neither), ("21 NOCOP 0 0 0006", Retires(2)),
      ("25 RD 0", Reads(&[(3, 11), (6, 19)]))],
    // An RD past its own waiting write reads the old bytes; an early NOCOP is refused.
    &[("4 ACT 0", Neither), ("5 WR 0 2", Neither), ("11 D", Neither), ("12 NOCOP", Breaks(12)),
      ("13 RD 0 2", Reads(&[])),
      ("17 NOCOP", Retires(16)), ("21 RD 0 2", Reads(&[(0xFFFF, 11)])), ("25 RD 0 3", Reads(&[]))],
    // A write is retired to the row of its WR: PRER under the buffer is refused.
    &[("4 ACT 5 0", Neither), ("13 WR 5 3", Neither), ("19 D", Neither), ("24 PRER 5", Breaks(14)),
      ("24 PRER 4", Breaks(14)), ("24 REFP 6", Breaks(14)), ("24 PRER 7", Neither),
      ("25 NOCOP 0 0 8001", Retires(2)), ("36 PRER 5", Neither), ("44 ACT 5 1", Neither),
      ("53 RD 5 3", Reads(&[])), ("64 PRER 6", Neither), ("72 ACT 5 0", Neither),
      ("81 RD 5 3", Reads(&[(0x8001, 19)]))],
    // ACT beside an open neighbour; 15 and 16 are none.
    &[("4 ACT 15", Neither), ("32 ACT 14", Breaks(4)), ("32 REFA 15", Breaks(4)),
      ("32 ACT 16 1", Neither), ("41 RD 15", Reads(&[])), ("45 RD 16 3", Reads(&[]))],
    // A bank under refresh is not open to columns.
    &[("4 REFA 3", Neither), ("13 RD 3", Breaks(9)), ("13 WR 3", Breaks(9)), ("24 PRER 2", Neither),
      ("32 ACT 3", Neither), ("41 RD 3 1", Reads(&[]))],
    // Mask 0 writes nothing and empties the buffer.
    &[("4 ACT 9", Neither), ("5 WR 9", Neither), ("11 D", Neither), ("13 NOCOP 0 0 0000", Retires(0)),
      ("17 NOCOP 0 0 0001", Breaks(16)), ("17 NOCOP", Neither), ("21 RD 9", Reads(&[]))],
    // The D is due directly after its WR, and no other record is taken before it.
    &[("4 ACT 31 1", Neither), ("5 WR 31 3", Neither), ("13 NOCOP", Breaks(15)), ("13 RD 31", Breaks(15)),
      ("20 ACT 0", Breaks(15)), ("24 PRER 9", Breaks(15)), ("10 D", Breaks(15)), ("12 D", Breaks(15)),
      ("11 D", Neither), ("11 D", Breaks(15)), ("13 NOCOP", Retires(16)), ("11 D", Breaks(15)),
      ("17 RD 31 3", Reads(&[(0xFFFF, 11)]))],
    // A refused record does not count: the next is judged without it.
    &[("4 ACT 0", Neither), ("12 RD 0", Breaks(10)), ("13 RD 0", Reads(&[])), ("16 RD 0", Breaks(3)),
      ("17 RD 0 3", Reads(&[])), ("16 PRER 9", Breaks(1)), ("17 PRER 9", Neither)],
    // PRER to a bank closes its open neighbours.
    &[("4 ACT 1", Neither), ("12 ACT 3", Neither), ("32 PRER 2", Neither), ("41 RD 1", Breaks(9)),
      ("41 RD 3", Breaks(9)), ("40 ACT 2 1", Neither), ("49 RD 2 2", Reads(&[]))],
    // The write waits over reads of other banks, and a WR to another bank retires it.
    &[("4 ACT 0 1", Neither), ("5 WR 0 1", Neither), ("11 D", Neither), ("12 ACT 20", Neither),
      ("21 RD 20 1", Reads(&[])), ("27 WR 20 2 FF00", Retires(8)), ("33 D", Neither),
      ("31 RD 0 1", Reads(&[(0xFF00, 11)])), ("35 NOCOP 0 0 00FF", Retires(8)),
      ("39 RD 20 2", Reads(&[(0x00FF, 33)]))],
    // An RDA closes its bank, without a ROW packet; the next may come at its PRER.
    &[("4 ACT 0 1", Neither), ("19 RDA 0 2", Breaks(6)), ("20 RDA 0 2", Reads(&[])), ("24 RD 0 2", Breaks(9)),
      ("26 WR 0 2", Breaks(9)), ("23 ACT 20", Breaks(17)), ("24 ACT 20", Neither), ("31 PRER 0", Breaks(8)),
      ("32 ACT 0 0", Neither), ("41 RD 0 2", Reads(&[]))],
    // A WRA is retired by NOCOP, which closes its bank; until then NOCOP and RD come alone.
    &[("4 ACT 0 1", Neither), ("5 WRA 0 2", Neither), ("12 ACT 20", Breaks(15)), ("11 D", Neither),
      ("12 ACT 20", Breaks(17)), ("12 WR 0", Breaks(17)), ("13 RD 0 2", Reads(&[])), ("20 RDA 0", Breaks(14)),
      ("19 NOCOP", Breaks(6)), ("20 NOCOP 0 0 0F0F", Retires(8)), ("26 WR 0", Breaks(9)),
      ("32 ACT 0 1", Neither), ("41 RD 0 2", Reads(&[(0x0F0F, 11)]))],
    // A WR of another bank retires a WRA; one of its own bank finds that closed. Then one beside a WR.
    &[("4 ACT 0", Neither), ("12 ACT 20", Neither), ("16 WRA 0", Neither), ("22 D", Neither),
      ("23 WR 20", Breaks(17)), ("24 WR 0", Breaks(9)), ("24 WR 20 1 8000", Retires(1)), ("30 D", Neither),
      ("28 WRA 20 2", Neither), ("34 D", Neither), ("32 WR 20", Breaks(17)), ("31 PRER 0", Breaks(8)),
      ("32 NOCOP", Retires(16)), ("36 RD 0", Breaks(9)), ("36 NOCOP 0 0 0000", Retires(0)),
      ("36 ACT 0", Breaks(17)), ("40 ACT 0", Neither), ("49 RD 0", Reads(&[(0x8000, 22)]))],
    // M = 1 with a full mask is no word; RD with a mask breaks 16 also while a write waits.
    &[("4 ACT 0", Neither), ("5 WR 0", Neither), ("11 D", Neither), ("13 RD 0 0 0001", Breaks(16)),
      ("13 NOCOP 0 0 7FFF", Retires(15)), ("17 RD 0", Reads(&[(0x7FFF, 11)]))],
];

/// Data byte i of the D at an instant.
fn data(instant: u32) -> [u8; 16] {
    std::array::from_fn(|i| (16 * instant + i as u32) as u8)
}

fn record(settings: &[u8], line: &str) -> Vec<u8> {
    let item = item(line);
    let mut record = list_bytes(settings, &[item]);
    if item.packet.is_none() {
        record[16..].copy_from_slice(&data(item.at));
    }
    record
}

fn first_store() -> Vec<u8> {
    (0..4096).map(|i| (i * 7 + i / 256) as u8).collect()
}

/// What an RD of a dualoct answers after these writes.
fn read(before: &[u8], writes: &[(u16, u32)]) -> [u8; 16] {
    let mut dualoct: [u8; 16] = before.try_into().unwrap();
    for (mask, instant) in writes {
        let bits = (0..16).filter(|i| mask >> i & 1 == 1);
        bits.for_each(|i| dualoct[i] = data(*instant)[i]);
    }
    dualoct
}

#[test]
fn hand_runs() {
    let (mut seen, numbers) = (Seen::default(), set_h(2, 4, 0));
    for lines in RUNS {
        let (mut run, mut rows) = (Run::new(&numbers, first_store()), [0; 32]);
        for (line, becomes) in lines {
            let record = record(&bytes(&numbers), line);
            let p = item(line).packet;
            let answer = run.call(&mut seen, &record, 16);
            let want = match becomes {
                Neither => Ok(Event::Neither),
                Retires(bytes) => Ok(Event::Retired(*bytes)),
                Breaks(rule) => Err((11, *rule)),
                Reads(writes) => {
                    let p = p.unwrap();
                    let at = 16 * ((p.bank * 2 + rows[p.bank as usize]) * 4 + p.place) as usize;
                    Ok(Event::Read(read(&first_store()[at..at + 16], writes)))
                }
            };
            assert_eq!(answer, want, "{line}");
            if let (Some(p), Ok(_)) = (p, answer) {
                if p.command < NOCOP {
                    rows[p.bank as usize] = p.place;
                }
            }
        }
    }
    seen.report("model, runs by hand", &[0, 11]);
}

/// The lists of the rules: one that passes is taken, and of the others all but the last record.
#[test]
fn lists_of_the_rules() {
    let mut seen = Seen::default();
    let rules = ONE.into_iter().chain(closing::ONE);
    let passing = PASS.into_iter().chain(closing::PASS);
    for (rule, text) in passing.map(|text| (0, text)).chain(rules) {
        let (_, list) = set_h_list(text);
        let mut run = Run::new(&set_h(2, 4, 0), first_store());
        let answers: Vec<_> = list
            .chunks(32)
            .map(|record| run.call(&mut seen, record, 16).map(|_| ()))
            .collect();
        let (last, before) = answers.split_last().unwrap();
        assert!(before.iter().all(|answer| *answer == Ok(())), "{text}");
        let want = if rule == 0 { Ok(()) } else { Err((11, rule)) };
        assert_eq!(*last, want, "{text}");
    }
    seen.report("model, lists of the rules", &[0, 11]);
    seen.all_rules();
}

/// An RD with every length of answer, in every state of the buffer; other records need none.
#[test]
fn rooms() {
    let (mut seen, numbers) = (Seen::default(), set_h(2, 4, 0));
    let settings = bytes(&numbers);
    let texts = [
        "4 ACT 0, 13 RD 0 1, 17 RD 0 2",
        "4 ACT 0, 5 WR 0 1, 11 D, 13 RD 0 1, 17 NOCOP, 21 RD 0 1, 24 PRER 9",
        "4 ACT 0, 12 ACT 5, 14 WRA 0 1, 20 D, 28 RDA 5 1, 36 NOCOP",
    ];
    for text in texts {
        let mut run = Run::new(&numbers, first_store());
        for line in text.split(',') {
            let record = record(&settings, line);
            let need = if item(line).packet.is_some_and(Fields::reads) {
                16
            } else {
                0
            };
            for room in 0..48 {
                let answer = run.clone().call(&mut seen, &record, room);
                assert_eq!(answer == Err((8, 0)), room < need, "{line}, room {room}");
            }
            // The same record again.
            for room in 0..need {
                assert_eq!(run.call(&mut seen, &record, room), Err((8, 0)));
            }
            run.call(&mut seen, &record, need).unwrap();
        }
    }
    seen.report("model, rooms of every length", &[0, 8]);
}

/// Every place of a small device: a write goes to its own dualoct and to no other.
#[test]
fn every_place() {
    let mut seen = Seen::default();
    for (rows, columns) in [(1, 1), (1, 3), (3, 1), (2, 4)] {
        let numbers = set_h(rows, columns, 0);
        let settings = bytes(&numbers);
        let size = 512 * usize::from(rows) * usize::from(columns);
        for bank in 0..32 {
            for row in 0..rows {
                for column in 0..columns {
                    let mut run = Run::new(&numbers, vec![0x55; size]);
                    let text = format!("4 ACT {bank} {row}, 5 WR {bank} {column}, 11 D, 13 NOCOP");
                    for line in text.split(',') {
                        run.call(&mut seen, &record(&settings, line), 0).unwrap();
                    }
                    let place = (bank * usize::from(rows) + usize::from(row))
                        * usize::from(columns)
                        + usize::from(column);
                    let mut want = vec![0x55; size];
                    want[16 * place..16 * place + 16].copy_from_slice(&data(11));
                    assert!(run.store == want, "{text}");
                }
            }
        }
    }
    seen.report("model, every place", &[0]);
}

/// REFR rises after REFA to bank 31 alone, and starts again at rows.
#[test]
fn refresh_rows() {
    let mut seen = Seen::default();
    for rows in [1, 2, 3, 5] {
        let numbers = set_h(rows, 1, 0);
        let settings = bytes(&numbers);
        let mut run = Run::new(&numbers, vec![0; 512 * usize::from(rows)]);
        let mut instant = 4;
        for turn in 0..4 * u32::from(rows) + 1 {
            let refr = |run: &Run| u32::from(run.state[752]);
            assert_eq!(refr(&run), turn % u32::from(rows));
            for bank in [0, 15, 16, 30, 31] {
                let before = refr(&run);
                for (name, at) in [("REFA", instant), ("REFP", instant + 20)] {
                    let line = format!("{at} {name} {bank}");
                    run.call(&mut seen, &record(&settings, &line), 0).unwrap();
                }
                assert!(bank == 31 || refr(&run) == before);
                instant += 28;
            }
        }
    }
    seen.report("model, refresh rows", &[0]);
}
