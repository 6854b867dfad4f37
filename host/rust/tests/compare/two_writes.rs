//! Runs of document 02 (a) under set H, in which two writes wait, and streams of writes at full rate.
//! `plan_runs` makes the runs by the reference and by the library.

use crate::plan_calls::{Run, Seen, ENOUGH};
use crate::plan_runs::{Runs, ONES, TWOS};
use crate::plan_streams::{bare, read, write, CLOSE, FLUSH};
use crate::random::{set_h, Random};
use crate::reference::number;
use crate::rule_settings::{rule_numbers, T_CC, T_RTR};

pub fn runs() -> Runs {
    vec![
        // The second WR comes beside the first write, with M = 0.
        (
            vec![write(0, 0, 0, 0x0003, &ONES), write(0, 0, 0, 0x0006, &TWOS)],
            vec![
                "4 ACT 0 0 -",
                "5 WR 0 0 -",
                "11 D 0 0 -",
                "9 WR 0 0 -",
                "15 D 0 0 -",
            ],
        ),
        // A read of the older write's dualoct, then of the newer's: each waits for its own.
        (
            vec![
                write(0, 0, 0, 0x0003, &ONES),
                write(0, 0, 1, 0x0006, &TWOS),
                read(0, 0, 0),
                read(0, 0, 1),
            ],
            vec![
                "4 ACT 0 0 -",
                "5 WR 0 0 -",
                "11 D 0 0 -",
                "9 WR 0 1 -",
                "15 D 0 1 -",
                "13 NOCOP 0 0 0003",
                "17 RD 0 0 -",
                "21 NOCOP 0 0 0006",
                "25 RD 0 1 -",
            ],
        ),
        // A read of the newer write's dualoct: both retire.
        (
            vec![
                write(0, 0, 0, 0x0003, &ONES),
                write(0, 0, 1, 0xFFFF, &TWOS),
                read(0, 0, 1),
            ],
            vec![
                "4 ACT 0 0 -",
                "5 WR 0 0 -",
                "11 D 0 0 -",
                "9 WR 0 1 -",
                "15 D 0 1 -",
                "13 NOCOP 0 0 0003",
                "17 NOCOP 0 0 -",
                "21 RD 0 1 -",
            ],
        ),
        // A read of another place: the NOCOP comes after the ACT, directly before the RD.
        (
            vec![
                write(0, 0, 0, 0x0003, &ONES),
                write(0, 0, 1, 0x0006, &TWOS),
                read(4, 0, 0),
            ],
            vec![
                "4 ACT 0 0 -",
                "5 WR 0 0 -",
                "11 D 0 0 -",
                "9 WR 0 1 -",
                "15 D 0 1 -",
                "12 ACT 4 0 -",
                "13 NOCOP 0 0 0003",
                "21 RD 4 0 -",
            ],
        ),
        // Another row of the newer write's bank: both retire before the PRER.
        (
            vec![
                read(0, 0, 0),
                write(4, 0, 0, 0x0003, &ONES),
                write(0, 0, 1, 0x0006, &TWOS),
                read(0, 1, 1),
            ],
            vec![
                "4 ACT 0 0 -",
                "13 RD 0 0 -",
                "13 ACT 4 0 -",
                "19 WR 4 0 -",
                "25 D 4 0 -",
                "23 WR 0 1 -",
                "29 D 0 1 -",
                "27 NOCOP 0 0 0003",
                "31 NOCOP 0 0 0006",
                "35 PRER 0 0 -",
                "43 ACT 0 1 -",
                "52 RD 0 1 -",
            ],
        ),
        // A flush retires both.
        (
            vec![
                read(0, 0, 0),
                write(4, 0, 0, 0xFFFF, &ONES),
                write(4, 0, 0, 0x0100, &TWOS),
                bare(FLUSH),
                bare(CLOSE),
            ],
            vec![
                "4 ACT 0 0 -",
                "13 RD 0 0 -",
                "13 ACT 4 0 -",
                "19 WR 4 0 -",
                "25 D 4 0 -",
                "23 WR 4 0 -",
                "29 D 4 0 -",
                "27 NOCOP 0 0 -",
                "31 NOCOP 0 0 0100",
                "31 PRER 0 0 -",
                "39 PRER 4 0 -",
            ],
        ),
        // Three writes: the third WR carries the first one's mask.
        (
            vec![
                write(0, 0, 0, 0x0003, &ONES),
                write(0, 0, 0, 0x0006, &TWOS),
                write(0, 0, 0, 0x000C, &ONES),
                write(0, 0, 0, 0x0018, &ONES),
            ],
            vec![
                "4 ACT 0 0 -",
                "5 WR 0 0 -",
                "11 D 0 0 -",
                "9 WR 0 0 -",
                "15 D 0 0 -",
                "13 WR 0 0 0003",
                "19 D 0 0 -",
                "17 WR 0 0 0006",
                "23 D 0 0 -",
            ],
        ),
    ]
}

/// A stream of full writes to an open row: under set H a WR every tCC; under any settings a WR waits
/// for tCC after the last and, from the third on, for tRTR after the last but one.
#[test]
fn writes_at_full_rate() {
    let mut random = Random::new(67);
    for round in 0..200 {
        let numbers = match round {
            0 => set_h(2, 4, 0),
            _ => rule_numbers(&mut random),
        };
        let (mut run, mut seen) = (Run::new(&numbers), Seen::default());
        for _ in 0..8 {
            let request = write(5, 0, 0, 0xFFFF, &ONES);
            run.call(&mut seen, &request, ENOUGH).unwrap();
        }
        // ACT, then each WR and its D.
        let records = run.list.chunks(32).skip(1).step_by(2);
        let at: Vec<u64> = records.map(|record| number(&record[..4])).collect();
        let (cc, rtr) = (u64::from(numbers[T_CC]), u64::from(numbers[T_RTR]));
        for i in 1..8 {
            let retire = if i > 1 && cc < rtr {
                at[i - 2] + rtr
            } else {
                0
            };
            assert_eq!(at[i], retire.max(at[i - 1] + cc), "{numbers:?}");
        }
        assert!(round > 0 || at == [5, 9, 13, 17, 21, 25, 29, 33]);
        run.check();
    }
}
