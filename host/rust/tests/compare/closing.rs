//! Closing reads and writes (document 02, f): worked runs and lists by hand, at the ends of tOFFP and
//! of the timings that an implied PRER keeps, and streams of plain and closing requests. `plan_runs`
//! makes the runs, `hand_lists` and `model_runs` judge the lists of set H.

use crate::hand_lists::{lines, set_h_list};
use crate::lists::{change, list_bytes, Item};
use crate::model_calls::{self as model, any_store, small_numbers};
use crate::plan_calls::{Run, Seen, ENOUGH};
use crate::plan_runs::{Answers, Runs, ONES, TWOS};
use crate::plan_streams::{bare, closing, read, wait, write, Maker, CLOSE, REFRESH};
use crate::random::{bytes, rounds, set_h, Random};
use crate::reference::{figures, number, packet, BOUNDS, CORES, DEVICE, T_CAC, T_CWD, T_OFFP};
use crate::reference_plan::Planner;
use crate::reference_state::{CLOSES, WRITES};
use crate::rule_calls::{check_both, Verdicts};
use crate::rule_settings::{rule_numbers, T_PP, T_RAS, T_RCD, T_RDP, T_RP, T_RTP, T_RTR};

pub fn runs() -> Runs {
    vec![
        (
            vec![closing(read(0, 0, 0))],
            vec!["4 ACT 0 0 -", "20 RDA 0 0 -"],
        ),
        // The next ACT elsewhere comes at the implied PRER.
        (
            vec![closing(write(0, 0, 0, 0xFFFF, &ONES)), read(4, 0, 0)],
            vec![
                "4 ACT 0 0 -",
                "5 WRA 0 0 -",
                "11 D 0 0 -",
                "20 NOCOP 0 0 -",
                "24 ACT 4 0 -",
                "33 RD 4 0 -",
            ],
        ),
        // In the bank, and beside it, tRP later.
        (
            vec![closing(read(0, 0, 0)), read(0, 1, 0)],
            vec!["4 ACT 0 0 -", "20 RDA 0 0 -", "32 ACT 0 1 -", "41 RD 0 0 -"],
        ),
        (
            vec![closing(read(1, 0, 0)), bare(REFRESH)],
            vec![
                "4 ACT 1 0 -",
                "20 RDA 1 0 -",
                "32 REFA 0 0 -",
                "52 REFP 0 0 -",
            ],
        ),
        // Beside a waiting write that is not due: two NOCOPs.
        (
            vec![
                write(0, 0, 0, 0x0003, &ONES),
                closing(write(0, 0, 1, 0xFFFF, &TWOS)),
            ],
            vec![
                "4 ACT 0 0 -",
                "5 WR 0 0 -",
                "11 D 0 0 -",
                "9 WRA 0 1 -",
                "15 D 0 1 -",
                "13 NOCOP 0 0 0003",
                "20 NOCOP 0 0 -",
            ],
        ),
        // After it is due: the WRA retires it, and one NOCOP follows.
        (
            vec![
                write(0, 0, 0, 0x0003, &ONES),
                wait(8),
                closing(write(0, 0, 1, 0xFFFF, &TWOS)),
            ],
            vec![
                "4 ACT 0 0 -",
                "5 WR 0 0 -",
                "11 D 0 0 -",
                "13 WRA 0 1 0003",
                "19 D 0 1 -",
                "21 NOCOP 0 0 -",
            ],
        ),
        // A write waits in the bank of a closing read, in another column.
        (
            vec![write(0, 0, 0, 0x0003, &ONES), closing(read(0, 0, 1))],
            vec![
                "4 ACT 0 0 -",
                "5 WR 0 0 -",
                "11 D 0 0 -",
                "13 NOCOP 0 0 0003",
                "20 RDA 0 1 -",
            ],
        ),
        // What a close finds: bank 4 alone, tPP after the implied PRER.
        (
            vec![
                read(0, 0, 0),
                read(4, 0, 0),
                closing(read(0, 0, 0)),
                bare(CLOSE),
            ],
            vec![
                "4 ACT 0 0 -",
                "13 RD 0 0 -",
                "13 ACT 4 0 -",
                "22 RD 4 0 -",
                "26 RDA 0 0 -",
                "38 PRER 4 0 -",
            ],
        ),
        // Eight records: both neighbours are open, each with a waiting write.
        (
            vec![
                read(5, 0, 0),
                read(7, 0, 0),
                write(5, 0, 0, 0x0003, &ONES),
                write(7, 0, 0, 0x0006, &TWOS),
                closing(write(6, 1, 2, 0x000C, &ONES)),
            ],
            vec![
                "4 ACT 5 0 -",
                "13 RD 5 0 -",
                "13 ACT 7 0 -",
                "22 RD 7 0 -",
                "28 WR 5 0 -",
                "34 D 5 0 -",
                "32 WR 7 0 -",
                "38 D 7 0 -",
                "36 NOCOP 0 0 0003",
                "40 PRER 5 0 -",
                "40 NOCOP 0 0 0006",
                "48 PRER 7 0 -",
                "56 ACT 6 1 -",
                "57 WRA 6 2 -",
                "63 D 6 2 -",
                "72 NOCOP 0 0 000c",
            ],
        ),
    ]
}

/// Requests, of which the last has this answer.
pub fn last_answers() -> Answers {
    let written = || closing(write(0, 0, 0, 3, &ONES));
    vec![
        (vec![closing(read(32, 0, 0))], Err(4)),
        (vec![closing(read(0, 2, 0))], Err(5)),
        (vec![closing(read(0, 0, 4))], Err(6)),
        (vec![closing(read(0, 0, 0)), bare(CLOSE)], Ok(0)),
        (vec![written(), bare(CLOSE)], Ok(0)),
        // RDA at 999,999,992: its data come at the last instant.
        (vec![wait(999_999_972), closing(read(0, 0, 0))], Ok(2)),
        (vec![wait(999_999_973), closing(read(0, 0, 0))], Err(7)),
        // NOCOP at 999,999,996: the implied PRER is at the last instant.
        (vec![wait(999_999_976), written()], Ok(4)),
        (vec![wait(999_999_977), written()], Err(7)),
    ]
}

/// The latest instant is the implied PRER's, or the D's, which may come after it: after a wait of so many
/// cycles it is the last one.
#[test]
fn last_instants() {
    let late_data = [(T_RAS, 4), (T_RCD, 4), (T_RTR, 4), (T_CAC, 12), (T_CWD, 11)];
    let (offp, written) = ([(T_OFFP, 32)], closing(write(0, 0, 0, 3, &ONES)));
    let cases = [
        (&offp[..], closing(read(0, 0, 0)), 999_999_955), // RDA 13
        (&offp, written.clone(), 999_999_955),            // NOCOP 13
        (&late_data, written, 999_999_985),               // WRA 4, D 15, NOCOP 8
    ];
    for (timings, request, cycles) in cases {
        let mut numbers = set_h(2, 4, 0);
        timings.iter().for_each(|(at, value)| numbers[*at] = *value);
        for late in [0, 1] {
            let (mut run, mut seen) = (Run::new(&numbers), Seen::default());
            run.call(&mut seen, &wait(cycles + late), 0).unwrap();
            let answer = run.call(&mut seen, &request, ENOUGH);
            assert_eq!(answer.err(), (late == 1).then_some(7), "{request:?}");
        }
    }
}

// ---- Lists under set H ----

/// Lists that pass.
pub const PASS: [&str; 15] = [
    "4 ACT 0, 20 RDA 0",
    "4 ACT 0, 5 WRA 0, 11 D, 20 NOCOP",
    // RDA counts as RD between a WRA and its retire.
    "4 ACT 0, 12 ACT 5, 14 WRA 0, 20 D, 28 RDA 5, 36 NOCOP",
    "999999900 ACT 0, 999999992 RDA 0",
    "999999900 ACT 0, 999999985 WRA 0, 999999991 D, 999999996 NOCOP",
    // One cycle from a broken rule: a ROW packet at the implied instant, ACT and PRER near, COL packets
    // before it.
    "4 ACT 0, 20 RDA 0, 24 ACT 20",
    "4 ACT 0, 20 RDA 0, 32 ACT 0",
    "4 ACT 0, 20 RDA 0, 32 PRER 1",
    "4 ACT 0, 30 RDA 0, 42 ACT 1",
    "4 ACT 0, 12 ACT 5, 28 RDA 5, 32 RD 0, 36 RDA 0",
    "4 PRER 20, 9 ACT 0, 25 RDA 0, 29 NOCOP",
    "4 ACT 0, 5 WRA 0",
    // A WR that retires a WRA of another bank; a WRA beside and after other writes.
    "4 ACT 0, 12 ACT 20, 16 WRA 0, 22 D, 24 WR 20 1 0003, 30 D",
    "4 ACT 0, 5 WR 0, 11 D, 9 WRA 0, 15 D, 13 NOCOP 0 0 0003, 20 NOCOP",
    "4 ACT 0, 5 WR 0, 11 D, 13 WRA 0 0 0003, 19 D, 17 RD 0, 21 NOCOP",
];

/// Lists whose last record breaks one rule.
#[rustfmt::skip]
pub const ONE: [(u32, &str); 32] = [
    (1, "999999900 ACT 0, 999999993 RDA 0"),
    (1, "999999900 ACT 0, 999999995 WRA 0"),
    (1, "999999900 ACT 0, 999999985 WRA 0, 999999991 D, 999999997 NOCOP"),
    (6, "4 ACT 0, 19 RDA 0"),
    (6, "4 ACT 0, 5 WRA 0, 11 D, 19 NOCOP"),
    (7, "4 ACT 0, 30 RDA 0, 41 ACT 1"),
    (7, "4 ACT 0, 30 RDA 0, 41 REFA 0"),
    (8, "4 ACT 0, 20 PRER 20, 23 RDA 0"),
    (8, "4 ACT 0, 20 RDA 0, 31 PRER 20"),
    (8, "4 ACT 0, 12 ACT 5, 28 RDA 5, 35 RDA 0"),
    (8, "4 ACT 0, 12 ACT 5, 14 WRA 0, 20 D, 28 RDA 5, 35 NOCOP"),
    (9, "4 ACT 0, 20 RDA 0, 24 RD 0"),
    (9, "4 ACT 0, 20 RDA 0, 26 WR 0"),
    (9, "4 ACT 0, 5 WRA 0, 11 D, 20 NOCOP, 24 RD 0"),
    // The bank of the WRA that a WR retires is closed when that one comes to it.
    (9, "4 ACT 0, 13 WRA 0, 19 D, 21 WR 0"),
    (9, "4 ACT 0, 13 WRA 0, 19 D, 21 WRA 0"),
    (10, "4 ACT 0, 4 WRA 0"),
    (12, "4 ACT 0, 5 WRA 0, 11 D, 12 NOCOP"),
    (12, "4 ACT 0, 5 WR 0, 11 D, 9 WRA 0, 15 D, 13 RD 0"),
    (14, "4 ACT 0, 13 WR 0, 19 D, 20 RDA 0"),
    (14, "4 ACT 0, 13 WRA 0, 19 D, 20 RDA 0"),
    (15, "4 ACT 0, 5 WRA 0, 12 D"),
    (15, "4 ACT 0, 5 WRA 0, 20 NOCOP"),
    (16, "4 ACT 0, 20 RDA 0 0 0003"),
    (16, "4 ACT 0, 5 WRA 0 0 0003"),
    (17, "4 ACT 0, 5 WRA 0, 11 D, 12 ACT 20"),
    (17, "4 ACT 0, 5 WRA 0, 11 D, 8 PRER 20"),
    // An early WR beside one waiting WRA, and one that retires the write before it.
    (17, "4 ACT 0, 12 ACT 20, 16 WRA 0, 22 D, 20 WR 20"),
    (17, "4 ACT 0, 5 WR 0, 11 D, 9 WRA 0 1, 15 D, 13 WR 0 2"),
    (17, "4 ACT 0, 5 WR 0, 11 D, 9 WRA 0 1, 15 D, 13 NOCOP, 16 REFP 20"),
    (17, "4 ACT 0, 20 RDA 0, 23 ACT 20"),
    (17, "4 ACT 0, 5 WRA 0, 11 D, 20 NOCOP, 23 REFA 20"),
];

/// Lists whose last record breaks more than one rule; the lowest is named.
#[rustfmt::skip]
pub const MORE: [(u32, &str); 7] = [
    (1, "999999900 ACT 0, 999999985 WRA 0, 1000000000 NOCOP"), // 15
    (6, "4 ACT 0, 13 RDA 0 0 0003"),                           // 16
    (6, "4 ACT 0, 13 WRA 0, 19 D, 19 RDA 0"),                  // 14
    (7, "4 ACT 0, 30 RDA 0, 33 ACT 1"),                        // 17
    (8, "4 PRER 20, 5 RDA 0"),                                 // 9
    (8, "4 ACT 0, 20 RDA 0, 23 PRER 20"),                      // 17
    (15, "4 ACT 0, 5 WRA 0, 12 ACT 20"),                       // 17
];

/// Lists under set H with one other timing, and the rule that their last record breaks, or 0: tRDP and
/// tRTP, but not from an implied PRER's own read or retire, and tOFFP.
#[test]
fn one_other_timing() {
    let mut seen = Verdicts::default();
    for (timing, value, rule, text) in [
        (T_RDP, 30, 13, "4 ACT 0, 13 RD 0, 38 RDA 0"),
        (T_RDP, 30, 0, "4 ACT 0, 13 RD 0, 39 RDA 0"),
        (T_RDP, 64, 0, "4 ACT 0, 20 RDA 0"),
        (T_RTP, 30, 13, "4 ACT 0, 5 WR 0, 11 D, 13 NOCOP, 38 RDA 0"),
        (T_RTP, 30, 0, "4 ACT 0, 5 WR 0, 11 D, 13 NOCOP, 39 RDA 0"),
        (
            T_RTP,
            30,
            13,
            "4 ACT 0, 5 WR 0, 11 D, 13 WRA 0, 19 D, 38 NOCOP",
        ),
        (T_RTP, 64, 0, "4 ACT 0, 5 WRA 0, 11 D, 20 NOCOP"),
        // Later PRERs keep them from that read or retire.
        (T_RTP, 30, 8, "4 ACT 0, 5 WRA 0, 11 D, 20 NOCOP, 31 PRER 0"),
        (T_RTP, 30, 13, "4 ACT 0, 5 WRA 0, 11 D, 20 NOCOP, 49 PRER 0"),
        (T_RDP, 30, 13, "4 ACT 0, 20 RDA 0, 49 PRER 1"),
        (T_OFFP, 32, 0, "4 ACT 0, 13 RDA 0, 45 ACT 20"),
        (T_OFFP, 32, 17, "4 ACT 0, 13 RDA 0, 44 ACT 20"),
        (T_OFFP, 32, 0, "999999900 ACT 0, 999999968 RDA 0"),
        (T_OFFP, 32, 1, "999999900 ACT 0, 999999969 RDA 0"),
        (T_RAS, 64, 6, "4 ACT 0, 63 RDA 0"),
        (T_RAS, 64, 0, "4 ACT 0, 64 RDA 0"),
        (T_RP, 64, 7, "4 ACT 0, 20 RDA 0, 87 ACT 0"),
        (T_PP, 64, 8, "4 ACT 0, 12 ACT 5, 28 RDA 0, 91 RDA 5"),
    ] {
        let mut numbers = set_h(2, 4, 0);
        numbers[timing] = value;
        let settings = bytes(&numbers);
        let list = list_bytes(&settings, &lines(text));
        let answer = check_both(&mut seen, &settings, &list);
        let place = if rule == 0 {
            0
        } else {
            list.len() as u64 / 32 - 1
        };
        assert_eq!((answer.rule, answer.place), (rule, place), "{text}");
    }
    seen.report("closing, one other timing", &[0, 11]);
}

/// A WRA leaves the state of a WR, but for the flag of its place.
#[test]
fn flag_of_a_wra() {
    let mut taken = model::Seen::default();
    for (plain, place) in [("5 WR 0, 11 D", 0), ("5 WR 0, 11 D, 9 WR 0, 15 D", 1)] {
        let last = plain.rfind("WR").unwrap();
        let closing = format!("{}WRA{}", &plain[..last], &plain[last + 2..]);
        let [mut plain, closing] = [plain, &closing].map(|text| {
            let (_, list) = set_h_list(&format!("4 ACT 0, {text}"));
            let mut run = model::Run::new(&set_h(2, 4, 0), vec![7; 4096]);
            for record in list.chunks(32) {
                run.call(&mut taken, record, 0).unwrap();
            }
            run.state
        });
        plain[WRITES[place] + CLOSES] = 1;
        assert!(plain == closing);
    }
}

// ---- Streams ----

/// The timings that an implied PRER depends on.
const ENDS: [usize; 6] = [T_OFFP, T_RAS, T_RP, T_PP, T_RDP, T_RTP];

/// Plain and closing requests at every end of these timings under each core form: planned, checked, and
/// taken by a model.
#[test]
fn streams_at_every_end() {
    let (mut seen, mut random) = (Seen::default(), Random::new(111));
    let mut taken = model::Seen::default();
    for case in 0..CORES.len() << ENDS.len() {
        let (ends, core) = (case / CORES.len(), CORES[case % CORES.len()]);
        for _ in 0..rounds(4) {
            let mut numbers = small_numbers(&mut random);
            numbers[DEVICE] = numbers[DEVICE] % 256 + 256 * core;
            for (i, at) in ENDS.into_iter().enumerate() {
                let (low, high) = BOUNDS[at];
                numbers[at] = if ends >> i & 1 == 1 { high } else { low };
            }
            let (mut run, maker) = (Run::new(&numbers), Maker::mixed(&mut random, &numbers));
            for _ in 0..24 {
                _ = run.call(&mut seen, &maker.request(&mut random), ENOUGH);
            }
            run.check();
            let mut device = model::Run::new(&numbers, any_store(&mut random, &numbers));
            for record in run.list.chunks(32) {
                device.call(&mut taken, record, 16).unwrap();
            }
        }
    }
    seen.report("closing, streams at every end", &[0, 15]);
    seen.all_kinds();
    taken.report("closing, streams at every end", &[0]);
}

/// A planned list with one record changed, or more.
#[test]
fn changed_plans() {
    let name = "closing, changed plans";
    let (mut seen, mut random) = (Verdicts::default(), Random::new(112));
    for _ in 0..rounds(6_000) {
        let numbers = rule_numbers(&mut random);
        let (settings, maker) = (bytes(&numbers), Maker::mixed(&mut random, &numbers));
        let mut planner = Planner::fresh(&settings).unwrap();
        if random.chance(4) {
            let cycles = 1_000_000_000 - 4 - random.below(300) as u32;
            planner.plan(&wait(cycles), 0).unwrap();
        }
        let plans = (0..8).filter_map(|_| planner.plan(&maker.request(&mut random), ENOUGH).ok());
        let list: Vec<u8> = plans.flatten().collect();
        assert_eq!(check_both(&mut seen, &settings, &list).number, 0);
        let items = items(&settings, &list);
        for _ in 0..if items.is_empty() { 0 } else { 12 } {
            let mut changed = items.clone();
            for _ in 0..random.pick(&[1, 1, 1, 2, 3]) {
                if !changed.is_empty() {
                    change(&mut random, &numbers, &mut changed);
                }
            }
            check_both(&mut seen, &settings, &list_bytes(&settings, &changed));
        }
    }
    seen.report(name, &[0, 11]);
    seen.all_rules(name);
    seen.implied_rules(name);
}

/// The records of a list.
fn items(settings: &[u8], list: &[u8]) -> Vec<Item> {
    let f = figures(settings).unwrap();
    let item = |record: &[u8]| Item {
        at: number(&record[..4]) as u32,
        packet: packet(&f, record[4].into(), number(&record[8..16])),
    };
    list.chunks(32).map(item).collect()
}
