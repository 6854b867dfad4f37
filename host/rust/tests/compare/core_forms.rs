//! Core forms (document 02, c) by hand, under set H: lists and what the rules say of them under each
//! form, runs of requests and the lists that they make, states that one form takes and another
//! refuses, and how many banks a close looks at.

use crate::calls::typed;
use crate::hand_lists::lines;
use crate::lists::list_bytes;
use crate::model_calls as model;
use crate::plan_calls::{compare, Case, Run, Seen, ENOUGH};
use crate::plan_runs::{listing, Requests};
use crate::plan_streams::{bare, read, wait, write, CLOSE, FLUSH, REFRESH};
use crate::random::{bytes, set_h, with_core};
use crate::reference::CORES;
use crate::reference_plan::Planner;
use crate::rule_calls::{check_both, Verdicts};

/// Set H with each core form.
fn forms() -> [[u16; 16]; 3] {
    CORES.map(|core| with_core(set_h(2, 4, 0), core))
}

/// Lists, and the rule that their last record breaks under forms 0, 1 and 2, or 0 where they pass.
const LISTS: [(&str, [u32; 3]); 24] = [
    // Banks 15 and 16 are neighbours in one run of 32 alone.
    ("4 ACT 15, 12 ACT 16", [0, 4, 0]),
    ("4 REFA 16, 12 ACT 15", [0, 4, 0]),
    ("4 ACT 15, 24 PRER 15, 31 ACT 16", [0, 5, 0]),
    ("4 ACT 15, 24 PRER 15, 32 ACT 16", [0, 0, 0]),
    ("4 ACT 15, 23 PRER 16", [0, 6, 0]),
    ("4 PRER 15, 11 ACT 16", [0, 7, 0]),
    ("4 ACT 15, 24 PRER 16, 40 RD 15", [0, 9, 0]),
    ("4 ACT 15, 21 RD 15, 24 PRER 16", [0, 13, 0]),
    ("4 ACT 15, 13 WR 15, 19 D, 24 REFP 16", [0, 14, 0]),
    // PRER 16 closes 15, and so binds 14, in one run of 32 alone.
    ("4 ACT 15, 30 PRER 16, 37 ACT 14", [4, 7, 0]),
    ("4 ACT 15, 30 PRER 16, 38 ACT 14", [4, 0, 0]),
    // Other banks that follow each other are neighbours in both.
    ("4 ACT 0, 12 ACT 1", [4, 4, 0]),
    ("4 ACT 1, 12 REFA 0", [4, 4, 0]),
    ("4 ACT 0, 11 ACT 1", [4, 4, 5]),
    ("4 ACT 0, 24 PRER 0, 31 ACT 1", [5, 5, 0]),
    ("4 ACT 0, 23 PRER 1", [6, 6, 0]),
    ("4 PRER 0, 11 ACT 1", [7, 7, 0]),
    ("4 ACT 5, 30 PRER 6, 37 ACT 4", [7, 7, 0]),
    ("4 ACT 0, 24 PRER 1, 40 RD 0", [9, 9, 0]),
    ("4 ACT 30, 21 RD 30, 24 PRER 31", [13, 13, 0]),
    ("4 ACT 0, 13 WR 0, 19 D, 24 PRER 1", [14, 14, 0]),
    // The bank itself is bound in all three.
    ("4 ACT 0, 32 ACT 0", [4, 4, 4]),
    ("4 ACT 0, 24 PRER 0, 31 ACT 0", [5, 5, 5]),
    ("4 ACT 31, 24 PRER 0", [0, 0, 0]),
];

#[test]
fn lists_by_form() {
    let (mut seen, mut taken) = (Verdicts::default(), model::Seen::default());
    for (text, rules) in LISTS {
        for (numbers, rule) in forms().into_iter().zip(rules) {
            let (settings, items) = (bytes(&numbers), lines(text));
            let list = list_bytes(&settings, &items);
            let answer = check_both(&mut seen, &settings, &list);
            let place = items.len() as u64 - 1;
            let want = if rule == 0 {
                (0, 0, 0)
            } else {
                (11, rule, place)
            };
            assert_eq!((answer.number, answer.rule, answer.place), want, "{text}");
            // The model takes all but the last record, and that one where it breaks no rule.
            let mut run = model::Run::new(&numbers, vec![7; 4096]);
            let records = list.chunks(32).map(|r| run.call(&mut taken, r, 16));
            let refused: Vec<_> = records.filter_map(Result::err).collect();
            let want = if rule == 0 { vec![] } else { vec![(11, rule)] };
            assert_eq!(refused, want, "{text}");
        }
    }
    seen.report("core forms, lists by hand", &[0, 11]);
    taken.report("core forms, lists by hand", &[0, 11]);
}

/// Under tRR above tRC, rule 5 asks more of a bank that is no neighbour.
#[test]
fn far_banks_under_a_high_rr() {
    for (mut numbers, least) in forms().into_iter().zip([53, 32, 53]) {
        numbers[4] = 49; // tRR
        for (at, rule) in [(least - 1, 5), (least, 0)] {
            let text = format!("4 ACT 15, 24 PRER 15, {at} ACT 16");
            let list = list_bytes(&bytes(&numbers), &lines(&text));
            let answer = check_both(&mut Verdicts::default(), &bytes(&numbers), &list);
            assert_eq!(answer.rule, rule, "{text}");
        }
    }
}

/// Forms, requests and the lines that they make under these forms.
fn runs() -> Vec<(Vec<u16>, Requests, Vec<&'static str>)> {
    let sides = || vec![read(15, 0, 0), read(16, 0, 0)];
    let beside = || vec![read(1, 0, 0), bare(REFRESH)];
    let two = || {
        vec![
            read(5, 0, 0),
            read(7, 0, 0),
            write(6, 1, 2, 3, &[1; 16]),
            bare(FLUSH),
            bare(CLOSE),
        ]
    };
    vec![
        (
            vec![0, 2],
            sides(),
            vec![
                "4 ACT 15 0 -",
                "13 RD 15 0 -",
                "13 ACT 16 0 -",
                "22 RD 16 0 -",
            ],
        ),
        (
            vec![1],
            sides(),
            vec![
                "4 ACT 15 0 -",
                "13 RD 15 0 -",
                "24 PRER 15 0 -",
                "32 ACT 16 0 -",
                "41 RD 16 0 -",
            ],
        ),
        // A refresh beside an open neighbour.
        (
            vec![0, 1],
            beside(),
            vec![
                "4 ACT 1 0 -",
                "13 RD 1 0 -",
                "24 PRER 1 0 -",
                "32 REFA 0 0 -",
                "52 REFP 0 0 -",
            ],
        ),
        (
            vec![2],
            beside(),
            vec![
                "4 ACT 1 0 -",
                "13 RD 1 0 -",
                "13 REFA 0 0 -",
                "33 REFP 0 0 -",
            ],
        ),
        // Neighbours on both sides are closed, or stay open until the close.
        (
            vec![0, 1],
            two(),
            vec![
                "4 ACT 5 0 -",
                "13 RD 5 0 -",
                "13 ACT 7 0 -",
                "22 RD 7 0 -",
                "24 PRER 5 0 -",
                "33 PRER 7 0 -",
                "41 ACT 6 1 -",
                "42 WR 6 2 -",
                "48 D 6 2 -",
                "50 NOCOP 0 0 0003",
                "61 PRER 6 0 -",
            ],
        ),
        (
            vec![2],
            two(),
            vec![
                "4 ACT 5 0 -",
                "13 RD 5 0 -",
                "13 ACT 7 0 -",
                "22 RD 7 0 -",
                "22 ACT 6 1 -",
                "28 WR 6 2 -",
                "34 D 6 2 -",
                "36 NOCOP 0 0 0003",
                "36 PRER 5 0 -",
                "44 PRER 6 0 -",
                "52 PRER 7 0 -",
            ],
        ),
    ]
}

#[test]
fn runs_by_form() {
    let mut seen = Seen::default();
    for (cores, requests, lines) in runs() {
        for core in cores {
            let numbers = forms()[usize::from(core)];
            let (settings, mut run) = (bytes(&numbers), Run::new(&numbers));
            let mut planner = Planner::fresh(&settings).unwrap();
            let records = requests.iter().map(|q| planner.plan(q, ENOUGH).unwrap());
            let list: Vec<u8> = records.flatten().collect();
            assert_eq!(
                listing(&settings, &list),
                lines,
                "form {core}, by the reference"
            );
            for request in &requests {
                run.call(&mut seen, request, ENOUGH).unwrap();
            }
            assert_eq!(listing(&settings, &run.list), lines, "form {core}");
            run.check();
        }
    }
    seen.report("core forms, runs", &[0]);
}

/// A planner that one form left is a planner under another where no neighbours are open there.
#[test]
fn states_of_another_form() {
    for (banks, fits) in [
        (vec![0, 2, 14, 17, 31], [true, true, true]),
        (vec![15, 16], [true, false, true]),
        (vec![0, 1], [false, false, true]),
        ((0..32).collect(), [false, false, true]),
    ] {
        let (mut run, mut seen) = (Run::new(&forms()[2]), Seen::default());
        for bank in banks {
            run.call(&mut seen, &read(bank, 0, 0), ENOUGH).unwrap();
        }
        for (numbers, fits) in forms().into_iter().zip(fits) {
            let settings = bytes(&numbers);
            let want = if fits {
                Ok((vec![], run.state.clone()))
            } else {
                Err(1)
            };
            let case = Case {
                settings: &settings,
                planner: &run.state,
                request: &wait(0),
                room: 0,
            };
            compare(&case, &want);
        }
    }
}

/// How many banks a close looks at, under forms 0, 1 and 2, where reads have opened these.
const LOOKED: [(&[u8], [u32; 3]); 7] = [
    (&[], [0; 3]),
    (&[0], [1; 3]),
    (&[31], [32; 3]),
    (&[9, 2], [10; 3]),
    (&[0, 31], [32; 3]),
    // Opening a bank closes its neighbours.
    (&[1, 0], [1, 1, 2]),
    (&[16, 15], [17, 16, 17]),
];

/// The other kinds look at none, and a refused close hands no count back: `Run` compares each call.
#[test]
fn banks_that_close_looks_at() {
    let mut seen = Seen::default();
    for (banks, looked) in LOOKED {
        for (numbers, looked) in forms().into_iter().zip(looked) {
            let settings = bytes(&numbers);
            let mut reference = Planner::fresh(&settings).unwrap();
            let mut run = Run::new(&numbers);
            for bank in banks {
                reference.plan(&read(*bank, 0, 0), ENOUGH).unwrap();
                run.call(&mut seen, &read(*bank, 0, 0), ENOUGH).unwrap();
            }
            reference.plan(&bare(CLOSE), ENOUGH).unwrap();
            assert_eq!(reference.looked(), looked, "by the reference: {banks:?}");
            let mut planner = rdram::Planner::from_bytes(run.state[..].try_into().unwrap());
            let close = rdram::Request::Close;
            let made = planner.plan(&typed(&settings).unwrap(), &close, &mut [0; ENOUGH]);
            assert_eq!(made.unwrap().banks, looked, "{banks:?}");
            for kind in [FLUSH, REFRESH] {
                run.clone().call(&mut seen, &bare(kind), ENOUGH).unwrap();
            }
            run.call_short(&mut seen, &bare(CLOSE), 0);
            // Nothing is open now.
            assert_eq!(run.call(&mut seen, &bare(CLOSE), 0), Ok(0));
        }
    }
    seen.report("core forms, banks looked at", &[0, 8]);
}
