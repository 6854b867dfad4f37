//! The runs of document 01's "Bench runs" and of document 02 that a planner makes, under set H: by the
//! reference alone, then by reference and library. A packet is written as in the paper's listings: instant, name,
//! bank, row or column, mask or `-`; D shows its WR's bank and column.

use crate::closing;
use crate::plan_calls::{Run, Seen, ENOUGH};
use crate::plan_streams::{bare, read, wait, write, CLOSE, FLUSH, REFRESH};
use crate::random::{bytes, set_h};
use crate::reference::{figures, number, packet, word, NOCOP};
use crate::reference_plan::Planner;
use crate::two_writes;

const NAMES: [&str; 9] = [
    "ACT", "PRER", "REFA", "REFP", "NOCOP", "WR", "RD", "WRA", "RDA",
];

/// The lines of a list.
pub fn listing(settings: &[u8], list: &[u8]) -> Vec<String> {
    let f = figures(settings).unwrap();
    let mut written = (0, 0);
    let line = |record: &[u8]| {
        let (at, word) = (number(&record[..4]), number(&record[8..16]));
        let Some(p) = packet(&f, record[4].into(), word) else {
            return format!("{at} D {} {} -", written.0, written.1);
        };
        written = (p.bank, p.place);
        let mask = match p.mask {
            mask if p.command >= NOCOP && mask != 0xFFFF => format!("{mask:04x}"),
            _ => "-".into(),
        };
        let name = NAMES[p.command as usize];
        format!("{at} {name} {} {} {mask}", p.bank, p.place)
    };
    list.chunks(32).map(line).collect()
}

pub const ONES: [u8; 16] = [1; 16];
pub const TWOS: [u8; 16] = [2; 16];

pub type Requests = Vec<Vec<u8>>;

/// Requests and the lines that they must make.
pub type Runs = Vec<(Requests, Vec<&'static str>)>;

fn runs() -> Runs {
    vec![
        (
            vec![
                read(0, 0, 1),
                write(0, 0, 1, 0x0003, &ONES),
                read(0, 0, 1),
                read(1, 0, 0),
                bare(FLUSH),
                bare(CLOSE),
            ],
            vec![
                "4 ACT 0 0 -",
                "13 RD 0 1 -",
                "19 WR 0 1 -",
                "25 D 0 1 -",
                "27 NOCOP 0 0 0003",
                "31 RD 0 1 -",
                "35 PRER 0 0 -",
                "43 ACT 1 0 -",
                "52 RD 1 0 -",
                "63 PRER 1 0 -",
            ],
        ),
        (
            vec![read(15, 0, 0), read(16, 0, 0)],
            vec![
                "4 ACT 15 0 -",
                "13 RD 15 0 -",
                "13 ACT 16 0 -",
                "22 RD 16 0 -",
            ],
        ),
        (
            vec![read(14, 0, 0), read(15, 0, 0)],
            vec![
                "4 ACT 14 0 -",
                "13 RD 14 0 -",
                "24 PRER 14 0 -",
                "32 ACT 15 0 -",
                "41 RD 15 0 -",
            ],
        ),
        (
            vec![write(0, 0, 0, 0xFFFF, &ONES), read(0, 1, 0)],
            vec![
                "4 ACT 0 0 -",
                "5 WR 0 0 -",
                "11 D 0 0 -",
                "13 NOCOP 0 0 -",
                "24 PRER 0 0 -",
                "32 ACT 0 1 -",
                "41 RD 0 0 -",
            ],
        ),
        (
            vec![bare(REFRESH), bare(REFRESH)],
            vec![
                "4 REFA 0 0 -",
                "24 REFP 0 0 -",
                "32 REFA 1 0 -",
                "52 REFP 1 0 -",
            ],
        ),
        // Mask 0 is legal.
        (
            vec![write(0, 0, 0, 0, &ONES), bare(FLUSH), bare(CLOSE)],
            vec![
                "4 ACT 0 0 -",
                "5 WR 0 0 -",
                "11 D 0 0 -",
                "13 NOCOP 0 0 0000",
                "24 PRER 0 0 -",
            ],
        ),
        // Bank 31 passes.
        (vec![read(31, 1, 3)], vec!["4 ACT 31 1 -", "13 RD 31 3 -"]),
        // Waiting adds to now, and no packet comes of it.
        (
            vec![wait(999_999_900), read(0, 0, 0)],
            vec!["999999904 ACT 0 0 -", "999999913 RD 0 0 -"],
        ),
    ]
}

fn all_runs() -> impl Iterator<Item = (Requests, Vec<&'static str>)> {
    let more = two_writes::runs().into_iter().chain(closing::runs());
    runs().into_iter().chain(more)
}

#[test]
fn runs_of_the_paper_by_the_reference() {
    let settings = bytes(&set_h(2, 4, 0));
    for (requests, lines) in all_runs() {
        let mut planner = Planner::fresh(&settings).unwrap();
        let records = requests.iter().map(|q| planner.plan(q, ENOUGH).unwrap());
        let list: Vec<u8> = records.flatten().collect();
        assert_eq!(listing(&settings, &list), lines);
    }
}

#[test]
fn runs_of_the_paper_by_the_library() {
    let mut seen = Seen::default();
    for (requests, lines) in all_runs() {
        let mut run = Run::new(&set_h(2, 4, 0));
        for request in &requests {
            run.call(&mut seen, request, ENOUGH).unwrap();
        }
        assert_eq!(listing(&run.settings, &run.list), lines);
        run.check();
    }
    seen.report("plan, runs of the paper", &[0]);
}

/// Requests, of which the last has this answer: a refusal, or the number of records.
pub type Answers = Vec<(Requests, Result<usize, u32>)>;

fn last_answers() -> Answers {
    vec![
        (vec![read(32, 0, 0)], Err(4)),
        (vec![read(0, 2, 0)], Err(5)),
        (vec![read(0, 0, 4)], Err(6)),
        (vec![wait(999_999_996)], Ok(0)),
        (vec![wait(999_999_997)], Err(7)),
        (vec![wait(999_999_996), wait(0)], Ok(0)),
        (vec![wait(999_999_996), wait(1)], Err(7)),
        (vec![wait(u32::MAX)], Err(7)),
        // RD at 999,999,992: its data come at the last instant.
        (vec![wait(999_999_979), read(0, 0, 0)], Ok(2)),
        (vec![wait(999_999_980), read(0, 0, 0)], Err(7)),
        // WR at 999,999,994.
        (
            vec![wait(999_999_989), write(0, 0, 0, 0xFFFF, &ONES)],
            Ok(3),
        ),
        (
            vec![wait(999_999_990), write(0, 0, 0, 0xFFFF, &ONES)],
            Err(7),
        ),
        // REFP at the last instant.
        (vec![wait(999_999_976), bare(REFRESH)], Ok(2)),
        (vec![wait(999_999_977), bare(REFRESH)], Err(7)),
        (vec![bare(FLUSH)], Ok(0)),
        (vec![bare(CLOSE)], Ok(0)),
        // Close while a write waits, once it has retired, and where it would be late too.
        (vec![write(0, 0, 0, 3, &ONES), bare(CLOSE)], Err(15)),
        (
            vec![write(0, 0, 0, 3, &ONES), read(4, 0, 0), bare(CLOSE)],
            Err(15),
        ),
        (
            vec![write(0, 0, 0, 3, &ONES), read(0, 0, 0), bare(CLOSE)],
            Ok(1),
        ),
        (
            vec![wait(999_999_989), write(0, 0, 0, 3, &ONES), bare(CLOSE)],
            Err(15),
        ),
        (
            vec![wait(999_999_989), write(0, 0, 0, 3, &ONES), bare(FLUSH)],
            Err(7),
        ),
        (
            vec![wait(999_999_987), write(0, 0, 0, 3, &ONES), bare(FLUSH)],
            Ok(1),
        ),
        (vec![wait(999_999_979), read(0, 0, 0), bare(CLOSE)], Err(7)),
        (vec![vec![8; 24]], Err(2)),
        (vec![vec![0; 23]], Err(13)),
    ]
}

#[test]
fn last_answers_by_the_reference() {
    let settings = bytes(&set_h(2, 4, 0));
    for (requests, answer) in last_answers().into_iter().chain(closing::last_answers()) {
        let mut planner = Planner::fresh(&settings).unwrap();
        let plans = requests.iter().map(|q| planner.plan(q, ENOUGH));
        let last = plans.last().unwrap().map(|list| list.len() / 32);
        assert_eq!(last, answer, "{requests:?}");
    }
}

#[test]
fn last_answers_by_the_library() {
    let mut seen = Seen::default();
    for (requests, answer) in last_answers().into_iter().chain(closing::last_answers()) {
        let mut run = Run::new(&set_h(2, 4, 0));
        let plans = requests.iter().map(|q| run.call(&mut seen, q, ENOUGH));
        assert_eq!(plans.last().unwrap(), answer, "{requests:?}");
    }
    seen.report("plan, last answers", &[0, 2, 4, 5, 6, 7, 13, 15]);
}

/// The words of the paper: ACT 0/0 401000, RD 0/1 8000260000.
#[test]
fn words_of_the_paper() {
    let mut run = Run::new(&set_h(2, 4, 0));
    run.call(&mut Seen::default(), &read(0, 0, 1), ENOUGH)
        .unwrap();
    let words: Vec<u64> = run.list.chunks(32).map(|r| number(&r[8..16])).collect();
    assert_eq!(words, [0x401000, 0x80_0026_0000]);
    let f = figures(&run.settings).unwrap();
    let read_back = packet(&f, 1, words[1]).unwrap();
    assert_eq!(word(&f, read_back), Some(words[1]));
}

/// Data bytes alter no instant and no word.
#[test]
fn data_alter_nothing_else() {
    let runs = [ONES, TWOS, [0; 16], [0xFF; 16]].map(|data| {
        let mut run = Run::new(&set_h(2, 4, 0));
        for request in [
            write(3, 1, 2, 0x00F0, &data),
            write(3, 1, 2, 0xF00F, &data),
            read(3, 1, 2),
            bare(FLUSH),
            bare(CLOSE),
        ] {
            run.call(&mut Seen::default(), &request, ENOUGH).unwrap();
        }
        let fronts: Vec<Vec<u8>> = run.list.chunks(32).map(|r| r[..16].to_vec()).collect();
        (fronts, run.state)
    });
    assert!(runs.iter().all(|run| *run == runs[0]));
}

/// The refresh bank rises to 31 and starts again.
#[test]
fn refresh_banks() {
    let (mut run, mut seen) = (Run::new(&set_h(2, 4, 0)), Seen::default());
    for _ in 0..70 {
        run.call(&mut seen, &bare(REFRESH), ENOUGH).unwrap();
    }
    let lines = listing(&run.settings, &run.list);
    for (i, line) in lines.iter().step_by(2).enumerate() {
        assert!(line.ends_with(&format!(" REFA {} 0 -", i % 32)), "{line}");
    }
    run.check();
}
