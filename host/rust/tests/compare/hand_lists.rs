//! Short lists under set H, and what the rules say of them. A record is written as in the paper's
//! listings: instant, name, bank, row or column, mask where M = 1; numbers at the end may be left
//! out where they are 0.

use crate::closing;
use crate::lists::{list_bytes, Item};
use crate::random::{bytes, set_h};
use crate::reference::{blocks, Fields, NOCOP};
use crate::rule_calls::{check, check_both, check_log, Verdicts};

pub const NAMES: [&str; 9] = [
    "ACT", "PRER", "REFA", "REFP", "NOCOP", "WR", "RD", "WRA", "RDA",
];

pub fn item(line: &str) -> Item {
    let fields: Vec<&str> = line.split_whitespace().collect();
    let number = |i: usize| fields.get(i).map_or(0, |n: &&str| n.parse().unwrap());
    let command = NAMES.iter().position(|name| *name == fields[1]);
    let packet = command.map(|command| {
        let command = command as u32;
        let none = if command < NOCOP { 0 } else { 0xFFFF };
        let mask = fields.get(4);
        Fields {
            command,
            bank: number(2),
            place: number(3),
            mask: mask.map_or(none, |m| u32::from_str_radix(m, 16).unwrap()),
        }
    });
    assert!(packet.is_some() || fields[1] == "D", "{line}");
    Item {
        at: number(0),
        packet,
    }
}

/// The records of a list, separated by commas.
pub fn lines(text: &str) -> Vec<Item> {
    text.split(',').map(item).collect()
}

pub fn set_h_list(text: &str) -> (Vec<u8>, Vec<u8>) {
    let settings = bytes(&set_h(2, 4, 0));
    let list = list_bytes(&settings, &lines(text));
    (settings, list)
}

/// Lists that pass.
pub const PASS: [&str; 42] = [
    // The paper's runs.
    "4 ACT 0 0, 13 RD 0 1, 19 WR 0 1, 25 D, 27 NOCOP 0 0 0003, 31 RD 0 1, 35 PRER 0, 43 ACT 1 0, \
     52 RD 1 0, 63 PRER 1",
    "4 ACT 15, 13 RD 15, 13 ACT 16, 22 RD 16",
    "4 ACT 14, 13 RD 14, 24 PRER 14, 32 ACT 15, 41 RD 15",
    "4 ACT 0 0, 5 WR 0 0, 11 D, 13 NOCOP, 24 PRER 0, 32 ACT 0 1, 41 RD 0 0",
    "4 REFA 0, 24 REFP 0, 32 REFA 1, 52 REFP 1",
    "4 ACT 0, 5 WR 0 1, 11 D, 9 WR 0 1, 15 D",
    // One cycle from a broken rule.
    "4 ACT 0",
    "1000000000 ACT 0",
    "4 ACT 0, 13 RD 0, 13 PRER 20",
    "999999900 ACT 0, 999999992 RD 0",
    "999999900 ACT 0, 999999994 WR 0, 1000000000 D",
    "4 ACT 0, 8 PRER 20",
    "4 ACT 0, 13 RD 0, 17 RD 0",
    "4 ACT 0, 12 ACT 20",
    "4 ACT 0, 24 PRER 0, 32 ACT 0",
    "4 ACT 15, 12 ACT 16",
    "4 ACT 0, 24 PRER 1",
    "4 ACT 0, 30 PRER 0, 38 ACT 0",
    "4 ACT 5, 30 PRER 6, 38 ACT 4",
    "30 PRER 6, 34 ACT 4",
    "4 PRER 0, 12 PRER 20",
    "4 ACT 0, 13 RD 0, 19 WR 0, 25 D",
    "4 ACT 0, 10 WR 0, 16 D, 18 NOCOP",
    "4 ACT 0, 21 RD 0, 25 PRER 0",
    "4 ACT 0, 13 WR 0, 19 D, 21 NOCOP, 25 PRER 1",
    "4 ACT 20, 13 WR 20, 19 D, 21 NOCOP, 22 PRER 0",
    "4 ACT 15, 13 WR 15, 19 D, 24 PRER 16",
    // NOCOP without a write, an end before the D, packets before the instant of a D, PRER and
    // REFP to banks in any state, packets that share an instant, masks of retiring packets.
    "4 NOCOP, 8 NOCOP",
    "4 ACT 0, 5 WR 0",
    "4 ACT 0, 13 WR 0, 19 D, 17 RD 0",
    "4 PRER 3, 12 REFP 3, 20 REFA 3, 40 PRER 3, 48 ACT 3, 68 REFP 3",
    "4 ACT 0, 12 ACT 20, 12 WR 0, 18 D",
    "4 ACT 0, 5 WR 0, 11 D, 13 NOCOP 0 0 0000",
    "4 ACT 0, 5 WR 0, 11 D, 9 PRER 20, 13 RD 0, 19 WR 0 2 8001, 25 D",
    "4 ACT 0, 5 WR 0 0, 11 D, 13 WR 0 1 0001, 19 D, 21 WR 0 2, 27 D, 29 NOCOP 0 0 FFFE",
    // Two writes wait: a WR beside another, a WR every tCC, what may come while two wait, and an RD
    // once the older has retired.
    "4 ACT 0, 5 WR 0 1, 11 D, 13 WR 0 1 00F0, 19 D",
    "4 ACT 0, 10 WR 0, 16 D, 17 WR 0, 23 D",
    "4 ACT 0, 5 WR 0 0, 11 D, 9 WR 0 1, 15 D, 13 WR 0 2 0003, 19 D, 17 WR 0 3, 23 D, 21 NOCOP, \
     25 NOCOP 0 0 8000, 29 RD 0 3",
    "4 ACT 0, 5 WR 0, 11 D, 9 WR 0, 15 D, 9 PRER 20, 17 ACT 20, 17 NOCOP, 26 RD 20",
    "4 ACT 0, 5 WR 0, 11 D, 9 WR 0, 15 D, 13 NOCOP, 17 RD 0",
    "4 ACT 0, 12 ACT 20, 14 WR 0, 20 D, 18 WR 20, 24 D, 22 NOCOP, 26 PRER 0",
    "4 ACT 0, 12 ACT 20, 14 WR 0, 20 D, 18 WR 20, 24 D, 22 NOCOP, 26 NOCOP, 32 PRER 20",
];

/// Lists whose last record breaks one rule.
pub const ONE: [(u32, &str); 62] = [
    (1, "3 ACT 0"),
    (1, "0 NOCOP"),
    (1, "1000000001 ACT 0"),
    (1, "4294967295 NOCOP"),
    (1, "4 ACT 0, 13 RD 0, 12 PRER 20"),
    (1, "13 PRER 20, 12 NOCOP"),
    (1, "999999900 ACT 0, 999999993 RD 0"),
    (1, "999999900 ACT 0, 999999995 WR 0"),
    (2, "4 ACT 0, 7 PRER 20"),
    (2, "4 PRER 5, 4 ACT 20"),
    (3, "4 ACT 0, 13 RD 0, 16 RD 0"),
    (3, "4 NOCOP, 7 NOCOP"),
    (4, "4 ACT 0, 32 ACT 0"),
    (4, "4 ACT 0, 32 ACT 1"),
    (4, "4 ACT 1, 32 REFA 0"),
    (4, "4 REFA 0, 32 ACT 1"),
    (5, "4 ACT 0, 11 ACT 20"),
    (5, "4 REFA 15, 11 ACT 16"),
    (5, "4 ACT 0, 11 REFA 2"),
    (6, "4 ACT 0, 23 PRER 0"),
    (6, "4 ACT 0, 23 PRER 1"),
    (6, "4 REFA 1, 23 REFP 0"),
    (7, "4 ACT 0, 30 PRER 0, 37 ACT 0"),
    (7, "30 PRER 0, 37 ACT 1"),
    (7, "4 ACT 5, 30 PRER 6, 37 ACT 4"),
    (7, "4 REFA 5, 30 REFP 4, 37 REFA 6"),
    (8, "4 PRER 0, 11 PRER 20"),
    (8, "4 REFP 0, 11 PRER 0"),
    (9, "4 RD 0"),
    (9, "4 WR 0"),
    (9, "4 REFA 0, 40 RD 0"),
    (9, "4 ACT 0, 24 PRER 0, 40 WR 0"),
    (9, "4 ACT 0, 24 PRER 1, 40 RD 0"),
    (10, "4 ACT 0, 12 RD 0"),
    (10, "4 ACT 0, 4 WR 0"),
    (11, "4 ACT 0, 13 RD 0, 18 WR 0"),
    (11, "4 ACT 0, 12 ACT 20, 21 RD 0, 26 WR 20"),
    (12, "4 ACT 0, 10 WR 0, 16 D, 17 NOCOP"),
    (12, "4 ACT 0, 5 WR 0, 11 D, 12 NOCOP"),
    (12, "4 ACT 0, 5 WR 0, 11 D, 9 WR 0, 15 D, 13 RD 0"),
    (
        12,
        "4 ACT 0, 5 WR 0, 11 D, 9 WR 0, 15 D, 13 WR 0, 19 D, 40 RD 0",
    ),
    (13, "4 ACT 0, 21 RD 0, 24 PRER 0"),
    (13, "4 ACT 1, 21 RD 1, 24 REFP 0"),
    (13, "4 ACT 0, 13 WR 0, 19 D, 21 NOCOP, 24 PRER 1"),
    (13, "4 ACT 20, 13 WR 20, 19 D, 21 NOCOP, 24 PRER 20"),
    (
        13,
        "4 ACT 0, 12 ACT 20, 14 WR 0, 20 D, 22 WR 20, 28 D, 25 PRER 0",
    ),
    (14, "4 ACT 0, 13 WR 0, 19 D, 24 PRER 0"),
    (14, "4 ACT 0, 13 WR 0, 19 D, 24 REFP 1"),
    (
        14,
        "4 ACT 0, 12 ACT 20, 14 WR 0, 20 D, 18 WR 20, 24 D, 24 PRER 0",
    ),
    (
        14,
        "4 ACT 0, 12 ACT 20, 14 WR 20, 20 D, 18 WR 0, 24 D, 24 PRER 0",
    ),
    (
        14,
        "4 ACT 0, 12 ACT 20, 14 WR 0, 20 D, 18 WR 20, 24 D, 22 NOCOP, 32 REFP 21",
    ),
    (15, "4 D"),
    (15, "4 ACT 0, 5 WR 0, 12 D"),
    (15, "4 ACT 0, 5 WR 0, 10 D"),
    (15, "4 ACT 0, 13 WR 0, 12 D"),
    (15, "4 ACT 0, 5 WR 0, 13 NOCOP"),
    (15, "4 ACT 0, 5 WR 0, 11 D, 11 D"),
    (16, "4 NOCOP 0 0 0003"),
    (16, "4 ACT 0, 5 WR 0 0 0003"),
    (16, "4 ACT 0, 5 WR 0, 11 D, 12 WR 0 0 0003"),
    (16, "4 ACT 0, 13 RD 0 0 0000"),
    (16, "4 ACT 0, 5 WR 0, 11 D, 13 RD 0 0 0003"),
];

/// Lists whose last record breaks more than one rule; the lowest is named.
const MORE: [(u32, &str); 20] = [
    (1, "3 RD 0"),                                            // 9
    (1, "4 ACT 0, 5 WR 0, 3 D"),                              // 15
    (1, "999999900 ACT 0, 999999994 WR 0, 1000000001 D"),     // 15
    (1, "4294967295 RD 0 0 0003"),                            // 9, 16
    (2, "4 ACT 0, 5 ACT 0"),                                  // 4, 5
    (3, "4 ACT 0, 5 WR 0, 6 NOCOP"),                          // 12, 15
    (4, "4 ACT 0, 31 ACT 1"),                                 // 5
    (5, "4 ACT 0, 24 PRER 0, 31 ACT 0"),                      // 7
    (6, "4 ACT 0, 13 RD 0, 13 PRER 0"),                       // 13
    (6, "4 ACT 0, 13 WR 0, 19 D, 23 PRER 0"),                 // 14
    (9, "4 NOCOP, 8 RD 0 0 0003"),                            // 16
    (9, "4 ACT 0, 5 WR 0, 11 D, 9 WR 0, 15 D, 13 RD 20"),     // 12
    (10, "4 ACT 0, 12 RD 0 0 0003"),                          // 16
    (11, "4 ACT 0, 13 RD 0, 18 WR 0 0 0003"),                 // 16
    (12, "4 ACT 0, 10 WR 0, 17 NOCOP"),                       // 15
    (12, "4 ACT 0, 10 WR 0, 16 D, 17 NOCOP 0 0 0003"),        // 16
    (12, "4 ACT 0, 5 WR 0, 11 D, 9 WR 0, 13 RD 0"),           // 15
    (3, "4 ACT 0, 5 WR 0, 11 D, 9 WR 0, 15 D, 12 WR 0"),      // 12
    (13, "4 ACT 0, 19 WR 0, 25 D, 27 WR 0, 33 D, 30 PRER 0"), // 14
    (15, "4 ACT 0, 5 WR 0, 13 RD 0 0 0003"),                  // 16
];

#[test]
fn lists_that_pass() {
    let mut seen = Verdicts::default();
    for text in PASS.into_iter().chain(closing::PASS) {
        let (settings, list) = set_h_list(text);
        assert_eq!(check_both(&mut seen, &settings, &list).number, 0, "{text}");
    }
    seen.report("rules, lists by hand that pass", &[0]);
}

/// The last record breaks the rule, alone or with higher ones, and the list without it passes.
fn broken(seen: &mut Verdicts, rule: u32, single: bool, text: &str) {
    let (settings, list) = set_h_list(text);
    let before = list.len() - 32;
    assert_eq!(
        check(&mut Verdicts::default(), &settings, &list[..before]).number,
        0,
        "{text}"
    );
    let answer = check_both(seen, &settings, &list);
    let named = (answer.number, answer.rule, answer.place);
    assert_eq!(named, (11, rule, before as u64 / 32), "{text}");
    assert_eq!(answer.broken.single(), single, "{text}: {answer:?}");
}

#[test]
fn one_rule_broken() {
    let mut seen = Verdicts::default();
    for (rule, text) in ONE.into_iter().chain(closing::ONE) {
        broken(&mut seen, rule, true, text);
    }
    seen.report("rules, lists by hand that break one", &[11]);
    seen.all_rules("rules, lists by hand");
}

#[test]
fn more_rules_broken() {
    let mut seen = Verdicts::default();
    for (rule, text) in MORE.into_iter().chain(closing::MORE) {
        broken(&mut seen, rule, false, text);
    }
    seen.report("rules, lists by hand that break more", &[11]);
}

/// Under tRR above tRC, rule 5 asks more of banks that are not near. Bank 3 is not near bank 1, but
/// bank 2 is near both.
#[test]
fn far_banks_under_a_high_rr() {
    let mut numbers = set_h(2, 4, 0);
    (numbers[0], numbers[4]) = (8, 64); // tRC, tRR
    let settings = bytes(&numbers);
    for (at, number) in [(60, 11), (67, 11), (68, 0)] {
        let text = format!("4 ACT 1, 24 PRER 1, 32 ACT 2, 52 PRER 2, {at} ACT 3");
        let (_, list) = set_h_list(&text);
        let answer = check_both(&mut Verdicts::default(), &settings, &list);
        let (rule, place) = if number == 11 { (5, 4) } else { (0, 0) };
        let want = (number, rule, place);
        assert_eq!((answer.number, answer.rule, answer.place), want, "{text}");
    }
}

/// Under tRTR below tCWD, a retire may lie before the instant of its D.
#[test]
fn retire_before_its_data() {
    let mut numbers = set_h(2, 4, 0);
    (numbers[6], numbers[5]) = (4, 4); // tRTR, tRCD
    let settings = bytes(&numbers);
    let (_, list) = set_h_list("4 ACT 0, 4 WR 0, 10 D, 8 NOCOP 0 0 0001, 12 RD 0");
    let answer = check_both(&mut Verdicts::default(), &settings, &list);
    assert_eq!(answer.number, 0);
}

/// Under tCC 4 and tRTR 64 two writes wait long, and no third comes meanwhile.
#[test]
fn long_waits() {
    let mut numbers = set_h(2, 4, 0);
    numbers[6] = 64; // tRTR
    let settings = bytes(&numbers);
    for (last, rule) in [
        ("67 WR 0", 12),
        ("67 NOCOP", 12),
        ("67 NOCOP 0 0 0001", 12),
        ("68 NOCOP 0 0 0001", 0),
        ("68 WR 0 0 0001", 0),
        ("999 RD 0", 12),
    ] {
        let text = format!("4 ACT 0, 4 WR 0, 10 D, 8 WR 0, 14 D, {last}");
        let (_, list) = set_h_list(&text);
        let answer = check_both(&mut Verdicts::default(), &settings, &list);
        assert_eq!(answer.rule, rule, "{text}");
    }
}

/// The first record that breaks a rule is named, though a later one breaks a lower rule.
#[test]
fn first_record() {
    let (settings, list) = set_h_list("4 ACT 0, 12 RD 0, 12 RD 0, 3 ACT 1");
    let answer = check_both(&mut Verdicts::default(), &settings, &list);
    assert_eq!((answer.rule, answer.place), (10, 1));
}

/// A bad word at record 7 is named before a broken rule at record 3; a bad block before both.
#[test]
fn word_before_rule() {
    let mut seen = Verdicts::default();
    let (settings, mut list) = set_h_list(
        "4 ACT 0, 13 RD 0, 17 RD 0, 18 RD 0, 22 RD 0, 26 RD 0, 30 RD 0, 34 RD 0, 38 RD 0",
    );
    let answer = check_both(&mut seen, &settings, &list);
    assert_eq!((answer.number, answer.rule, answer.place), (11, 3, 3));
    list[32 * 7 + 8] ^= 1;
    let answer = check_both(&mut seen, &settings, &list);
    assert_eq!((answer.number, answer.rule, answer.place), (10, 0, 7));
    let mut log = blocks(&list);
    log[500] = 1;
    let answer = check_log(&mut seen, &settings, &log);
    assert_eq!((answer.number, answer.rule, answer.place), (12, 0, 0));
}

/// Records are counted over the whole log.
#[test]
fn third_block() {
    let mut seen = Verdicts::default();
    let mut text = String::from("4 ACT 0");
    (0..29).for_each(|i| text += &format!(", {} RD 0", 13 + 4 * i));
    let (settings, list) = set_h_list(&(text.clone() + ", 129 RD 0"));
    assert_eq!(check_both(&mut seen, &settings, &list).number, 0);
    let (settings, list) = set_h_list(&(text + ", 128 RD 0"));
    let answer = check_log(&mut seen, &settings, &blocks(&list));
    assert_eq!((answer.number, answer.rule, answer.place), (11, 3, 30));
}

#[test]
fn empty_list() {
    let mut seen = Verdicts::default();
    let settings = bytes(&set_h(2, 4, 0));
    assert_eq!(check(&mut seen, &settings, &[]).number, 0);
    assert_eq!(check_log(&mut seen, &settings, &[]).number, 0);
    assert_eq!(check(&mut seen, &settings[..31], &[1]).number, 1);
    assert_eq!(check(&mut seen, &settings, &[1]).number, 13);
    assert_eq!(check_log(&mut seen, &settings, &[1; 511]).number, 13);
}
