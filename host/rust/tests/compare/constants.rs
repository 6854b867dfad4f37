//! The public constants against what the calls do, and the texts of the rules against the rules.

use rdram::*;

/// A word of each rule's text, in the order of documents 01 and 02, that no other text has.
const WORDS: [&str; 17] = [
    "an earlier packet",
    "a ROW packet less than 4",
    "a COL packet less than tCC",
    "is not closed",
    "less than tRR",
    "tRAS",
    "tRP ",
    "tPP",
    "in a bank that is not open by ACT",
    "tRCD after ACT",
    "tCAC",
    "NOCOP, or WR while two writes wait",
    "tRDP",
    "that is not retired",
    "without its D",
    "a mask (M = 1)",
    "before a WRA has retired",
];

#[test]
fn rule_texts_in_order() {
    let text = |rule| Refusal::Rule { rule, place: 0 }.to_string();
    for (i, word) in WORDS.iter().enumerate() {
        let named: Vec<u32> = (1..=17).filter(|&rule| text(rule).contains(word)).collect();
        assert_eq!(named, [i as u32 + 1], "the text with '{word}'");
    }
}

#[test]
fn a_block_takes_its_records() {
    let list: Vec<u8> = (0..=BLOCK_RECORDS as u32)
        .flat_map(|i| Record::data(4 + 4 * i, [7; DUALOCT_BYTES]).to_bytes())
        .collect();
    assert_eq!(list.len(), (BLOCK_RECORDS + 1) * RECORD_BYTES);
    let mut log = vec![0; 2 * BLOCK_BYTES];
    let settings = Settings::SET_H;
    assert_eq!(
        log_encode(&settings, &list[RECORD_BYTES..], &mut log[..BLOCK_BYTES]),
        Ok(1)
    );
    assert_eq!(log_encode(&settings, &list, &mut log), Ok(2));
    assert_eq!(
        log_encode(&settings, &list, &mut log[1..]),
        Err(Refusal::Full)
    );
    assert_eq!(
        log_encode(&settings, &list[1..], &mut log),
        Err(Refusal::Length)
    );
}

#[test]
fn a_request_makes_its_most_records() {
    let settings = Settings {
        core: Core::Independent,
        ..Settings::SET_H
    };
    let (mut planner, mut room) = (Planner::fresh(), [0; 2 * REQUEST_RECORDS * RECORD_BYTES]);
    for bank in 0..32 {
        planner
            .plan(
                &settings,
                &Request::Read {
                    bank,
                    row: 0,
                    column: 0,
                },
                &mut room,
            )
            .unwrap();
    }
    let short = &mut room[..(REQUEST_RECORDS - 1) * RECORD_BYTES];
    assert_eq!(
        planner.plan(&settings, &Request::Close, short).err(),
        Some(Refusal::Full)
    );
    let made = planner
        .plan(
            &settings,
            &Request::Close,
            &mut room[..REQUEST_RECORDS * RECORD_BYTES],
        )
        .unwrap();
    assert_eq!(made.records, REQUEST_RECORDS);
}

#[test]
fn lengths_of_states() {
    let mut bytes = [0u8; MODEL_BYTES + 1];
    // SAFETY: each pointer and length are of the first bytes of one array.
    let planner =
        |b: &mut [u8], n: usize| unsafe { raw::rdram_planner_fresh(b[..n].as_mut_ptr(), n) };
    let model = |b: &mut [u8], n: usize| unsafe { raw::rdram_model_fresh(b[..n].as_mut_ptr(), n) };
    for more in [0, 2] {
        assert_eq!(planner(&mut bytes, PLANNER_BYTES - 1 + more), 1);
        assert_eq!(model(&mut bytes, MODEL_BYTES - 1 + more), 1);
    }
    assert_eq!(planner(&mut bytes, PLANNER_BYTES), 0);
    assert_eq!(model(&mut bytes, MODEL_BYTES), 0);
    assert_eq!(core::mem::size_of::<raw::Meter>(), METER_BYTES);
    assert_eq!(Settings::SET_H.to_bytes().len(), SETTINGS_BYTES);
    let word = word_encode(&Settings::SET_H, Packet::Nocop { mask: MASK_FULL }).unwrap();
    assert_eq!(
        word_decode(&Settings::SET_H, Kind::Col, word),
        Ok(Packet::Nocop { mask: MASK_FULL })
    );
}
