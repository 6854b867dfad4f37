//! Numbers, places and texts of refusals, and the layout of the C answers.

use rdram::{raw, Refusal};
use std::mem::{align_of, offset_of, size_of};

const ALL: [Refusal; 20] = [
    Refusal::Settings,
    Refusal::Kind,
    Refusal::Spare,
    Refusal::Bank,
    Refusal::Row,
    Refusal::Column,
    Refusal::Horizon,
    Refusal::Full,
    Refusal::Store,
    Refusal::Word { place: None },
    Refusal::Word { place: Some(7) },
    Refusal::Rule { rule: 10, place: 5 },
    Refusal::Broken { rule: 12 },
    Refusal::Block { place: 3 },
    Refusal::Length,
    Refusal::Index { place: 9 },
    Refusal::Unretired,
    Refusal::Overlap,
    Refusal::Stamp { place: 4 },
    Refusal::Other { number: 99 },
];

#[test]
fn numbers_and_places() {
    assert_eq!(
        ALL.map(|r| r.number()),
        [1, 2, 3, 4, 5, 6, 7, 8, 9, 10, 10, 11, 11, 12, 13, 14, 15, 16, 17, 99]
    );
    assert_eq!(
        ALL.map(|r| r.place()),
        [
            None,
            None,
            None,
            None,
            None,
            None,
            None,
            None,
            None,
            None,
            Some(7),
            Some(5),
            None,
            Some(3),
            None,
            Some(9),
            None,
            None,
            Some(4),
            None
        ]
    );
}

#[test]
fn texts_name_number_and_place() {
    for refusal in ALL {
        let text = refusal.to_string();
        assert!(
            text.starts_with(&format!("refusal {}: ", refusal.number())),
            "{text}"
        );
        if let Some(place) = refusal.place() {
            assert!(text.contains(&format!(" {place} ")), "{text}");
        }
        assert!(text.contains("; "), "what to do is missing: {text}");
    }
}

/// Each refusal has a text of its own, in one line.
#[test]
fn texts_distinct() {
    let mut texts = ALL.map(|refusal| refusal.to_string()).to_vec();
    assert!(texts.iter().all(|text| !text.contains('\n')));
    // by what they say, not by the number before it
    texts
        .iter_mut()
        .for_each(|text| drop(text.drain(..text.find(": ").unwrap())));
    texts.sort();
    texts.dedup();
    assert_eq!(texts.len(), ALL.len());
}

/// Each rule has a text of its own, in one line; a number that is no rule has one too.
#[test]
fn texts_of_rules() {
    let mut texts: Vec<String> = Vec::new();
    for rule in 1..=17 {
        let refusal = Refusal::Rule { rule, place: 70 };
        assert_eq!(refusal.rule(), Some(rule));
        let text = refusal.to_string();
        let front = format!("refusal 11: record 70 (from 0) breaks rule {rule}: ");
        let rest = text.strip_prefix(&front).expect("number, record and rule");
        assert!(rest.contains("; ") && !rest.contains('\n'), "{text}");
        let broken = Refusal::Broken { rule };
        assert_eq!((broken.rule(), broken.place()), (Some(rule), None));
        let text = format!("refusal 11: the record breaks rule {rule}: {rest}");
        assert_eq!(broken.to_string(), text);
        texts.push(rest.into());
    }
    texts.sort();
    texts.dedup();
    assert_eq!(texts.len(), 17);
    for rule in [0, 18, u32::MAX] {
        let text = Refusal::Rule { rule, place: 0 }.to_string();
        assert!(text.contains("unknown rule; "), "{text}");
    }
    assert_eq!(Refusal::Length.rule(), None);
}

#[test]
fn layout_of_answers() {
    assert_eq!(
        (size_of::<raw::Word>(), offset_of!(raw::Word, word)),
        (16, 8)
    );
    assert_eq!(
        (size_of::<raw::Packet>(), align_of::<raw::Packet>()),
        (20, 4)
    );
    assert_eq!(
        (size_of::<raw::Copied>(), offset_of!(raw::Copied, count)),
        (24, 16)
    );
    assert_eq!(
        (size_of::<raw::Judged>(), offset_of!(raw::Judged, place)),
        (16, 8)
    );
    assert_eq!(
        (size_of::<raw::Planned>(), offset_of!(raw::Planned, records)),
        (16, 8)
    );
    assert_eq!(offset_of!(raw::Planned, banks), 4);
    assert_eq!(
        (size_of::<raw::Stepped>(), offset_of!(raw::Stepped, bytes)),
        (16, 12)
    );
    assert_eq!(
        (size_of::<raw::Meter>(), offset_of!(raw::Meter, newest)),
        (rdram::METER_BYTES, 128)
    );
    assert_eq!(
        (size_of::<raw::Counted>(), offset_of!(raw::Counted, count)),
        (8, 4)
    );
    assert_eq!(
        (size_of::<raw::Shared>(), offset_of!(raw::Shared, share)),
        (8, 4)
    );
}
