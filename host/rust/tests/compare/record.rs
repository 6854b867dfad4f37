//! Records one by one: bytes, words and texts both ways, against the reference and the word calls.

use crate::calls::{typed, typed_packet, Seen};
use crate::hand_lists::NAMES;
use crate::random::{bytes, rounds, set_h, Random};
use crate::reference::{self, figures, record_fits, Fields};
use crate::reference::{ACT, COLUMNS, NOCOP, RD, RDA, ROWS, T_CAC, WR};
use rdram::{log_encode, word_decode, word_encode};
use rdram::{Content, Kind, Record, Refusal, Settings};

const INSTANTS: [u32; 6] = [0, 3, 4, 1_000_000_000, 1_000_000_001, u32::MAX];
const MASKS: [u32; 6] = [0, 1, 0x0A0F, 0x8000, 0xFFFE, 0xFFFF];

fn kind(p: Fields) -> Kind {
    if p.command < NOCOP {
        Kind::Row
    } else {
        Kind::Col
    }
}

/// Every packet that has a word: all banks and places, some masks.
fn packets(numbers: &[u16; 16]) -> Vec<Fields> {
    let mut all = Vec::new();
    for command in ACT..=RDA {
        let (banks, places) = match command {
            ACT => (32, numbers[ROWS]),
            NOCOP => (1, 1),
            WR..=RDA => (32, numbers[COLUMNS]),
            _ => (32, 1),
        };
        let masks: &[u32] = if command < NOCOP { &[0] } else { &MASKS };
        for bank in 0..banks {
            for place in 0..places {
                all.extend(masks.iter().map(|mask| Fields {
                    command,
                    bank,
                    place: place.into(),
                    mask: *mask,
                }));
            }
        }
    }
    all
}

/// Instant, name, bank, place, mask, by the papers.
fn text(instant: u32, p: Fields) -> String {
    let mask = match p.mask {
        mask if p.command >= NOCOP && mask != 0xFFFF => format!("{mask:04x}"),
        _ => "-".to_string(),
    };
    let name = NAMES[p.command as usize];
    format!("{instant} {name} {} {} {mask}", p.bank, p.place)
}

/// A packet's record by each constructor, its bytes by the papers, and back.
fn both_ways(settings: &Settings, instant: u32, p: Fields) {
    let (packet, kind) = (typed_packet(p).expect("fields that fit"), kind(p));
    let word = word_encode(settings, packet).expect("a packet with a word");
    assert_eq!(word_decode(settings, kind, word), Ok(packet));
    let record = Record::packet(settings, instant, packet).expect("a packet with a word");
    assert_eq!(Record::word(settings, instant, kind, word), Ok(record));
    assert_eq!(record.content(), Content::Packet { packet, word });
    let mut bytes = [0; 32];
    bytes[..4].copy_from_slice(&instant.to_le_bytes());
    bytes[4] = u8::from(kind == Kind::Col);
    bytes[8..16].copy_from_slice(&word.to_le_bytes());
    assert_eq!(record.to_bytes(), bytes, "{record}");
    assert_eq!(Record::from_bytes(settings, &bytes), Ok(record));
    assert_eq!(record.to_string(), text(instant, p));
    let name = NAMES[p.command as usize];
    assert_eq!((packet.kind(), packet.name()), (kind, name));
    let read = [RD, RDA].contains(&p.command);
    let data = read.then(|| instant.saturating_add(settings.t_cac.into()));
    assert_eq!(record.data_instant(settings), data);
}

#[test]
fn every_packet() {
    let random = &mut Random::new(81);
    for (rows, columns, device) in [(512, 128, 31), (1, 1, 0), (2, 4, 16)] {
        let mut numbers = set_h(rows, columns, device);
        numbers[T_CAC] = 7 + device % 6;
        let settings = typed(&bytes(&numbers)).expect("settings of the struct");
        let all = packets(&numbers);
        let all_commands = 32 * (u32::from(rows) + 3 + 4 * 6 * u32::from(columns)) + 6;
        assert_eq!(all.len(), all_commands as usize);
        for p in all {
            both_ways(&settings, random.pick(&INSTANTS), p);
        }
    }
}

/// No two packets have one text, and no data has a packet's.
#[test]
fn texts_distinct() {
    let numbers = set_h(8, 8, 0);
    let settings = typed(&bytes(&numbers)).expect("settings of the struct");
    let record = |p| Record::packet(&settings, 4, typed_packet(p).unwrap()).unwrap();
    let mut records: Vec<Record> = packets(&numbers).into_iter().map(record).collect();
    records.extend([0, 1].map(|byte| Record::data(4, [byte; 16])));
    let mut texts: Vec<String> = records.iter().map(|record| record.to_string()).collect();
    texts.sort();
    texts.dedup();
    assert_eq!(texts.len(), records.len());
}

/// What a record of any bytes must be read as, by the papers.
fn read(settings: &[u8], record: &[u8; 32]) -> Result<(), Refusal> {
    match figures(settings) {
        None => Err(Refusal::Settings),
        Some(f) if record_fits(&f, record) => Ok(()),
        Some(_) => Err(Refusal::Word { place: None }),
    }
}

/// Random records, most of them with a byte or two changed, and settings now and then out of range: what
/// is read, and what `log_encode` says of the same bytes.
#[test]
fn any_bytes() {
    let (mut seen, random) = (Seen::default(), &mut Random::new(82));
    for _ in 0..rounds(60_000) {
        let mut numbers = random.numbers();
        let mut record: [u8; 32] = random.record(&numbers).try_into().unwrap();
        for _ in 0..random.below(3) {
            let at = random.pick(&[4, 4, 5, 6, 7, 8, 10, 12, 13, 16, 31]);
            record[at] ^= 1 << random.below(8);
        }
        if random.chance(16) {
            numbers[random.below(15)] = 0;
        }
        let settings = typed(&bytes(&numbers)).expect("settings of the struct");
        let got = Record::from_bytes(&settings, &record);
        assert_eq!(got.map(|_| ()), read(&bytes(&numbers), &record));
        if let Ok(got) = got {
            assert_eq!(got.to_bytes(), record);
        }
        let of_list = log_encode(&settings, &record, &mut [])
            .unwrap_err()
            .number();
        let number = got.err().map_or(0, |refusal| refusal.number());
        assert_eq!(of_list, if number == 0 { 8 } else { number });
        seen.add(number);
    }
    seen.report("records of any bytes", &[0, 1, 10]);
}

/// Words that no packet has, and packets that have no word, make no record.
#[test]
fn refused() {
    let (mut seen, random) = (Seen::default(), &mut Random::new(83));
    for _ in 0..rounds(60_000) {
        let numbers = random.numbers();
        let settings = typed(&bytes(&numbers)).expect("settings of the struct");
        let mut p = random.packet(&numbers);
        let mut word = reference::word_encode(&bytes(&numbers), p).expect("a packet with a word");
        if random.chance(2) {
            word ^= 1 << random.below(40);
        }
        let got = Record::word(&settings, 4, kind(p), word);
        let packet = word_decode(&settings, kind(p), word);
        let content = got.map(|record| record.content());
        assert_eq!(
            content,
            packet.map(|packet| Content::Packet { packet, word })
        );
        seen.add(got.err().map_or(0, |refusal| refusal.number()));
        match random.below(3) {
            0 if p.command != NOCOP => p.bank += 32,
            1 if p.command == ACT => p.place += u32::from(numbers[ROWS]),
            1 if p.command > NOCOP => p.place += u32::from(numbers[COLUMNS]),
            _ => continue,
        }
        let Some(packet) = typed_packet(p) else {
            continue;
        };
        let refusal = Record::packet(&settings, 4, packet).unwrap_err();
        assert_eq!(word_encode(&settings, packet), Err(refusal));
        seen.add(refusal.number());
    }
    seen.report("records refused", &[0, 4, 5, 6, 10]);
}
