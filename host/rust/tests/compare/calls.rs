//! Calls of the library, each compared with the reference: C functions and safe wrappers.

use crate::buffers::{guarded, lent, pattern};
use crate::reference::{self, Fields, Refused};
use rdram::{raw, Core, Kind, Packet, Refusal, Settings};
use std::collections::BTreeMap;

/// How many cases had each answer number.
#[derive(Default)]
pub struct Seen(BTreeMap<u32, u64>);

impl Seen {
    pub fn add(&mut self, number: u32) {
        *self.0.entry(number).or_default() += 1;
    }

    /// Prints the counts; fails unless exactly these numbers were seen.
    pub fn report(&self, name: &str, expected: &[u32]) {
        let cases: u64 = self.0.values().sum();
        let counts: Vec<String> = self
            .0
            .iter()
            .map(|(n, c)| format!("number {n}: {c}"))
            .collect();
        println!("{name}: {cases} cases ({})", counts.join(", "));
        let seen: Vec<u32> = self.0.keys().copied().collect();
        assert_eq!(seen, expected, "{name}: answer numbers seen");
    }
}

fn number_of<T>(answer: &Result<T, Refused>) -> u32 {
    answer.as_ref().err().map_or(0, |r| r.number)
}

/// The settings as the wrapper's struct, where it can hold them.
pub fn typed(settings: &[u8]) -> Option<Settings> {
    if settings.len() != 32 {
        return None;
    }
    let n = |i: usize| u16::from_le_bytes([settings[2 * i], settings[2 * i + 1]]);
    let core = match settings[31] {
        0 => Core::Split,
        1 => Core::OneRun,
        2 => Core::Independent,
        _ => return None,
    };
    let s = Settings {
        t_rc: n(0),
        t_ras: n(1),
        t_rp: n(2),
        t_pp: n(3),
        t_rr: n(4),
        t_rcd: n(5),
        t_rtr: n(6),
        t_rdp: n(7),
        t_rtp: n(8),
        t_cc: n(9),
        t_cac: n(10),
        t_cwd: n(11),
        t_offp: n(12),
        rows: n(13),
        columns: n(14),
        device: settings[30],
        core,
    };
    assert_eq!(s.to_bytes(), settings);
    Some(s)
}

// ---- Words ----

/// The wrapper's packet, where it can hold the fields.
pub fn typed_packet(p: Fields) -> Option<Packet> {
    let bank = u8::try_from(p.bank).ok()?;
    let mask = u16::try_from(p.mask).ok()?;
    let row = u16::try_from(p.place).ok()?;
    let column = u8::try_from(p.place).ok();
    match (p.command, p.place, p.bank, mask) {
        (0, _, _, 0) => Some(Packet::Act { bank, row }),
        (1, 0, _, 0) => Some(Packet::Prer { bank }),
        (2, 0, _, 0) => Some(Packet::Refa { bank }),
        (3, 0, _, 0) => Some(Packet::Refp { bank }),
        (4, 0, 0, _) => Some(Packet::Nocop { mask }),
        (5, ..) => Some(Packet::Wr {
            bank,
            column: column?,
            mask,
        }),
        (6, ..) => Some(Packet::Rd {
            bank,
            column: column?,
            mask,
        }),
        (7, ..) => Some(Packet::Wra {
            bank,
            column: column?,
            mask,
        }),
        (8, ..) => Some(Packet::Rda {
            bank,
            column: column?,
            mask,
        }),
        _ => None,
    }
}

/// What a wrapper must say of a refusal of one packet or word.
fn word_refusal(r: Refused) -> Refusal {
    match r.number {
        1 => Refusal::Settings,
        4 => Refusal::Bank,
        5 => Refusal::Row,
        6 => Refusal::Column,
        10 => Refusal::Word { place: None },
        number => panic!("no refusal {number} of a word call"),
    }
}

pub fn word_encode(seen: &mut Seen, settings: &[u8], p: Fields) -> Option<u64> {
    let want = reference::word_encode(settings, p);
    let (pointer, length) = (settings.as_ptr(), settings.len());
    // SAFETY: pointer and length are those of one slice.
    let got =
        unsafe { raw::rdram_word_encode(pointer, length, p.command, p.bank, p.place, p.mask) };
    let raw = raw::Word {
        number: number_of(&want),
        word: want.unwrap_or(0),
    };
    assert_eq!(got, raw, "word_encode of {p:?} under {settings:?}");
    if let (Some(s), Some(packet)) = (typed(settings), typed_packet(p)) {
        assert_eq!(rdram::word_encode(&s, packet), want.map_err(word_refusal));
    }
    seen.add(got.number);
    want.ok()
}

pub fn word_decode(seen: &mut Seen, settings: &[u8], kind: u32, word: u64) -> Option<Fields> {
    let want = reference::word_decode(settings, kind, word);
    // SAFETY: pointer and length are those of one slice.
    let got = unsafe { raw::rdram_word_decode(settings.as_ptr(), settings.len(), kind, word) };
    let p = want.unwrap_or(Fields {
        command: 0,
        bank: 0,
        place: 0,
        mask: 0,
    });
    let number = number_of(&want);
    let raw = raw::Packet {
        number,
        command: p.command,
        bank: p.bank,
        place: p.place,
        mask: p.mask,
    };
    assert_eq!(
        got, raw,
        "word_decode of kind {kind}, word {word:x} under {settings:?}"
    );
    if let (Some(s), true) = (typed(settings), kind < 2) {
        let kind = if kind == 0 { Kind::Row } else { Kind::Col };
        let packet = want.map(|p| typed_packet(p).unwrap());
        assert_eq!(
            rdram::word_decode(&s, kind, word),
            packet.map_err(word_refusal)
        );
    }
    seen.add(number);
    want.ok()
}

// ---- Logs ----

/// What a wrapper must say of a refusal of a list or log.
fn log_refusal(r: Refused) -> Refusal {
    match r.number {
        1 => Refusal::Settings,
        8 => Refusal::Full,
        10 => Refusal::Word {
            place: Some(r.place as u64),
        },
        12 => Refusal::Block {
            place: r.place as u64,
        },
        13 => Refusal::Length,
        number => panic!("no refusal {number} of a log call"),
    }
}

fn raw_copied(answer: &Result<usize, Refused>) -> raw::Copied {
    match *answer {
        Ok(count) => raw::Copied {
            number: 0,
            place: 0,
            count: count as u64,
        },
        Err(r) => raw::Copied {
            number: r.number,
            place: r.place as u64,
            count: 0,
        },
    }
}

type CFunction =
    unsafe extern "C" fn(*const u8, usize, *const u8, usize, *mut u8, usize) -> raw::Copied;
type Wrapper = fn(&Settings, &[u8], &mut [u8]) -> Result<usize, Refusal>;
type Reference = fn(&[u8], &[u8], &mut [u8]) -> Result<usize, Refused>;

/// Runs reference, C function and wrapper on equal buffers and compares answers and all bytes.
fn copy(
    seen: &mut Seen,
    calls: (Reference, CFunction, Wrapper),
    settings: &[u8],
    from: &[u8],
    room: usize,
) -> u32 {
    let mut want_to = guarded(&pattern(room));
    let mut got_to = want_to.clone();
    let want = calls.0(settings, from, lent(&mut want_to));
    let (s, f, to) = (settings.to_vec(), from.to_vec(), lent(&mut got_to));
    // SAFETY: each pointer and length are those of one slice, and the slices do not overlap.
    let got = unsafe {
        calls.1(
            s.as_ptr(),
            s.len(),
            f.as_ptr(),
            f.len(),
            to.as_mut_ptr(),
            to.len(),
        )
    };
    assert_eq!(
        got,
        raw_copied(&want),
        "{} bytes, room {room}, settings {settings:?}",
        from.len()
    );
    assert!(
        got_to == want_to,
        "other bytes written: {} bytes, room {room}, {want:?}",
        from.len()
    );
    assert!(s == settings && f == from, "an input was changed");
    if let Some(settings) = typed(settings) {
        let mut to = guarded(&pattern(room));
        assert_eq!(
            calls.2(&settings, from, lent(&mut to)),
            want.map_err(log_refusal)
        );
        assert!(to == want_to);
    }
    seen.add(got.number);
    got.number
}

/// Answers the number.
pub fn log_encode(seen: &mut Seen, settings: &[u8], list: &[u8], room: usize) -> u32 {
    copy(
        seen,
        (
            reference::log_encode,
            raw::rdram_log_encode,
            rdram::log_encode,
        ),
        settings,
        list,
        room,
    )
}

/// Answers the number.
pub fn log_decode(seen: &mut Seen, settings: &[u8], log: &[u8], room: usize) -> u32 {
    copy(
        seen,
        (
            reference::log_decode,
            raw::rdram_log_decode,
            rdram::log_decode,
        ),
        settings,
        log,
        room,
    )
}
