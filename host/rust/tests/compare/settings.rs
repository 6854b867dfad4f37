//! Settings at and beyond the ends of every range, through all four calls on words and logs.

use crate::calls::{log_decode, log_encode, typed, word_decode, word_encode, Seen};
use crate::random::{bytes, rounds, set_h, with_core, Random};
use crate::reference::{blocks, figures, Fields, ACT, BOUNDS, CORES, DEVICE, T_CAC, T_CWD, T_OFFP};
use rdram::{Core, Refusal, Settings};

/// ACT of bank 0, row 0, device 0: a packet, its word, a list and a log.
fn all_calls(seen: &mut Seen, settings: &[u8]) {
    let packet = Fields {
        command: ACT,
        bank: 0,
        place: 0,
        mask: 0,
    };
    word_encode(seen, settings, packet);
    word_decode(seen, settings, 0, 0x401000);
    let mut list = [0; 32];
    list[8..12].copy_from_slice(&[0x00, 0x10, 0x40, 0]);
    log_encode(seen, settings, &list, 512);
    log_decode(seen, settings, &blocks(&list), 32);
}

#[test]
fn set_h_of_the_crate() {
    let cores = [Core::Split, Core::OneRun, Core::Independent];
    for (core, form) in cores.into_iter().zip(CORES) {
        let settings = Settings {
            core,
            ..Settings::SET_H
        };
        let numbers = with_core(set_h(2, 4, 0), form);
        assert_eq!(settings.to_bytes()[..], bytes(&numbers));
    }
    assert_eq!(Settings::SET_H.core, Core::Split);
}

/// Settings of bytes are those that the calls take, and go back to the same bytes.
#[test]
fn from_bytes() {
    let (mut taken, mut random) = ([0, 0], Random::new(2));
    for _ in 0..rounds(100_000) {
        let mut numbers = random.numbers();
        if random.chance(2) {
            let (low, high) = BOUNDS[random.below(16)];
            let any = random.word() as u16;
            let value = [low.wrapping_sub(1), low, high, high + 1, high + 256, any];
            numbers[random.below(16)] = random.pick(&value);
        }
        let bytes: [u8; 32] = bytes(&numbers).try_into().unwrap();
        let settings = Settings::from_bytes(&bytes);
        let fits = figures(&bytes).is_some();
        assert_eq!(settings.is_ok(), fits, "{numbers:?}");
        if let Some(typed) = typed(&bytes) {
            assert_eq!(typed.check(), settings.map(|_| ()));
        }
        match settings {
            Ok(settings) => assert_eq!(settings.to_bytes(), bytes),
            Err(refusal) => assert_eq!(refusal, Refusal::Settings),
        }
        taken[usize::from(fits)] += 1;
    }
    assert!(taken.iter().all(|n| *n > 10_000), "{taken:?}");
}

#[test]
fn ends_of_every_range() {
    let (mut seen, mut random) = (Seen::default(), Random::new(1));
    for _ in 0..200 {
        let valid = random.numbers();
        for (at, (low, high)) in BOUNDS.into_iter().enumerate() {
            let any = random.word() as u16;
            for value in [
                low.wrapping_sub(1),
                low,
                low + 1,
                high.wrapping_sub(1),
                high,
                high + 1,
                high + 256,
                any,
            ] {
                let mut numbers = valid;
                numbers[at] = value;
                all_calls(&mut seen, &bytes(&numbers));
            }
        }
    }
    seen.report("settings, ends of every range", &[0, 1, 10]);
}

#[test]
fn column_delays() {
    let (mut seen, mut random) = (Seen::default(), Random::new(2));
    for cac in 5..=14 {
        for cwd in 0..=15 {
            let mut numbers = random.numbers();
            (numbers[T_CAC], numbers[T_CWD]) = (cac, cwd);
            all_calls(&mut seen, &bytes(&numbers));
        }
    }
    seen.report("settings, tCAC and tCWD", &[0, 1, 10]);
}

#[test]
fn every_offp() {
    let (mut seen, mut random) = (Seen::default(), Random::new(3));
    for value in 0..=u16::MAX {
        let mut numbers = random.numbers();
        numbers[T_OFFP] = value;
        let fits = (4..=32).contains(&value);
        assert_eq!(figures(&bytes(&numbers)).is_some(), fits, "{value}");
        all_calls(&mut seen, &bytes(&numbers));
    }
    seen.report("settings, tOFFP", &[0, 1, 10]);
}

/// Every last number: a device up to 31 in its low byte and a core form up to 2 in its high byte.
#[test]
fn device_and_core_form() {
    let (mut seen, mut random) = (Seen::default(), Random::new(6));
    for value in 0..=u16::MAX {
        let mut numbers = random.numbers();
        numbers[DEVICE] = value;
        let fits = value % 256 <= 31 && value / 256 <= 2;
        assert_eq!(figures(&bytes(&numbers)).is_some(), fits, "{value}");
        all_calls(&mut seen, &bytes(&numbers));
    }
    seen.report("settings, device and core form", &[0, 1, 10]);
}

#[test]
fn lengths() {
    let (mut seen, mut random) = (Seen::default(), Random::new(4));
    for _ in 0..50 {
        let mut long = bytes(&random.numbers());
        long.extend(bytes(&random.numbers()));
        for length in 0..=long.len() {
            all_calls(&mut seen, &long[..length]);
        }
    }
    seen.report("settings, lengths", &[0, 1, 10]);
}

#[test]
fn random_bytes() {
    let (mut seen, mut random) = (Seen::default(), Random::new(5));
    for _ in 0..rounds(20_000) {
        let any = random.bytes(32);
        all_calls(&mut seen, &any);
        let mut numbers = random.numbers();
        numbers[random.below(16)] ^= 1 << random.below(16);
        all_calls(&mut seen, &bytes(&numbers));
    }
    seen.report("settings, random bytes", &[0, 1, 10]);
}
