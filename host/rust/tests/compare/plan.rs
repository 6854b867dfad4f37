//! Random and damaged requests, planned by the library and by the reference.

use crate::plan_calls::{Run, Seen, ENOUGH};
use crate::plan_streams::{
    bare, closing, most_banks, read, wait, write, Maker, CLOSE, FLUSH, READ, READ_CLOSE, REFRESH,
    WRITE_CLOSE,
};
use crate::random::{rounds, set_h, with_core, Random};
use crate::reference::{device_and_core, COLUMNS, CORES, ROWS, T_OFFP};
use crate::reference_state::{put, LAST, WAITING};
use crate::rule_settings::{rule_numbers, SettingsSeen, T_CC, T_RTR};

/// Plans requests one after the other, now and then with too little room first.
fn plan_all(random: &mut Random, seen: &mut Seen, run: &mut Run, maker: &Maker, requests: usize) {
    for _ in 0..requests {
        let request = maker.request(random);
        match random.below(8) {
            0 => run.call_short(seen, &request, 0),
            1 => run.call_short(seen, &request, random.below(ENOUGH)),
            2 => _ = run.call(seen, &request, random.below(ENOUGH)),
            _ => _ = run.call(seen, &request, ENOUGH),
        }
    }
}

#[test]
fn random_streams() {
    let name = "plan, random streams";
    let (mut seen, mut random) = (Seen::default(), Random::new(61));
    let mut settings_seen = SettingsSeen::default();
    for _ in 0..rounds(20_000) {
        let numbers = rule_numbers(&mut random);
        settings_seen.add(&numbers);
        let maker = Maker::new(&mut random, &numbers);
        let mut run = Run::new(&numbers);
        let requests = 1 + random.below(24);
        plan_all(&mut random, &mut seen, &mut run, &maker, requests);
        run.check();
    }
    // 7 where damage made a long wait.
    seen.report(name, &[0, 2, 3, 4, 5, 6, 7, 8, 13, 15]);
    seen.all_kinds();
    seen.all_most();
    seen.all_counts();
    settings_seen.report(name);
}

#[test]
fn long_streams() {
    let (mut seen, mut random) = (Seen::default(), Random::new(62));
    for _ in 0..40 {
        let numbers = rule_numbers(&mut random);
        let maker = Maker::new(&mut random, &numbers);
        let mut run = Run::new(&numbers);
        plan_all(&mut random, &mut seen, &mut run, &maker, 150);
        assert_eq!(run.call(&mut seen, &wait(u32::MAX), 0), Err(7));
        run.check();
    }
    seen.report("plan, long streams", &[0, 2, 3, 4, 5, 6, 7, 8, 13, 15]);
    seen.all_kinds();
}

/// As many open banks as may be and one waiting write, or two where the settings let a WR come beside
/// another.
fn all_waiting(random: &mut Random, seen: &mut Seen, numbers: &[u16; 16]) -> Run {
    let mut run = Run::new(numbers);
    let row = |random: &mut Random| random.below(numbers[ROWS].into()) as u16;
    let mut banks = most_banks(random, device_and_core(numbers).1);
    for i in (1..banks.len()).rev() {
        banks.swap(i, random.below(i + 1));
    }
    for bank in &banks {
        let row = row(random);
        run.call(seen, &read(*bank, row, 0), ENOUGH).unwrap();
    }
    let (bank, row, data) = (random.pick(&banks), row(random), random.bytes(16));
    for column in [0, (numbers[COLUMNS] - 1) as u8] {
        let mask = random.pick(&[0xFFFF, 0, 3]);
        let request = write(bank, row, column, mask, &data);
        run.call(seen, &request, ENOUGH).unwrap();
    }
    run
}

/// The longest request: a close with as many open banks as may be. It makes 16 records where banks
/// have neighbours, else 32. While a write waits it is refused, whatever else is wrong; a flush makes a
/// record for each write.
fn longest_close(random: &mut Random, seen: &mut Seen, numbers: &[u16; 16], every_left: bool) {
    let (flush, close) = (bare(FLUSH), bare(CLOSE));
    let most = [16, 16, 32][usize::from(device_and_core(numbers).1)];
    let mut run = all_waiting(random, seen, numbers);
    let waiting = usize::from(run.state[WAITING]);
    assert_eq!(waiting, 1 + usize::from(numbers[T_CC] < numbers[T_RTR]));
    assert_eq!(run.call(seen, &close, ENOUGH), Err(15));
    assert_eq!(run.call(seen, &close, 0), Err(15));
    at_the_end(random, seen, &run, &close, 1);
    at_the_end(random, seen, &run, &flush, 100);
    assert_eq!(run.call(seen, &flush, 32 * waiting - 1), Err(8));
    assert_eq!(run.call(seen, &flush, 32 * waiting), Ok(waiting));
    assert_eq!(run.call(seen, &flush, 0), Ok(0));
    for records in 0..most {
        let room = 32 * records + random.below(32);
        let refused = run.clone().call(seen, &close, room);
        assert_eq!(refused, Err(8), "room for {records} records");
    }
    let mut closed = run.clone();
    assert_eq!(closed.call(seen, &close, ENOUGH), Ok(most));
    // Nothing is open now.
    assert_eq!(closed.call(seen, &close, 0), Ok(0));
    closed.check();
    // At the end of time any of them may be the first that is late.
    let span = (closed.now() - run.now()) as usize;
    let lefts = if every_left { span + 2 } else { 12 };
    at_the_end(random, seen, &run, &close, lefts);
}

/// A request near the end of time: at so many distances to it, which every one is where they are many.
fn at_the_end(random: &mut Random, seen: &mut Seen, run: &Run, request: &[u8], lefts: usize) {
    for left in 0..lefts {
        let left = if lefts > 12 { left } else { random.below(300) };
        let mut late = run.clone();
        let cycles = LAST - left as u64 - late.now();
        late.call(seen, &wait(cycles as u32), 0).unwrap();
        _ = late.call(seen, request, ENOUGH);
    }
}

#[test]
fn most_records() {
    let (mut seen, mut random) = (Seen::default(), Random::new(63));
    for core in CORES {
        longest_close(
            &mut random,
            &mut seen,
            &with_core(set_h(2, 4, 0), core),
            true,
        );
        for _ in 0..120 {
            let numbers = with_core(rule_numbers(&mut random), core);
            longest_close(&mut random, &mut seen, &numbers, false);
        }
    }
    seen.report("plan, most records", &[0, 7, 8, 15]);
    assert!(seen.with_records(16) >= 200 && seen.with_records(32) >= 100);
    assert!((17..32).chain(33..40).all(|n| seen.with_records(n) == 0));
}

#[test]
fn near_the_horizon() {
    let (mut seen, mut random) = (Seen::default(), Random::new(64));
    for _ in 0..rounds(20_000) {
        let numbers = rule_numbers(&mut random);
        let maker = Maker::new(&mut random, &numbers);
        let mut run = Run::new(&numbers);
        let before = random.below(6);
        plan_all(&mut random, &mut seen, &mut run, &maker, before);
        let left = random.pick(&[0, 8, 40, 150, 400]);
        let left = random.below(left + 1) as u64;
        let cycles = LAST - left - run.now();
        run.call(&mut seen, &wait(cycles as u32), 0).unwrap();
        let after = 1 + random.below(16);
        plan_all(&mut random, &mut seen, &mut run, &maker, after);
        run.check();
    }
    let numbers = [0, 2, 3, 4, 5, 6, 7, 8, 13, 15];
    seen.report("plan, near the horizon", &numbers);
    seen.all_kinds();
}

/// Runs that lead to each kind of step: an empty list, an open bank, one and two waiting writes, open
/// neighbours on both sides.
fn prefixes() -> Vec<Vec<Vec<u8>>> {
    let full = |bank, row, column| write(bank, row, column, 0xFFFF, &[5; 16]);
    let part = |bank, row, column| write(bank, row, column, 0x0F01, &[6; 16]);
    vec![
        vec![],
        vec![read(0, 0, 1)],
        vec![part(0, 0, 1)],
        vec![read(2, 0, 0), full(0, 1, 2)],
        vec![part(2, 0, 0), read(0, 1, 2)],
        vec![read(1, 0, 0)],
        vec![bare(REFRESH), part(1, 1, 3), wait(1)],
        vec![part(0, 0, 1), full(0, 0, 1)],
        vec![read(2, 0, 0), full(0, 0, 2), part(2, 0, 3)],
        vec![closing(read(0, 0, 1))],
        vec![read(2, 0, 0), closing(part(0, 0, 1))],
    ]
}

fn one_of_each_kind() -> Vec<Vec<u8>> {
    vec![
        read(1, 0, 0),
        read(0, 0, 1),
        read(0, 1, 2),
        write(1, 1, 3, 0xFFFF, &[7; 16]),
        write(0, 0, 1, 0x8001, &[8; 16]),
        bare(REFRESH),
        wait(0),
        wait(1),
        wait(u32::MAX),
        bare(FLUSH),
        bare(CLOSE),
        closing(read(1, 0, 0)),
        closing(read(0, 0, 1)),
        closing(write(1, 1, 3, 0xFFFF, &[7; 16])),
        closing(write(0, 0, 1, 0x8001, &[8; 16])),
    ]
}

/// Under the least and the largest tOFFP.
#[test]
fn every_distance_to_the_horizon() {
    let mut seen = Seen::default();
    let settings = CORES.into_iter().flat_map(|core| [(core, 4), (core, 32)]);
    let runs = prefixes()
        .into_iter()
        .flat_map(|p| settings.clone().map(move |s| (p.clone(), s)));
    for (prefix, (core, offp)) in runs {
        let mut numbers = with_core(set_h(2, 4, 0), core);
        numbers[T_OFFP] = offp;
        let mut run = Run::new(&numbers);
        for request in &prefix {
            run.call(&mut seen, request, ENOUGH).unwrap();
        }
        for left in 0..=100 {
            let mut late = run.clone();
            let cycles = LAST - left - late.now();
            late.call(&mut seen, &wait(cycles as u32), 0).unwrap();
            for request in one_of_each_kind() {
                _ = late.clone().call(&mut seen, &request, ENOUGH);
                // 7 before 8.
                _ = late.clone().call(&mut seen, &request, 0);
            }
        }
    }
    seen.report("plan, every distance to the horizon", &[0, 7, 8, 15]);
}

#[test]
fn damaged_requests() {
    let (mut seen, mut random) = (Seen::default(), Random::new(65));
    for round in 0..6 {
        let mut numbers = rule_numbers(&mut random);
        (numbers[ROWS], numbers[COLUMNS]) = [(2, 4), (512, 128), (1, 1)][round % 3];
        for prefix in prefixes() {
            let mut run = Run::new(&numbers);
            for request in &prefix {
                _ = run.call(&mut seen, request, ENOUGH);
            }
            for kind in READ..=WRITE_CLOSE {
                damage_each_byte(&mut random, &mut seen, &run, &bare(kind));
            }
        }
    }
    let numbers = [0, 2, 3, 4, 5, 6, 7, 15];
    seen.report("plan, requests damaged byte by byte", &numbers);
}

fn damage_each_byte(random: &mut Random, seen: &mut Seen, run: &Run, request: &[u8]) {
    for byte in 0..24 {
        let any = random.word() as u8;
        for value in [1, 2, 3, 4, 5, 6, 7, 8, 31, 32, 127, 128, 255, any] {
            let mut damaged = request.to_vec();
            damaged[byte] = value;
            _ = run.clone().call(seen, &damaged, ENOUGH);
        }
    }
}

#[test]
fn lengths_of_requests() {
    let (mut seen, numbers) = (Seen::default(), set_h(2, 4, 0));
    let run = Run::new(&numbers);
    for mut request in one_of_each_kind() {
        request.extend(vec![0; 26]);
        for length in 0..=50 {
            let answer = run.clone().call(&mut seen, &request[..length], ENOUGH);
            assert_eq!(answer == Err(13), length != 24);
        }
    }
    seen.report("plan, lengths of requests", &[0, 7, 13]);
}

/// Every length of a room up to some bytes more than the most records.
#[test]
fn rooms() {
    let (mut seen, mut random) = (Seen::default(), Random::new(66));
    for core in CORES {
        let run = all_waiting(&mut random, &mut seen, &with_core(set_h(2, 4, 0), core));
        for request in one_of_each_kind() {
            let need = run.clone().call(&mut seen, &request, ENOUGH);
            for room in 0..=ENOUGH + 40 {
                let answer = run.clone().call(&mut seen, &request, room);
                let short = need.is_ok_and(|records| room / 32 < records);
                assert_eq!(answer, if short { Err(8) } else { need }, "room {room}");
            }
        }
    }
    seen.report("plan, rooms of every length", &[0, 7, 8, 15]);
}

/// Faults of a request from the first that is tested to the last, each with all that come after it.
#[test]
fn order_of_refusals() {
    let (mut seen, numbers) = (Seen::default(), set_h(2, 4, 0));
    let mut run = Run::new(&numbers);
    run.call(&mut seen, &wait(LAST as u32 - 4), 0).unwrap();
    let fault = |request: &mut Vec<u8>, number: u32| match number {
        13 => request.push(0),
        2 => request[0] = 8,
        3 => request[5] = 1,
        4 => request[1] = 32,
        5 => put(request, 2, 2, 2),
        6 => request[4] = 4,
        _ => {}
    };
    // At the last instant no read is in time, and a room of 0 has no space for one.
    let order = [13, 2, 3, 4, 5, 6, 7];
    for (first, kind) in (0..order.len()).flat_map(|i| [READ, READ_CLOSE].map(|kind| (i, kind))) {
        let mut request = bare(kind);
        order[first..].iter().for_each(|n| fault(&mut request, *n));
        let answer = run.call(&mut seen, &request, 0);
        assert_eq!(answer, Err(order[first]));
    }
    let mut fresh = Run::new(&numbers);
    assert_eq!(fresh.call(&mut seen, &bare(READ), 0), Err(8));
    // Spare before bank: a refresh names no bank.
    let mut refresh = bare(REFRESH);
    refresh[1] = 32;
    assert_eq!(fresh.call(&mut seen, &refresh, 0), Err(3));
    // Spare before a write that waits, and that before the horizon and the room.
    let late = wait(LAST as u32 - 20);
    for request in [late, write(0, 0, 0, 3, &[9; 16]), wait(8)] {
        fresh.call(&mut seen, &request, ENOUGH).unwrap();
    }
    let mut close = bare(CLOSE);
    assert_eq!(fresh.call(&mut seen, &close, 0), Err(15));
    close[1] = 32;
    assert_eq!(fresh.call(&mut seen, &close, 0), Err(3));
    let numbers = [0, 2, 3, 4, 5, 6, 7, 8, 13, 15];
    seen.report("plan, order of refusals", &numbers);
}
