//! Model states: damaged field by field, and any that are not refused, also those that no run
//! reaches. For the latter the tuned model, which needs no list, says what is wanted.

use crate::buffers::fresh_refused;
use crate::calls::Seen as Numbers;
use crate::lists::{legal, list_bytes, Item, LAST};
use crate::model_calls::{any_store, compare, fresh, small_numbers, wanted, Case, Run, Seen};
use crate::random::{bytes, rounds, set_h, with_core, Random};
use crate::reference::{
    device_and_core, Fields, ACT, COLUMNS, CORES, NOCOP, PRER, REFA, ROWS, T_CWD,
};
use crate::reference_model::{state_fits, STATE_BYTES};
use crate::reference_rules::near;
use crate::reference_state::{instant, newest, put, put_writes, tag, CLOSES, DUE, WAITING, WRITES};
use crate::state_bytes::{
    any_counts, any_flags, are_neighbours, assert_every_byte, ends, fields, pairs_of_banks, unused,
    Field, Instants, TWO, UNUSED,
};
use rdram::raw::rdram_model_fresh;
use std::ops::Range;

/// A call from any bytes as model; answers number and rule, or what was taken.
fn call(numbers: &[u16; 16], model: &[u8], store: &[u8], record: &[u8]) -> Result<u32, (u32, u32)> {
    let settings = bytes(numbers);
    let case = Case {
        settings: &settings,
        model,
        store,
        record,
        room: 16,
    };
    let want = wanted(&case);
    let refused = matches!(want, Err((1, _)));
    assert_eq!(refused, !state_fits(numbers, model), "{model:?}");
    compare(&case, &want);
    want.map(|_| 0)
}

fn number(answer: Result<u32, (u32, u32)>) -> u32 {
    answer.err().map_or(0, |(number, _)| number)
}

/// A record of a packet or, where there is none, of a D.
fn record(numbers: &[u16; 16], at: u32, packet: Option<Fields>) -> Vec<u8> {
    let item = Item { at, packet };
    list_bytes(&bytes(numbers), &[item])
}

/// A record that no rule refuses in most states: PRER of a bank at the last instant.
fn late_prer(numbers: &[u16; 16], bank: u32) -> Vec<u8> {
    let prer = Fields {
        command: PRER,
        bank,
        place: 0,
        mask: 0,
    };
    record(numbers, LAST, Some(prer))
}

/// A model after some records.
fn reached(random: &mut Random, numbers: &[u16; 16]) -> Run {
    let store = any_store(random, numbers);
    let (mut run, records) = (Run::new(numbers, store), 1 + random.below(24));
    let list = list_bytes(&bytes(numbers), &legal(random, numbers, records));
    // Without the last D its data are due.
    let cut = random.pick(&[0, 32]).min(list.len() - 32);
    for record in list[..list.len() - cut].chunks(32) {
        run.call(&mut Seen::default(), record, 16).unwrap();
    }
    run
}

// What a model has after the bytes that it has in common with a planner: REFR, bytes that are 0, and
// the data of two writes.
const REFR: usize = 752;
const DATA: usize = 760;
const DATA_HALVES: [usize; 4] = [DATA, DATA + 8, DATA + 16, DATA + 24];
const OWN_UNUSED: Range<usize> = 754..DATA;

fn own() -> Vec<Field> {
    let refr = [(REFR, 2)].into_iter().chain(unused(OWN_UNUSED));
    refr.chain(DATA_HALVES.map(|at| (at, 8))).collect()
}

#[test]
fn fields_have_every_byte() {
    assert_every_byte(&fields(&own()), STATE_BYTES);
}

/// Each field at and beyond the ends of its range; a PRER at the last instant shows that the others
/// come back.
#[test]
fn damaged_field_by_field() {
    let (mut seen, mut random) = (Numbers::default(), Random::new(91));
    let (mut refused, mut taken) = (vec![0; STATE_BYTES], 0);
    for _ in 0..60 {
        let numbers = small_numbers(&mut random);
        let run = reached(&mut random, &numbers);
        let record = late_prer(&numbers, random.below(32) as u32);
        for (at, width) in fields(&own()) {
            for value in ends(&numbers) {
                let mut damaged = run.state.clone();
                put(&mut damaged, at, width, value);
                let number = number(call(&numbers, &damaged, &run.store, &record));
                seen.add(number);
                refused[at] += u32::from(number == 1);
                taken += u32::from(number == 0);
            }
        }
    }
    seen.report("model, states damaged field by field", &[0, 1, 11]);
    for (at, _) in fields(&own()) {
        // Any data will do.
        assert_eq!(
            refused[at] == 0,
            DATA_HALVES.contains(&at),
            "the field at {at}"
        );
    }
    assert!(taken > 20_000, "{taken} taken");
}

/// Each bit of each byte that is 0 in all states.
#[test]
fn unused_bytes() {
    let (mut seen, mut random) = (Numbers::default(), Random::new(95));
    for _ in 0..20 {
        let numbers = small_numbers(&mut random);
        let (run, record) = (reached(&mut random, &numbers), late_prer(&numbers, 9));
        for at in UNUSED.chain(OWN_UNUSED) {
            for bit in 0..8 {
                let mut damaged = run.state.clone();
                damaged[at] = 1 << bit;
                let answer = call(&numbers, &damaged, &run.store, &record);
                assert_eq!(answer, Err((1, 0)), "bit {bit} of byte {at}");
                seen.add(1);
            }
        }
    }
    seen.report("model, states with bytes that are not used", &[1]);
}

/// Any bytes changed, and any record.
#[test]
fn damaged_bytes() {
    let (mut seen, mut random) = (Numbers::default(), Random::new(92));
    for _ in 0..rounds(1_500) {
        let numbers = small_numbers(&mut random);
        let run = reached(&mut random, &numbers);
        for _ in 0..40 {
            let mut damaged = run.state.clone();
            for _ in 0..1 + random.below(3) {
                let any = random.below(STATE_BYTES);
                let late = 640 + random.below(STATE_BYTES - 640);
                let at = random.pick(&[any, late]);
                let flipped = damaged[at] ^ 1 << random.below(8);
                damaged[at] = random.pick(&[0, 1, 2, flipped]);
            }
            let record = any_record(&mut random, &numbers, &damaged);
            seen.add(number(call(&numbers, &damaged, &run.store, &record)));
        }
    }
    seen.report("model, states with damaged bytes", &[0, 1, 11]);
}

#[test]
fn lengths_of_models() {
    let (numbers, long) = (set_h(1, 1, 0), [fresh(), fresh()].concat());
    for length in 0..=long.len() {
        let record = late_prer(&numbers, 3);
        let answer = call(&numbers, &long[..length], &[9; 512], &record);
        assert_eq!(answer.is_err(), length != STATE_BYTES);
        if length != STATE_BYTES {
            fresh_refused(rdram_model_fresh, length);
        }
    }
}

/// Two banks that are open or under refresh: refused where they are neighbours. 15 and 16 are such in
/// one run of 32 alone, and no banks are without dependency.
#[test]
fn neighbours_not_closed() {
    let mut seen = Numbers::default();
    let mut store = vec![0; 4096];
    store[77] = 1;
    for (a, b) in pairs_of_banks() {
        for tags in [(1, 2), (1, 65_535), (65_535, 2), (65_535, 65_535)] {
            let mut state = fresh();
            put(&mut state, 640 + 2 * a, 2, tags.0);
            put(&mut state, 640 + 2 * b, 2, tags.1);
            for core in CORES {
                let numbers = with_core(set_h(2, 4, 0), core);
                let answer = number(call(&numbers, &state, &store, &late_prer(&numbers, 9)));
                let refused = are_neighbours(core, a, b);
                assert_eq!(answer == 1, refused, "banks {a} and {b}, form {core}");
                seen.add(answer);
            }
        }
    }
    seen.report("model, two banks not closed", &[0, 1]);
}

/// Each waiting write needs its bank open by ACT. Bank 9 is open, so that 8 and 10 are closed where
/// banks have neighbours.
#[test]
fn banks_of_the_waiting_writes() {
    let store = vec![3; 4096];
    let nocop = Fields {
        command: NOCOP,
        bank: 0,
        place: 0,
        mask: 0x1234,
    };
    let record = record(&set_h(2, 4, 0), 900, Some(nocop));
    for (core, bank) in CORES
        .into_iter()
        .flat_map(|core| (0..=255).map(move |b| (core, b)))
    {
        let numbers = with_core(set_h(2, 4, 0), core);
        for (due, tag) in [false, true]
            .into_iter()
            .flat_map(|due| [0, 1, 2, 3, 65_535].map(|t| (due, t)))
        {
            let (write, other) = ((bank, 0, 4, false), (9, 3, 8, false));
            for writes in [vec![write], vec![write, other], vec![other, write]] {
                let mut state = fresh();
                put_writes(&mut state, &writes, due);
                put(&mut state, 640 + 18, 2, 1);
                put(&mut state, 640 + 2 * (bank as usize % 32), 2, tag);
                let answer = call(&numbers, &state, &store, &record);
                let alone = core == 2 || (bank != 8 && bank != 10);
                let open = bank < 32 && (tag == 1 || tag == 2) && alone;
                let want = if due { Err((11, 15)) } else { Ok(0) };
                assert_eq!(answer, if open { want } else { Err((1, 0)) });
            }
        }
    }
}

/// Two writes wait at most, the data of the newest due or not, and the fields of others are 0.
#[test]
fn counts_of_writes() {
    let (numbers, store) = (set_h(2, 4, 0), vec![3; 4096]);
    for (count, due, writes) in any_counts() {
        let mut state = fresh();
        put(&mut state, 640, 2, 1);
        put_writes(&mut state, &TWO[..writes], false);
        (state[WAITING], state[DUE]) = (count, due);
        let answer = call(&numbers, &state, &store, &late_prer(&numbers, 9));
        let want = match (count, due) {
            _ if usize::from(count) != writes => Err((1, 0)),
            (_, 0) => Ok(0),
            (1 | 2, 1) => Err((11, 15)),
            _ => Err((1, 0)),
        };
        assert_eq!(answer, want, "{count} writes, due {due}, {writes}");
    }
}

/// Whether a waiting write is a WRA, so that no ROW packet comes; 0 where none waits.
#[test]
fn flags_of_writes() {
    let (numbers, store) = (set_h(2, 4, 0), vec![3; 4096]);
    for (flag, at, writes) in any_flags() {
        let mut state = fresh();
        put(&mut state, 640, 2, 1);
        put_writes(&mut state, &TWO[..writes], false);
        put(&mut state, WRITES[at] + CLOSES, 2, flag);
        let answer = call(&numbers, &state, &store, &late_prer(&numbers, 9));
        let want = match flag {
            0 => Ok(0),
            1 if at < writes => Err((11, 17)),
            _ => Err((1, 0)),
        };
        assert_eq!(answer, want, "{flag}, {at}, {writes}");
    }
}

/// Banks of which no two neighbours are both not closed; answers those that are open.
fn any_banks(random: &mut Random, numbers: &[u16; 16], state: &mut [u8]) -> Vec<usize> {
    let (mut open, mut below) = (Vec::new(), 0);
    let core = device_and_core(numbers).1;
    for bank in 0..32usize {
        let row = random.below(numbers[ROWS].into()) as u64;
        let mut tag = random.pick(&[0, 0, 0, row + 1, row + 1, 65_535]);
        if bank > 0 && are_neighbours(core, bank - 1, bank) && below != 0 {
            tag = 0;
        }
        put(state, 640 + 2 * bank, 2, tag);
        below = tag;
        if (1..65_535).contains(&tag) {
            open.push(bank);
        }
    }
    open
}

/// A state that is not refused, with any instants in range.
fn any_state(random: &mut Random, numbers: &[u16; 16]) -> Vec<u8> {
    let mut state = vec![0; STATE_BYTES];
    let instants = Instants::new(random, 300, 60);
    instants.put_lasts(random, &mut state);
    let open = any_banks(random, numbers, &mut state);
    let writes = instants.writes(random, &open, numbers[COLUMNS], true);
    let due = !writes.is_empty() && random.chance(3);
    put_writes(&mut state, &writes, due);
    let refr = random.below(numbers[ROWS].into());
    put(&mut state, REFR, 2, refr as u64);
    state[DATA..].copy_from_slice(&random.bytes(32));
    state
}

/// A record at an instant that some field of the state decides, give or take.
fn any_record(random: &mut Random, numbers: &[u16; 16], state: &[u8]) -> Vec<u8> {
    let field = |at: usize| instant(state, at) as u32;
    let latest = (0..640).chain(704..728).step_by(4).map(field);
    let latest = latest.filter(|at| *at <= LAST).max().unwrap_or(4);
    let mut packet = random.packet(numbers);
    let open: Vec<u32> = (0..32)
        .filter(|b| (1..65_535).contains(&tag(state, *b as usize)))
        .collect();
    if packet.command > NOCOP && !open.is_empty() && !random.chance(8) {
        packet.bank = random.pick(&open);
    }
    let core = device_and_core(numbers).1.into();
    let free: Vec<u32> = (0..32)
        .filter(|b| (0..32).all(|c| !near(core, *b, c) || tag(state, c as usize) == 0))
        .collect();
    if [ACT, REFA].contains(&packet.command) && !free.is_empty() && !random.chance(8) {
        packet.bank = random.pick(&free);
    }
    if packet.command >= NOCOP && random.chance(2) {
        packet.mask = 0xFFFF;
    }
    let t_cwd = u32::from(numbers[T_CWD]);
    if state[DUE] == 1 && !random.chance(8) {
        let at = (newest(state) as u32).wrapping_add(t_cwd);
        return record(numbers, at.wrapping_add(u32::from(random.chance(8))), None);
    }
    if packet.writes() && random.chance(16) {
        return record(numbers, (newest(state) as u32).wrapping_add(t_cwd), None);
    }
    let late = latest.wrapping_add(random.below(80) as u32);
    let any = field(4 * random.below(160));
    let about = any.wrapping_add(random.below(70) as u32);
    let at = random.pick(&[late, late, late, about, latest.wrapping_add(64)]);
    record(numbers, at, Some(packet))
}

/// Any states and any records: the model does what the tuned model does.
#[test]
fn any_states() {
    let (mut seen, mut random) = (Numbers::default(), Random::new(93));
    let mut rules = [0; 18];
    for _ in 0..rounds(80_000) {
        let numbers = small_numbers(&mut random);
        let (state, store) = (
            any_state(&mut random, &numbers),
            any_store(&mut random, &numbers),
        );
        let record = any_record(&mut random, &numbers, &state);
        let answer = call(&numbers, &state, &store, &record);
        seen.add(number(answer));
        if let Err((_, rule)) = answer {
            rules[rule as usize] += 1;
        }
    }
    seen.report("model, any states", &[0, 11]);
    println!("model, any states: rules {:?}", &rules[1..]);
    assert!(rules[1..].iter().all(|count| *count > 0), "{rules:?}");
}

/// A copy of model and store goes on alike.
#[test]
fn a_copy_goes_on_alike() {
    let (mut random, mut seen) = (Random::new(94), Seen::default());
    for _ in 0..50 {
        let numbers = small_numbers(&mut random);
        let list = list_bytes(&bytes(&numbers), &legal(&mut random, &numbers, 30));
        let mut run = Run::new(&numbers, any_store(&mut random, &numbers));
        let (before, after) = list.split_at(list.len() / 64 * 32);
        for record in before.chunks(32) {
            run.call(&mut seen, record, 16).unwrap();
        }
        let mut copy = run.clone();
        for one in [&mut run, &mut copy] {
            for record in after.chunks(32) {
                one.call(&mut seen, record, 16).unwrap();
            }
        }
        assert!(run.state == copy.state && run.store == copy.store);
    }
    seen.report("model, copies", &[0]);
}
