//! Planner states: damaged field by field, and any that are not refused, also those that no run
//! reaches. For the latter the tuned planner, which needs no list, says what is wanted.

use crate::buffers::fresh_refused;
use crate::calls::Seen as Numbers;
use crate::plan_calls::{compare, fresh, Case, Run, Seen, Want, ENOUGH};
use crate::plan_streams::{bare, read, wait, write, Maker, CLOSE, FLUSH};
use crate::random::{bytes, rounds, set_h, with_core, Random};
use crate::reference::{device_and_core, COLUMNS, CORES, ROWS};
use crate::reference_plan::{state_fits, STATE_BYTES};
use crate::reference_state::{put, put_instant, put_writes, CLOSES, DUE, WAITING, WRITES};
use crate::rule_settings::rule_numbers;
use crate::state_bytes::{
    any_counts, any_flags, are_neighbours, assert_every_byte, ends, fields, pairs_of_banks, unused,
    Field, Instants, TWO, UNUSED,
};
use crate::tuned_plan;
use rdram::raw::rdram_planner_fresh;
use std::ops::Range;

/// A call from any bytes as planner; answers its number.
fn call(numbers: &[u16; 16], planner: &[u8], request: &[u8], room: usize) -> u32 {
    let settings = bytes(numbers);
    let (mut next, mut records) = (planner.to_vec(), vec![0; room]);
    let planned = tuned_plan::plan(&settings, &mut next, request, &mut records);
    let refused = planned == Err(1);
    assert_eq!(refused, !state_fits(numbers, planner), "{planner:?}");
    let want: Want = planned.map(|made| (records[..32 * made].to_vec(), next));
    let case = Case {
        settings: &settings,
        planner,
        request,
        room,
    };
    compare(&case, &want);
    want.err().unwrap_or(0)
}

/// A planner after some requests.
fn reached(random: &mut Random, numbers: &[u16; 16]) -> Vec<u8> {
    let (mut run, maker) = (Run::new(numbers), Maker::new(random, numbers));
    for _ in 0..2 + random.below(10) {
        let request = maker.request(random);
        _ = run.call(&mut Seen::default(), &request, ENOUGH);
    }
    run.state
}

// What a planner has after the bytes that it has in common with a model: now, the refresh bank, two
// masks, and bytes that are 0.
const NOW: usize = 752;
const REFRESH: usize = 756;
const MASKS: [usize; 2] = [760, 762];
const OWN_UNUSED: [Range<usize>; 2] = [758..760, 764..STATE_BYTES];

fn own() -> Vec<Field> {
    let [before, after] = OWN_UNUSED.map(unused);
    let first = [(NOW, 4), (REFRESH, 2)].into_iter().chain(before);
    first.chain(MASKS.map(|at| (at, 2))).chain(after).collect()
}

#[test]
fn fields_have_every_byte() {
    assert_every_byte(&fields(&own()), STATE_BYTES);
}

/// Each field at and beyond the ends of its range; a request that makes no record shows a state that
/// comes back unchanged.
#[test]
fn damaged_field_by_field() {
    let (mut seen, mut random) = (Numbers::default(), Random::new(71));
    let mut refused = vec![0; STATE_BYTES];
    for _ in 0..60 {
        let numbers = rule_numbers(&mut random);
        let state = reached(&mut random, &numbers);
        for (at, width) in fields(&own()) {
            for value in ends(&numbers) {
                let mut damaged = state.clone();
                put(&mut damaged, at, width, value);
                let number = call(&numbers, &damaged, &wait(0), 0);
                seen.add(number);
                refused[at] += number;
            }
        }
    }
    seen.report("plan, states damaged field by field", &[0, 1]);
    for (at, _) in fields(&own()) {
        // Any mask will do.
        assert_eq!(refused[at] == 0, MASKS.contains(&at), "the field at {at}");
    }
}

/// Each bit of each byte that is 0 in all states: those too that say a WRA waits.
#[test]
fn unused_bytes() {
    let (mut seen, mut random) = (Numbers::default(), Random::new(74));
    for _ in 0..20 {
        let numbers = rule_numbers(&mut random);
        let state = reached(&mut random, &numbers);
        assert_eq!(call(&numbers, &state, &wait(0), 0), 0);
        let flags = WRITES.map(|at| at + CLOSES..at + 4);
        let zeros = [UNUSED].into_iter().chain(flags).chain(OWN_UNUSED);
        for at in zeros.flatten() {
            for bit in 0..8 {
                let mut damaged = state.clone();
                damaged[at] = 1 << bit;
                let number = call(&numbers, &damaged, &wait(0), 0);
                assert_eq!(number, 1, "bit {bit} of byte {at}");
                seen.add(number);
            }
        }
    }
    seen.report("plan, states with bytes that are not used", &[1]);
}

/// Any byte changed, and a request of any kind.
#[test]
fn damaged_bytes() {
    let (mut seen, mut random) = (Numbers::default(), Random::new(72));
    for _ in 0..rounds(3_000) {
        let numbers = rule_numbers(&mut random);
        let (state, maker) = (
            reached(&mut random, &numbers),
            Maker::new(&mut random, &numbers),
        );
        for _ in 0..40 {
            let mut damaged = state.clone();
            for _ in 0..1 + random.below(3) {
                let any = random.below(STATE_BYTES);
                let late = 640 + random.below(STATE_BYTES - 640);
                let at = random.pick(&[any, late]);
                let flipped = damaged[at] ^ 1 << random.below(8);
                damaged[at] = random.pick(&[0, 1, 2, flipped]);
            }
            let request = match random.below(64) {
                0 => wait(u32::MAX),
                _ => maker.request(&mut random),
            };
            seen.add(call(&numbers, &damaged, &request, ENOUGH));
        }
    }
    let numbers = [0, 1, 2, 3, 4, 5, 6, 7, 13, 15];
    seen.report("plan, states with damaged bytes", &numbers);
}

#[test]
fn lengths_of_planners() {
    let mut long = fresh();
    long.extend(fresh());
    for length in 0..=long.len() {
        let number = call(&set_h(2, 4, 0), &long[..length], &read(0, 0, 0), ENOUGH);
        assert_eq!(number == 1, length != STATE_BYTES);
        if length != STATE_BYTES {
            fresh_refused(rdram_planner_fresh, length);
        }
    }
}

/// Settings and planner come before the request: all faults at once give 1.
#[test]
fn settings_first() {
    let (good, state) = (set_h(2, 4, 0), fresh());
    assert_eq!(call(&good, &state[1..], &[9; 25], 0), 1);
    for figure in 0..16 {
        let mut numbers = good;
        numbers[figure] = 0xFFFF;
        assert_eq!(refused_settings(&bytes(&numbers), &state), 1);
    }
    for length in (0..32).chain(33..64) {
        let long = [bytes(&good), bytes(&good)].concat();
        assert_eq!(refused_settings(&long[..length], &state), 1);
    }
}

fn refused_settings(settings: &[u8], planner: &[u8]) -> u32 {
    let case = Case {
        settings,
        planner,
        request: &[9; 25],
        room: 0,
    };
    compare(&case, &Err(1));
    1
}

/// Two open banks: refused where they are neighbours. 15 and 16 are such in one run of 32 alone, and
/// no banks are without dependency.
#[test]
fn open_neighbours() {
    let mut seen = Numbers::default();
    for (a, b) in pairs_of_banks() {
        let mut state = fresh();
        put(&mut state, 640 + 2 * a, 2, 1);
        put(&mut state, 640 + 2 * b, 2, 2);
        for core in CORES {
            let numbers = with_core(set_h(2, 4, 0), core);
            let number = call(&numbers, &state, &bare(CLOSE), ENOUGH);
            let refused = are_neighbours(core, a, b);
            assert_eq!(number == 1, refused, "banks {a} and {b}, form {core}");
            seen.add(number);
        }
    }
    seen.report("plan, two open banks", &[0, 1]);
}

/// Each waiting write needs its bank open by ACT. Bank 9 is open, so that 8 and 10 are closed where
/// banks have neighbours.
#[test]
fn banks_of_the_waiting_writes() {
    for (core, bank) in CORES
        .into_iter()
        .flat_map(|core| (0..=255).map(move |b| (core, b)))
    {
        let numbers = with_core(set_h(2, 4, 0), core);
        for tag in [0, 1, 2, 3, 65_535] {
            let (write, other) = ((bank, 0, 4, false), (9, 3, 8, false));
            for writes in [vec![write], vec![write, other], vec![other, write]] {
                let mut state = fresh();
                put_writes(&mut state, &writes, false);
                put(&mut state, 640 + 18, 2, 1);
                put(&mut state, 640 + 2 * (bank as usize % 32), 2, tag);
                let number = call(&numbers, &state, &bare(FLUSH), ENOUGH);
                let alone = core == 2 || (bank != 8 && bank != 10);
                let open = bank < 32 && (tag == 1 || tag == 2) && alone;
                assert_eq!(number == 0, open, "{writes:?}, {tag}, form {core}");
            }
        }
    }
}

/// Two writes wait at most, the fields of others are 0, and no data are due.
#[test]
fn counts_of_writes() {
    let numbers = set_h(2, 4, 0);
    for (count, due, writes) in any_counts() {
        let mut state = fresh();
        put(&mut state, 640, 2, 1);
        put_writes(&mut state, &TWO[..writes], false);
        (state[WAITING], state[DUE]) = (count, due);
        let number = call(&numbers, &state, &bare(FLUSH), ENOUGH);
        let fits = (usize::from(count), due) == (writes, 0);
        assert_eq!(
            number,
            u32::from(!fits),
            "{count} writes, due {due}, {writes}"
        );
    }
}

/// Whether a waiting write is a WRA: none is between requests.
#[test]
fn flags_of_writes() {
    let numbers = set_h(2, 4, 0);
    for (flag, at, writes) in any_flags() {
        let mut state = fresh();
        put(&mut state, 640, 2, 1);
        put_writes(&mut state, &TWO[..writes], false);
        put(&mut state, WRITES[at] + CLOSES, 2, flag);
        let number = call(&numbers, &state, &bare(FLUSH), ENOUGH);
        assert_eq!(number, u32::from(flag != 0), "{flag}, {at}, {writes}");
    }
}

/// A state that is not refused, with any instants in range.
fn any_state(random: &mut Random, numbers: &[u16; 16]) -> Vec<u8> {
    let mut state = vec![0; STATE_BYTES];
    let instants = Instants::new(random, 200, 4_096);
    instants.put_lasts(random, &mut state);
    let (mut open, core) = (Vec::new(), device_and_core(numbers).1);
    for bank in 0..32usize {
        let free = |open: &usize| !are_neighbours(core, *open, bank);
        if open.last().is_none_or(free) && random.chance(2) {
            let row = random.below(numbers[ROWS].into()) as u64;
            put(&mut state, 640 + 2 * bank, 2, row + 1);
            open.push(bank);
        }
    }
    let writes = instants.writes(random, &open, numbers[COLUMNS], false);
    put_writes(&mut state, &writes, false);
    let now = instants.instant(random, false);
    put_instant(&mut state, NOW, now);
    put(&mut state, REFRESH, 2, random.below(32) as u64);
    for at in MASKS {
        put(&mut state, at, 2, random.below(0x10000) as u64);
    }
    state
}

/// Any states: a wait of 0 leaves every byte, and any request does what the tuned planner does.
#[test]
fn any_states() {
    let (mut seen, mut random) = (Numbers::default(), Random::new(73));
    for _ in 0..rounds(120_000) {
        let numbers = rule_numbers(&mut random);
        let (state, maker) = (
            any_state(&mut random, &numbers),
            Maker::new(&mut random, &numbers),
        );
        let settings = bytes(&numbers);
        let case = Case {
            settings: &settings,
            planner: &state,
            request: &wait(0),
            room: 0,
        };
        compare(&case, &Ok((vec![], state.clone())));
        let request = maker.request(&mut random);
        let some = random.below(ENOUGH);
        let room = random.pick(&[ENOUGH, ENOUGH, ENOUGH, some]);
        seen.add(call(&numbers, &state, &request, room));
    }
    let numbers = [0, 2, 3, 4, 5, 6, 7, 8, 13, 15];
    seen.report("plan, any states", &numbers);
}

/// Two writes wait, are read by their own place and by others, and a copy of the state goes on alike.
#[test]
fn a_copy_goes_on_alike() {
    let numbers = set_h(2, 4, 0);
    let mut run = Run::new(&numbers);
    let mut seen = Seen::default();
    for request in [
        write(7, 1, 3, 0x0FF0, &[3; 16]),
        write(7, 1, 1, 3, &[4; 16]),
    ] {
        run.call(&mut seen, &request, ENOUGH).unwrap();
    }
    assert_eq!(run.state[WAITING], 2);
    let mut copy = run.clone();
    for request in [read(7, 1, 2), read(7, 1, 3), bare(FLUSH), bare(CLOSE)] {
        run.call(&mut seen, &request, ENOUGH).unwrap();
    }
    for request in [read(7, 1, 2), read(7, 1, 3), bare(FLUSH), bare(CLOSE)] {
        copy.call(&mut seen, &request, ENOUGH).unwrap();
    }
    assert!(run.state == copy.state && run.list == copy.list);
}
