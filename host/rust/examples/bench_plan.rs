//! Times plan calls on streams of 100,000 requests, by the library and by two rivals in plain Rust:
//! `bench_plan [REQUESTS [RUNS [STREAM]]]`.
//!
//! The rivals take the same bytes as the C call, and test, decode and encode the planner's 768 bytes
//! each time. Further rows have the rivals without bytes: they keep their planner between calls; and
//! the same requests in calls of `rdram_plan_all`, beside those rivals and beside `rdram_plan`.

mod common;
mod rivals;

use common::{below, best, print_head, print_row, streams, time, timed, Size, SETTINGS, SLICE};
use rdram::{raw, RECORD_BYTES, REQUEST_BYTES, REQUEST_RECORDS};
use rivals::plain::planner as plain;
use rivals::tuned_plan::{self as tuned, STATE_BYTES};
use rivals::tuned_state::{Figures, MOST};
use std::hint::black_box;

const ROOM: usize = REQUEST_RECORDS * RECORD_BYTES;
/// Requests of one call of `rdram_plan_all`.
const PART: usize = 100;

type Request = [u8; REQUEST_BYTES];
type State = [u8; STATE_BYTES];
/// The number of records, or that of a refusal.
type Answer = Result<usize, u32>;

// ---- Calls ----

fn library(settings: &[u8], state: &mut [u8], request: &[u8], room: &mut [u8]) -> Answer {
    // SAFETY: each pointer and length are those of one slice, and the slices do not overlap.
    let planned = unsafe {
        raw::rdram_plan(
            settings.as_ptr(),
            settings.len(),
            state.as_mut_ptr(),
            state.len(),
            request.as_ptr(),
            request.len(),
            room.as_mut_ptr(),
            room.len(),
        )
    };
    match planned.number {
        0 => Ok(planned.records as usize),
        number => Err(number),
    }
}

/// Many requests in one call.
fn library_all(settings: &[u8], state: &mut [u8], requests: &[Request], room: &mut [u8]) -> Answer {
    let bytes = requests.as_flattened();
    // SAFETY: each pointer and length are those of one slice, and the slices do not overlap.
    let planned = unsafe {
        raw::rdram_plan_all(
            settings.as_ptr(),
            settings.len(),
            state.as_mut_ptr(),
            state.len(),
            bytes.as_ptr(),
            bytes.len(),
            room.as_mut_ptr(),
            room.len(),
        )
    };
    match planned.number {
        0 => Ok(planned.records as usize),
        number => Err(number),
    }
}

#[inline(never)]
fn plain_bytes(settings: &[u8], state: &mut [u8], request: &[u8], room: &mut [u8]) -> Answer {
    plain::plan(settings, state, request, room)
}

#[inline(never)]
fn tuned_bytes(settings: &[u8], state: &mut [u8], request: &[u8], room: &mut [u8]) -> Answer {
    tuned::plan(settings, state, request, room)
}

#[inline(never)]
fn plain_kept(
    planner: &mut plain::Planner,
    f: &Figures,
    request: &[u8],
    room: &mut [u8],
) -> Answer {
    let (next, records) = planner.plan(f, request, room)?;
    *planner = next;
    Ok(records)
}

#[inline(never)]
fn tuned_kept(
    planner: &mut tuned::Planner,
    f: &Figures,
    request: &[u8],
    room: &mut [u8],
) -> Answer {
    planner.plan(f, request, room)
}

type OnBytes = fn(&[u8], &mut [u8], &[u8], &mut [u8]) -> Answer;
type Kept<P> = fn(&mut P, &Figures, &[u8], &mut [u8]) -> Answer;

const ON_BYTES: [OnBytes; 3] = [library, plain_bytes, tuned_bytes];

fn fresh() -> State {
    let mut state = [0; STATE_BYTES];
    // SAFETY: pointer and length are those of one array.
    let number = unsafe { raw::rdram_planner_fresh(state.as_mut_ptr(), state.len()) };
    assert_eq!(number, 0);
    state
}

// ---- Comparison ----

/// The library and the rivals make the same records, which pass the check, and the same states.
fn compare(requests: &[Request]) {
    let (settings, mut list, mut x) = (SETTINGS.to_bytes(), Vec::new(), 5);
    let f = Figures::of(&settings).unwrap();
    let mut states = [fresh(); 3];
    let mut plain = plain::Planner::fresh();
    let mut tuned = tuned::Planner::fresh();
    for request in requests {
        compare_damaged(&mut x, &settings, &states[0], request);
        let mut rooms = [[1; ROOM]; 5];
        let [rest @ .., a, b] = &mut rooms;
        let answers =
            [0, 1, 2].map(|i| ON_BYTES[i](&settings, &mut states[i], request, &mut rest[i]));
        let used = answers[0].unwrap();
        assert_eq!(answers, [Ok(used); 3]);
        assert_eq!(plain_kept(&mut plain, &f, request, a), Ok(used));
        assert_eq!(tuned_kept(&mut tuned, &f, request, b), Ok(used));
        assert!(rooms == [rooms[0]; 5], "other records");
        let mut kept = [[0; STATE_BYTES]; 2];
        plain.encode(&mut kept[0]);
        tuned.encode(&mut kept[1]);
        assert!(states == [states[0]; 3], "other states");
        assert!(kept == [states[0]; 2], "other states");
        list.extend_from_slice(&rooms[0][..RECORD_BYTES * used]);
    }
    assert_eq!(rdram::check(&SETTINGS, &list), Ok(()));
    compare_all(requests, &list, &states[0]);
}

/// The requests in parts make the same list and state.
fn compare_all(requests: &[Request], list: &[u8], last: &State) {
    let (settings, mut state, mut made) = (SETTINGS.to_bytes(), fresh(), Vec::new());
    for part in requests.chunks(PART) {
        let mut room = vec![1; PART * ROOM];
        let used = library_all(&settings, &mut state, part, &mut room).unwrap();
        made.extend_from_slice(&room[..RECORD_BYTES * used]);
    }
    assert!(made == list && state == *last, "other records in one call");
}

/// A call with something changed, mostly refused, has the same answer and leaves the same bytes.
fn compare_damaged(x: &mut u64, settings: &[u8], state: &State, request: &Request) {
    let (mut state, mut request, mut room) = (*state, *request, ROOM);
    let bit = 1 << below(x, 8);
    match below(x, 4) {
        0 => state[below(x, STATE_BYTES as u64) as usize] ^= bit,
        1 => request[below(x, REQUEST_BYTES as u64) as usize] ^= bit,
        2 => room = below(x, 4 * RECORD_BYTES as u64) as usize,
        _ => state[752..756].copy_from_slice(&(MOST - below(x, 99) as u32).to_le_bytes()),
    }
    let results = ON_BYTES.map(|call| {
        let (mut state, mut records) = (state, [1; ROOM]);
        let answer = call(settings, &mut state, &request, &mut records[..room]);
        (answer, state, records)
    });
    assert!(results[0] == results[1], "plain: another answer");
    assert!(results[0] == results[2], "tuned: another answer");
}

// ---- Times ----

#[inline(never)] // so that instructions can be counted by call
fn time_bytes(call: OnBytes, requests: &[Request]) -> Vec<f64> {
    let (settings, mut state, mut room) = (SETTINGS.to_bytes(), fresh(), [0; ROOM]);
    time(requests, |request| {
        call(&settings, &mut state, request, &mut room)
    })
}

fn time_all(requests: &[Request]) -> Vec<f64> {
    let (settings, mut state, mut room) = (SETTINGS.to_bytes(), fresh(), vec![0; PART * ROOM]);
    let parts: Vec<&[Request]> = requests.chunks(PART).collect();
    let slice_time = |slice: &[&[Request]]| {
        timed(|| {
            for part in slice {
                let part = black_box(part);
                black_box(library_all(&settings, &mut state, part, &mut room)).unwrap();
            }
        })
    };
    parts.chunks(SLICE / PART).map(slice_time).collect()
}

/// Each request from a copy of the same planner: the copy is in the times.
fn time_from(first: &State, call: OnBytes, requests: &[Request]) -> Vec<f64> {
    let (settings, mut room) = (SETTINGS.to_bytes(), [0; ROOM]);
    time(requests, |request| {
        let mut state = *first;
        call(&settings, &mut state, request, &mut room)
    })
}

fn time_kept<P>(mut planner: P, call: Kept<P>, requests: &[Request]) -> Vec<f64> {
    let (f, mut room) = (Figures::of(&SETTINGS.to_bytes()).unwrap(), [0; ROOM]);
    time(requests, |request| {
        call(&mut planner, &f, request, &mut room)
    })
}

fn main() {
    let size = Size::from_arguments(100_000, 15);
    let all = streams::all(&SETTINGS, size.count);
    print_head();
    for (name, requests) in all.iter().filter(|(name, _)| size.has(name)) {
        compare(requests);
        let [library, plain, tuned, plain_kept, tuned_kept, all] = best(
            size.count,
            size.runs,
            [
                &mut || time_bytes(library, requests),
                &mut || time_bytes(plain_bytes, requests),
                &mut || time_bytes(tuned_bytes, requests),
                &mut || time_kept(plain::Planner::fresh(), plain_kept, requests),
                &mut || time_kept(tuned::Planner::fresh(), tuned_kept, requests),
                &mut || time_all(requests),
            ],
        );
        print_row("`rdram_plan`", name, library, plain, Some(tuned));
        print_row(
            "`rdram_plan`, rivals without bytes",
            name,
            library,
            plain_kept,
            Some(tuned_kept),
        );
        print_row(
            "`rdram_plan_all`, rivals without bytes",
            name,
            all,
            plain_kept,
            Some(tuned_kept),
        );
        print_row(
            "`rdram_plan_all` beside `rdram_plan`",
            name,
            all,
            library,
            None,
        );
    }
    singles(&size);
}

/// Single requests, each from a planner in which bank 0 alone is open.
fn singles(size: &Size) {
    let open = streams::OPEN.to_bytes();
    let mut first = fresh();
    library(&SETTINGS.to_bytes(), &mut first, &open, &mut [0; ROOM]).unwrap();
    for (name, request) in streams::SINGLES.iter().filter(|(name, _)| size.has(name)) {
        let request = request.to_bytes();
        compare(&[open, request]);
        let requests = vec![request; size.count];
        let [library, plain, tuned] = best(
            size.count,
            size.runs,
            [
                &mut || time_from(&first, library, &requests),
                &mut || time_from(&first, plain_bytes, &requests),
                &mut || time_from(&first, tuned_bytes, &requests),
            ],
        );
        print_row("`rdram_plan`", name, library, plain, Some(tuned));
    }
}
