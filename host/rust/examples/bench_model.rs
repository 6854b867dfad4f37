//! Times model calls on the records of planned streams, 100,000 each, by the library and by two
//! rivals in plain Rust: `bench_model [RECORDS [RUNS [STREAM]]]`.
//!
//! The rivals take the same bytes as the C call, and test, decode and encode the model's 792 bytes
//! each time. Further rows have the rivals without bytes: they keep their model between calls. The
//! store is small enough to stay in the cache.

mod common;
mod rivals;

use common::{below, best, print_head, print_row, streams, time, Size};
use rdram::{raw, Planner, Settings, RECORD_BYTES, REQUEST_BYTES, REQUEST_RECORDS};
use rivals::plain::model as plain;
use rivals::tuned_model::{self as tuned, Event, MODEL_BYTES};
use rivals::tuned_records::Refused;
use rivals::tuned_state::Figures;

const SETTINGS: Settings = Settings {
    rows: 16,
    columns: 32,
    ..common::SETTINGS
};

type Record = [u8; RECORD_BYTES];
type State = [u8; MODEL_BYTES];
type Answer = Result<Event, Refused>;

/// The first records that a stream makes.
fn records(requests: &[[u8; REQUEST_BYTES]]) -> Vec<Record> {
    let (mut planner, mut list) = (Planner::fresh(), Vec::new());
    for request in requests {
        let mut room = [[0; RECORD_BYTES]; REQUEST_RECORDS];
        let made = planner.plan_bytes(&SETTINGS, request, room.as_flattened_mut());
        list.extend_from_slice(&room[..made.unwrap().records]);
    }
    assert_eq!(rdram::check(&SETTINGS, list.as_flattened()), Ok(()));
    list.truncate(requests.len());
    list
}

// ---- Calls ----

fn library(
    settings: &[u8],
    state: &mut [u8],
    store: &mut [u8],
    record: &[u8],
    answer: &mut [u8],
) -> Answer {
    // SAFETY: each pointer and length are those of one slice, and the slices do not overlap.
    let stepped = unsafe {
        raw::rdram_model_step(
            settings.as_ptr(),
            settings.len(),
            state.as_mut_ptr(),
            state.len(),
            store.as_mut_ptr(),
            store.len(),
            record.as_ptr(),
            record.len(),
            answer.as_mut_ptr(),
            answer.len(),
        )
    };
    let raw::Stepped { number, rule, .. } = stepped;
    match (number, stepped.event) {
        (0, 0) => Ok(Event::Neither),
        (0, 1) => Ok(Event::Read),
        (0, _) => Ok(Event::Retired(stepped.bytes)),
        _ => Err(Refused { number, rule }),
    }
}

#[inline(never)]
fn plain_bytes(
    settings: &[u8],
    state: &mut [u8],
    store: &mut [u8],
    record: &[u8],
    answer: &mut [u8],
) -> Answer {
    plain::step(settings, state, store, record, answer)
}

#[inline(never)]
fn tuned_bytes(
    settings: &[u8],
    state: &mut [u8],
    store: &mut [u8],
    record: &[u8],
    answer: &mut [u8],
) -> Answer {
    tuned::step(settings, state, store, record, answer)
}

#[inline(never)]
fn plain_kept(
    model: &mut plain::Model,
    f: &Figures,
    store: &mut [u8],
    record: &[u8],
    answer: &mut [u8],
) -> Answer {
    let (next, event) = model.step(f, store, record, answer)?;
    *model = next;
    Ok(event)
}

#[inline(never)]
fn tuned_kept(
    model: &mut tuned::Model,
    f: &Figures,
    store: &mut [u8],
    record: &[u8],
    answer: &mut [u8],
) -> Answer {
    model.step(f, store, record, answer)
}

type OnBytes = fn(&[u8], &mut [u8], &mut [u8], &[u8], &mut [u8]) -> Answer;
type Kept<M> = fn(&mut M, &Figures, &mut [u8], &[u8], &mut [u8]) -> Answer;

const ON_BYTES: [OnBytes; 3] = [library, plain_bytes, tuned_bytes];

fn fresh() -> State {
    let mut state = [0; MODEL_BYTES];
    // SAFETY: pointer and length are those of one array.
    let number = unsafe { raw::rdram_model_fresh(state.as_mut_ptr(), state.len()) };
    assert_eq!(number, 0);
    state
}

// ---- Comparison ----

/// The library and the rivals answer the same to each record, and leave the same states and stores.
fn compare(list: &[Record]) {
    let (settings, mut x) = (SETTINGS.to_bytes(), 5);
    let f = Figures::of(&settings).unwrap();
    let first: Vec<u8> = (0..SETTINGS.store_bytes()).map(|i| (i * 7) as u8).collect();
    let mut stores: [Vec<u8>; 5] = std::array::from_fn(|_| first.clone());
    let mut damaged: [Vec<u8>; 3] = std::array::from_fn(|_| first.clone());
    let mut states = [fresh(); 3];
    let mut plain = plain::Model::fresh();
    let mut tuned = tuned::Model::fresh();
    for record in list {
        compare_damaged(&mut x, &settings, &states[0], &mut damaged, record);
        let mut answers = [[1; 16]; 5];
        let [rest @ .., a, b] = &mut answers;
        let events = [0, 1, 2].map(|i| {
            let store = &mut stores[i];
            ON_BYTES[i](&settings, &mut states[i], store, record, &mut rest[i])
        });
        assert!(events[0].is_ok());
        assert_eq!(events, [events[0]; 3]);
        assert_eq!(
            plain_kept(&mut plain, &f, &mut stores[3], record, a),
            events[0]
        );
        assert_eq!(
            tuned_kept(&mut tuned, &f, &mut stores[4], record, b),
            events[0]
        );
        assert!(answers == [answers[0]; 5], "other answers");
        let mut kept = [[0; MODEL_BYTES]; 2];
        plain.encode(&mut kept[0]);
        tuned.encode(&mut kept[1]);
        assert!(states == [states[0]; 3], "other states");
        assert!(kept == [states[0]; 2], "other states");
    }
    assert!(stores.iter().all(|s| *s == stores[0]), "other stores");
    assert!(damaged.iter().all(|s| *s == damaged[0]), "other stores");
}

/// A call with something changed, mostly refused, has the same answer and leaves the same bytes.
fn compare_damaged(
    x: &mut u64,
    settings: &[u8],
    state: &State,
    stores: &mut [Vec<u8>; 3],
    record: &Record,
) {
    let (mut state, mut record, mut room) = (*state, *record, 16);
    let bit = 1 << below(x, 8);
    match below(x, 8) {
        0..4 => state[below(x, MODEL_BYTES as u64) as usize] ^= bit,
        4..7 => record[below(x, RECORD_BYTES as u64) as usize] ^= bit,
        _ => room = below(x, 16) as usize,
    }
    let results = [0, 1, 2].map(|i| {
        let (mut state, mut answer, store) = (state, [1; 16], &mut stores[i]);
        let event = ON_BYTES[i](settings, &mut state, store, &record, &mut answer[..room]);
        (event, state, answer)
    });
    assert!(results[0] == results[1], "plain: another answer");
    assert!(results[0] == results[2], "tuned: another answer");
}

// ---- Times ----

#[inline(never)] // so that instructions can be counted by call
fn time_bytes(call: OnBytes, store: &mut [u8], list: &[Record]) -> Vec<f64> {
    let (settings, mut state, mut answer) = (SETTINGS.to_bytes(), fresh(), [0; 16]);
    time(list, |record| {
        call(&settings, &mut state, store, record, &mut answer)
    })
}

fn time_kept<M>(mut model: M, call: Kept<M>, store: &mut [u8], list: &[Record]) -> Vec<f64> {
    let (f, mut answer) = (Figures::of(&SETTINGS.to_bytes()).unwrap(), [0; 16]);
    time(list, |record| {
        call(&mut model, &f, store, record, &mut answer)
    })
}

fn main() {
    let size = Size::from_arguments(100_000, 15);
    let all = streams::all(&SETTINGS, size.count);
    let store = &std::cell::RefCell::new(vec![0; SETTINGS.store_bytes()]);
    print_head();
    for (name, requests) in all.iter().filter(|(name, _)| size.has(name)) {
        let list = &records(requests);
        assert_eq!(list.len(), size.count);
        compare(list);
        let bytes = |call| time_bytes(call, &mut store.borrow_mut(), list);
        let [library, plain, tuned, plain_kept, tuned_kept] = best(
            size.count,
            size.runs,
            [
                &mut || bytes(library),
                &mut || bytes(plain_bytes),
                &mut || bytes(tuned_bytes),
                &mut || {
                    let fresh = plain::Model::fresh();
                    time_kept(fresh, plain_kept, &mut store.borrow_mut(), list)
                },
                &mut || {
                    let fresh = tuned::Model::fresh();
                    time_kept(fresh, tuned_kept, &mut store.borrow_mut(), list)
                },
            ],
        );
        print_row("`rdram_model_step`", name, library, plain, Some(tuned));
        print_row(
            "`rdram_model_step`, rivals without bytes",
            name,
            library,
            plain_kept,
            Some(tuned_kept),
        );
    }
}
