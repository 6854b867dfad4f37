//! Many requests in one call: `rdram_plan_all` and its wrappers against the reference, request by
//! request, and against calls of `rdram_plan`.

use crate::buffers::{guarded, lent, pattern};
use crate::calls::{typed, Seen};
use crate::plan_calls::{fresh, refusal, ENOUGH};
use crate::plan_streams::{bare, closing, read, wait, write, Maker, CLOSE, FLUSH, REFRESH};
use crate::random::{bytes, rounds, set_h, with_core, Random};
use crate::reference_plan::{state_fits, Planner as Reference, STATE_BYTES};
use crate::reference_state::WAITING;
use rdram::{raw, PlannedAll, Planner};

/// What a call must answer and leave: number, position, records and the next state.
#[derive(Clone, Debug, PartialEq)]
struct Want {
    number: u32,
    place: usize,
    list: Vec<u8>,
    state: Vec<u8>,
}

/// What is lent.
struct Case<'a> {
    settings: &'a [u8],
    state: &'a [u8],
    requests: &'a [u8],
    room: usize,
}

/// The requests one by one, up to the first that is refused: by `plan`, which is given a request and
/// the bytes that are left of the room, and by the state that is left.
fn in_turn(
    case: &Case,
    mut plan: impl FnMut(&[u8], usize) -> (Result<Vec<u8>, u32>, Vec<u8>),
) -> Want {
    let mut want = Want {
        number: 0,
        place: 0,
        list: Vec::new(),
        state: case.state.to_vec(),
    };
    for request in case.requests.chunks(24) {
        let (answer, state) = plan(request, case.room - want.list.len());
        want.state = state;
        match answer {
            Ok(records) => want.list.extend(records),
            Err(number) => {
                want.number = number;
                return want;
            }
        }
        want.place += 1;
    }
    want
}

/// Calls of `rdram_plan` in turn.
fn by_singles(case: &Case) -> Want {
    let settings = typed(case.settings).unwrap();
    let mut planner = Planner::from_bytes(case.state.try_into().unwrap());
    in_turn(case, |request, left| {
        let mut room = [0; ENOUGH];
        let room = &mut room[..left.min(ENOUGH)];
        let made = planner.plan_bytes(&settings, request, room);
        let answer = made.map(|made| room[..32 * made.records].to_vec());
        (
            answer.map_err(|refused| refused.number()),
            planner.to_bytes().to_vec(),
        )
    })
}

/// A call that is refused as a whole.
fn refused(case: &Case, number: u32) -> Want {
    Want {
        number,
        place: 0,
        list: Vec::new(),
        state: case.state.to_vec(),
    }
}

fn compare_c(case: &Case, want: &Want) {
    let (s, q) = (case.settings.to_vec(), case.requests.to_vec());
    let (mut planner, mut room) = (guarded(case.state), guarded(&pattern(case.room)));
    let (p, r) = (lent(&mut planner), lent(&mut room));
    // SAFETY: each pointer and length are those of one slice, and the slices do not overlap.
    let got = unsafe {
        raw::rdram_plan_all(
            s.as_ptr(),
            s.len(),
            p.as_mut_ptr(),
            p.len(),
            q.as_ptr(),
            q.len(),
            r.as_mut_ptr(),
            r.len(),
        )
    };
    let answer = raw::PlannedAll {
        number: want.number,
        place: want.place as u64,
        records: want.list.len() as u64 / 32,
    };
    let context = || format!("{:?}, room {}", case.requests, case.room);
    assert_eq!(got, answer, "{}", context());
    let mut after = pattern(case.room);
    after[..want.list.len()].copy_from_slice(&want.list);
    assert!(room == guarded(&after), "other records: {}", context());
    assert!(
        planner == guarded(&want.state),
        "another state: {}",
        context()
    );
    assert!(
        s == case.settings && q == case.requests,
        "an input changed: {}",
        context()
    );
}

fn compare_wrappers(case: &Case, want: &Want) {
    let (Some(settings), Ok(state)) = (
        typed(case.settings),
        <[u8; STATE_BYTES]>::try_from(case.state),
    ) else {
        return;
    };
    let answer = match want.number {
        1 | 13 => Err(refusal(want.number)),
        number => Ok(PlannedAll {
            records: &want.list,
            place: want.place,
            stop: (number != 0).then(|| refusal(number)),
        }),
    };
    let (mut planner, mut room) = (Planner::from_bytes(state), pattern(case.room));
    let got = planner.plan_all_bytes(&settings, case.requests, &mut room);
    assert_eq!(got, answer);
    assert!(planner.to_bytes().to_vec() == want.state);
    let (requests, rest) = case.requests.as_chunks::<24>();
    if rest.is_empty() {
        let (mut planner, mut room) = (Planner::from_bytes(state), pattern(case.room));
        assert_eq!(planner.plan_all(&settings, requests, &mut room), answer);
    }
}

fn compare(seen: &mut Seen, case: &Case, want: &Want) {
    compare_c(case, want);
    compare_wrappers(case, want);
    seen.add(want.number);
}

/// A planner of the library beside the reference.
struct Bench {
    settings: Vec<u8>,
    reference: Reference,
}

impl Bench {
    fn new(numbers: &[u16; 16]) -> Bench {
        let settings = bytes(numbers);
        let reference = Reference::fresh(&settings).expect("valid settings");
        Bench {
            settings,
            reference,
        }
    }

    /// Requests in one call, which the reference goes through one by one; answers what was wanted.
    fn call(&mut self, seen: &mut Seen, requests: &[u8], room: usize) -> Want {
        let state = self.reference.state();
        let case = Case {
            settings: &self.settings,
            state: &state,
            requests,
            room,
        };
        let want = in_turn(&case, |request, left| {
            let answer = self.reference.plan(request, left);
            (answer, self.reference.state())
        });
        assert!(want == by_singles(&case), "single calls: {requests:?}");
        compare(seen, &case, &want);
        want
    }
}

/// Requests of every kind but close. A write waits after most of them, none after one that closes its
/// bank.
fn stream() -> Vec<Vec<u8>> {
    vec![
        read(0, 0, 1),
        write(0, 0, 1, 3, &[1; 16]),
        write(4, 1, 2, 0xFFFF, &[2; 16]),
        wait(7),
        read(4, 1, 3),
        write(9, 0, 0, 0x8001, &[3; 16]),
        bare(REFRESH),
        write(31, 1, 3, 0, &[4; 16]),
        closing(read(20, 1, 2)),
        read(31, 1, 2),
        closing(write(31, 1, 0, 0x00FF, &[6; 16])),
        closing(write(31, 0, 1, 0xFFFF, &[7; 16])),
        bare(FLUSH),
        write(2, 0, 0, 0x0F0F, &[5; 16]),
        closing(read(2, 0, 1)),
        write(2, 1, 0, 0x3C3C, &[8; 16]),
    ]
}

/// A request that is refused under each number, but for 8, at every position.
#[test]
fn stops() {
    let bad = [
        (2, bare(200)),
        (3, {
            let mut request = bare(FLUSH);
            request[23] = 1;
            request
        }),
        (4, read(32, 0, 0)),
        (5, read(0, 2, 0)),
        (6, write(0, 0, 4, 1, &[0; 16])),
        (7, wait(u32::MAX)),
        (15, bare(CLOSE)),
    ];
    let mut seen = Seen::default();
    for core in [0, 1, 2] {
        for (number, request) in &bad {
            for at in 0..=stream().len() {
                let mut requests = stream();
                requests.insert(at, request.clone());
                let numbers = with_core(set_h(2, 4, 0), core);
                let want = Bench::new(&numbers).call(&mut seen, &requests.concat(), 16 * ENOUGH);
                let before = requests[..at].concat();
                let left = Bench::new(&numbers).call(&mut seen, &before, 16 * ENOUGH);
                if *number != 15 || left.state[WAITING] > 0 {
                    assert_eq!((want.number, want.place), (*number, at));
                }
            }
        }
    }
    seen.report("stops", &[0, 2, 3, 4, 5, 6, 7, 15]);
}

/// Every room up to the one that the stream needs: it ends inside each request.
#[test]
fn rooms() {
    let mut seen = Seen::default();
    let requests = stream().concat();
    let needed = Bench::new(&set_h(2, 4, 0))
        .call(&mut seen, &requests, 16 * ENOUGH)
        .list
        .len();
    for room in 0..needed {
        let want = Bench::new(&set_h(2, 4, 0)).call(&mut seen, &requests, room);
        assert_eq!(want.number, 8);
        assert!(want.list.len() <= room && room < want.list.len() + ENOUGH);
    }
    seen.report("rooms", &[0, 8]);
}

/// Random streams in parts of random lengths, with some requests damaged, rooms that are too short,
/// and some planners near the last instant. After a stop the planner goes on behind the request.
#[test]
fn streams() {
    let mut random = Random::new(23);
    let mut seen = Seen::default();
    for _ in 0..rounds(120) {
        let numbers = random.numbers();
        let maker = Maker::new(&mut random, &numbers);
        let mut bench = Bench::new(&numbers);
        if random.chance(4) {
            let late = wait(1_000_000_000 - 10 - random.below(600) as u32);
            bench.call(&mut seen, &late, 0);
        }
        for _ in 0..6 {
            let count = random.below(14);
            let mut requests = Vec::new();
            for _ in 0..count {
                let request = maker.request(&mut random);
                if request.len() == 24 {
                    requests.extend(request);
                }
            }
            let room = match random.below(3) {
                0 => random.below(16 * 32),
                _ => 14 * ENOUGH + random.below(32),
            };
            let want = bench.call(&mut seen, &requests, room);
            if want.place < requests.len() / 24 {
                bench.call(&mut seen, &requests[24 * (want.place + 1)..], 14 * ENOUGH);
            }
        }
    }
    seen.report("streams", &[0, 2, 3, 4, 5, 6, 7, 8, 15]);
}

/// Files of many requests, from the start, far on, and up to the last instant, beside single calls.
#[test]
fn long_files() {
    let mut seen = Seen::default();
    let (settings, state) = (bytes(&set_h(2, 4, 0)), fresh());
    for start in [0, 936_000_000, 999_800_000] {
        let mut requests = wait(start);
        for i in 0..80_000 {
            let (bank, column) = (i / 1000 % 32, i % 4);
            let (bank, column) = (bank as u8, column as u8);
            requests.extend(match i % 11 {
                10 => closing(write(bank, 0, column, 0xF00F, &[i as u8; 16])),
                9 => closing(read(bank, 0, column)),
                6 => write(bank, 0, column, 0xF00F, &[i as u8; 16]),
                _ => read(bank, 0, column),
            });
        }
        let case = Case {
            settings: &settings,
            state: &state,
            requests: &requests,
            room: 300_000 * 32,
        };
        compare(&mut seen, &case, &by_singles(&case));
    }
    seen.report("long files", &[0, 7]);
}

/// Settings and states with changed bits, and lengths that are not of whole requests: the call is
/// refused before any request is planned, an empty one too, and 1 comes before 13.
#[test]
fn refused_calls() {
    let mut random = Random::new(24);
    let mut seen = Seen::default();
    for _ in 0..rounds(3000) {
        let numbers = random.numbers();
        let (mut settings, mut state) = (bytes(&numbers), fresh());
        let mut requests = [read(random.below(32) as u8, 0, 0), read(0, 0, 0)].concat();
        requests.truncate(random.below(3 * 24));
        match random.below(4) {
            0 => settings[2 * random.below(16) + 1] ^= 0x80,
            1 => state[random.below(STATE_BYTES)] ^= 1 << random.below(8),
            2 => state.truncate(random.below(STATE_BYTES)),
            _ => {}
        }
        let room = random.below(3 * 32);
        let case = Case {
            settings: &settings,
            state: &state,
            requests: &requests,
            room,
        };
        let right = settings == bytes(&numbers) && state_fits(&numbers, &state);
        let want = match (right, requests.len() % 24) {
            (false, _) => refused(&case, 1),
            (true, 0) => by_singles(&case),
            _ => refused(&case, 13),
        };
        compare(&mut seen, &case, &want);
    }
    seen.report("refused calls", &[0, 1, 8, 13]);
}
