//! Plan calls of the library, each compared with what is wanted: C functions and safe wrappers. The
//! tuned planner of the benchmark is compared along with them.

use crate::buffers::{self, guarded, lent, pattern};
use crate::calls::{typed, Seen as Numbers};
use crate::plan_streams::{CLOSE, FLUSH, READ, READ_CLOSE, REFRESH, WAIT, WRITE, WRITE_CLOSE};
use crate::random::bytes;
use crate::reference::{NOCOP, PRER, RD, RDA, WR, WRA};
use crate::reference_plan::{self as reference, STATE_BYTES};
use crate::reference_state::{instant, tag, WAITING};
use crate::tuned_plan;
use rdram::{raw, Planned, Planner, Refusal, Request};
use std::collections::BTreeMap;

/// What a call must do: the number of a refusal, or the new records and the next state.
pub type Want = Result<(Vec<u8>, Vec<u8>), u32>;

/// What is lent to a call.
pub struct Case<'a> {
    pub settings: &'a [u8],
    pub planner: &'a [u8],
    pub request: &'a [u8],
    /// Bytes of the room.
    pub room: usize,
}

/// What a wrapper must say of a refusal.
pub fn refusal(number: u32) -> Refusal {
    match number {
        1 => Refusal::Settings,
        2 => Refusal::Kind,
        3 => Refusal::Spare,
        4 => Refusal::Bank,
        5 => Refusal::Row,
        6 => Refusal::Column,
        7 => Refusal::Horizon,
        8 => Refusal::Full,
        13 => Refusal::Length,
        15 => Refusal::Unretired,
        number => panic!("no refusal {number} of a plan"),
    }
}

/// The wrapper's request, where it can hold the bytes.
fn typed_request(request: &[u8]) -> Option<Request> {
    let b: &[u8; 24] = request.try_into().ok()?;
    let (bank, row, column) = (b[1], u16::from_le_bytes([b[2], b[3]]), b[4]);
    let typed = match b[0] {
        0 => Request::Read { bank, row, column },
        1 => Request::Write {
            bank,
            row,
            column,
            mask: u16::from_le_bytes([b[6], b[7]]),
            data: b[8..].try_into().unwrap(),
        },
        6 => Request::ReadClose { bank, row, column },
        7 => Request::WriteClose {
            bank,
            row,
            column,
            mask: u16::from_le_bytes([b[6], b[7]]),
            data: b[8..].try_into().unwrap(),
        },
        2 => Request::Refresh,
        3 => Request::Wait {
            cycles: u32::from_le_bytes(b[8..12].try_into().unwrap()),
        },
        4 => Request::Flush,
        _ => Request::Close,
    };
    (typed.to_bytes() == *b).then_some(typed)
}

/// The answer to an accepted call: its records, and for a close the highest open bank + 1.
fn answer(case: &Case, records: &[u8]) -> Planned {
    let open = (0..32).rfind(|bank| tag(case.planner, *bank) != 0);
    Planned {
        records: records.len() / 32,
        banks: match case.request[0] {
            CLOSE => open.map_or(0, |bank| bank as u32 + 1),
            _ => 0,
        },
    }
}

/// The planner and the room after a call.
fn buffers(case: &Case, want: &Want) -> (Vec<u8>, Vec<u8>) {
    let mut room = pattern(case.room);
    match want {
        Ok((records, next)) => {
            room[..records.len()].copy_from_slice(records);
            (next.clone(), room)
        }
        Err(_) => (case.planner.to_vec(), room),
    }
}

fn compare_c(case: &Case, want: &Want) {
    let (s, q) = (case.settings.to_vec(), case.request.to_vec());
    let (mut planner, mut room) = (guarded(case.planner), guarded(&pattern(case.room)));
    let (p, r) = (lent(&mut planner), lent(&mut room));
    // SAFETY: each pointer and length are those of one slice, and the slices do not overlap.
    let got = unsafe {
        raw::rdram_plan(
            s.as_ptr(),
            s.len(),
            p.as_mut_ptr(),
            p.len(),
            q.as_ptr(),
            q.len(),
            r.as_mut_ptr(),
            r.len(),
        )
    };
    let answer = match want {
        Ok((records, _)) => {
            let made = answer(case, records);
            raw::Planned {
                number: 0,
                banks: made.banks,
                records: made.records as u64,
            }
        }
        Err(number) => raw::Planned {
            number: *number,
            banks: 0,
            records: 0,
        },
    };
    let context = || {
        let (settings, planner, request) = (case.settings, case.planner, case.request);
        let room = case.room;
        format!("settings {settings:?}, planner {planner:?}, request {request:?}, room {room}")
    };
    assert_eq!(got, answer, "{}", context());
    let (next, records) = buffers(case, want);
    assert!(room == guarded(&records), "other records: {}", context());
    assert!(planner == guarded(&next), "another state: {}", context());
    assert!(s == case.settings && q == case.request, "an input changed");
}

fn compare_wrappers(case: &Case, want: &Want) {
    let (Some(settings), Ok(state)) = (
        typed(case.settings),
        <[u8; STATE_BYTES]>::try_from(case.planner),
    ) else {
        return;
    };
    let answer = want
        .as_ref()
        .map(|(r, _)| answer(case, r))
        .map_err(|n| refusal(*n));
    let after = buffers(case, want);
    let (mut planner, mut room) = (Planner::from_bytes(state), pattern(case.room));
    let got = planner.plan_bytes(&settings, case.request, &mut room);
    assert_eq!(got, answer);
    assert!((planner.to_bytes().to_vec(), room) == after);
    if got.is_ok() {
        assert_eq!(u64::from(planner.now()), instant(&after.0, 752));
    }
    if let Some(request) = typed_request(case.request) {
        let (mut planner, mut room) = (Planner::from_bytes(state), pattern(case.room));
        assert_eq!(planner.plan(&settings, &request, &mut room), answer);
        assert!((planner.to_bytes().to_vec(), room) == after);
    }
}

fn compare_tuned(case: &Case, want: &Want) {
    let (mut planner, mut room) = (case.planner.to_vec(), pattern(case.room));
    let got = tuned_plan::plan(case.settings, &mut planner, case.request, &mut room);
    let answer = want.as_ref().map(|(r, _)| r.len() / 32).map_err(|n| *n);
    assert_eq!(got, answer, "tuned: {:?}, {:?}", case.planner, case.request);
    assert!((planner, room) == buffers(case, want), "tuned");
}

/// Runs the call through C, through the wrappers and by the tuned planner.
pub fn compare(case: &Case, want: &Want) {
    compare_tuned(case, want);
    compare_c(case, want);
    compare_wrappers(case, want);
}

/// The bytes of a fresh planner, by the library.
pub fn fresh() -> Vec<u8> {
    let bytes = buffers::fresh(raw::rdram_planner_fresh, STATE_BYTES);
    assert!(bytes == Planner::fresh().to_bytes());
    let mut tuned = [1; STATE_BYTES];
    tuned_plan::Planner::fresh().encode(&mut tuned);
    assert!(bytes == tuned);
    bytes
}

// ---- Runs ----

/// The most records of a request, by kind; of a close without dependency.
const MOST: [usize; 8] = [6, 7, 6, 0, 2, 32, 6, 8];

/// What calls were seen.
#[derive(Default)]
pub struct Seen {
    numbers: Numbers,
    /// Accepted requests by kind.
    kinds: [u64; 8],
    /// Accepted requests by the number of their records, and the most of each kind.
    records: BTreeMap<usize, u64>,
    most: [usize; 8],
    /// Accepted closes by the number of banks that they looked at.
    looked: BTreeMap<u32, u64>,
    /// NOCOP before RD, NOCOP before PRER, two PRER before ACT or REFA, a WR with a mask; two NOCOP
    /// before RD, two NOCOP before PRER, a WR that leaves two writes waiting.
    shapes: [u64; 7],
    /// NOCOP before RDA, two NOCOP before RDA, a WRA with a mask, one NOCOP after its D, two NOCOP after
    /// it.
    closing: [u64; 5],
}

impl Seen {
    fn add(&mut self, request: &[u8], want: &Want, commands: &[Option<u32>]) {
        self.numbers.add(want.as_ref().err().copied().unwrap_or(0));
        let Ok((list, next)) = want else {
            return;
        };
        let kind = usize::from(request[0]);
        self.kinds[kind] += 1;
        self.most[kind] = self.most[kind].max(commands.len());
        assert!(commands.len() <= MOST[kind], "{request:?}");
        *self.records.entry(commands.len()).or_default() += 1;
        let pair = |a, b| commands.windows(2).any(|w| w == [Some(a), Some(b)]);
        let flushed = |c| {
            commands
                .windows(3)
                .any(|w| w == [Some(NOCOP), Some(NOCOP), Some(c)])
        };
        let closings = commands.iter().filter(|c| **c == Some(PRER)).count();
        let mut records = list.chunks(32).zip(commands);
        self.shapes[0] += u64::from(pair(NOCOP, RD));
        self.shapes[1] += u64::from(pair(NOCOP, PRER));
        self.shapes[2] += u64::from(closings == 2 && request[0] != CLOSE);
        // M is bit 16 of the word.
        self.shapes[3] += u64::from(records.any(|(r, c)| *c == Some(WR) && r[10] & 1 == 1));
        self.shapes[4] += u64::from(flushed(RD));
        self.shapes[5] += u64::from(flushed(PRER));
        self.shapes[6] += u64::from(request[0] == WRITE && next[WAITING] == 2);
        let mut records = list.chunks(32).zip(commands);
        let after_data = commands.rsplit(|c| c.is_none()).next().unwrap().len();
        let closing = [
            pair(NOCOP, RDA),
            flushed(RDA),
            records.any(|(r, c)| *c == Some(WRA) && r[10] & 1 == 1),
            request[0] == WRITE_CLOSE && after_data == 1,
            request[0] == WRITE_CLOSE && after_data == 2,
        ];
        for (count, shape) in self.closing.iter_mut().zip(closing) {
            *count += u64::from(shape);
        }
    }

    /// Prints the counts; fails unless exactly these numbers were seen.
    pub fn report(&self, name: &str, numbers: &[u32]) {
        self.numbers.report(name, numbers);
        let most = self.most;
        let count = |kind: u8| self.kinds[usize::from(kind)];
        let [read, write, refresh, wait] = [READ, WRITE, REFRESH, WAIT].map(count);
        let [flush, close, read_close, write_close] =
            [FLUSH, CLOSE, READ_CLOSE, WRITE_CLOSE].map(count);
        println!(
            "{name}: accepted: {read} read, {write} write, {refresh} refresh, {wait} wait, \
             {flush} flush, {close} close, {read_close} read and close, {write_close} write and close"
        );
        let [own, lost, two, masked, both, both_lost, beside] = self.shapes;
        println!(
            "{name}: {own} with NOCOP RD, {lost} with NOCOP PRER, {two} with two PRER, \
             {masked} with a masked WR, {both} with NOCOP NOCOP RD, {both_lost} with NOCOP NOCOP \
             PRER, {beside} writes beside another; most records by kind {most:?}"
        );
        let [lost, both_lost, masked, one, two] = self.closing;
        println!(
            "{name}: {lost} with NOCOP RDA, {both_lost} with NOCOP NOCOP RDA, {masked} with a masked WRA, \
             {one} with one NOCOP after WRA D, {two} with two"
        );
        println!("{name}: closes by banks looked at: {:?}", self.looked);
    }

    /// Fails unless each kind and each shape was seen.
    pub fn all_kinds(&self) {
        assert!(self.kinds.iter().all(|n| *n > 0), "{:?}", self.kinds);
        assert!(self.shapes.iter().all(|n| *n > 0), "{:?}", self.shapes);
        assert!(self.closing.iter().all(|n| *n > 0), "{:?}", self.closing);
        assert!(
            (0..7).all(|n| self.with_records(n) > 0),
            "{:?}",
            self.records
        );
    }

    /// Fails unless requests of each kind but close had the most records that they may have.
    pub fn all_most(&self) {
        let reached = |kind: usize| kind == usize::from(CLOSE) || self.most[kind] == MOST[kind];
        assert!((0..8).all(reached), "{:?}", self.most);
    }

    /// Fails unless closes looked at each number of banks.
    pub fn all_counts(&self) {
        assert!(self.looked.keys().copied().eq(0..=32), "{:?}", self.looked);
    }

    /// Accepted requests of so many records.
    pub fn with_records(&self, records: usize) -> u64 {
        self.records.get(&records).copied().unwrap_or(0)
    }
}

/// A run of plan calls from a fresh planner: the library beside the reference.
#[derive(Clone)]
pub struct Run {
    pub settings: Vec<u8>,
    pub state: Vec<u8>,
    pub list: Vec<u8>,
    reference: reference::Planner,
}

/// Room for any request.
pub const ENOUGH: usize = rdram::REQUEST_RECORDS * 32;

impl Run {
    pub fn new(numbers: &[u16; 16]) -> Run {
        let settings = bytes(numbers);
        let reference = reference::Planner::fresh(&settings).expect("valid settings");
        let state = fresh();
        assert!(state == reference.state(), "the bytes of a fresh planner");
        Run {
            settings,
            state,
            list: Vec::new(),
            reference,
        }
    }

    pub fn now(&self) -> u64 {
        self.reference.now()
    }

    /// Plans a request; answers the number of records or the refusal.
    pub fn call(&mut self, seen: &mut Seen, request: &[u8], room: usize) -> Result<usize, u32> {
        let planned = self.reference.plan(request, room);
        let want = planned.map(|records| (records, self.reference.state()));
        let case = self.case(request, room);
        compare(&case, &want);
        if let Ok((records, _)) = &want {
            let banks = answer(&case, records).banks;
            assert_eq!(banks, self.reference.looked(), "{request:?}");
            if request[0] == CLOSE {
                *seen.looked.entry(banks).or_default() += 1;
            }
        }
        let made = want.as_ref().map_or(0, |(list, _)| list.len() / 32);
        seen.add(request, &want, &self.reference.commands(made));
        let (records, next) = want?;
        self.list.extend(records);
        self.state = next;
        Ok(made)
    }

    /// As `call`, and before it the same call with a room that is too short.
    pub fn call_short(&mut self, seen: &mut Seen, request: &[u8], less: usize) {
        let mut again = self.clone();
        if let Ok(made) = again.call(seen, request, ENOUGH) {
            if made > 0 {
                let short = 32 * made - 1 - less % (32 * made);
                compare(&self.case(request, short), &Err(8));
                seen.add(request, &Err(8), &[]);
            }
        }
        *self = again;
    }

    fn case<'a>(&'a self, request: &'a [u8], room: usize) -> Case<'a> {
        Case {
            settings: &self.settings,
            planner: &self.state,
            request,
            room,
        }
    }

    /// The whole list passes the library's check.
    pub fn check(&self) {
        let settings = typed(&self.settings).unwrap();
        assert_eq!(rdram::check(&settings, &self.list), Ok(()));
    }
}
