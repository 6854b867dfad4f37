//! Whole runs (document 01, "Flat memory and whole runs"): plan calls, some of them refused, make
//! one packet list; a fresh model takes it, with any room for its answers; and flat memory, which
//! sees the plan calls alone, must say the same.

use crate::calls::typed;
use crate::flat_memory::FlatMemory;
use crate::model_calls::{any_store, small_numbers};
use crate::plan_calls::ENOUGH;
use crate::plan_streams::{
    bare, closing, read, wait, write, Maker, CLOSE, FLUSH, READ, READ_CLOSE, REFRESH, WRITE,
    WRITE_CLOSE,
};
use crate::random::{bytes, rounds, set_h, Random};
use crate::reference::{COLUMNS, ROWS};
use crate::reference_state::WAITING;
use crate::rule_settings::{rule_numbers, SettingsSeen};
use crate::whole_seen::Seen;
use rdram::{Event, Model, Planner, Refusal, Settings};
use std::collections::VecDeque;

/// One run: planner and model of the library, the packet list between them, and flat memory.
struct Run {
    settings: Settings,
    rows: u16,
    planner: Planner,
    model: Model,
    store: Vec<u8>,
    memory: FlatMemory,
    /// Records that the model has not taken.
    list: VecDeque<[u8; 32]>,
    /// What flat memory answered to reads that the model has not.
    answers: VecDeque<[u8; 16]>,
    /// The ones of the masks of all accepted writes, and the bytes of all retires.
    ones: u64,
    written: u64,
}

/// Stores up to this length are compared after each refusal.
const SMALL: usize = 1 << 16;

impl Run {
    fn new(numbers: &[u16; 16], store: Vec<u8>) -> Run {
        Run {
            settings: typed(&bytes(numbers)).unwrap(),
            rows: numbers[ROWS],
            planner: Planner::fresh(),
            model: Model::fresh(),
            memory: FlatMemory::new(numbers, store.clone()),
            store,
            list: VecDeque::new(),
            answers: VecDeque::new(),
            ones: 0,
            written: 0,
        }
    }

    /// A plan call with a room of so many bytes.
    fn plan(&mut self, seen: &mut Seen, request: &[u8], room: usize) -> Result<usize, Refusal> {
        let (mut room, before) = (vec![0xEE; room], self.planner.clone());
        let planned = self
            .planner
            .plan_bytes(&self.settings, request, &mut room)
            .map(|made| made.records);
        self.answers
            .extend(self.memory.call(request, planned.is_err()));
        match planned {
            Ok(records) => {
                self.list.extend(room.as_chunks::<32>().0[..records].iter());
                seen.accepted[usize::from(request[0])] += 1;
                if [WRITE, WRITE_CLOSE].contains(&request[0]) {
                    let mask = u16::from_le_bytes([request[6], request[7]]);
                    self.ones += u64::from(mask.count_ones());
                }
            }
            Err(refusal) => {
                assert!(self.planner == before && room.iter().all(|b| *b == 0xEE));
                seen.refused[refusal.number() as usize] += 1;
            }
        }
        planned
    }

    /// A model call with the next record of the list; false where it was refused 8.
    fn step(&mut self, seen: &mut Seen, room: usize) -> bool {
        let (record, refr) = (*self.list.front().unwrap(), self.model.refr());
        let mut answer = [0xEE; 40];
        let lent = &mut answer[..room];
        if room < 16 && self.refused_full(&record, lent) {
            assert!(answer == [0xEE; 40]);
            seen.full += 1;
            return false;
        }
        let event = self
            .model
            .step(&self.settings, &mut self.store, &record, lent);
        match event {
            Ok(Event::Read) => {
                assert_eq!(answer[..16], self.answers.pop_front().unwrap());
                assert!(answer[16..].iter().all(|b| *b == 0xEE));
                seen.reads += 1;
            }
            Ok(Event::Retired(bytes)) => {
                self.written += u64::from(bytes);
                seen.retires += 1;
                seen.written += u64::from(bytes);
            }
            Ok(Event::Neither) => {}
            Err(refusal) => panic!("{refusal}: {record:?}"),
        }
        assert!(event == Ok(Event::Read) || answer == [0xEE; 40]);
        self.list.pop_front();
        seen.records += 1;
        // REFA to bank 31: bits 17 to 13 and 10 to 0 of the word.
        let rises = record[4] == 0 && record[8..10] == [0xC0, 0xE0] && record[10] & 3 == 3;
        assert_eq!(self.model.refr(), (refr + u16::from(rises)) % self.rows);
        seen.refr_again += u64::from(rises && self.model.refr() == 0);
        true
    }

    /// Whether a call with too short an answer is refused 8. It then leaves model and store.
    fn refused_full(&mut self, record: &[u8], answer: &mut [u8]) -> bool {
        let small = self.store.len() <= SMALL;
        let (mut model, before) = (self.model.clone(), small.then(|| self.store.clone()));
        let is_rd = record[4] == 1 && record[10] & 0x16 == 6; // COP 3 or 7
        if !is_rd {
            return false;
        }
        let got = model.step(&self.settings, &mut self.store, record, answer);
        assert_eq!(got, Err(Refusal::Full));
        assert!(model == self.model && before.is_none_or(|store| store == self.store));
        true
    }

    /// The model takes records, with any room for its answers, until so many are left.
    fn take(&mut self, random: &mut Random, seen: &mut Seen, left: usize) {
        while self.list.len() > left {
            let some = random.below(40);
            let room = random.pick(&[16, 16, some]);
            self.step(seen, room);
        }
    }

    /// A flush, after which store and flat memory are the same once the model has taken it. False where
    /// it is refused: at the end of time the last writes still wait.
    fn flush(&mut self, random: &mut Random, seen: &mut Seen, room: usize) -> bool {
        self.take(random, seen, 0);
        let waiting = usize::from(self.model.to_bytes()[WAITING]);
        if self.plan(seen, &bare(FLUSH), room).is_err() {
            self.compare_but_for_the_waiting_writes();
            return false;
        }
        assert_eq!(self.list.len(), waiting);
        seen.flushed[waiting] += 1;
        self.take(random, seen, 0);
        assert!(self.answers.is_empty());
        assert!(self.store == self.memory.bytes, "another store");
        assert_eq!(self.written, self.ones);
        true
    }

    /// The last flush, and a close, which changes nothing.
    fn finish(mut self, random: &mut Random, seen: &mut Seen) {
        if !self.flush(random, seen, ENOUGH) {
            return;
        }
        if self.plan(seen, &bare(CLOSE), ENOUGH).is_ok() {
            self.take(random, seen, 0);
            let closed = self.model.to_bytes()[640..704].iter().all(|tag| *tag == 0);
            assert!(closed && self.store == self.memory.bytes);
        }
        seen.runs += 1;
    }

    /// Before a flush the store differs from flat memory in the dualocts of the waiting writes at most.
    fn compare_but_for_the_waiting_writes(&self) {
        let pairs = self.store.chunks(16).zip(self.memory.bytes.chunks(16));
        let differ = pairs.filter(|(a, b)| a != b).count();
        assert!(differ <= usize::from(self.model.to_bytes()[WAITING]));
    }
}

/// Plans requests one after the other; the model takes records meanwhile.
fn stream(random: &mut Random, seen: &mut Seen, run: &mut Run, maker: &Maker, requests: usize) {
    for _ in 0..requests {
        let request = maker.request(random);
        let some = random.below(5 * 32);
        let room = random.pick(&[ENOUGH, ENOUGH, ENOUGH, some]);
        if request == bare(FLUSH) {
            run.flush(random, seen, room);
            continue;
        }
        _ = run.plan(seen, &request, room);
        if random.chance(4) {
            let left = random.below(run.list.len() + 1);
            run.take(random, seen, left);
        }
        if run.list.is_empty() && run.store.len() <= SMALL {
            run.compare_but_for_the_waiting_writes();
        }
    }
}

#[test]
fn short_runs() {
    let name = "whole runs, short";
    let (mut seen, mut random) = (Seen::default(), Random::new(101));
    let mut settings_seen = SettingsSeen::default();
    let all = rounds(12_000);
    for _ in 0..all {
        let numbers = small_numbers(&mut random);
        settings_seen.add(&numbers);
        let store = any_store(&mut random, &numbers);
        let (mut run, maker) = (Run::new(&numbers, store), Maker::new(&mut random, &numbers));
        let requests = random.below(24);
        stream(&mut random, &mut seen, &mut run, &maker, requests);
        run.finish(&mut random, &mut seen);
    }
    seen.report(name);
    settings_seen.report(name);
    assert_eq!(seen.runs, all as u64);
}

#[test]
fn long_runs() {
    let name = "whole runs, long";
    let (mut seen, mut random) = (Seen::default(), Random::new(102));
    let mut settings_seen = SettingsSeen::default();
    for _ in 0..60 {
        let numbers = small_numbers(&mut random);
        settings_seen.add(&numbers);
        let store = any_store(&mut random, &numbers);
        let (mut run, maker) = (Run::new(&numbers, store), Maker::new(&mut random, &numbers));
        stream(&mut random, &mut seen, &mut run, &maker, 1_500);
        run.finish(&mut random, &mut seen);
    }
    seen.report(name);
    seen.all(&[2, 3, 4, 5, 6, 8, 13, 15]);
    assert_eq!(seen.runs, 60);
}

/// Whole devices, up to 512 rows of 128 columns.
#[test]
fn large_stores() {
    let (mut seen, mut random) = (Seen::default(), Random::new(103));
    for (rows, columns) in [(512, 128), (512, 1), (1, 128), (511, 3), (2, 127)] {
        let mut numbers = rule_numbers(&mut random);
        (numbers[ROWS], numbers[COLUMNS]) = (rows, columns);
        let store = any_store(&mut random, &numbers);
        let mut run = Run::new(&numbers, store);
        for _ in 0..20 {
            let maker = Maker::new(&mut random, &numbers);
            stream(&mut random, &mut seen, &mut run, &maker, 60);
        }
        // The last place of each bank.
        for bank in 0..32 {
            let (row, column) = (rows - 1, (columns - 1) as u8);
            let data = random.bytes(16);
            for request in [
                write(bank, row, column, 0xFFFF, &data),
                read(bank, row, column),
            ] {
                run.plan(&mut seen, &request, ENOUGH).unwrap();
            }
        }
        run.finish(&mut random, &mut seen);
    }
    seen.report("whole runs, large stores");
    assert_eq!(seen.runs, 5);
}

/// Runs that meet the end of time: plan calls are refused 7, the last flush sometimes with them.
#[test]
fn near_the_horizon() {
    let (mut seen, mut random) = (Seen::default(), Random::new(104));
    let all = rounds(3_000);
    for _ in 0..all {
        let numbers = small_numbers(&mut random);
        let store = any_store(&mut random, &numbers);
        let (mut run, maker) = (Run::new(&numbers, store), Maker::new(&mut random, &numbers));
        let (before, after) = (random.below(6), 1 + random.below(12));
        stream(&mut random, &mut seen, &mut run, &maker, before);
        let left = random.pick(&[0, 40, 150, 400]);
        let cycles = 1_000_000_000 - random.below(left + 1) as u32 - run.planner.now();
        run.plan(&mut seen, &wait(cycles), 0).unwrap();
        stream(&mut random, &mut seen, &mut run, &maker, after);
        run.finish(&mut random, &mut seen);
    }
    let runs = seen.runs;
    println!("whole runs, near the horizon: {runs} of {all} end with a flush");
    assert!(seen.refused[7] > 1_000 && runs > 500 && runs < all as u64);
}

/// REFR starts again at every number of rows, also the largest.
#[test]
fn refresh_rows() {
    let (mut seen, mut random) = (Seen::default(), Random::new(105));
    for (rows, turns) in [(1, 3), (2, 5), (3, 7), (512, 513)] {
        let numbers = set_h(rows, 1, 31);
        let store = any_store(&mut random, &numbers);
        let (mut run, first) = (Run::new(&numbers, store), seen.refr_again);
        for _ in 0..32 * turns {
            run.plan(&mut seen, &bare(REFRESH), 2 * 32).unwrap();
            run.take(&mut random, &mut seen, 0);
        }
        assert_eq!(run.model.refr(), turns % rows);
        assert_eq!(seen.refr_again - first, u64::from(turns / rows));
        run.finish(&mut random, &mut seen);
    }
    seen.report("whole runs, refresh rows");
}

/// The traps of the paper: a masked write, a read of it, another row of its bank, another write; two
/// writes in flight; and the same with some of them closing their bank.
#[test]
fn traps() {
    let (mut seen, mut random) = (Seen::default(), Random::new(106));
    let numbers = set_h(2, 4, 0);
    for first in [0xFFFF, 0x0003, 0x8000, 0] {
        for second in [0xFFFF, 0x0006, 0] {
            let requests = [
                write(0, 0, 1, first, &[0x11; 16]),
                write(0, 0, 1, second, &[0x22; 16]),
                read(0, 0, 1),
                write(0, 0, 1, first, &[0x33; 16]),
                read(0, 1, 1),
                read(0, 0, 1),
                write(1, 1, 3, second, &[0x44; 16]),
                read(2, 0, 0),
                read(1, 1, 3),
                write(1, 1, 2, first, &[0x55; 16]),
                write(1, 1, 3, second, &[0x66; 16]),
                read(1, 1, 3),
                write(1, 1, 2, second, &[0x77; 16]),
                write(9, 0, 2, first, &[0x88; 16]),
                read(1, 0, 2),
                read(9, 0, 2),
                read(1, 1, 2),
            ];
            for every in [0, 1, 2, 3, 4, 5] {
                let mut run = Run::new(&numbers, any_store(&mut random, &numbers));
                for (i, request) in requests.iter().enumerate() {
                    let mut request = request.clone();
                    if every > 0 && i % every == 0 {
                        request = closing(request);
                    }
                    run.plan(&mut seen, &request, ENOUGH).unwrap();
                }
                run.finish(&mut random, &mut seen);
            }
        }
    }
    let reads = [READ, READ_CLOSE].map(|kind| seen.accepted[usize::from(kind)]);
    assert_eq!(reads[0] + reads[1], 9 * 12 * 6);
    seen.report("whole runs, traps");
}
