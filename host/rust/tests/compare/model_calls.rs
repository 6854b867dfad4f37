//! Model calls of the library, each compared with what is wanted: C functions and safe wrappers. The
//! tuned model of the benchmark is compared along with them.

use crate::buffers::{self, guarded, lent, pattern};
use crate::calls::{typed, Seen as Numbers};
use crate::random::{bytes, Random};
use crate::reference::{
    figures, number, packet, COLUMNS, NOCOP, PRER, RD, RDA, REFA, ROWS, WR, WRA,
};
use crate::reference_model::{self as reference, Event, STATE_BYTES};
use crate::reference_state::{CLOSES, WAITING, WRITES};
use crate::rule_settings::rule_numbers;
use crate::tuned_model;
use crate::tuned_records;
use rdram::{raw, Model, Refusal};

/// What a call must do: the number and rule of a refusal, or the event, the next state and the store.
pub type Want = Result<(Event, Vec<u8>, Vec<u8>), (u32, u32)>;

/// What is lent to a call.
pub struct Case<'a> {
    pub settings: &'a [u8],
    pub model: &'a [u8],
    pub store: &'a [u8],
    pub record: &'a [u8],
    /// Bytes of the answer.
    pub room: usize,
}

/// The answer in the form of the C call.
fn stepped(want: &Want) -> raw::Stepped {
    let mut answer = raw::Stepped::default();
    match want {
        Ok((Event::Neither, ..)) => {}
        Ok((Event::Read(_), ..)) => answer.event = 1,
        Ok((Event::Retired(bytes), ..)) => (answer.event, answer.bytes) = (2, *bytes),
        Err((number, rule)) => (answer.number, answer.rule) = (*number, *rule),
    }
    answer
}

/// What a wrapper must say.
fn wrapped(want: &Want) -> Result<rdram::Event, Refusal> {
    match want {
        Ok((Event::Neither, ..)) => Ok(rdram::Event::Neither),
        Ok((Event::Read(_), ..)) => Ok(rdram::Event::Read),
        Ok((Event::Retired(bytes), ..)) => Ok(rdram::Event::Retired(*bytes)),
        Err((1, 0)) => Err(Refusal::Settings),
        Err((8, 0)) => Err(Refusal::Full),
        Err((9, 0)) => Err(Refusal::Store),
        Err((10, 0)) => Err(Refusal::Word { place: None }),
        Err((11, rule)) => Err(Refusal::Broken { rule: *rule }),
        Err((13, 0)) => Err(Refusal::Length),
        Err(other) => panic!("no refusal {other:?} of a model"),
    }
}

fn tuned(want: &Want) -> Result<tuned_model::Event, tuned_records::Refused> {
    match *want {
        Ok((Event::Neither, ..)) => Ok(tuned_model::Event::Neither),
        Ok((Event::Read(_), ..)) => Ok(tuned_model::Event::Read),
        Ok((Event::Retired(bytes), ..)) => Ok(tuned_model::Event::Retired(bytes)),
        Err((number, rule)) => Err(tuned_records::Refused { number, rule }),
    }
}

/// The model, the store and the answer after a call.
fn buffers<'a>(case: &'a Case, want: &'a Want) -> (&'a [u8], &'a [u8], Vec<u8>) {
    let mut answer = pattern(case.room);
    let Ok((event, model, store)) = want else {
        return (case.model, case.store, answer);
    };
    if let Event::Read(dualoct) = event {
        answer[..16].copy_from_slice(dualoct);
    }
    (model, store, answer)
}

fn context(case: &Case) -> String {
    let (settings, model, record) = (case.settings, case.model, case.record);
    let (stored, room) = (case.store.len(), case.room);
    format!(
        "settings {settings:?}, model {model:?}, record {record:?}, store {stored}, room {room}"
    )
}

fn compare_c(case: &Case, want: &Want) {
    let (s, q) = (case.settings.to_vec(), case.record.to_vec());
    let (mut model, mut store) = (guarded(case.model), guarded(case.store));
    let mut answer = guarded(&pattern(case.room));
    let (m, t, a) = (lent(&mut model), lent(&mut store), lent(&mut answer));
    // SAFETY: each pointer and length are those of one slice, and the slices do not overlap.
    let got = unsafe {
        raw::rdram_model_step(
            s.as_ptr(),
            s.len(),
            m.as_mut_ptr(),
            m.len(),
            t.as_mut_ptr(),
            t.len(),
            q.as_ptr(),
            q.len(),
            a.as_mut_ptr(),
            a.len(),
        )
    };
    assert_eq!(got, stepped(want), "{}", context(case));
    let after = buffers(case, want);
    assert!(
        model == guarded(after.0),
        "another state: {}",
        context(case)
    );
    assert!(
        store == guarded(after.1),
        "another store: {}",
        context(case)
    );
    assert!(
        answer == guarded(&after.2),
        "another answer: {}",
        context(case)
    );
    assert!(s == case.settings && q == case.record, "an input changed");
}

fn compare_wrapper(case: &Case, want: &Want) {
    let (Some(settings), Ok(state)) = (
        typed(case.settings),
        <[u8; STATE_BYTES]>::try_from(case.model),
    ) else {
        return;
    };
    let (mut model, mut store) = (Model::from_bytes(state), case.store.to_vec());
    let mut answer = pattern(case.room);
    let got = model.step(&settings, &mut store, case.record, &mut answer);
    assert_eq!(got, wrapped(want));
    let after = buffers(case, want);
    let bytes = model.to_bytes();
    assert!((&bytes[..], &store[..], &answer) == (after.0, after.1, &after.2));
    assert_eq!(u64::from(model.refr()), number(&after.0[752..754]));
}

fn compare_tuned(case: &Case, want: &Want) {
    let (mut model, mut store) = (case.model.to_vec(), case.store.to_vec());
    let mut answer = pattern(case.room);
    let got = tuned_model::step(
        case.settings,
        &mut model,
        &mut store,
        case.record,
        &mut answer,
    );
    assert_eq!(got, tuned(want), "tuned: {}", context(case));
    assert!(
        (&model[..], &store[..], answer) == buffers(case, want),
        "tuned"
    );
}

/// Runs the call through C, through the wrapper and by the tuned model.
pub fn compare(case: &Case, want: &Want) {
    compare_tuned(case, want);
    compare_c(case, want);
    compare_wrapper(case, want);
}

/// What the tuned model does, which goes on from any state.
pub fn wanted(case: &Case) -> Want {
    let (mut model, mut store) = (case.model.to_vec(), case.store.to_vec());
    let mut answer = vec![0; case.room];
    match tuned_model::step(
        case.settings,
        &mut model,
        &mut store,
        case.record,
        &mut answer,
    ) {
        Ok(tuned_model::Event::Neither) => Ok((Event::Neither, model, store)),
        Ok(tuned_model::Event::Retired(n)) => Ok((Event::Retired(n), model, store)),
        Ok(tuned_model::Event::Read) => {
            let dualoct = answer[..16].try_into().unwrap();
            Ok((Event::Read(dualoct), model, store))
        }
        Err(refused) => Err((refused.number, refused.rule)),
    }
}

/// The bytes of a fresh model, by the library.
pub fn fresh() -> Vec<u8> {
    let bytes = buffers::fresh(raw::rdram_model_fresh, STATE_BYTES);
    assert!(bytes == Model::fresh().to_bytes());
    let mut tuned = [1; STATE_BYTES];
    tuned_model::Model::fresh().encode(&mut tuned);
    assert!(bytes == tuned);
    bytes
}

/// Settings of every kind with a store that is quick to compare.
pub fn small_numbers(random: &mut Random) -> [u16; 16] {
    let mut numbers = rule_numbers(random);
    let sizes = [
        (1, 1),
        (1, 1),
        (2, 4),
        (2, 1),
        (1, 3),
        (3, 2),
        (5, 2),
        (4, 4),
    ];
    (numbers[ROWS], numbers[COLUMNS]) = match random.below(100) {
        0 => (512, 1),
        1 => (1, 128),
        _ => random.pick(&sizes),
    };
    numbers
}

/// A store of any bytes.
pub fn any_store(random: &mut Random, numbers: &[u16; 16]) -> Vec<u8> {
    let dualocts = usize::from(numbers[ROWS]) * usize::from(numbers[COLUMNS]) * 32;
    let words = (0..2 * dualocts).map(|_| random.word());
    words.flat_map(u64::to_le_bytes).collect()
}

// ---- Runs ----

/// What calls were seen.
#[derive(Default)]
pub struct Seen {
    numbers: Numbers,
    rules: [u64; 18],
    /// Those in which the record breaks no other rule.
    single: [u64; 18],
    /// Retires by the bytes that they wrote.
    retired: [u64; 17],
    shapes: [u64; Self::SHAPES.len()],
}

impl Seen {
    const SHAPES: [&'static str; 21] = [
        "neither",
        "RD",
        "RD while a write waits",
        "RD of the waiting write's dualoct",
        "retire by NOCOP",
        "retire by WR",
        "WR beside another write",
        "retire of the older of two by NOCOP",
        "retire of the older of two by WR",
        "PRER while two wait",
        "RDA",
        "RDA while a write waits",
        "RDA while a WRA waits",
        "WRA",
        "WRA beside another write",
        "retire of a WRA by NOCOP",
        "retire of a WRA by WR",
        "RD while a WRA waits",
        "D",
        "REFA",
        "REFR starts again",
    ];

    pub fn refused(&mut self, refused: (u32, u32), single: bool) {
        let (number, rule) = refused;
        self.numbers.add(number);
        self.rules[rule as usize] += 1;
        self.single[rule as usize] += u64::from(single);
    }

    /// A record that was taken, after which the run has the next state.
    fn taken(&mut self, run: &Run, record: &[u8], event: &Event, before: &[u8]) {
        self.numbers.add(0);
        let f = figures(&run.settings).unwrap();
        let p = packet(&f, record[4].into(), number(&record[8..16]));
        let is = |command| p.is_some_and(|p| p.command == command);
        let waiting = run.reference.waiting();
        let own = p.is_some_and(|p| waiting.iter().any(|w| (w.0, w.1) == (p.bank, p.place)));
        let (now, then) = (waiting.len(), before[WAITING]);
        let closing = before[WRITES[0] + CLOSES] == 1; // the older write
        let retires = matches!(event, Event::Retired(_));
        let refr = |state: &[u8]| number(&state[752..754]);
        let starts_again = refr(before) == f.rows - 1 && refr(&run.state) == 0;
        let shapes = [
            *event == Event::Neither,
            is(RD),
            is(RD) && now > 0,
            is(RD) && own,
            is(NOCOP) && retires,
            is(WR) && retires,
            is(WR) && !retires && now == 2,
            is(NOCOP) && retires && then == 2,
            is(WR) && retires && then == 2,
            is(PRER) && now == 2,
            is(RDA),
            is(RDA) && now > 0,
            is(RDA) && closing,
            is(WRA),
            is(WRA) && !retires && now == 2,
            is(NOCOP) && retires && closing,
            (is(WR) || is(WRA)) && retires && closing,
            is(RD) && closing,
            p.is_none(),
            is(REFA),
            is(REFA) && p.is_some_and(|p| p.bank == 31) && starts_again,
        ];
        for (count, shape) in self.shapes.iter_mut().zip(shapes) {
            *count += u64::from(shape);
        }
        if let Event::Retired(bytes) = event {
            self.retired[*bytes as usize] += 1;
        }
    }

    /// Prints the counts; fails unless exactly these numbers were seen.
    pub fn report(&self, name: &str, numbers: &[u32]) {
        self.numbers.report(name, numbers);
        let shapes = Self::SHAPES.iter().zip(self.shapes);
        let shapes: Vec<String> = shapes
            .map(|(name, count)| format!("{name}: {count}"))
            .collect();
        println!("{name}: {}", shapes.join(", "));
        println!("{name}: retires by bytes: {:?}", self.retired);
        let rule = |n: usize| format!("{n}: {} ({})", self.rules[n], self.single[n]);
        let rules: Vec<String> = (1..=17).map(rule).collect();
        println!("{name}: rules (as the only one): {}", rules.join(", "));
    }

    /// Fails unless each shape and each number of bytes was seen.
    pub fn all_events(&self) {
        assert!(self.shapes.iter().all(|n| *n > 0), "{:?}", self.shapes);
        assert!(self.retired.iter().all(|n| *n > 0), "{:?}", self.retired);
    }

    /// Fails unless each rule was named, also for a record that breaks it alone.
    pub fn all_rules(&self) {
        assert!(self.single[1..].iter().all(|n| *n > 0), "{:?}", self.single);
    }
}

/// A run of model calls from a fresh model: the library beside the reference.
#[derive(Clone)]
pub struct Run {
    pub settings: Vec<u8>,
    pub state: Vec<u8>,
    pub store: Vec<u8>,
    reference: reference::Model,
}

impl Run {
    pub fn new(numbers: &[u16; 16], store: Vec<u8>) -> Run {
        let settings = bytes(numbers);
        let reference = reference::Model::fresh(&settings, store.clone()).expect("valid settings");
        let state = fresh();
        assert!(state == reference.state(), "the bytes of a fresh model");
        Run {
            settings,
            state,
            store,
            reference,
        }
    }

    /// Gives the model a record; answers the event, or number and rule of the refusal.
    pub fn call(
        &mut self,
        seen: &mut Seen,
        record: &[u8],
        room: usize,
    ) -> Result<Event, (u32, u32)> {
        let stepped = self.reference.step(self.store.len(), record, room);
        let want = match stepped {
            Ok(event) => Ok((event, self.reference.state(), self.reference.store.clone())),
            Err(refused) if refused.number == 11 => Err((11, refused.broken.lowest())),
            Err(refused) => Err((refused.number, 0)),
        };
        let case = Case {
            settings: &self.settings,
            model: &self.state,
            store: &self.store,
            record,
            room,
        };
        compare(&case, &want);
        match want {
            Ok((event, state, store)) => {
                let before = std::mem::replace(&mut self.state, state);
                self.store = store;
                seen.taken(self, record, &event, &before);
                Ok(event)
            }
            Err(refusal) => {
                seen.refused(refusal, stepped.is_err_and(|r| r.broken.single()));
                Err(refusal)
            }
        }
    }
}
