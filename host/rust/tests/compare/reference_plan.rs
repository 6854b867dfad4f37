//! The planner as plain Rust, written from documents 01 and 02 (a, c to f) alone, by trying. It keeps every
//! record that it has made, reads banks and the waiting writes off that list, and tries each packet
//! at now, now + 1, .. until it breaks none of the rules of `reference_rules` against all earlier
//! records.

use crate::reference::{
    figures, number, word, Fields, Figures, ACT, NOCOP, PRER, RD, RDA, REFA, REFP, WR, WRA,
};
use crate::reference_rules::{self as rules, near, Step, Timings};
use crate::reference_state::{
    channel_bytes, channel_fits, instant, kept, open_row, put, put_instant, tag, waiting,
    write_number, zero, Write, CLOSES, DUE, LAST, UNDER_REFRESH, WRITES,
};

pub const STATE_BYTES: usize = 768;

/// Refusal numbers.
type Refused = u32;

#[derive(Clone)]
pub struct Planner {
    figures: Figures,
    timings: Timings,
    /// Every record so far.
    steps: Vec<Step>,
    /// The data of each D, in order.
    data: Vec<[u8; 16]>,
    /// The mask of each write, in the order of their WR.
    masks: Vec<u32>,
    now: u64,
    refresh: u32,
    /// How many banks the last accepted request looked at.
    looked: u32,
}

// ---- Requests ----

/// A read or write closes its bank, or not.
enum Request {
    Read {
        at: Place,
        close: bool,
    },
    Write {
        at: Place,
        mask: u32,
        data: [u8; 16],
        close: bool,
    },
    Refresh,
    Wait {
        cycles: u64,
    },
    Flush,
    Close,
}

#[derive(Clone, Copy)]
struct Place {
    bank: u32,
    row: u32,
    column: u32,
}

/// Whether a request of a kind uses one of its bytes.
fn used(kind: u8, byte: usize) -> bool {
    let (reads, writes) = ([0, 6].contains(&kind), [1, 7].contains(&kind));
    match byte {
        0 => true,
        1..=4 => reads || writes,
        5 => false,
        8..=11 => writes || kind == 3,
        _ => writes,
    }
}

fn place(f: &Figures, request: &[u8]) -> Result<Place, Refused> {
    let (bank, row, column) = (request[1], number(&request[2..4]), request[4]);
    if bank > 31 {
        return Err(4);
    }
    if row >= f.rows {
        return Err(5);
    }
    if u64::from(column) >= f.columns {
        return Err(6);
    }
    Ok(Place {
        bank: bank.into(),
        row: row as u32,
        column: column.into(),
    })
}

fn read_request(f: &Figures, request: &[u8]) -> Result<Request, Refused> {
    if request.len() != 24 {
        return Err(13);
    }
    let kind = request[0];
    if kind > 7 {
        return Err(2);
    }
    if (0..24).any(|i| !used(kind, i) && request[i] != 0) {
        return Err(3);
    }
    Ok(match kind {
        0 | 6 => Request::Read {
            at: place(f, request)?,
            close: kind == 6,
        },
        1 | 7 => Request::Write {
            at: place(f, request)?,
            mask: number(&request[6..8]) as u32,
            data: request[8..].try_into().unwrap(),
            close: kind == 7,
        },
        2 => Request::Refresh,
        3 => Request::Wait {
            cycles: number(&request[8..12]),
        },
        4 => Request::Flush,
        _ => Request::Close,
    })
}

// ---- Plans ----

impl Planner {
    /// A fresh planner, if the settings are not refused.
    pub fn fresh(settings: &[u8]) -> Option<Planner> {
        Some(Planner {
            figures: figures(settings)?,
            timings: Timings::of(settings),
            steps: Vec::new(),
            data: Vec::new(),
            masks: Vec::new(),
            now: 4,
            refresh: 0,
            looked: 0,
        })
    }

    pub fn now(&self) -> u64 {
        self.now
    }

    pub fn looked(&self) -> u32 {
        self.looked
    }

    /// The mask that a packet carries: that of the write which it retires, or M = 0.
    fn carried(&self, step: &Step) -> u32 {
        step.retired().map_or(0xFFFF, |(place, _)| {
            self.masks[write_number(&self.steps, place)]
        })
    }

    /// Sends a packet at the first instant, from now on, at which it breaks no rule under the mask
    /// that it then carries.
    fn send(&mut self, command: u32, bank: u32, place: u32) -> Result<(), Refused> {
        let mut packet = Fields {
            command,
            bank,
            place,
            mask: 0,
        };
        let mut step = Step::new(&self.timings, &self.steps, self.now, Some(packet));
        loop {
            if command >= NOCOP {
                packet.mask = self.carried(&step);
                step.packet = Some(packet);
            }
            if rules::broken(&self.timings, &self.steps, &step).none() {
                break;
            }
            step.at += 1;
            if step.at > LAST {
                return Err(7);
            }
            // No distance is longer than 64, and no implied PRER later than 32 after its packet.
            assert!(step.at < self.now + 100, "never legal: {step:?}");
        }
        self.now = step.at;
        self.steps.push(step);
        Ok(())
    }

    /// NOCOPs until the waiting writes are not such any more.
    fn nocops(&mut self, such: impl Fn(&[Write]) -> bool) -> Result<(), Refused> {
        while such(&waiting(&self.steps)) {
            self.send(NOCOP, 0, 0)?;
        }
        Ok(())
    }

    /// PRER, with NOCOPs before it while it would lose a waiting write.
    fn close(&mut self, bank: u32) -> Result<(), Refused> {
        let core = self.timings.core;
        self.nocops(|writes| writes.iter().any(|(b, ..)| near(core, *b, bank)))?;
        self.send(PRER, bank, 0)
    }

    fn close_open(&mut self, pick: impl Fn(u32) -> bool) -> Result<(), Refused> {
        for bank in (0..32).filter(|b| pick(*b)) {
            if open_row(&self.steps, bank).is_some() {
                self.close(bank)?;
            }
        }
        Ok(())
    }

    fn close_open_near(&mut self, bank: u32) -> Result<(), Refused> {
        let core = self.timings.core;
        self.close_open(|b| near(core, b, bank))
    }

    fn reach(&mut self, at: Place) -> Result<(), Refused> {
        if open_row(&self.steps, at.bank) == Some(at.row) {
            return Ok(());
        }
        self.close_open_near(at.bank)?;
        self.send(ACT, at.bank, at.row)
    }

    /// An RDA would lose a write of any column of its bank.
    fn read(&mut self, at: Place, close: bool) -> Result<(), Refused> {
        self.reach(at)?;
        let own = |w: &Write| w.0 == at.bank && (close || w.1 == at.column);
        self.nocops(|writes| writes.len() == 2 || writes.iter().any(own))?;
        self.send(if close { RDA } else { RD }, at.bank, at.column)
    }

    fn write(&mut self, at: Place, mask: u32, data: [u8; 16], close: bool) -> Result<(), Refused> {
        self.reach(at)?;
        self.send(if close { WRA } else { WR }, at.bank, at.column)?;
        self.masks.push(mask);
        let at = self.now + self.timings.cwd;
        let d = Step::new(&self.timings, &self.steps, at, None);
        assert!(rules::broken(&self.timings, &self.steps, &d).none());
        self.steps.push(d);
        self.data.push(data);
        // No WRA waits after its request.
        self.nocops(|writes| writes.iter().any(|w| w.3))
    }

    fn refresh(&mut self) -> Result<(), Refused> {
        let bank = self.refresh;
        self.close_open_near(bank)?;
        self.send(REFA, bank, 0)?;
        self.send(REFP, bank, 0)?;
        self.refresh = (bank + 1) % 32;
        Ok(())
    }

    fn wait(&mut self, cycles: u64) -> Result<(), Refused> {
        self.now += cycles;
        if self.now > LAST {
            return Err(7);
        }
        Ok(())
    }

    fn flush(&mut self) -> Result<(), Refused> {
        self.nocops(|writes| !writes.is_empty())
    }

    /// Bank after bank while one is open.
    fn close_all(&mut self) -> Result<(), Refused> {
        if !waiting(&self.steps).is_empty() {
            return Err(15);
        }
        while (0..32).any(|bank| open_row(&self.steps, bank).is_some()) {
            let next = self.looked;
            self.looked += 1;
            self.close_open(|bank| bank == next)?;
        }
        Ok(())
    }

    fn serve(&mut self, request: &[u8], room: usize) -> Result<(), Refused> {
        let before = self.steps.len();
        match read_request(&self.figures, request)? {
            Request::Read { at, close } => self.read(at, close)?,
            Request::Write {
                at,
                mask,
                data,
                close,
            } => self.write(at, mask, data, close)?,
            Request::Refresh => self.refresh()?,
            Request::Wait { cycles } => self.wait(cycles)?,
            Request::Flush => self.flush()?,
            Request::Close => self.close_all()?,
        }
        if room / 32 < self.steps.len() - before {
            return Err(8);
        }
        Ok(())
    }

    /// The new records of a request with a room of so many bytes. A refusal changes nothing.
    pub fn plan(&mut self, request: &[u8], room: usize) -> Result<Vec<u8>, Refused> {
        let before = (self.steps.len(), self.data.len(), self.masks.len());
        let (now, refresh) = (self.now, self.refresh);
        self.looked = 0;
        if let Err(number) = self.serve(request, room) {
            self.steps.truncate(before.0);
            self.data.truncate(before.1);
            self.masks.truncate(before.2);
            (self.now, self.refresh, self.looked) = (now, refresh, 0);
            return Err(number);
        }
        Ok(self.records(before.0, before.1))
    }

    /// The bytes of the records from one place of the list on, and of their data.
    fn records(&self, first: usize, first_data: usize) -> Vec<u8> {
        let steps = &self.steps[first..];
        let (mut list, mut data) = (vec![0; 32 * steps.len()], self.data[first_data..].iter());
        for (step, record) in steps.iter().zip(list.chunks_mut(32)) {
            record[..4].copy_from_slice(&(step.at as u32).to_le_bytes());
            if let Some(p) = step.packet {
                record[4] = u8::from(p.command >= NOCOP);
                let word = word(&self.figures, p).expect("a packet with a word");
                record[8..16].copy_from_slice(&word.to_le_bytes());
            } else {
                record[4] = 2;
                record[16..].copy_from_slice(data.next().expect("the data of a D"));
            }
        }
        list
    }

    /// The commands of the list from one place on, None for a D.
    pub fn commands(&self, records: usize) -> Vec<Option<u32>> {
        let steps = &self.steps[self.steps.len() - records..];
        steps.iter().map(|s| s.packet.map(|p| p.command)).collect()
    }

    // ---- State bytes ----

    /// The planner's state in the layout of `rdram.h`, read off the list.
    pub fn state(&self) -> Vec<u8> {
        let mut state = channel_bytes(&self.steps);
        state.resize(STATE_BYTES, 0);
        put_instant(&mut state, 752, self.now);
        put(&mut state, 756, 2, self.refresh.into());
        for (i, write) in kept(&self.steps, self.masks.len()).into_iter().enumerate() {
            let mask = write.map_or(0, |n| self.masks[n]);
            put(&mut state, 760 + 2 * i, 2, mask.into());
        }
        state
    }
}

/// Whether bytes are a planner's state that is not refused under 1: no bank is under refresh, no data
/// are due and no WRA waits.
pub fn state_fits(numbers: &[u16; 16], state: &[u8]) -> bool {
    state.len() == STATE_BYTES
        && channel_fits(numbers, state)
        && (0..32).all(|bank| tag(state, bank) != UNDER_REFRESH)
        && state[DUE] == 0
        && WRITES.iter().all(|at| zero(&state[at + CLOSES..at + 4]))
        && (4..=LAST).contains(&instant(state, 752))
        && number(&state[756..758]) < 32
        && zero(&state[758..760])
        && zero(&state[764..])
}
