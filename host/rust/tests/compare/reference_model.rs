//! The device model as plain Rust, written from documents 01 and 02 (a, c, f) alone, by history. It keeps
//! every record that it has taken, judges the next by the rules of `reference_rules` against all of
//! them, and reads banks, the waiting writes, their data and REFR off that list.

use crate::reference::{figures, number, packet, record_fits, Figures, REFA, ROWS};
use crate::reference_rules::{self as rules, Rules, Step, Timings};
use crate::reference_state::{
    channel_bytes, channel_fits, kept, open_row, put, waiting, write_number, zero, Write,
};

pub const STATE_BYTES: usize = 792;

/// The number of a refusal, and the rules that the record breaks where it is 11.
#[derive(Clone, Copy, Debug, PartialEq, Eq)]
pub struct Refused {
    pub number: u32,
    pub broken: Rules,
}

fn refused<T>(number: u32) -> Result<T, Refused> {
    Err(Refused {
        number,
        broken: Rules::default(),
    })
}

#[derive(Clone, Copy, Debug, PartialEq, Eq)]
pub enum Event {
    Neither,
    Read([u8; 16]),
    Retired(u32),
}

#[derive(Clone)]
pub struct Model {
    figures: Figures,
    timings: Timings,
    /// Every record that was taken.
    steps: Vec<Step>,
    /// The data of each D, in order.
    data: Vec<[u8; 16]>,
    pub store: Vec<u8>,
}

impl Model {
    /// A fresh model with a store, if the settings are not refused.
    pub fn fresh(settings: &[u8], store: Vec<u8>) -> Option<Model> {
        Some(Model {
            figures: figures(settings)?,
            timings: Timings::of(settings),
            steps: Vec::new(),
            data: Vec::new(),
            store,
        })
    }

    /// The first byte of a dualoct, in the row open in its bank.
    fn dualoct(&self, bank: u32, column: u32) -> usize {
        let row = open_row(&self.steps, bank).expect("a bank that is open by ACT");
        let (rows, columns) = (self.figures.rows as usize, self.figures.columns as usize);
        16 * ((bank as usize * rows + row as usize) * columns + column as usize)
    }

    /// Writes the bytes of the waiting write at a place that a mask governs, and counts them.
    fn retire(&mut self, place: usize, mask: u32) -> u32 {
        let wr = self.steps[place].packet.expect("a WR");
        let data = self.data[write_number(&self.steps, place)];
        let at = self.dualoct(wr.bank, wr.place);
        let governed = (0..16).filter(|i| mask >> i & 1 == 1);
        governed.map(|i| self.store[at + i] = data[i]).count() as u32
    }

    /// The answer to a record, with a store of so many bytes and so many bytes for the answer. A
    /// refusal changes nothing.
    pub fn step(&mut self, stored: usize, record: &[u8], room: usize) -> Result<Event, Refused> {
        let (rows, columns) = (self.figures.rows as usize, self.figures.columns as usize);
        if stored != rows * columns * 512 {
            return refused(9);
        }
        if record.len() != 32 {
            return refused(13);
        }
        if !record_fits(&self.figures, record) {
            return refused(10);
        }
        let packet = packet(&self.figures, record[4].into(), number(&record[8..16]));
        let at = number(&record[..4]);
        let new = Step::new(&self.timings, &self.steps, at, packet);
        let broken = rules::broken(&self.timings, &self.steps, &new);
        if !broken.none() {
            return Err(Refused { number: 11, broken });
        }
        let mut event = Event::Neither;
        match packet {
            None => self.data.push(record[16..].try_into().unwrap()),
            Some(p) if p.reads() => {
                if room < 16 {
                    return refused(8);
                }
                let at = self.dualoct(p.bank, p.place);
                event = Event::Read(self.store[at..at + 16].try_into().unwrap());
            }
            Some(p) => {
                if let Some((place, _)) = new.retired() {
                    event = Event::Retired(self.retire(place, p.mask));
                }
            }
        }
        self.steps.push(new);
        Ok(event)
    }

    /// The waiting writes, oldest first.
    pub fn waiting(&self) -> Vec<Write> {
        waiting(&self.steps)
    }

    /// The model's state in the layout of `rdram_model.h`, read off the list.
    pub fn state(&self) -> Vec<u8> {
        let mut state = channel_bytes(&self.steps);
        state.resize(STATE_BYTES, 0);
        let packets = self.steps.iter().filter_map(|step| step.packet);
        let rises = packets.filter(|p| p.command == REFA && p.bank == 31);
        put(&mut state, 752, 2, rises.count() as u64 % self.figures.rows);
        for (i, write) in kept(&self.steps, self.data.len()).into_iter().enumerate() {
            if let Some(n) = write {
                state[760 + 16 * i..776 + 16 * i].copy_from_slice(&self.data[n]);
            }
        }
        state
    }
}

/// Whether bytes are a model's state that is not refused under 1.
pub fn state_fits(numbers: &[u16; 16], state: &[u8]) -> bool {
    state.len() == STATE_BYTES
        && channel_fits(numbers, state)
        && number(&state[752..754]) < numbers[ROWS].into()
        && zero(&state[754..760])
}
