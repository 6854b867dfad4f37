//! Runs a stream of 10,000 requests under set H through planner and model, and compares what the
//! model reads and keeps with an array that each write sets at once. Run with
//! `cargo run --release --offline --manifest-path host/rust/Cargo.toml --example run_model`.

use rdram::{Event, Model, Planner, Refusal, Request, Settings, RECORD_BYTES, REQUEST_RECORDS};

const SET_H: Settings = Settings::SET_H;
const REQUESTS: u32 = 10_000;

/// Numbers that look random: a linear congruence, its high bits.
struct Numbers(u64);

impl Numbers {
    fn below(&mut self, limit: u64) -> u64 {
        self.0 = self
            .0
            .wrapping_mul(6_364_136_223_846_793_005)
            .wrapping_add(1);
        (self.0 >> 33) % limit
    }
}

/// A read, a write with any mask and data, one of them with close, now and then a refresh; the last one
/// is a flush.
fn request(i: u32, numbers: &mut Numbers) -> Request {
    if i == REQUESTS - 1 {
        return Request::Flush;
    }
    if i % 16 == 0 {
        return Request::Refresh;
    }
    let (bank, row) = (numbers.below(32) as u8, numbers.below(2) as u16);
    let column = numbers.below(4) as u8;
    let mask = numbers.below(65_536) as u16;
    let data = std::array::from_fn(|_| numbers.below(256) as u8);
    match numbers.below(4) {
        0 => Request::Read { bank, row, column },
        1 => Request::ReadClose { bank, row, column },
        2 => Request::Write {
            bank,
            row,
            column,
            mask,
            data,
        },
        _ => Request::WriteClose {
            bank,
            row,
            column,
            mask,
            data,
        },
    }
}

/// The first byte of a dualoct.
fn start(bank: u8, row: u16, column: u8) -> usize {
    16 * ((usize::from(bank) * 2 + usize::from(row)) * 4 + usize::from(column))
}

/// Sets the array at once for a write; answers what a read is to read.
fn flat(array: &mut [u8], request: &Request) -> Vec<u8> {
    match *request {
        Request::Write {
            bank,
            row,
            column,
            mask,
            data,
        }
        | Request::WriteClose {
            bank,
            row,
            column,
            mask,
            data,
        } => {
            let at = start(bank, row, column);
            for (i, byte) in data.iter().enumerate().filter(|(i, _)| mask >> i & 1 == 1) {
                array[at + i] = *byte;
            }
            Vec::new()
        }
        Request::Read { bank, row, column } | Request::ReadClose { bank, row, column } => {
            array[start(bank, row, column)..][..16].to_vec()
        }
        _ => Vec::new(),
    }
}

fn main() -> Result<(), Refusal> {
    let (mut numbers, mut planner, mut model) = (Numbers(1), Planner::fresh(), Model::fresh());
    let first: Vec<u8> = (0..SET_H.store_bytes()).map(|i| i as u8).collect();
    let (mut store, mut array) = (first.clone(), first);
    let (mut reads, mut bytes) = (0, 0);
    for i in 0..REQUESTS {
        let request = request(i, &mut numbers);
        let mut room = [0; REQUEST_RECORDS * RECORD_BYTES];
        let made = planner.plan(&SET_H, &request, &mut room)?;
        let wanted = flat(&mut array, &request);
        for record in made.list(&room).chunks(RECORD_BYTES) {
            let mut answer = [0; 16];
            match model.step(&SET_H, &mut store, record, &mut answer)? {
                Event::Read => {
                    assert_eq!(answer[..], wanted[..], "request {i}");
                    reads += 1;
                }
                Event::Retired(written) => bytes += written,
                Event::Neither => (),
            }
        }
    }
    assert!(store == array, "after the flush the store is the array");
    println!("{reads} reads and {bytes} retired bytes: model and array are the same");
    Ok(())
}
