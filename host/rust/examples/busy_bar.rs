//! Plans a stream of requests under set H, feeds a meter with the data instants of the packets, and
//! draws how busy the data pins were. Data go at a D record's instant and come tCAC after an RD or
//! RDA; in a planned list these instants rise. Run with
//! `cargo run --release --offline --manifest-path host/rust/Cargo.toml --example busy_bar`.

use rdram::{records, Meter, Planner, Refusal, Request, Settings, RECORD_BYTES};

const SET_H: Settings = Settings::SET_H;
const CELLS: usize = 32;

/// 320 reads in a row; then reads and writes with waits between them, of 12 cycles and later of 60.
fn request(i: usize) -> Request {
    let (bank, row, mask) = (0, 0, 0xFFFF);
    match i {
        321.. if i % 2 == 1 => Request::Wait {
            cycles: if i < 480 { 12 } else { 60 },
        },
        321.. if i % 8 == 0 => Request::Write {
            bank,
            row,
            column: 0,
            mask,
            data: [0xAA; 16],
        },
        _ => Request::Read {
            bank,
            row,
            column: (i % 3) as u8,
        },
    }
}

fn main() -> Result<(), Refusal> {
    let (mut planner, mut meter, mut newest) = (Planner::fresh(), Meter::fresh(), 0);
    for i in 0..640 {
        let mut room = [0; rdram::REQUEST_RECORDS * RECORD_BYTES];
        let made = planner.plan(&SET_H, &request(i), &mut room)?;
        let made = records(&SET_H, made.list(&room))?;
        for at in made.filter_map(|record| record.data_instant(&SET_H)) {
            meter.feed(at)?;
            newest = at;
        }
        if i % 32 == 31 {
            let (count, share) = (meter.count()?, meter.share()?);
            let bar = "#".repeat((share * CELLS as f32).round() as usize);
            println!("{newest:6} {bar:.<CELLS$} {count:4} of 1024, {share:.4}");
        }
    }
    assert_eq!(meter.count(), Ok(68), "the last line of the picture");
    Ok(())
}
