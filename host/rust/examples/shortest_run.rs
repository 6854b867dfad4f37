//! Cuts a log down to the shortest run that breaks the same rule at the same record, under set H:
//! `shortest_run LOG RUN` reads a log from the file LOG, says what is broken and where, and writes the
//! run to the file RUN as a log of its own. Without arguments it makes a log with a fault at its end.
//! Run with `cargo run --release --offline --manifest-path host/rust/Cargo.toml --example shortest_run`.

use rdram::{
    check_log, lines, log_decode, log_encode, records, shortest, Packet, Planner, Record, Refusal,
    Request, Settings, BLOCK_BYTES, BLOCK_RECORDS, RECORD_BYTES,
};
use std::{env, error::Error, fs, process};

const SET_H: Settings = Settings::SET_H;

fn log_of(list: &[u8]) -> Result<Vec<u8>, Refusal> {
    let mut log = vec![0; (list.len() / RECORD_BYTES).div_ceil(BLOCK_RECORDS) * BLOCK_BYTES];
    log_encode(&SET_H, list, &mut log)?;
    Ok(log)
}

/// Reads that close their banks, one that does not, and an ACT beside that bank.
fn faulty() -> Result<Vec<u8>, Refusal> {
    let (mut planner, mut list) = (Planner::fresh(), Vec::new());
    for i in (0..=3000).rev() {
        let mut room = [0; rdram::REQUEST_RECORDS * RECORD_BYTES];
        let (bank, row, column) = ((i * 5 % 32) as u8, 0, (i % 4) as u8);
        let request = match i {
            0 => Request::Read { bank, row, column },
            _ => Request::ReadClose { bank, row, column },
        };
        let made = planner.plan(&SET_H, &request, &mut room)?;
        list.extend_from_slice(made.list(&room));
    }
    let act = Packet::Act { bank: 1, row: 0 };
    list.extend(Record::packet(&SET_H, planner.now() + 64, act)?.to_bytes());
    log_of(&list)
}

/// The log of the shortest run, or none where the log passes; says what is broken.
fn cut(log: &[u8]) -> Result<Option<Vec<u8>>, Refusal> {
    let mut list = vec![0; log.len() / BLOCK_BYTES * BLOCK_RECORDS * RECORD_BYTES];
    let count = log_decode(&SET_H, log, &mut list)?;
    list.truncate(count * RECORD_BYTES);
    let Some(run) = shortest(&SET_H, &list)? else {
        println!("the log passes");
        return Ok(None);
    };
    let (rule, place) = (run.rule, run.place as u64);
    println!("{}", Refusal::Rule { rule, place });
    println!("records {} to {} tell it:", run.start, run.place);
    // of the whole list, since a D may stand before its run's first WR
    for line in lines(records(&SET_H, &list)?)
        .take(run.place + 1)
        .skip(run.start)
    {
        println!("{line}");
    }
    log_of(run.records(&list)).map(Some)
}

fn main() -> Result<(), Box<dyn Error>> {
    let names: Vec<String> = env::args().skip(1).collect();
    let name = |place: usize, what: &str| match names.get(place) {
        Some(name) => name.into(),
        None => env::temp_dir().join(format!("rdram-{}-{what}", process::id())),
    };
    let (log, run) = (name(0, "log"), name(1, "run"));
    if names.is_empty() {
        fs::write(&log, faulty().map_err(|r| r.to_string())?)?;
    }
    if let Some(found) = cut(&fs::read(&log)?).map_err(|r| r.to_string())? {
        fs::write(&run, found)?;
    }
    if names.is_empty() {
        let again = check_log(&SET_H, &fs::read(&run)?).unwrap_err();
        println!("the run as a log: {again}");
        assert_eq!(again, Refusal::Rule { rule: 4, place: 2 });
        fs::remove_file(&log)?;
        fs::remove_file(&run)?;
    }
    Ok(())
}
