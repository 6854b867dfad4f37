//! Follows one bank through a log on disk: plans reads of many banks under set H, writes the log and
//! its index to two files, opens them again, and lists the blocks that touch bank 7, each with its
//! records that name it. Run with
//! `cargo run --release --offline --manifest-path host/rust/Cargo.toml --example follow_bank`.

use rdram::{
    blocks, index_banks, index_make, index_query, lines, log_encode, Planner, Request, Settings,
    BLOCK_BYTES, RECORD_BYTES,
};
use std::{env, error::Error, fs, process};

const SET_H: Settings = Settings::SET_H;
const BANK: u32 = 7;

/// The log of reads of one bank after another.
fn log() -> Result<Vec<u8>, rdram::Refusal> {
    let (mut planner, mut list) = (Planner::fresh(), Vec::new());
    for i in 0..200 {
        let mut room = [0; rdram::REQUEST_RECORDS * RECORD_BYTES];
        let request = Request::Read {
            bank: (i / 3 * 5 % 32) as u8,
            row: 0,
            column: (i % 4) as u8,
        };
        let made = planner.plan(&SET_H, &request, &mut room)?;
        list.extend_from_slice(made.list(&room));
    }
    let mut log = vec![0; (list.len() / RECORD_BYTES).div_ceil(15) * BLOCK_BYTES];
    log_encode(&SET_H, &list, &mut log)?;
    Ok(log)
}

fn number(bytes: &[u8]) -> u32 {
    u32::from_le_bytes(bytes.try_into().unwrap())
}

fn main() -> Result<(), Box<dyn Error>> {
    let name = |what: &str| env::temp_dir().join(format!("rdram-{}-{what}", process::id()));
    let made = log().map_err(|r| r.to_string())?;
    let mut index = vec![0; made.len() / BLOCK_BYTES * 4];
    index_make(&SET_H, &made, &mut index).map_err(|r| r.to_string())?;
    fs::write(name("log"), made)?;
    fs::write(name("index"), index)?;

    let (log, index) = (fs::read(name("log"))?, fs::read(name("index"))?);
    fs::remove_file(name("log"))?;
    fs::remove_file(name("index"))?;
    let mut found = vec![0; index.len()];
    let n = index_query(&SET_H, &log, &index, BANK, &mut found).map_err(|r| r.to_string())?;
    println!("bank {BANK}: {n} of {} blocks", log.len() / BLOCK_BYTES);
    let blocks = blocks(&SET_H, &log).map_err(|r| r.to_string())?;
    for block in found.chunks(4).take(n).map(|n| number(n) as usize) {
        let word = number(&index[4 * block..][..4]);
        println!("block {block}, {} banks", index_banks(word));
        let used = blocks.clone().nth(block).into_iter().flatten();
        for line in lines(used).filter(|line| u32::from(line.bank) == BANK) {
            println!("  {line}");
        }
    }
    Ok(())
}
