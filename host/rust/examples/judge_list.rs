//! Says in words whether a list of records keeps the seventeen rules under set H, and what to do
//! where it does not: `judge_list FILE`, of records of 32 bytes. Without a file: ACT at 4 with RD at
//! 13, and with RD at 12, which is too soon. Run with
//! `cargo run --release --offline --manifest-path host/rust/Cargo.toml --example judge_list`.

use rdram::{check, Packet, Record, Refusal, Settings, MASK_FULL};
use std::process::ExitCode;

const SET_H: Settings = Settings::SET_H;

fn judge(list: &[u8]) -> Result<(), Refusal> {
    let answer = check(&SET_H, list);
    match &answer {
        Ok(()) => println!("the list passes"),
        Err(refusal) => println!("{refusal}"),
    }
    answer
}

/// ACT at 4 and RD at an instant.
fn act_rd(instant: u32) -> Result<Vec<u8>, Refusal> {
    let (bank, column, mask) = (0, 1, MASK_FULL);
    let act = Record::packet(&SET_H, 4, Packet::Act { bank, row: 0 })?;
    let rd = Record::packet(&SET_H, instant, Packet::Rd { bank, column, mask })?;
    Ok([act.to_bytes(), rd.to_bytes()].concat())
}

fn main() -> ExitCode {
    if let Some(name) = std::env::args().nth(1) {
        return match std::fs::read(&name) {
            Ok(list) if judge(&list).is_ok() => ExitCode::SUCCESS,
            Ok(_) => ExitCode::FAILURE,
            Err(error) => {
                eprintln!("{name}: {error}");
                ExitCode::from(2)
            }
        };
    }
    let judged = [13, 12].map(|instant| act_rd(instant).and_then(|list| judge(&list)));
    let early = Refusal::Rule { rule: 10, place: 1 };
    assert_eq!(judged, [Ok(()), Err(early)]);
    ExitCode::SUCCESS
}
