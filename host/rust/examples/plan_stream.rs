//! Plans a stream of requests under set H and prints the packets as the listing does: instant, name,
//! bank, row or column, mask; and how many banks the close looked at. The stream is run 1 of document
//! 01, and a read that closes its bank: RDA has a PRER in it. Run with
//! `cargo run --release --offline --manifest-path host/rust/Cargo.toml --example plan_stream`.

use rdram::{lines, records, Planner, Refusal, Request, Settings, RECORD_BYTES};

const SET_H: Settings = Settings::SET_H;

fn main() -> Result<(), Refusal> {
    let read = |bank, column| Request::Read {
        bank,
        row: 0,
        column,
    };
    let write = Request::Write {
        bank: 0,
        row: 0,
        column: 1,
        mask: 3,
        data: [0xAA; 16],
    };
    let stream = [
        read(0, 1),
        write,
        read(0, 1),
        read(1, 0),
        Request::Flush,
        Request::Close,
        Request::ReadClose {
            bank: 5,
            row: 1,
            column: 2,
        },
    ];
    let (mut planner, mut count) = (Planner::fresh(), 0);
    for request in &stream {
        let mut room = [0; rdram::REQUEST_RECORDS * RECORD_BYTES];
        let made = planner.plan(&SET_H, request, &mut room)?;
        for line in lines(records(&SET_H, made.list(&room))?) {
            println!("{line}");
        }
        if *request == Request::Close {
            println!("banks looked at {}", made.banks);
        }
        count += made.records;
    }
    println!("records {count}");
    assert_eq!(count, 12, "run 1 has ten records, the closing read two");
    Ok(())
}
