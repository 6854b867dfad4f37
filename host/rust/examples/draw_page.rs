//! Prints a page of the channel, and draws it: `draw_page START [FILE.svg]` plans the requests of standard
//! input, 24 bytes each, under set H, and prints 64 cycles from START on. A request that is refused is
//! named on standard error, and the next one follows. Without arguments it draws run 1 of document 01 from
//! cycle 0 on. Run with `cargo run --release --offline --manifest-path host/rust/Cargo.toml --example
//! draw_page -- START FILE.svg < REQUESTS`.

use rdram::{page, Planner, Settings, PAGE_BYTES, RECORD_BYTES, REQUEST_BYTES, REQUEST_RECORDS};
use std::fmt::Write;
use std::{env, error::Error, fs, io::Read};

const SET_H: Settings = Settings::SET_H;

/// The width of a cycle and of the names, the height of a box and of a line, in pixels.
const CYCLE: usize = 14;
const NAMES: usize = 60;
const BOX: usize = 24;
const LINE: usize = 36;

/// read 0/0/1, write 0/0/1 mask 0003, read 0/0/1, read 1/0/0, flush, close
fn run_1() -> Vec<u8> {
    let used: [&[u8]; 6] = [
        &[0, 0, 0, 0, 1],
        &[1, 0, 0, 0, 1, 0, 3],
        &[0, 0, 0, 0, 1],
        &[0, 1],
        &[4],
        &[5],
    ];
    let mut requests = vec![0; REQUEST_BYTES * used.len()];
    for (request, bytes) in requests.chunks_mut(REQUEST_BYTES).zip(used) {
        request[..bytes.len()].copy_from_slice(bytes);
    }
    requests
}

/// The records of the requests that are accepted.
fn planned(requests: &[u8]) -> Result<Vec<u8>, rdram::Refusal> {
    let (mut planner, mut list) = (Planner::fresh(), Vec::new());
    for (place, request) in requests.chunks(REQUEST_BYTES).enumerate() {
        let mut room = [0; REQUEST_RECORDS * RECORD_BYTES];
        let made = planner.plan_all_bytes(&SET_H, request, &mut room)?;
        if let Some(why) = made.stop {
            eprintln!("request {place}: {why}");
        }
        list.extend_from_slice(made.records);
    }
    Ok(list)
}

/// What a letter stands for, and its colour.
fn meaning(letter: u8) -> (&'static str, &'static str) {
    match letter {
        b'A' => ("ACT", "#9ecae1"),
        b'P' => ("PRER", "#c7c7c7"),
        b'F' => ("REFA", "#bcbddc"),
        b'E' => ("REFP", "#dadaeb"),
        b'R' => ("RD", "#a1d99b"),
        b'W' => ("WR", "#fdae6b"),
        b'N' => ("NOCOP", "#f0f0d0"),
        b'D' => ("D", "#fdd0a2"),
        _ => ("Q", "#c7e9c0"),
    }
}

/// The marks of a line, each its first cycle and how many of its four are on the page. Equal letters side by
/// side are several marks; only the first of a page is cut at its front.
fn marks(cells: &[u8]) -> Vec<(usize, usize)> {
    let (mut found, mut at) = (Vec::new(), 0);
    while at < cells.len() {
        let same = cells[at..].iter().take_while(|c| **c == cells[at]).count();
        if cells[at] == b'.' {
            at += same;
            continue;
        }
        let front = if at == 0 { same % 4 } else { 0 };
        let long = if front > 0 { front } else { same.min(4) };
        found.push((at, long));
        at += long;
    }
    found
}

/// The page as a picture: the scale with the numbers of its cycles, and over it a box for each mark.
fn svg(text: &str, start: u32) -> String {
    let (width, height) = (NAMES + 65 * CYCLE, 4 * LINE + 10);
    let mut out = format!(
        "<svg xmlns=\"http://www.w3.org/2000/svg\" width=\"{width}\" height=\"{height}\" \
         font-family=\"sans-serif\" font-size=\"11\">\n\
         <rect width=\"{width}\" height=\"{height}\" fill=\"white\"/>\n"
    );
    let lines: Vec<&str> = text.lines().collect();
    for n in [3, 0, 1, 2] {
        let line = lines[n];
        let (cells, top) = (&line.as_bytes()[8..], 10 + n * LINE);
        let name = line[..8].trim_end();
        let middle = top + BOX / 2;
        let _ = writeln!(out, "<text x=\"8\" y=\"{}\">{name}</text>", middle + 4);
        if n == 3 {
            for k in (0..64).filter(|k| cells[*k] == b'|') {
                let (x, cycle) = (NAMES + k * CYCLE, start as usize + k);
                let _ = writeln!(
                    out,
                    "<line x1=\"{x}\" x2=\"{x}\" y1=\"10\" y2=\"{}\" stroke=\"#aaaaaa\" stroke-dasharray=\"2 3\"/>\n\
                     <text x=\"{x}\" y=\"{}\">{cycle}</text>",
                    top + 6,
                    top + 18
                );
            }
            continue;
        }
        let _ = writeln!(
            out,
            "<line x1=\"{NAMES}\" x2=\"{}\" y1=\"{middle}\" y2=\"{middle}\" stroke=\"#888888\"/>",
            NAMES + 64 * CYCLE
        );
        for (at, long) in marks(cells) {
            let ((word, colour), x) = (meaning(cells[at]), NAMES + at * CYCLE);
            let _ = writeln!(
                out,
                "<rect x=\"{x}\" y=\"{top}\" width=\"{}\" height=\"{BOX}\" fill=\"{colour}\" stroke=\"black\"/>\n\
                 <text x=\"{}\" y=\"{}\" text-anchor=\"middle\">{}</text>",
                long * CYCLE,
                x + long * CYCLE / 2,
                middle + 4,
                if long < 4 { &word[..1] } else { word }
            );
        }
    }
    out + "</svg>\n"
}

fn main() -> Result<(), Box<dyn Error>> {
    let words: Vec<String> = env::args().skip(1).collect();
    let (mut requests, mut start) = (run_1(), 0);
    if let Some(word) = words.first() {
        start = word.parse()?;
        requests.clear();
        std::io::stdin().read_to_end(&mut requests)?;
    }
    let mut room = [0; PAGE_BYTES];
    let list = planned(&requests).map_err(|r| r.to_string())?;
    page(&SET_H, &list, start, &mut room).map_err(|r| r.to_string())?;
    let text = std::str::from_utf8(&room)?;
    print!("{text}");
    if let Some(file) = words.get(1) {
        fs::write(file, svg(text, start))?;
    }
    Ok(())
}
