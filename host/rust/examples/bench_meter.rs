//! Times a meter's feed and count on streams of data instants, by the library and by two rivals in
//! plain Rust: `bench_meter [FEEDS [RUNS [STREAM]]]`.

mod common;
mod rivals;

use common::{below, best, print_head, print_row, time, Size};
use rdram::Meter;
use rivals::meter::{Plain, Tuned};
use std::hint::black_box;

/// Instants with 4 to 7 cycles between them, with 64 to 327, or more than a window.
fn instants(stream: &str, feeds: usize) -> Vec<u32> {
    let (mut at, mut x) = (4, 0x9E37_79B9_7F4A_7C15);
    let mut next = || match stream {
        "dense" => 4 + below(&mut x, 4),
        "sparse" => 64 + below(&mut x, 264),
        _ => 1024 + below(&mut x, 1024),
    };
    let mut later = || {
        at += next() as u32;
        at
    };
    (0..feeds).map(|_| later()).collect()
}

#[inline(never)]
fn plain_feed(meter: &mut Plain, at: u32) -> u32 {
    meter.feed(at)
}

#[inline(never)]
fn tuned_feed(meter: &mut Tuned, at: u32) -> u32 {
    meter.feed(at)
}

#[inline(never)]
fn plain_count(meter: &Plain) -> u32 {
    meter.count()
}

#[inline(never)]
fn tuned_count(meter: &Tuned) -> u32 {
    meter.count()
}

/// All three agree on every answer and count, refused feeds and the bytes of the meter too.
fn compare(instants: &[u32]) {
    let (mut library, mut plain, mut tuned) = (Meter::fresh(), Plain::fresh(), Tuned::fresh());
    for &at in instants {
        for at in [at, at + 3, at - 1, 3] {
            let number = library.feed(at).map_or_else(|r| r.number(), |()| 0);
            assert_eq!((plain.feed(at), tuned.feed(at)), (number, number));
        }
        let words = plain.marks.iter().chain([&plain.newest]);
        assert!(words.flat_map(|w| w.to_le_bytes()).eq(library.to_bytes()));
        let count = library.count().unwrap();
        assert_eq!((plain.count(), tuned.count()), (count, count));
    }
}

fn measure(stream: &str, size: &Size) {
    let instants = instants(stream, size.count);
    compare(&instants);
    let [library, plain, tuned] = best(
        size.count,
        size.runs,
        [
            &mut || {
                let mut meter = Meter::fresh();
                time(&instants, |&at| meter.feed(at))
            },
            &mut || {
                let mut meter = Plain::fresh();
                time(&instants, |&at| plain_feed(&mut meter, at))
            },
            &mut || {
                let mut meter = Tuned::fresh();
                time(&instants, |&at| tuned_feed(&mut meter, at))
            },
        ],
    );
    print_row("`rdram_meter_feed`", stream, library, plain, Some(tuned));
    let (mut meter, mut marks, mut ring) = (Meter::fresh(), Plain::fresh(), Tuned::fresh());
    for &at in &instants {
        let fed = (meter.feed(at), marks.feed(at), ring.feed(at));
        assert_eq!(fed, (Ok(()), 0, 0));
    }
    let [library, plain, tuned] = best(
        size.count,
        size.runs,
        [
            &mut || time(&instants, |_| black_box(&meter).count()),
            &mut || time(&instants, |_| plain_count(black_box(&marks))),
            &mut || time(&instants, |_| tuned_count(black_box(&ring))),
        ],
    );
    print_row("`rdram_meter_count`", stream, library, plain, Some(tuned));
}

fn main() {
    let size = Size::from_arguments(100_000, 21);
    print_head();
    for stream in ["dense", "sparse", "far"] {
        if size.has(stream) {
            measure(stream, &size);
        }
    }
}
