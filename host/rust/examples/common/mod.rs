//! What the benches have in common: size, settings, random numbers, times and the table.

#![allow(dead_code)] // each bench uses a part
#![allow(clippy::incompatible_msrv)] // built with today's compiler; rust-version is what the crate asks of its users

pub mod streams;

use rdram::Settings;
use std::hint::black_box;
use std::time::Instant;

pub const SETTINGS: Settings = Settings {
    rows: 512,
    columns: 128,
    device: 5,
    ..Settings::SET_H
};

/// How much to run. The arguments of a bench are COUNT, RUNS and STREAM; each may be left out.
pub struct Size {
    /// Requests or records.
    pub count: usize,
    pub runs: usize,
    stream: Option<String>,
}

impl Size {
    pub fn from_arguments(count: usize, runs: usize) -> Size {
        let mut arguments = std::env::args().skip(1);
        let mut or = |usual| {
            arguments
                .next()
                .map_or(usual, |n| n.parse().expect("a number"))
        };
        Size {
            count: or(count),
            runs: or(runs),
            stream: arguments.next(),
        }
    }

    /// Whether a stream is wanted.
    pub fn has(&self, stream: &str) -> bool {
        self.stream.as_ref().is_none_or(|wanted| wanted == stream)
    }
}

/// A number below n (xorshift64).
pub fn below(x: &mut u64, n: u64) -> u64 {
    *x ^= *x << 13;
    *x ^= *x >> 7;
    *x ^= *x << 17;
    (*x >> 33) % n
}

/// How many calls are timed together: few, so that most times have no other program in them.
pub const SLICE: usize = 500;

/// Nanoseconds that some work takes. Instructions are counted in here only, so that they are those
/// of the measured calls.
#[inline(never)]
pub fn timed<T>(work: impl FnOnce() -> T) -> f64 {
    let start = Instant::now();
    black_box(work());
    start.elapsed().as_secs_f64() * 1e9
}

/// The times of a call on each of some inputs, in slices.
pub fn time<A, B>(inputs: &[A], mut call: impl FnMut(&A) -> B) -> Vec<f64> {
    let slices = inputs.chunks(SLICE);
    let slice_time = |slice: &[A]| {
        timed(|| {
            for input in slice {
                black_box(call(black_box(input)));
            }
        })
    };
    slices.map(slice_time).collect()
}

/// Nanoseconds for one of `count` that each work does, by the best time of each of its slices. The
/// works run in turns.
pub fn best<const N: usize>(
    count: usize,
    runs: usize,
    mut works: [&mut dyn FnMut() -> Vec<f64>; N],
) -> [f64; N] {
    let mut least = works.each_mut().map(|work| work());
    for _ in 1..runs {
        for (least, work) in least.iter_mut().zip(&mut works) {
            for (least, time) in least.iter_mut().zip(work()) {
                *least = least.min(time);
            }
        }
    }
    least.map(|slices| slices.iter().sum::<f64>() / count as f64)
}

/// The head of the table. Times are nanoseconds a request or record.
pub fn print_head() {
    println!("| Call | Stream | Library, ns | Plain, ns | Ratio | Tuned, ns | Ratio |");
    println!("|---|---|---|---|---|---|---|");
}

pub fn print_row(call: &str, stream: &str, library: f64, plain: f64, tuned: Option<f64>) {
    let rival = |ns: f64| format!("{ns:.1} | {:.2}", library / ns);
    let tuned = tuned.map_or("none |".to_string(), rival);
    println!(
        "| {call} | {stream} | {library:.1} | {} | {tuned} |",
        rival(plain)
    );
}
