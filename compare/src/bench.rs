//! Times the port and the Rust on the same inputs.

pub mod counting;
pub mod fdr;
pub mod fit;
pub mod floats;
pub mod kde;

use std::hint::black_box;
use std::time::Instant;

/// Rounds where a run is short.
pub const ROUNDS: usize = 11;

/// Prints the head of a table.
pub fn head(unit: &str) {
    println!("{:34} {:>10} {:>10} {:>11}   ({unit})", "", "port", "Rust", "port / Rust");
}

/// Runs both in turn, and prints the median nanoseconds per item of each and their ratio.
pub fn side_by_side(name: &str, items: usize, mut port: impl FnMut() -> u64, mut rust: impl FnMut() -> u64) {
    in_rounds(name, ROUNDS, items, || nanoseconds(&mut port), || nanoseconds(&mut rust));
}

/// The same for two sides that give the nanoseconds of each run themselves.
pub fn in_rounds(
    name: &str,
    rounds: usize,
    items: usize,
    mut port: impl FnMut() -> f64,
    mut rust: impl FnMut() -> f64,
) {
    let times: Vec<[f64; 2]> = (0..rounds).map(|_| [port(), rust()]).collect();
    let [port, rust] = [0, 1].map(|side| median(times.iter().map(|round| round[side])) / items as f64);
    println!("{name:34} {port:>10.2} {rust:>10.2} {:>11.3}", port / rust);
}

/// How long one run takes.
pub fn nanoseconds(work: &mut impl FnMut() -> u64) -> f64 {
    let start = Instant::now();
    black_box(work());
    start.elapsed().as_nanos() as f64
}

/// The middle one.
fn median(times: impl Iterator<Item = f64>) -> f64 {
    let mut times: Vec<f64> = times.collect();
    times.sort_by(f64::total_cmp);
    times[times.len() / 2]
}
