//! Module 4: columns of posterior errors and of their logarithms, and both steps of a build without its kernel.

use super::{head, side_by_side, ROUNDS};
use crate::calls::{bin_scores, estimator};
use crate::cases::Random;
use crate::kde::draws::between;
use crate::kde::reading::{bin_score, log_error};
use crate::lists::label;
use crate::report::{expect_column, Answer};
use sage_core::ml::kde::{Estimator, Parts};
use vayemuku_sys::{log_errors, posterior_bins, posterior_errors};

/// Rows and bins.
const ROWS: usize = 1_000_000;
const BINS: usize = 1000;

/// Times every call; false where both sides do not give the same.
pub fn run() -> bool {
    println!("{ROWS} rows, {BINS} bins, one thread; every column is allocated before the clock starts.");
    println!("errors: random scores, a quarter of them past each end of the bins; in bins: none of them past an end.");
    println!(
        "Beside the port's column call is sage's posterior_error for each score: \"called\", and \"inlined\" in a loop"
    );
    println!("that stands in its own file.");
    println!(
        "bin scores, bins: sage has both inside Builder::build, around its kernel. Rust's side is those lines: the"
    );
    println!("walk for least and greatest score, and the count of decoys, the mix of two densities and the running");
    println!("maximum. No kernel and no collecting of each class's scores is in either time.");
    println!("logarithms: Rust's side is `as f32` and is_infinite, as in score_psms; log10 is in neither time.");
    println!("with log10: it is in both. Rust's side is one loop; before the port's call the host fills a column.");
    head(&format!("ns per row, median of {ROUNDS} rounds"));
    let outcomes = [errors("errors", 10.0), errors("in bins", 5.0), step_one(), step_two(), logs()];
    for words in outcomes.iter().filter_map(|outcome| outcome.as_ref().err()) {
        println!("{words}");
    }
    outcomes.iter().all(|outcome| outcome.is_ok())
}

/// Falling bins from -5 to 5.
fn falling_bins(random: &mut Random) -> Parts {
    let bins = (0..BINS).map(|bin| 1.0 - (bin as f64 + between(random, 0.0, 1.0)) / BINS as f64).collect();
    Parts { bins, min_score: -5.0, score_step: 10.0 / (BINS - 1) as f64 }
}

/// Posterior errors of scores from -span to span, on bins from -5 to 5.
fn errors(name: &str, span: f64) -> Result<(), String> {
    let mut random = Random::new(12);
    let parts = falling_bins(&mut random);
    let scores: Vec<f64> = (0..ROWS).map(|_| between(&mut random, -span, span)).collect();
    let sage = Estimator::from_parts(parts.clone());
    let [mut port_errors, mut called, mut inlined] = [(); 3].map(|()| vec![0.0; ROWS]);
    let mut port = || {
        let number = posterior_errors(estimator(&parts), &scores, &mut port_errors).number;
        u64::from(number) + port_errors[ROWS / 2].pattern()
    };
    let call = || {
        for (error, score) in called.iter_mut().zip(&scores) {
            *error = sage.posterior_error(*score);
        }
        called[ROWS / 2].pattern()
    };
    side_by_side(&format!("{name}, called"), ROWS, &mut port, call);
    let inline = || {
        sage.posterior_errors(&scores, &mut inlined);
        inlined[ROWS / 2].pattern()
    };
    side_by_side(&format!("{name}, inlined"), ROWS, &mut port, inline);
    expect_column("error", &port_errors, called.into_iter())?;
    expect_column("error", &port_errors, inlined.into_iter())
}

/// Least score, step and bin scores.
fn step_one() -> Result<(), String> {
    let mut random = Random::new(13);
    let scores: Vec<f64> = (0..ROWS).map(|_| between(&mut random, -10.0, 10.0)).collect();
    let [mut port_column, mut rust_column] = [(); 2].map(|()| vec![0.0; BINS]);
    let port = || {
        let built = bin_scores(BINS, &scores, &mut port_column);
        u64::from(built.number) + built.score_step.pattern()
    };
    let rust = || {
        let mut min_score = f64::MAX;
        let mut max_score = f64::MIN;
        for s in &scores {
            min_score = min_score.min(*s);
            max_score = max_score.max(*s);
        }
        let score_step = (max_score - min_score) / (BINS - 1) as f64;
        rust_column.iter_mut().enumerate().for_each(|(bin, score)| *score = bin_score(bin, min_score, score_step));
        score_step.pattern()
    };
    side_by_side("bin scores", ROWS, port, rust);
    expect_column("bin score", &port_column, rust_column.into_iter())
}

/// Bins from densities.
fn step_two() -> Result<(), String> {
    let mut random = Random::new(14);
    let labels: Vec<i32> = (0..ROWS).map(|place| label(random.below(3) == 0, place)).collect();
    let [decoy, target] = [(); 2].map(|()| (0..BINS).map(|_| between(&mut random, 0.0, 1.0)).collect::<Vec<f64>>());
    let [mut port_bins, mut bins] = [(); 2].map(|()| vec![0.0; BINS]);
    let port = || {
        let number = posterior_bins(1, BINS, &labels, &decoy, &target, &mut port_bins).number;
        u64::from(number) + port_bins[0].pattern()
    };
    let rust = || {
        let decoys = labels.iter().filter(|label| **label == -1).count();
        let pi = decoys as f64 / labels.len() as f64;
        for (bin, (decoy, target)) in bins.iter_mut().zip(decoy.iter().zip(&target)) {
            let decoy = decoy * pi;
            let target = target * (1.0 - pi);
            *bin = decoy / (target + decoy);
        }
        let init = bins[BINS - 1];
        bins.iter_mut().rev().fold(init, |acc, x| {
            *x = acc.max(*x);
            *x
        });
        bins[0].pattern()
    };
    side_by_side("bins", ROWS, port, rust);
    expect_column("bin", &port_bins, bins.into_iter())
}

/// Logarithms of posterior errors, one error in 64 zero.
fn logs() -> Result<(), String> {
    let mut random = Random::new(15);
    let mut error = |_| between(&mut random, 0.0, 1.0) * f64::from(u8::from(random.below(64) != 0));
    let errors: Vec<f64> = (0..ROWS).map(&mut error).collect();
    let log10s: Vec<f64> = errors.iter().map(|error| error.log10()).collect();
    let (mut host, mut port_logs, mut rust_logs) = (vec![0.0; ROWS], vec![0f32; ROWS], vec![0f32; ROWS]);
    let port = || {
        let number = log_errors(&log10s, &mut port_logs).number;
        u64::from(number) + port_logs[ROWS / 2].pattern()
    };
    let rust = || {
        rust_logs.iter_mut().zip(&log10s).for_each(|(log, log10)| *log = log_error(*log10));
        rust_logs[ROWS / 2].pattern()
    };
    side_by_side("logarithms", ROWS, port, rust);
    expect_column("logarithm", &port_logs, rust_logs.iter().copied())?;
    let port = || {
        host.iter_mut().zip(&errors).for_each(|(log10, error)| *log10 = error.log10());
        let number = log_errors(&host, &mut port_logs).number;
        u64::from(number) + port_logs[ROWS / 2].pattern()
    };
    let rust = || {
        rust_logs.iter_mut().zip(&errors).for_each(|(log, error)| *log = log_error(error.log10()));
        rust_logs[ROWS / 2].pattern()
    };
    side_by_side("with log10", ROWS, port, rust);
    expect_column("logarithm", &port_logs, rust_logs.iter().copied())
}
