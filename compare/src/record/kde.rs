//! Answers of Builder::build and Estimator::posterior_error.

use super::file::{describe, until, Recording};
use crate::cases::Random;
use crate::kde::builds::Case;
use crate::kde::draws;
use crate::kde::reading::{bin_score, both_zeros_from};
use sage_core::ml::kde::Estimator;
use std::io::Result;
use std::path::Path;

/// The number of builds, their most rows and their most bins.
const BUILDS: usize = 2_000;
const MOST_ROWS: usize = 10;
const MOST_BINS: usize = 8;

/// The number of errors, and the most bins of their estimators.
const ERRORS: usize = 2_100;
const MOST_OF_ERRORS: usize = 40;

/// The layout.
const FILES: &str = "\
`build`, Builder::build: 1 as u32 for monotonic bins and else 0, the number of bins and of rows as u32, labels, rows *
i32, scores, rows * f64, least score and step, f64, the score of every bin, bins * f64, the densities of decoys and of
targets that sage's kernel gives there, bins * f64 each, and the bins, bins * f64. No case has scores that are zeros
of both signs: Rust leaves the sign of their minimum open.

`posterior_error`, Estimator::posterior_error: the number of bins as u32, the bins, bins * f64, least score, step, a
score and its posterior error, f64.
";

/// Records builds and posterior errors.
pub fn record(folder: &Path) -> Result<()> {
    let mut random = Random::new(33);
    let mut builds = Recording::default();
    (0..BUILDS).for_each(|_| add_build(&mut builds, &mut random));
    builds.save(folder, "build")?;
    let mut errors = Recording::default();
    (0..ERRORS).for_each(|_| add_error(&mut errors, &mut random));
    errors.save(folder, "posterior_error")?;
    describe(folder, FILES)
}

/// A random build.
fn drawn(random: &mut Random) -> Case {
    let labels = until(|| draws::labels(random), |labels| labels.len() <= MOST_ROWS);
    let scores = until(|| draws::scores(random, &labels), |scores| both_zeros_from(scores).is_none());
    let bins = match random.below(2) {
        0 => 1 + random.below(MOST_BINS as u64) as usize,
        _ => until(|| draws::bin_count(random), |bins| *bins <= MOST_BINS),
    };
    Case { monotonic: random.below(2) == 0, bins, scores, labels, widths: draws::widths(random) }
}

/// Records one build.
fn add_build(recording: &mut Recording, random: &mut Random) {
    let case = drawn(random);
    let sage = case.sage();
    let at: Vec<f64> = (0..case.bins).map(|bin| bin_score(bin, sage.min_score, sage.score_step)).collect();
    recording.case();
    recording.length(case.monotonic.into());
    recording.length(case.bins);
    recording.length(case.labels.len());
    recording.numbers(&case.labels);
    recording.numbers(&case.scores);
    recording.answers("least score", &[sage.min_score]);
    recording.answers("step", &[sage.score_step]);
    recording.answers("scores of bins", &at);
    [true, false].iter().for_each(|decoys| recording.numbers(&case.density(*decoys, &at)));
    recording.answers("bins", &sage.bins);
}

/// Records one posterior error.
fn add_error(recording: &mut Recording, random: &mut Random) {
    let parts = until(|| draws::estimator(random), |parts| parts.bins.len() <= MOST_OF_ERRORS);
    let score = draws::score(random, &parts);
    recording.case();
    recording.length(parts.bins.len());
    recording.numbers(&parts.bins);
    recording.numbers(&[parts.min_score, parts.score_step, score]);
    recording.answers("error", &[Estimator::from_parts(parts).posterior_error(score)]);
}
