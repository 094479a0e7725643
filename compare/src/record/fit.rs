//! Answers of LinearDiscriminantAnalysis::train and score.

use super::file::{describe, until, Recording};
use crate::cases::Random;
use crate::fit::rows::{random_list, random_pair};
use crate::fit::train::fit_of_sage;
use crate::report::Answer;
use sage_core::ml::linear_discriminant::LinearDiscriminantAnalysis;
use std::io::Result;
use std::path::Path;

/// Numbers of fits, each with the most rows of a list.
const FITS: [(usize, u64); 2] = [(2_000, 4), (20, 60)];

/// The number of scores.
const SCORES: usize = 2_000;

/// The layout.
const FILES: &str = "\
`train`, LinearDiscriminantAnalysis::train: the number of rows as u32, labels, rows * i32, features, rows * 20 * f64,
then 0 as u32 and the coefficients, 20 * f64, or only a refusal as u32: sage answers None, and it is 6 where a class
is absent, else 7.

`score`, LinearDiscriminantAnalysis::score: coefficients, 20 * f64, a row, 20 * f64, its score, f64, then 0 as u32 and
the score narrowed by Rust's `as f32`, f32, or only 8 as u32 where a coefficient is not finite, as score_psms refuses
it. Rust leaves open where a sum starts: a score that is a zero is recorded with the sign that the sum from +0.0 on
has.
";

/// Records fits of few rows, some of more, and scores.
pub fn record(folder: &Path) -> Result<()> {
    let mut random = Random::new(32);
    let mut fits = Recording::default();
    for (number, longest) in FITS {
        (0..number).for_each(|_| add_fit(&mut fits, &mut random, longest));
    }
    fits.save(folder, "train")?;
    let mut scores = Recording::default();
    (0..SCORES).for_each(|_| add_score(&mut scores, &mut random));
    scores.save(folder, "score")?;
    describe(folder, FILES)
}

/// Records one fit; two in three have both classes.
fn add_fit(recording: &mut Recording, random: &mut Random, longest: u64) {
    let any = random.below(3) == 0;
    let both = |labels: &[i32]| labels.contains(&-1) && labels.iter().any(|label| *label != -1);
    let (rows, labels) = until(|| random_list(random, longest), |(_, labels)| any || both(labels));
    let (number, coefficients) = fit_of_sage(&rows, &labels);
    recording.case();
    recording.length(rows.len());
    recording.numbers(&labels);
    recording.numbers(rows.as_flattened());
    match number {
        0 => {
            recording.length(0);
            recording.answers("coefficients", &coefficients);
        }
        _ => recording.answers("refusal", &[number]),
    }
}

/// Records one score.
fn add_score(recording: &mut Recording, random: &mut Random) {
    let (coefficients, row) = random_pair(random);
    let sage = LinearDiscriminantAnalysis::from_coefficients(coefficients.to_vec()).score(&row);
    let ruled = coefficients.iter().zip(&row).fold(0.0, |sum, (w, x)| sum + w * x);
    assert!(sage.same(ruled) || sage == 0.0 && ruled == 0.0);
    recording.case();
    recording.numbers(&coefficients);
    recording.numbers(&row);
    recording.answers("score", &[ruled]);
    match coefficients.iter().all(|x| x.is_finite()) {
        true => {
            recording.length(0);
            recording.answers("narrowed", &[ruled as f32]);
        }
        false => recording.answers("refusal", &[8u32]),
    }
}
