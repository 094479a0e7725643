//! Lines from inside functions of sage's, quoted, and document 01's questions on lengths and bins.

use crate::floats::{first_greatest, first_least};
use crate::lists::LONGEST;

/// The most bins that question 3 allows.
pub const MOST_BINS: usize = 65_536;

/// The densities of decoys and of targets at the scores of the bins.
#[derive(Clone, Copy)]
pub struct DensityPair<'a> {
    pub decoy: &'a [f64],
    pub target: &'a [f64],
}

/// Builder::build: the least score and the step. Where two zeros meet, the accumulated one is kept: document 01's rule.
pub fn span(bin_count: usize, scores: &[f64]) -> (f64, f64) {
    let mut min_score = f64::MAX;
    let mut max_score = f64::MIN;
    for s in scores {
        min_score = first_least(min_score, *s);
        max_score = first_greatest(max_score, *s);
    }
    (min_score, (max_score - min_score) / (bin_count - 1) as f64)
}

/// Builder::build: the score of a bin.
pub fn bin_score(bin: usize, min_score: f64, score_step: f64) -> f64 {
    (bin as f64 * score_step) + min_score
}

/// Builder::build: the bins, from these densities instead of pdf's.
pub fn mixed(pi: f64, densities: DensityPair) -> Vec<f64> {
    let bin = |(decoy, target): (&f64, &f64)| {
        let decoy = decoy * pi;
        let target = target * (1.0 - pi);
        decoy / (target + decoy)
    };
    densities.decoy.iter().zip(densities.target).map(bin).collect()
}

/// Builder::build: the running maximum from the last bin down, with this max.
pub fn raised(mut bins: Vec<f64>, max: impl Fn(f64, f64) -> f64) -> Vec<f64> {
    if let Some(&init) = bins.last() {
        bins.iter_mut().rev().fold(init, |acc, x| {
            *x = max(acc, *x);
            *x
        });
    }
    bins
}

/// score_psms: the bin count, with 100.0 for ppm and 1000.0 for Da.
pub fn bins_across(lo: f32, hi: f32, least: f32) -> usize {
    (hi - lo).max(least).ceil().abs() as usize
}

/// score_psms: the logarithm of a posterior error.
pub fn log_error(log10: f64) -> f32 {
    let mut posterior_error = log10 as f32;
    if posterior_error.is_infinite() {
        posterior_error = -324.0;
    }
    posterior_error
}

/// Document 01's question 3.
pub fn in_range(bin_count: usize) -> bool {
    (1..=MOST_BINS).contains(&bin_count)
}

/// The first of questions 1 to 3 that is answered with no, or 0: of a list of `rows` rows, of columns with these
/// lengths where `length` is stated, and of `bin_count` bins.
pub fn refusal(rows: usize, columns: &[usize], length: usize, bin_count: usize) -> u32 {
    if rows > LONGEST {
        1
    } else if columns.iter().any(|column| *column != length) {
        2
    } else if !in_range(bin_count) {
        3
    } else {
        0
    }
}

/// The last place from which on zeros of both signs are among the floats.
pub fn both_zeros_from(floats: &[f64]) -> Option<usize> {
    let last = |negative| floats.iter().rposition(|x| *x == 0.0 && x.is_sign_negative() == negative);
    Some(last(true)?.min(last(false)?))
}
