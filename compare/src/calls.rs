//! Calls of the port that return more than a column, over vayemuku-sys: their answers by value, with the number first.
//!
//! What they add: before a call each answer is a number that no call should leave there, so that one that is not
//! written is seen; and an answer can be read after a refusal, where host's calls give none.

use host::{Rate, FEATURES};
use sage_core::ml::kde::Parts;
use vayemuku_sys::{self as sys, CheckedColumns, EstimatorRef, LineNumbers, RankingColumns, TableRef};

/// The coefficients of a model, a feature row, or a row of a system.
pub type Vector = [f64; FEATURES];

/// An answer before a call.
const UNWRITTEN: usize = 0x5a5a_5a5a;
const UNWRITTEN_FLOAT: f64 = 0.123_456_789;

/// What bin_scores returns besides its column.
#[derive(Clone, Copy)]
pub struct Built {
    pub number: u32,
    pub min_score: f64,
    pub score_step: f64,
}

/// sage's estimator, as a call takes it.
pub fn estimator(parts: &Parts) -> EstimatorRef<'_> {
    EstimatorRef { min_score: parts.min_score, score_step: parts.score_step, bins: &parts.bins }
}

/// The answer of a system.
pub fn solve(left: &[Vector; FEATURES], right: &Vector, size: usize) -> (u32, Vector) {
    let mut values = [UNWRITTEN_FLOAT; FEATURES];
    (sys::solve(left, right, size, &mut values).number, values)
}

/// The coefficients of a fit.
pub fn train(features: &[f64], labels: &[i32]) -> (u32, Vector) {
    let mut coefficients = [UNWRITTEN_FLOAT; FEATURES];
    (sys::train(features, labels, &mut coefficients).number, coefficients)
}

/// The least score and the step of scores, with the scores of the bins in a column.
pub fn bin_scores(bin_count: usize, scores: &[f64], bin_scores: &mut [f64]) -> Built {
    let [mut min_score, mut score_step] = [UNWRITTEN_FLOAT; 2];
    let number = sys::bin_scores(bin_count, scores, bin_scores, &mut min_score, &mut score_step).number;
    Built { number, min_score, score_step }
}

/// The posterior error of a score.
pub fn posterior_error(estimator: EstimatorRef, score: f64) -> (u32, f64) {
    let mut error = UNWRITTEN_FLOAT;
    (sys::posterior_error(estimator, score, &mut error).number, error)
}

/// The bin count of a tolerance.
pub fn bin_count(unit: u32, lo: f32, hi: f32) -> (u32, usize) {
    let mut bin_count = UNWRITTEN;
    (sys::bin_count(unit, lo, hi, &mut bin_count).number, bin_count)
}

/// The count of spectrum q-values.
pub fn spectrum_q_value(labels: &[i32], q: &mut [f32]) -> (u32, usize) {
    let mut count = UNWRITTEN;
    (sys::spectrum_q_value(labels, q, &mut count).number, count)
}

/// The count of precursors' q-values.
pub fn picked_precursor(labels: &[i32], scores: &[f64], ranking: RankingColumns) -> (u32, usize) {
    let mut count = UNWRITTEN;
    (sys::picked_precursor(labels, scores, ranking, &mut count).number, count)
}

/// The count of competitions' q-values.
pub fn assign_q_value(
    two_names: u32,
    estimator: EstimatorRef,
    table: TableRef,
    (slots, labels): (&[u32], &[i32]),
    ranking: RankingColumns,
) -> (u32, usize) {
    let mut count = UNWRITTEN;
    (sys::assign_q_value(two_names, estimator, table, slots, labels, ranking, &mut count).number, count)
}

/// The numbers of a line's check before a call.
const NO_NUMBERS: LineNumbers =
    LineNumbers { right: UNWRITTEN as u32, row: UNWRITTEN, decoys_plus_one: UNWRITTEN, targets: UNWRITTEN };

/// The numbers of a line's check.
pub fn check_line(labels: &[i32], line: usize, rate: Rate) -> (u32, LineNumbers) {
    let mut numbers = NO_NUMBERS;
    let check = match rate {
        Rate::OneIn100 => sys::check_line_100,
        Rate::OneIn20 => sys::check_line_20,
    };
    (check(labels, line, &mut numbers).number, numbers)
}

/// The numbers of the check of spectra's own line.
pub fn checked_spectra(labels: &[i32], q: &mut [f32]) -> (u32, LineNumbers) {
    let mut numbers = NO_NUMBERS;
    (sys::checked_spectra(labels, q, &mut numbers).number, numbers)
}

/// The numbers of the check of precursors' own line.
pub fn checked_precursors(labels: &[i32], scores: &[f64], columns: CheckedColumns) -> (u32, LineNumbers) {
    let mut numbers = NO_NUMBERS;
    (sys::checked_precursors(labels, scores, columns, &mut numbers).number, numbers)
}
