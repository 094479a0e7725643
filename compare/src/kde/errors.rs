//! posterior_error and posterior_errors beside sage's unchanged Estimator::posterior_error.

use super::buffers::Buffer;
use super::draws;
use super::{as_hex, Calls};
use crate::calls::{estimator, posterior_error};
use crate::lists::LONGEST;
use crate::report::Answer;
use sage_core::ml::kde::{Estimator, Parts};
use vayemuku_sys::{posterior_errors, EstimatorRef};

/// The contents of a column before a call.
const GARBAGE: f64 = 0.034_567;

/// Scores for each random estimator.
const SCORES: usize = 500;

/// Document 01's points: bins, least score, step, and scores with their errors.
const BINS: [f64; 2] = [0.5, 0.25];
const POINTS: [(f64, f64); 3] = [(0.5, 0.375), (2.0, 0.25), (-3.0, 1.25)];

impl Calls {
    /// Compares document 01's points, random estimators, and the longest column.
    pub fn errors(&mut self, estimators: u64) {
        for (score, error) in POINTS {
            let points = EstimatorRef { min_score: 0.0, score_step: 1.0, bins: &BINS };
            let answer = posterior_error(points, score);
            let words = || format!("bins {BINS:?}, least 0, step 1, score {score}: port {answer:?}, should be {error}");
            self.posterior_error.count(answer == (0, error), words);
        }
        for _ in 0..estimators {
            let parts = draws::estimator(&mut self.random);
            self.errors_around(&parts, SCORES);
        }
        let parts = Parts { bins: vec![1.0, 0.75, 0.5], min_score: -1.0, score_step: 2.0 };
        self.errors_around(&parts, 0);
        self.errors_around(&parts, LONGEST);
    }

    /// Compares an estimator's errors on random scores around its bins.
    pub fn errors_around(&mut self, parts: &Parts, scores: usize) {
        let scores: Vec<f64> = (0..scores).map(|_| draws::score(&mut self.random, parts)).collect();
        let mut errors = Buffer::new(scores.len(), GARBAGE);
        let number = posterior_errors(estimator(parts), &scores, errors.column_mut()).number;
        let fault = errors.after().err().unwrap_or_default();
        let sage = Estimator::from_parts(parts.clone());
        let accepted = number == 0 && fault.is_empty();
        self.posterior_errors.count(accepted, || format!("number {number} {fault}, {}", described(parts)));
        for (&score, &error) in scores.iter().zip(errors.column()) {
            let wanted = sage.posterior_error(score);
            let (number, alone) = posterior_error(estimator(parts), score);
            let words = |port: f64| {
                format!("port {}, sage {}, score {}, {}", port.hex(), wanted.hex(), score.hex(), described(parts))
            };
            self.posterior_error
                .count(number == 0 && alone.same(wanted), || format!("number {number}, {}", words(alone)));
            self.posterior_errors.count(error.same(wanted), || words(error));
        }
    }
}

/// An estimator in a report.
fn described(parts: &Parts) -> String {
    let Parts { bins, min_score, score_step } = parts;
    format!("least {}, step {}, {} bins {}", min_score.hex(), score_step.hex(), bins.len(), as_hex(bins))
}
