//! In the place of sage's ml/kde.rs: passes every call on to it, as kde/unchanged.rs. A build can be forced to give an
//! estimator, or recorded: fdr.rs and linear_discriminant.rs do not return the estimators that they build.

use super::*;
use std::cell::RefCell;

mod unchanged;
pub use unchanged::{Estimator, Kde};

/// The inputs of one build, and the estimator that it gave.
#[derive(Clone)]
pub struct Build {
    pub scores: Vec<f64>,
    pub decoys: Vec<bool>,
    pub estimator: Parts,
}

/// An estimator's three fields.
#[derive(Clone, Debug, PartialEq)]
pub struct Parts {
    pub bins: Vec<f64>,
    pub min_score: f64,
    pub score_step: f64,
}

thread_local! {
    static FORCED: RefCell<Option<Parts>> = const { RefCell::new(None) };
    static RECORD: RefCell<Option<Vec<Build>>> = const { RefCell::new(None) };
}

/// Runs `work` with every build giving the estimator of these parts.
pub fn forcing<R>(parts: Parts, work: impl FnOnce() -> R) -> R {
    FORCED.replace(Some(parts));
    let answer = work();
    FORCED.replace(None);
    answer
}

/// Runs `work`, and gives its answer and the builds that it made.
pub fn recording<R>(work: impl FnOnce() -> R) -> (R, Vec<Build>) {
    RECORD.replace(Some(Vec::new()));
    let answer = work();
    (answer, RECORD.replace(None).unwrap_or_default())
}

/// Runs `work` on rayon's thread. A kernel sum that is called from another thread passes its work on and waits.
pub fn on_rayons_thread<R: Send>(work: impl FnOnce() -> R + Send) -> R {
    rayon::scope(|_| work())
}

/// sage's Builder.
#[derive(Default)]
pub struct Builder(unchanged::Builder);

impl Builder {
    /// Passed on.
    pub fn monotonic(self, monotonic: bool) -> Self {
        Builder(self.0.monotonic(monotonic))
    }

    /// Passed on.
    pub fn bw_adjust<F: 'static + Fn(f64) -> f64>(self, bw_adjust: F) -> Self {
        Builder(self.0.bw_adjust(bw_adjust))
    }

    /// Passed on.
    pub fn bins(self, bins: usize) -> Self {
        Builder(self.0.bins(bins))
    }

    /// The forced estimator where there is one, otherwise sage's.
    pub fn build(self, scores: &[f64], decoys: &[bool]) -> Estimator {
        let forced = FORCED.with_borrow(|parts| parts.clone().map(Estimator::from_parts));
        let estimator = forced.unwrap_or_else(|| self.0.build(scores, decoys));
        RECORD.with_borrow_mut(|record| {
            if let Some(builds) = record {
                builds.push(Build { scores: scores.to_vec(), decoys: decoys.to_vec(), estimator: estimator.parts() });
            }
        });
        estimator
    }
}
