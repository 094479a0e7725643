//! Module 4: posterior errors. The port gives the scores of the bins, the host takes two densities there, and the port
//! makes the bins of an estimator of them.

use crate::Refused;
use vayemuku_sys::{self as sys, EstimatorRef, Returned};

/// The most bins that an estimator can have.
pub const MOST_BINS: usize = 65_536;

/// A tolerance of precursor masses, from its low end to its high one.
#[derive(Clone, Copy, Debug, PartialEq)]
pub enum Tolerance {
    /// In parts per million.
    Ppm(f32, f32),
    /// In percent, which is refused: it is no tolerance of masses.
    Pct(f32, f32),
    /// In dalton.
    Da(f32, f32),
}

impl Tolerance {
    /// The number of bins for mass errors.
    ///
    /// Refuses with [`NoTolerance`](crate::Refusal::NoTolerance) for percent, and with
    /// [`OutOfRange`](crate::Refusal::OutOfRange) above 65,536 bins.
    ///
    /// ```
    /// use vayemuku::{Refusal, Tolerance};
    /// assert_eq!(Tolerance::Ppm(-75.5, 75.0).bin_count(), Ok(151));
    /// assert_eq!(Tolerance::Pct(-1.0, 1.0).bin_count().unwrap_err().refusal, Refusal::NoTolerance);
    /// ```
    pub fn bin_count(self) -> Result<usize, Refused> {
        let (unit, lo, hi) = match self {
            Tolerance::Ppm(lo, hi) => (0, lo, hi),
            Tolerance::Da(lo, hi) => (1, lo, hi),
            Tolerance::Pct(lo, hi) => (2, lo, hi),
        };
        let mut bins = 0;
        Refused::check(sys::bin_count(unit, lo, hi, &mut bins))?;
        Ok(bins)
    }
}

/// The settings of an estimator: sage's Builder.
#[derive(Clone, Copy, Debug, PartialEq, Eq)]
pub struct Builder {
    /// Whether the bins are made never to rise with the score, by the running maximum from the last bin down.
    pub monotonic: bool,
    /// The number of bins.
    pub bins: usize,
}

impl Default for Builder {
    /// Monotonic, with 1000 bins.
    fn default() -> Builder {
        Builder { monotonic: true, bins: sys::VAYEMUKU_BINS }
    }
}

impl Builder {
    /// The scores of the bins, evenly spaced from the least score to the greatest.
    ///
    /// Refuses with [`TooLong`](crate::Refusal::TooLong), and with [`OutOfRange`](crate::Refusal::OutOfRange) where the
    /// bins are not 1 to 65,536.
    pub fn bin_scores(self, scores: &[f64]) -> Result<BinScores, Refused> {
        // every number of bins above the most is refused in the same way
        let bin_count = self.bins.min(MOST_BINS + 1);
        let (mut min_score, mut score_step) = (f64::NAN, f64::NAN);
        let mut bin_scores = vec![f64::NAN; bin_count];
        Refused::check(sys::bin_scores(bin_count, scores, &mut bin_scores, &mut min_score, &mut score_step))?;
        Ok(BinScores { monotonic: self.monotonic, min_score, score_step, scores: bin_scores })
    }
}

/// The scores of the bins of an estimator, at which the host takes its densities.
#[derive(Clone, Debug, PartialEq)]
pub struct BinScores {
    monotonic: bool,
    min_score: f64,
    score_step: f64,
    scores: Vec<f64>,
}

impl BinScores {
    /// The score of every bin.
    pub fn scores(&self) -> &[f64] {
        &self.scores
    }

    /// The estimator of a list with these labels, from the densities of its decoys and of its targets at the scores.
    ///
    /// Refuses with [`TooLong`](crate::Refusal::TooLong), and with [`WrongLength`](crate::Refusal::WrongLength) where
    /// there is not one density per bin.
    pub fn posterior_bins(
        &self,
        labels: &[i32],
        decoy_density: &[f64],
        target_density: &[f64],
    ) -> Result<Estimator, Refused> {
        self.estimator(|monotonic, bins| {
            sys::posterior_bins(monotonic, bins.len(), labels, decoy_density, target_density, bins)
        })
    }

    /// The estimator of a competition, as [`BinScores::posterior_bins`]. A slot's flag is 1 where its decoy wins and 0
    /// where its target does; a slot with any other number takes no part.
    pub fn slot_posterior_bins(
        &self,
        is_decoy: &[u32],
        decoy_density: &[f64],
        target_density: &[f64],
    ) -> Result<Estimator, Refused> {
        self.estimator(|monotonic, bins| {
            sys::slot_posterior_bins(monotonic, bins.len(), is_decoy, decoy_density, target_density, bins)
        })
    }

    /// The estimator whose bins a call writes.
    fn estimator(&self, call: impl FnOnce(u32, &mut [f64]) -> Returned) -> Result<Estimator, Refused> {
        let mut bins = vec![f64::NAN; self.scores.len()];
        Refused::check(call(self.monotonic.into(), &mut bins))?;
        Ok(Estimator { min_score: self.min_score, score_step: self.score_step, bins })
    }
}

/// Posterior errors by score: a least score, a step, and a column of bins.
#[derive(Clone, Debug, PartialEq)]
pub struct Estimator {
    min_score: f64,
    score_step: f64,
    bins: Vec<f64>,
}

impl Estimator {
    /// An estimator with this least score, step and bins.
    pub fn from_parts(min_score: f64, score_step: f64, bins: Vec<f64>) -> Estimator {
        Estimator { min_score, score_step, bins }
    }

    /// The least score.
    pub fn min_score(&self) -> f64 {
        self.min_score
    }

    /// The step from bin to bin.
    pub fn score_step(&self) -> f64 {
        self.score_step
    }

    /// The bins.
    pub fn bins(&self) -> &[f64] {
        &self.bins
    }

    /// The estimator, as a call takes it.
    pub(crate) fn borrowed(&self) -> EstimatorRef<'_> {
        EstimatorRef { min_score: self.min_score, score_step: self.score_step, bins: &self.bins }
    }

    /// The posterior error of a score. It can be NaN, and outside 0 to 1 for a score below the first bin.
    ///
    /// Refuses with [`OutOfRange`](crate::Refusal::OutOfRange) where the bins are not 1 to 65,536.
    ///
    /// ```
    /// let estimator = vayemuku::Estimator::from_parts(0.0, 1.0, vec![0.5, 0.25]);
    /// assert_eq!(estimator.posterior_error(-3.0), Ok(1.25));
    /// ```
    pub fn posterior_error(&self, score: f64) -> Result<f64, Refused> {
        let mut error = f64::NAN;
        Refused::check(sys::posterior_error(self.borrowed(), score, &mut error))?;
        Ok(error)
    }

    /// The posterior error of every score, as [`Estimator::posterior_error`].
    ///
    /// Refuses with [`TooLong`](crate::Refusal::TooLong) and [`OutOfRange`](crate::Refusal::OutOfRange).
    pub fn posterior_errors(&self, scores: &[f64]) -> Result<Vec<f64>, Refused> {
        let mut errors = vec![f64::NAN; scores.len()];
        Refused::check(sys::posterior_errors(self.borrowed(), scores, &mut errors))?;
        Ok(errors)
    }
}

/// The log10 of a posterior error, narrowed; −324 for an infinity of either sign.
///
/// ```
/// assert_eq!(vayemuku::log_error(0f64.log10()), -324.0);
/// ```
pub fn log_error(log10: f64) -> f32 {
    sys::vayemuku_log_error(log10)
}

/// Every log10, as [`log_error`]. Refuses with [`TooLong`](crate::Refusal::TooLong).
pub fn log_errors(log10s: &[f64]) -> Result<Vec<f32>, Refused> {
    let mut errors = vec![f32::NAN; log10s.len()];
    Refused::check(sys::log_errors(log10s, &mut errors))?;
    Ok(errors)
}
