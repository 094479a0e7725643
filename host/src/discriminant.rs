//! Module 3: the linear discriminant.

use crate::{Refused, FEATURES};
use vayemuku_sys as sys;

/// A model: the twenty coefficients of a fit.
#[derive(Clone, Debug, PartialEq)]
pub struct Model {
    coefficients: [f64; FEATURES],
}

/// What a scoring run gives: one entry per row in each column.
#[derive(Clone, Debug, PartialEq)]
pub struct Scores {
    /// Each row's score.
    pub scores: Vec<f64>,
    /// Each row's score as the nearest f32.
    pub narrowed: Vec<f32>,
}

impl Model {
    /// Fits a model to rows of twenty features, one row after the other, and a label for each; −1 is a decoy.
    ///
    /// Refuses with [`TooLong`](crate::Refusal::TooLong), [`WrongLength`](crate::Refusal::WrongLength),
    /// [`OneClass`](crate::Refusal::OneClass) and [`Unsolved`](crate::Refusal::Unsolved).
    pub fn train(features: &[f64], labels: &[i32]) -> Result<Model, Refused> {
        let mut coefficients = [f64::NAN; FEATURES];
        Refused::check(sys::train(features, labels, &mut coefficients))?;
        Ok(Model { coefficients })
    }

    /// A model with these coefficients.
    pub fn from_coefficients(coefficients: [f64; FEATURES]) -> Model {
        Model { coefficients }
    }

    /// The coefficients. They need not be finite; where one is not, no row is scored.
    pub fn coefficients(&self) -> &[f64; FEATURES] {
        &self.coefficients
    }

    /// The score of one row; this call never refuses.
    pub fn score(&self, row: &[f64; FEATURES]) -> f64 {
        sys::score(&self.coefficients, row)
    }

    /// The score of every row.
    ///
    /// Refuses with [`TooLong`](crate::Refusal::TooLong), [`WrongLength`](crate::Refusal::WrongLength) where there are
    /// not twenty features to a row, and [`NotFinite`](crate::Refusal::NotFinite).
    pub fn score_rows(&self, features: &[f64]) -> Result<Scores, Refused> {
        let rows = features.len() / FEATURES;
        let mut scores = vec![f64::NAN; rows];
        let mut narrowed = vec![f32::NAN; rows];
        Refused::check(sys::score_rows(&self.coefficients, features, &mut scores, &mut narrowed))?;
        Ok(Scores { scores, narrowed })
    }
}
