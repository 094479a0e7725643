//! Module 2: Gauss-Jordan elimination.

use crate::Refused;
use vayemuku_sys as sys;

/// The most rows and columns of a system, and the number of features of a row.
pub const FEATURES: usize = 20;

/// The answer of a system of `size` equations, with 0 in the places past the size; entries past the size are not read.
///
/// Refuses with [`OutOfRange`](crate::Refusal::OutOfRange) where the size is not 1 to 20, and with
/// [`Unsolved`](crate::Refusal::Unsolved).
///
/// ```
/// use vayemuku::{solve, Refusal};
/// let mut left = [[0.0; 20]; 20];
/// left[0][0] = -1E-8;
/// let mut right = [0.0; 20];
/// right[0] = 5.0;
/// assert_eq!(solve(&left, &right, 1).unwrap()[0], 5.0);
/// assert_eq!(solve(&left, &right, 21).unwrap_err().refusal, Refusal::OutOfRange);
/// ```
pub fn solve(
    left: &[[f64; FEATURES]; FEATURES],
    right: &[f64; FEATURES],
    size: usize,
) -> Result<[f64; FEATURES], Refused> {
    let mut values = [f64::NAN; FEATURES];
    Refused::check(sys::solve(left, right, size, &mut values))?;
    Ok(values)
}
