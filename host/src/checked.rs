//! Modules 6 and 7 in one call: q-values, and the line check's answer for the line after the last row that passes. That
//! this line is right whenever the q-values are accepted is proved (demand 3), so that the answer is never
//! [`Line::Wrong`].

use crate::{Line, QValues, Refused};
use vayemuku_sys::{self as sys, CheckedColumns, LineNumbers, RankingColumns};

/// Q-values of spectra, and the answer for their line.
#[derive(Clone, Debug, PartialEq)]
pub struct CheckedSpectra {
    /// As [`spectrum_q_value`](crate::spectrum_q_value) gives them.
    pub q_values: QValues,
    /// At one in 100; its row is the count.
    pub line: Line,
}

/// Q-values of precursors, their order, and the answer for their line.
#[derive(Clone, Debug, PartialEq)]
pub struct CheckedPrecursors {
    /// As [`picked_precursor`](crate::picked_precursor) gives them.
    pub q_values: QValues,
    /// The rows, from 0, in ranked order, as [`precursor_order`](crate::precursor_order) gives them.
    pub order: Vec<usize>,
    /// Of the list as ranked, at one in 20; its targets are the count.
    pub line: Line,
}

/// The q-values of a ranked list of spectra, and the check of their line.
///
/// Refuses with [`TooLong`](crate::Refusal::TooLong).
///
/// ```
/// use vayemuku::{checked_spectra, Counts, Line};
/// let mut labels = vec![1; 100];
/// labels.push(-1);
/// let checked = checked_spectra(&labels)?;
/// assert_eq!(checked.q_values.count, 100);
/// assert_eq!(checked.line, Line::Right(Counts { row: 100, decoys_plus_one: 1, targets: 100 }));
/// # Ok::<(), vayemuku::Refused>(())
/// ```
pub fn checked_spectra(labels: &[i32]) -> Result<CheckedSpectra, Refused> {
    let mut q = vec![f32::NAN; labels.len()];
    let mut numbers = LineNumbers::default();
    Refused::check(sys::checked_spectra(labels, &mut q, &mut numbers))?;
    Ok(CheckedSpectra { q_values: QValues { q, count: numbers.row }, line: numbers.into() })
}

/// The q-values of precursors at their places in the list, their order, and the check of their line.
///
/// Refuses with [`TooLong`](crate::Refusal::TooLong), and with [`WrongLength`](crate::Refusal::WrongLength) where there
/// is not one score per label.
///
/// ```
/// use vayemuku::{checked_precursors, Counts, Line};
/// let mut labels = vec![1; 20];
/// labels.push(-1);
/// let scores: Vec<f64> = (0..21).map(|row| -f64::from(row)).collect();
/// let checked = checked_precursors(&labels, &scores)?;
/// assert_eq!(checked.q_values.count, 20);
/// assert_eq!(checked.order[20], 20);
/// assert_eq!(checked.line, Line::Right(Counts { row: 20, decoys_plus_one: 1, targets: 20 }));
/// # Ok::<(), vayemuku::Refused>(())
/// ```
pub fn checked_precursors(labels: &[i32], scores: &[f64]) -> Result<CheckedPrecursors, Refused> {
    let mut keys = vec![0; labels.len()];
    let mut spare = vec![0; labels.len()];
    let mut ranked = vec![0; labels.len()];
    let mut order = vec![u32::MAX; labels.len()];
    let mut q = vec![f32::NAN; labels.len()];
    let ranking = RankingColumns { keys: &mut keys, spare: &mut spare, q: &mut q };
    let columns = CheckedColumns { ranking, ranked: &mut ranked, order: &mut order };
    let mut numbers = LineNumbers::default();
    Refused::check(sys::checked_precursors(labels, scores, columns, &mut numbers))?;
    let order = order.into_iter().map(|row| row as usize).collect();
    Ok(CheckedPrecursors { q_values: QValues { q, count: numbers.targets }, order, line: numbers.into() })
}
