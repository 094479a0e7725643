//! Module 6: q-values by the counting rule (decoys plus one, over targets, then the running minimum from the bottom),
//! and the ranked order.

use crate::Refused;
use vayemuku_sys::{self as sys, RankingColumns};

/// The longest list that a call takes.
pub const LONGEST: usize = 16_777_215;

/// Q-values, and how many pass.
#[derive(Clone, Debug, PartialEq)]
pub struct QValues {
    /// One q-value per row.
    pub q: Vec<f32>,
    /// How many pass.
    pub count: usize,
}

/// The q-values of a ranked list of spectra, the best row first. The count is of the rows, decoys too, with a q-value
/// of at most 0.01. A label of −1 is a decoy, every other number a target.
///
/// Refuses with [`TooLong`](crate::Refusal::TooLong).
///
/// ```
/// let answer = vayemuku::spectrum_q_value(&[1, -1, 1]).unwrap();
/// assert_eq!(answer.q, [1.0, 1.0, 1.0]);
/// assert_eq!(answer.count, 0);
/// ```
pub fn spectrum_q_value(labels: &[i32]) -> Result<QValues, Refused> {
    let mut q = vec![f32::NAN; labels.len()];
    let mut count = 0;
    Refused::check(sys::spectrum_q_value(labels, &mut q, &mut count))?;
    Ok(QValues { q, count })
}

/// The q-values of precursors at their places in the list. The count is of the targets with a q-value of at most 0.05.
/// Equal scores, as f32, are ranked in list order.
///
/// Refuses with [`TooLong`](crate::Refusal::TooLong), and with [`WrongLength`](crate::Refusal::WrongLength) where there
/// is not one score per label.
pub fn picked_precursor(labels: &[i32], scores: &[f64]) -> Result<QValues, Refused> {
    let mut keys = vec![0; labels.len()];
    let mut spare = vec![0; labels.len()];
    let mut q = vec![f32::NAN; labels.len()];
    let mut count = 0;
    let ranking = RankingColumns { keys: &mut keys, spare: &mut spare, q: &mut q };
    Refused::check(sys::picked_precursor(labels, scores, ranking, &mut count))?;
    Ok(QValues { q, count })
}

/// The rows, from 0, in ranked order: the greatest score first; equal scores, as f32, in list order.
///
/// Refuses with [`TooLong`](crate::Refusal::TooLong).
///
/// ```
/// let order = vayemuku::precursor_order(&[1.0, 3.0, 2.0]).unwrap();
/// assert_eq!(order, [1, 2, 0]);
/// // labels as ranked
/// let labels: Vec<i32> = order.iter().map(|&row| [-1, 1, 7][row]).collect();
/// assert_eq!(labels, [1, 7, -1]);
/// ```
pub fn precursor_order(scores: &[f64]) -> Result<Vec<usize>, Refused> {
    let mut keys = vec![0; scores.len()];
    let mut spare = vec![0; scores.len()];
    let mut order = vec![u32::MAX; scores.len()];
    Refused::check(sys::precursor_order(scores, &mut keys, &mut spare, &mut order))?;
    Ok(order.into_iter().map(|row| row as usize).collect())
}

/// Keys in ascending order. Refuses with [`TooLong`](crate::Refusal::TooLong).
///
/// ```
/// assert_eq!(vayemuku::rank_keys(vec![3, 1, 2]), Ok(vec![1, 2, 3]));
/// ```
pub fn rank_keys(mut keys: Vec<u64>) -> Result<Vec<u64>, Refused> {
    let mut spare = vec![0; keys.len()];
    Refused::check(sys::rank_keys(&mut keys, &mut spare))?;
    Ok(keys)
}

#[cfg(test)]
mod tests {
    use super::precursor_order;

    #[test]
    fn equal_scores_keep_their_order() {
        assert_eq!(precursor_order(&[1.0, 2.0, 1.0, 2.0]), Ok(vec![1, 3, 0, 2]));
        assert_eq!(precursor_order(&[]), Ok(vec![]));
    }
}
