//! The calls over slices. A call judges lengths, slots, sizes and lines itself, so that it is safe on any slices.

use crate::{named, Returned};

/// The four columns of a competition table, with one entry per slot.
#[derive(Clone, Copy, Debug, Default, PartialEq)]
pub struct TableColumns<Scores, Marks> {
    /// The best score of the forward (target) side.
    pub forward: Scores,
    /// The best score of the reverse (decoy) side.
    pub reverse: Scores,
    /// 0 while the forward side is unseen.
    pub forward_seen: Marks,
    /// 0 while the reverse side is unseen.
    pub reverse_seen: Marks,
}

/// A table that a call reads.
pub type TableRef<'a> = TableColumns<&'a [f32], &'a [u32]>;

/// A table that a call writes.
pub type TableMut<'a> = TableColumns<&'a mut [f32], &'a mut [u32]>;

/// The columns of a batch of rows.
#[derive(Clone, Copy, Debug)]
pub struct Batch<'a> {
    /// The slot of each row.
    pub slots: &'a [u32],
    /// The label of each row; -1 is a decoy.
    pub labels: &'a [i32],
    /// The score of each row.
    pub scores: &'a [f32],
}

/// An estimator of posterior errors.
#[derive(Clone, Copy, Debug)]
pub struct EstimatorRef<'a> {
    /// The least score.
    pub min_score: f64,
    /// The step from bin to bin.
    pub score_step: f64,
    /// The bins.
    pub bins: &'a [f64],
}

/// The columns that a ranking call writes: two working columns, which hold 0 afterwards, and the q-values.
#[derive(Debug)]
pub struct RankingColumns<'a> {
    /// A working column.
    pub keys: &'a mut [u64],
    /// Another, of the same length.
    pub spare: &'a mut [u64],
    /// The q-values.
    pub q: &'a mut [f32],
}

/// The columns that a call writes which ranks precursors and checks their line.
pub struct CheckedColumns<'a> {
    /// A working column, a second one, and the q-values.
    pub ranking: RankingColumns<'a>,
    /// A working column.
    pub ranked: &'a mut [i32],
    /// The place, from 0, of the precursor at each rank.
    pub order: &'a mut [u32],
}

/// The numbers that a line check writes.
#[derive(Clone, Copy, Debug, Default, PartialEq, Eq)]
pub struct LineNumbers {
    /// 1 where the line is right, otherwise 0.
    pub right: u32,
    /// The row.
    pub row: usize,
    /// The decoys up to the row, plus one.
    pub decoys_plus_one: usize,
    /// The targets up to the row.
    pub targets: usize,
}

/// Module 2: the answer of a system.
pub fn solve(left: &[[f64; 20]; 20], right: &[f64; 20], size: usize, values: &mut [f64; 20]) -> Returned {
    // SAFETY: the arrays have the declared sizes.
    unsafe { named::vayemuku_solve(left.as_ptr(), right.as_ptr(), size, values.as_mut_ptr()) }
}

/// Module 3: the coefficients of a fit.
pub fn train(features: &[f64], labels: &[i32], coefficients: &mut [f64; 20]) -> Returned {
    // SAFETY: each length is that of its slice, and there are twenty coefficients.
    unsafe {
        named::vayemuku_train(
            features.as_ptr(),
            features.len(),
            labels.as_ptr(),
            labels.len(),
            coefficients.as_mut_ptr(),
        )
    }
}

/// Module 3: the score of one row.
#[inline]
pub fn score(coefficients: &[f64; 20], row: &[f64; 20]) -> f64 {
    // SAFETY: both arrays have the declared size.
    unsafe { crate::vayemuku_score(coefficients.as_ptr(), row.as_ptr()) }
}

/// Module 3: the score of every row.
pub fn score_rows(coefficients: &[f64; 20], features: &[f64], scores: &mut [f64], narrowed: &mut [f32]) -> Returned {
    // SAFETY: each length is that of its slice, and there are twenty coefficients.
    unsafe {
        named::vayemuku_score_rows(
            coefficients.as_ptr(),
            features.as_ptr(),
            features.len(),
            scores.as_mut_ptr(),
            scores.len(),
            narrowed.as_mut_ptr(),
            narrowed.len(),
        )
    }
}

/// Module 4: the least score, the step, and the score of every bin.
pub fn bin_scores(
    bin_count: usize,
    scores: &[f64],
    bin_scores: &mut [f64],
    min_score: &mut f64,
    score_step: &mut f64,
) -> Returned {
    // SAFETY: each length is that of its slice.
    unsafe {
        named::vayemuku_bin_scores(
            bin_count,
            scores.as_ptr(),
            scores.len(),
            bin_scores.as_mut_ptr(),
            bin_scores.len(),
            min_score,
            score_step,
        )
    }
}

/// Module 4: the bins of an estimator, from labels and two densities; they never rise unless `monotonic` is 0.
pub fn posterior_bins(
    monotonic: u32,
    bin_count: usize,
    labels: &[i32],
    decoy_density: &[f64],
    target_density: &[f64],
    bins: &mut [f64],
) -> Returned {
    // SAFETY: each length is that of its slice.
    unsafe {
        named::vayemuku_posterior_bins(
            monotonic,
            bin_count,
            labels.as_ptr(),
            labels.len(),
            decoy_density.as_ptr(),
            decoy_density.len(),
            target_density.as_ptr(),
            target_density.len(),
            bins.as_mut_ptr(),
            bins.len(),
        )
    }
}

/// Module 4: the bins of an estimator, from a competition's slots and two densities, as [`posterior_bins`].
pub fn slot_posterior_bins(
    monotonic: u32,
    bin_count: usize,
    is_decoy: &[u32],
    decoy_density: &[f64],
    target_density: &[f64],
    bins: &mut [f64],
) -> Returned {
    // SAFETY: each length is that of its slice.
    unsafe {
        named::vayemuku_slot_posterior_bins(
            monotonic,
            bin_count,
            is_decoy.as_ptr(),
            is_decoy.len(),
            decoy_density.as_ptr(),
            decoy_density.len(),
            target_density.as_ptr(),
            target_density.len(),
            bins.as_mut_ptr(),
            bins.len(),
        )
    }
}

/// Module 4: the posterior error of a score.
pub fn posterior_error(estimator: EstimatorRef, score: f64, error: &mut f64) -> Returned {
    let EstimatorRef { min_score, score_step, bins } = estimator;
    // SAFETY: the length is that of the slice.
    unsafe { named::vayemuku_posterior_error(min_score, score_step, bins.as_ptr(), bins.len(), score, error) }
}

/// Module 4: the posterior error of every score.
pub fn posterior_errors(estimator: EstimatorRef, scores: &[f64], errors: &mut [f64]) -> Returned {
    let EstimatorRef { min_score, score_step, bins } = estimator;
    // SAFETY: each length is that of its slice.
    unsafe {
        named::vayemuku_posterior_errors(
            min_score,
            score_step,
            bins.as_ptr(),
            bins.len(),
            scores.as_ptr(),
            scores.len(),
            errors.as_mut_ptr(),
            errors.len(),
        )
    }
}

/// Module 4: the number of bins for mass errors within a tolerance; unit 0 is ppm, and 1 is Da.
pub fn bin_count(unit: u32, lo: f32, hi: f32, bin_count: &mut usize) -> Returned {
    // SAFETY: `bin_count` is one number.
    unsafe { named::vayemuku_bin_count(unit, lo, hi, bin_count) }
}

/// Module 4: the log10 of every posterior error, narrowed, with -324 for an infinity.
pub fn log_errors(log10s: &[f64], errors: &mut [f32]) -> Returned {
    // SAFETY: each length is that of its slice.
    unsafe { named::vayemuku_log_errors(log10s.as_ptr(), log10s.len(), errors.as_mut_ptr(), errors.len()) }
}

/// Module 5: the competition table in which no side is seen.
pub fn fresh_table(table: TableMut) -> Returned {
    // SAFETY: each length is that of its slice.
    unsafe {
        named::vayemuku_fresh_table(
            table.forward.as_mut_ptr(),
            table.forward.len(),
            table.reverse.as_mut_ptr(),
            table.reverse.len(),
            table.forward_seen.as_mut_ptr(),
            table.forward_seen.len(),
            table.reverse_seen.as_mut_ptr(),
            table.reverse_seen.len(),
        )
    }
}

/// Module 5: adds a batch of rows to a competition table.
pub fn add_rows(batch: Batch, table: TableMut) -> Returned {
    // SAFETY: each length is that of its slice.
    unsafe {
        named::vayemuku_add_rows(
            batch.slots.as_ptr(),
            batch.slots.len(),
            batch.labels.as_ptr(),
            batch.labels.len(),
            batch.scores.as_ptr(),
            batch.scores.len(),
            table.forward.as_mut_ptr(),
            table.forward.len(),
            table.reverse.as_mut_ptr(),
            table.reverse.len(),
            table.forward_seen.as_mut_ptr(),
            table.forward_seen.len(),
            table.reverse_seen.as_mut_ptr(),
            table.reverse_seen.len(),
        )
    }
}

/// Module 5: the score of every slot, and who wins it.
pub fn winners(table: TableRef, scores: &mut [f32], is_decoy: &mut [u32]) -> Returned {
    // SAFETY: each length is that of its slice.
    unsafe {
        named::vayemuku_winners(
            table.forward.as_ptr(),
            table.forward.len(),
            table.reverse.as_ptr(),
            table.reverse.len(),
            table.forward_seen.as_ptr(),
            table.forward_seen.len(),
            table.reverse_seen.as_ptr(),
            table.reverse_seen.len(),
            scores.as_mut_ptr(),
            scores.len(),
            is_decoy.as_mut_ptr(),
            is_decoy.len(),
        )
    }
}

/// Module 5: the q-values of rows by their slots' names, which are two unless `two_names` is 0.
pub fn assign_q_value(
    two_names: u32,
    estimator: EstimatorRef,
    table: TableRef,
    slots: &[u32],
    labels: &[i32],
    ranking: RankingColumns,
    count: &mut usize,
) -> Returned {
    // SAFETY: each length is that of its slice.
    unsafe {
        named::vayemuku_assign_q_value(
            two_names,
            estimator.min_score,
            estimator.score_step,
            estimator.bins.as_ptr(),
            estimator.bins.len(),
            table.forward.as_ptr(),
            table.forward.len(),
            table.reverse.as_ptr(),
            table.reverse.len(),
            table.forward_seen.as_ptr(),
            table.forward_seen.len(),
            table.reverse_seen.as_ptr(),
            table.reverse_seen.len(),
            slots.as_ptr(),
            slots.len(),
            labels.as_ptr(),
            labels.len(),
            ranking.keys.as_mut_ptr(),
            ranking.keys.len(),
            ranking.spare.as_mut_ptr(),
            ranking.spare.len(),
            ranking.q.as_mut_ptr(),
            ranking.q.len(),
            count,
        )
    }
}

/// Module 6: the q-values of a ranked list of spectra.
pub fn spectrum_q_value(labels: &[i32], q: &mut [f32], count: &mut usize) -> Returned {
    // SAFETY: each length is that of its slice.
    unsafe { named::vayemuku_spectrum_q_value(labels.as_ptr(), labels.len(), q.as_mut_ptr(), q.len(), count) }
}

/// Module 6: the q-values of precursors.
pub fn picked_precursor(labels: &[i32], scores: &[f64], ranking: RankingColumns, count: &mut usize) -> Returned {
    // SAFETY: each length is that of its slice.
    unsafe {
        named::vayemuku_picked_precursor(
            labels.as_ptr(),
            labels.len(),
            scores.as_ptr(),
            scores.len(),
            ranking.keys.as_mut_ptr(),
            ranking.keys.len(),
            ranking.spare.as_mut_ptr(),
            ranking.spare.len(),
            ranking.q.as_mut_ptr(),
            ranking.q.len(),
            count,
        )
    }
}

/// Module 6: the place, from 0, of the precursor at each rank; `keys` and `spare` are working columns.
pub fn precursor_order(scores: &[f64], keys: &mut [u64], spare: &mut [u64], order: &mut [u32]) -> Returned {
    // SAFETY: each length is that of its slice.
    unsafe {
        named::vayemuku_precursor_order(
            scores.as_ptr(),
            scores.len(),
            keys.as_mut_ptr(),
            keys.len(),
            spare.as_mut_ptr(),
            spare.len(),
            order.as_mut_ptr(),
            order.len(),
        )
    }
}

/// Modules 5 and 6: the ranking alone; `spare` is a working column.
pub fn rank_keys(keys: &mut [u64], spare: &mut [u64]) -> Returned {
    // SAFETY: each length is that of its slice.
    unsafe { named::vayemuku_rank_keys(keys.as_mut_ptr(), keys.len(), spare.as_mut_ptr(), spare.len()) }
}

/// Module 7: whether a line is right at one in 100.
pub fn check_line_100(labels: &[i32], line: usize, numbers: &mut LineNumbers) -> Returned {
    let LineNumbers { right, row, decoys_plus_one, targets } = numbers;
    // SAFETY: the length is that of the slice.
    unsafe { named::vayemuku_check_line_100(labels.as_ptr(), labels.len(), line, right, row, decoys_plus_one, targets) }
}

/// Module 7: whether a line is right at one in 20.
pub fn check_line_20(labels: &[i32], line: usize, numbers: &mut LineNumbers) -> Returned {
    let LineNumbers { right, row, decoys_plus_one, targets } = numbers;
    // SAFETY: the length is that of the slice.
    unsafe { named::vayemuku_check_line_20(labels.as_ptr(), labels.len(), line, right, row, decoys_plus_one, targets) }
}

/// Modules 6 and 7: the q-values of spectra, and the check of their line at one in 100.
pub fn checked_spectra(labels: &[i32], q: &mut [f32], numbers: &mut LineNumbers) -> Returned {
    let LineNumbers { right, row, decoys_plus_one, targets } = numbers;
    // SAFETY: each length is that of its slice.
    unsafe {
        named::vayemuku_checked_spectra(
            labels.as_ptr(),
            labels.len(),
            q.as_mut_ptr(),
            q.len(),
            right,
            row,
            decoys_plus_one,
            targets,
        )
    }
}

/// Modules 6 and 7: the q-values and the order of precursors, and the check of their line at one in 20.
pub fn checked_precursors(
    labels: &[i32],
    scores: &[f64],
    columns: CheckedColumns,
    numbers: &mut LineNumbers,
) -> Returned {
    let CheckedColumns { ranking, ranked, order } = columns;
    let LineNumbers { right, row, decoys_plus_one, targets } = numbers;
    // SAFETY: each length is that of its slice.
    unsafe {
        named::vayemuku_checked_precursors(
            labels.as_ptr(),
            labels.len(),
            scores.as_ptr(),
            scores.len(),
            ranking.keys.as_mut_ptr(),
            ranking.keys.len(),
            ranking.spare.as_mut_ptr(),
            ranking.spare.len(),
            ranked.as_mut_ptr(),
            ranked.len(),
            order.as_mut_ptr(),
            order.len(),
            ranking.q.as_mut_ptr(),
            ranking.q.len(),
            right,
            row,
            decoys_plus_one,
            targets,
        )
    }
}
