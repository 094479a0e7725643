//! Refusals of the calls that take columns: the number of the first question answered with no, and blanks.

use super::buffers::Buffer;
use super::reading::{refusal, MOST_BINS};
use super::{expect_same, Calls};
use crate::calls::{bin_scores, posterior_error};
use crate::lists::{label, LONGEST};
use crate::report::{expect, expect_all, Answer};
use vayemuku_sys::{log_errors, posterior_bins, posterior_errors, slot_posterior_bins, EstimatorRef};

/// The contents of a column before a call.
const GARBAGE: f64 = 0.067_891;

/// Numbers of rows: a few, the most, and too many.
const ROWS: [usize; 5] = [0, 3, LONGEST, LONGEST + 1, LONGEST + 2];

/// Bin counts on either side of both ends, and some of which a part of the bits is within them.
const BINS: [usize; 11] =
    [0, 1, 2, 1000, MOST_BINS - 1, MOST_BINS, MOST_BINS + 1, 2 * MOST_BINS, 1 << 32, (1 << 32) + 2, usize::MAX];

/// Lengths of bin columns.
const PLACES: [usize; 6] = [0, 1, 2, 1000, MOST_BINS, MOST_BINS + 1];

/// Lengths of columns that have a place for each row.
const ERRORS: [usize; 5] = [0, 2, 3, 4, LONGEST + 1];

/// The input columns, too long as a whole; a call gets a part of them.
struct Inputs {
    floats: Vec<f64>,
    labels: Vec<i32>,
    flags: Vec<u32>,
}

impl Inputs {
    /// Columns of two rows too many.
    fn new() -> Self {
        let rows = 0..LONGEST + 2;
        Inputs {
            floats: rows.clone().map(|place| (place % 1000) as f64 / 500.0).collect(),
            labels: rows.clone().map(|place| label(place % 4 == 2, place)).collect(),
            flags: rows.map(|place| u32::from(place % 4 == 2)).collect(),
        }
    }

    /// An estimator with this number of bins.
    fn estimator(&self, bin_count: usize) -> EstimatorRef<'_> {
        EstimatorRef { min_score: 0.25, score_step: 0.5, bins: &self.floats[..bin_count] }
    }
}

impl Calls {
    /// Every call that takes columns, and the one that takes bins.
    pub fn refusals(&mut self) {
        let inputs = Inputs::new();
        self.bin_scores_refusals(&inputs);
        self.bins_refusals(&inputs);
        self.errors_refusals(&inputs);
        self.logs_refusals(&inputs);
        for bin_count in PLACES.into_iter().chain([MOST_BINS + 2, 2 * MOST_BINS, 2 * MOST_BINS + 1, LONGEST + 1]) {
            let wanted = refusal(0, &[], 0, bin_count);
            let (number, error) = posterior_error(inputs.estimator(bin_count), 0.75);
            let blank = if wanted == 0 { error } else { f64::NAN };
            let outcome = expect("number", number, wanted).and_then(|()| expect_same("error", error, blank));
            self.posterior_error.outcome(outcome.map_err(|fault| format!("{fault}, {bin_count} bins")));
        }
    }

    /// Step one; least score and step are NaN then.
    fn bin_scores_refusals(&mut self, inputs: &Inputs) {
        for [rows, bin_count, places] in choices([&ROWS, &BINS, &PLACES]) {
            let wanted = refusal(rows, &[places], bin_count, bin_count);
            let mut column = Buffer::new(places, GARBAGE);
            let built = bin_scores(bin_count, &inputs.floats[..rows], column.column_mut());
            let outcome = blank(wanted, built.number, &column, f64::NAN).and_then(|()| match wanted {
                0 => Ok(()),
                _ => expect_all("least score and step", &[built.min_score, built.score_step], f64::NAN),
            });
            self.bin_scores
                .outcome(outcome.map_err(|fault| format!("{fault}, {rows} rows, {bin_count} bins, {places}")));
        }
    }

    /// Step two, over labels and over slots.
    fn bins_refusals(&mut self, inputs: &Inputs) {
        let some = [PLACES[0], PLACES[1], PLACES[4], PLACES[5]];
        for [rows, bin_count, decoy, target, places] in choices([&ROWS[1..4], &BINS, &some, &some, &some]) {
            let wanted = refusal(rows, &[decoy, target, places], bin_count, bin_count);
            let (decoys, targets) = (&inputs.floats[..decoy], &inputs.floats[..target]);
            let described =
                |fault| format!("{fault}, {rows} rows, {bin_count} bins, lengths {decoy}, {target}, {places}");
            let (mut over_labels, mut over_slots) = (Buffer::new(places, GARBAGE), Buffer::new(places, GARBAGE));
            let returned =
                posterior_bins(1, bin_count, &inputs.labels[..rows], decoys, targets, over_labels.column_mut());
            self.posterior_bins.outcome(blank(wanted, returned.number, &over_labels, f64::NAN).map_err(described));
            let returned =
                slot_posterior_bins(1, bin_count, &inputs.flags[..rows], decoys, targets, over_slots.column_mut());
            self.slot_posterior_bins.outcome(blank(wanted, returned.number, &over_slots, f64::NAN).map_err(described));
        }
    }

    /// Posterior errors of a column.
    fn errors_refusals(&mut self, inputs: &Inputs) {
        for [rows, places, bin_count] in choices([&ROWS, &ERRORS, &PLACES]) {
            // a long column is tried where it has the stated length, and otherwise only with no bins
            if places > LONGEST && places != rows && bin_count != 0 {
                continue;
            }
            let wanted = refusal(rows, &[places], rows, bin_count);
            let mut column = Buffer::new(places, GARBAGE);
            let returned = posterior_errors(inputs.estimator(bin_count), &inputs.floats[..rows], column.column_mut());
            let outcome = blank(wanted, returned.number, &column, f64::NAN);
            self.posterior_errors
                .outcome(outcome.map_err(|fault| format!("{fault}, {rows} rows, {places}, {bin_count} bins")));
        }
    }

    /// Logarithms of a column.
    fn logs_refusals(&mut self, inputs: &Inputs) {
        for [rows, places] in choices([&ROWS, &ERRORS]) {
            let wanted = refusal(rows, &[places], rows, 1);
            let mut column = Buffer::new(places, GARBAGE as f32);
            let number = log_errors(&inputs.floats[..rows], column.column_mut()).number;
            let outcome = blank(wanted, number, &column, f32::NAN);
            self.log_errors.outcome(outcome.map_err(|fault| format!("{fault}, {rows} rows, {places}")));
        }
    }
}

/// The number is the one wanted, and where that refuses, the column holds blanks; nothing beside it was written.
fn blank<T: Answer>(wanted: u32, number: u32, column: &Buffer<T>, blank: T) -> Result<(), String> {
    expect("number", number, wanted)?;
    let column = column.after()?;
    match wanted {
        0 => Ok(()),
        _ => expect_all("blank", column, blank),
    }
}

/// Every choice of one number from each list.
fn choices<const LISTS: usize>(lists: [&[usize]; LISTS]) -> impl Iterator<Item = [usize; LISTS]> + '_ {
    let all = lists.iter().map(|list| list.len()).product();
    (0..all).map(move |mut choice| {
        lists.map(|list| {
            let one = list[choice % list.len()];
            choice /= list.len();
            one
        })
    })
}
