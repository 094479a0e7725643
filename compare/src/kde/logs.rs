//! log_error and log_errors beside the lines of score_psms.

use super::buffers::Buffer;
use super::reading::log_error;
use super::{as_hex, Calls};
use crate::cases::{each_single, CasePlan};
use crate::lists::LONGEST;
use crate::report::{expect, expect_column, Answer};
use vayemuku_sys::{log_errors, vayemuku_log_error};

/// The contents of a column before a call.
const GARBAGE: f32 = 0.045_678;

/// Logarithms in a column.
const LENGTH: usize = 1_000;

impl Calls {
    /// Compares every boundary, the planned number of random floats, and the longest column.
    pub fn logs(&mut self, plan: &CasePlan) {
        let mut column = Vec::with_capacity(LENGTH);
        each_single(plan, |log10: f64| {
            let (port, wanted) = (vayemuku_log_error(log10), log_error(log10));
            self.log_error
                .count(port.same(wanted), || format!("({}) port {} Rust {}", log10.hex(), port.hex(), wanted.hex()));
            column.push(log10);
            if column.len() == LENGTH {
                self.log_column(&column);
                column.clear();
            }
        });
        self.log_column(&column);
        self.log_column(&[]);
        self.log_column(&vec![-2.5; LONGEST]);
    }

    /// Compares a column.
    pub fn log_column(&mut self, log10s: &[f64]) {
        let mut errors = Buffer::new(log10s.len(), GARBAGE);
        let number = log_errors(log10s, errors.column_mut()).number;
        let wanted = log10s.iter().map(|log10| log_error(*log10));
        let outcome = expect("number", number, 0)
            .and_then(|()| expect_column("error", errors.after()?, wanted))
            .map_err(|fault| format!("{fault}, in {} logarithms {}", log10s.len(), as_hex(log10s)));
        self.log_errors.outcome(outcome);
    }
}
