//! Module 4, the density estimator without its kernel: beside sage's unchanged Builder::build, posterior_error and
//! score_psms, and beside lines inside them that cannot be called alone, quoted in `kde/reading.rs`.

pub mod buffers;
pub mod builds;
pub mod draws;
mod errors;
mod logs;
mod mixing;
pub mod psms;
pub mod reading;
mod refusals;
mod tolerances;

use crate::cases::{CasePlan, Random};
use crate::report::{expect_column, Answer, Tally};
use sage_core::ml::kde::on_rayons_thread;

/// Random tolerances and logarithms for each build.
const PER_BUILD: u64 = 200;

/// A tally of each call.
struct Calls {
    random: Random,
    bin_scores: Tally,
    posterior_bins: Tally,
    slot_posterior_bins: Tally,
    posterior_error: Tally,
    posterior_errors: Tally,
    bin_count: Tally,
    log_error: Tally,
    log_errors: Tally,
}

/// Compares every call, on `builds` builds, estimators and pairs of densities; says whether nothing differed.
pub fn run(builds: u64) -> bool {
    // Called from another thread, each kernel sum of sage's would wait for rayon's.
    on_rayons_thread(|| {
        let plan = CasePlan { cases: builds * PER_BUILD, exhaustive: false };
        let mut calls = Calls::new();
        calls.builds(builds);
        calls.mixing(builds);
        calls.errors(builds);
        calls.tolerances(&plan);
        calls.logs(&plan);
        calls.psms();
        calls.refusals();
        calls.print()
    })
}

impl Calls {
    /// Nothing compared yet.
    fn new() -> Self {
        Calls {
            random: Random::new(11),
            bin_scores: Tally::new("bin_scores"),
            posterior_bins: Tally::new("posterior_bins"),
            slot_posterior_bins: Tally::new("slot_posterior_bins"),
            posterior_error: Tally::new("posterior_error"),
            posterior_errors: Tally::new("posterior_errors"),
            bin_count: Tally::new("bin_count"),
            log_error: Tally::new("log_error"),
            log_errors: Tally::new("log_errors"),
        }
    }

    /// Prints every line, and says whether nothing differed.
    fn print(&self) -> bool {
        let same = [
            self.bin_scores.print(),
            self.posterior_bins.print(),
            self.slot_posterior_bins.print(),
            self.posterior_error.print(),
            self.posterior_errors.print(),
            self.bin_count.print(),
            self.log_error.print(),
            self.log_errors.print(),
        ];
        same.iter().all(|same| *same)
    }
}

/// Ok where both have the same bits, or both are NaN.
fn expect_same<T: Answer>(what: &str, port: T, wanted: T) -> Result<(), String> {
    expect_column(what, &[port], std::iter::once(wanted))
}

/// The bits of the first twelve floats, for a report.
fn as_hex<T: Answer>(floats: &[T]) -> String {
    let more = if floats.len() > 12 { " .." } else { "" };
    let floats: Vec<String> = floats.iter().take(12).map(|x| x.hex()).collect();
    format!("{}{more}", floats.join(" "))
}
