//! Module 5, competitions: beside sage's unchanged picked_protein and picked_protein_group, and beside a plain reading
//! of document 01.

mod beside_sage;
mod buffers;
pub mod draws;
mod longest;
pub mod picked;
pub mod reading;
mod refusals;
pub mod runs;
pub mod tables;

use crate::cases::Random;
use crate::report::Tally;
use sage_core::ml::kde::on_rayons_thread;

/// The number of tables for each list that goes through all calls.
const TABLES_PER_RUN: u64 = 50;

/// A tally of each call, of the bins that the calls of module 4 make of winners, and of runs of all calls.
struct Calls {
    random: Random,
    fresh_table: Tally,
    add_rows: Tally,
    winners: Tally,
    assign_q_value: Tally,
    fitted_bins: Tally,
    whole_runs: Tally,
}

/// Compares every call on `tables` random tables of each kind, and says whether nothing differed.
pub fn run(tables: u64) -> bool {
    // Called from another thread, each kernel sum of sage's would wait for rayon's.
    on_rayons_thread(|| {
        let mut calls = Calls::new();
        calls.points();
        calls.beside_sage(tables);
        calls.tied(tables);
        calls.whole_runs(tables.div_ceil(TABLES_PER_RUN));
        calls.longest();
        calls.refusals();
        calls.print()
    })
}

impl Calls {
    /// Nothing compared yet.
    fn new() -> Self {
        Calls {
            random: Random::new(20),
            fresh_table: Tally::new("fresh_table"),
            add_rows: Tally::new("add_rows"),
            winners: Tally::new("winners"),
            assign_q_value: Tally::new("assign_q_value"),
            fitted_bins: Tally::new("bins of winners"),
            whole_runs: Tally::new("whole runs"),
        }
    }

    /// Prints every line, and says whether nothing differed.
    fn print(&self) -> bool {
        let same = [
            self.fresh_table.print(),
            self.add_rows.print(),
            self.winners.print(),
            self.assign_q_value.print(),
            self.fitted_bins.print(),
            self.whole_runs.print(),
        ];
        same.iter().all(|same| *same)
    }
}
