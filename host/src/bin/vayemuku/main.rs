//! Rescores a stored results table of sage's, and checks a list that is already out.

#![forbid(unsafe_code)]

mod arguments;
mod cells;
mod check;
mod date;
mod draft;
mod list;
mod problem;
mod progress;
mod proteins;
mod psms;
mod rescore;
mod results_table;

use arguments::{Command, HELP};
use problem::{say, Problem};
use std::process::ExitCode;

/// Runs a command; Ok(false) where a list or its line is wrong.
fn run(command: Command) -> Result<bool, Problem> {
    match command {
        Command::Help => say(HELP).map(|_| true),
        Command::Version => say(concat!("vayemuku ", env!("CARGO_PKG_VERSION"))).map(|_| true),
        Command::Rescore(job) => rescore::run(&job),
        Command::Check(job) => check::run(&job),
    }
}

/// Ends with 0 where all is as it should be, 1 where a list or its line is wrong, and otherwise with the problem's
/// status.
fn main() -> ExitCode {
    match Command::from_words(std::env::args_os().skip(1)).and_then(run) {
        Ok(true) => ExitCode::SUCCESS,
        Ok(false) => ExitCode::from(1),
        Err(problem) => problem.report(),
    }
}
