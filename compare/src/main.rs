//! Compares sage's unchanged Rust with libvayemuku.a, and times both.

#![forbid(unsafe_code)]

mod bench;
mod calls;
mod cases;
mod counting;
mod differences;
mod fdr;
mod fit;
mod floats;
mod kde;
mod lists;
mod record;
mod report;
mod sage;
mod sample;
mod smoke;

use std::process::ExitCode;

const USAGE: &str = "usage: compare smoke
       compare floats [--cases N] [--exhaustive]
       compare counting [--lists N]
       compare fit [--systems N] [--fits N]
       compare kde [--builds N]
       compare fdr [--tables N]
       compare differences
       compare sample TABLE LIST REFUSED
       compare record CRATES
       compare bench floats
       compare bench counting
       compare bench fit
       compare bench kde
       compare bench fdr";

/// How many random lists `counting` compares by default.
const LISTS: u64 = 200_000;

/// How many random builds and estimators `kde` compares by default.
const BUILDS: u64 = 30_000;

/// How many random tables of each kind `fdr` compares by default.
const TABLES: u64 = 50_000;

/// Runs the command line; None where it is not valid.
fn run(words: &[&str]) -> Option<bool> {
    match words {
        ["smoke"] => Some(smoke::run()),
        ["floats", options @ ..] => Some(floats::run(&cases::CasePlan::from_words(options)?)),
        ["counting"] => Some(counting::run(LISTS)),
        ["counting", "--lists", lists] => Some(counting::run(lists.parse().ok()?)),
        ["fit", options @ ..] => Some(fit::run(&fit::FitPlan::from_words(options)?)),
        ["kde"] => Some(kde::run(BUILDS)),
        ["kde", "--builds", builds] => Some(kde::run(builds.parse().ok()?)),
        ["fdr"] => Some(fdr::run(TABLES)),
        ["fdr", "--tables", tables] => Some(fdr::run(tables.parse().ok()?)),
        ["differences"] => Some(differences::run()),
        // not for a user: the call that ends its process, which differences starts
        ["differences", differences::APART] => Some(differences::run_apart()),
        ["sample", table, list, refused] => Some(sample::run(table, list, refused)),
        ["record", crates] => Some(record::run(crates)),
        ["bench", "counting"] => Some(bench::counting::run()),
        ["bench", "fdr"] => Some(bench::fdr::run()),
        ["bench", "fit"] => Some(bench::fit::run()),
        ["bench", "floats"] => Some(bench::floats::run()),
        ["bench", "kde"] => Some(bench::kde::run()),
        _ => None,
    }
}

/// Ends with 0 where all is the same, 1 on a mismatch, 2 where the command line is not valid.
fn main() -> ExitCode {
    // With two threads the kernel sums of sage's kde.rs are not deterministic.
    std::env::set_var("RAYON_NUM_THREADS", "1");
    let words: Vec<String> = std::env::args().skip(1).collect();
    let words: Vec<&str> = words.iter().map(String::as_str).collect();
    match run(&words) {
        Some(true) => ExitCode::SUCCESS,
        Some(false) => ExitCode::from(1),
        None => {
            eprintln!("{USAGE}");
            ExitCode::from(2)
        }
    }
}
