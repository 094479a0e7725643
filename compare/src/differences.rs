//! The rows of docs/DIFFERENCES.md that need both sides at run time: what sage's unchanged Rust does on an input, and
//! what the port does.

mod counting;
mod fdr;
mod features;
mod fit;
mod floats;
mod kde;

pub use kde::run_apart;

use std::fmt::Debug;
use std::panic::{catch_unwind, set_hook, take_hook, AssertUnwindSafe};

/// The word for the one call that is made in a process of its own.
pub const APART: &str = "apart";

/// Tries every input, and says whether both sides did what the document says.
pub fn run() -> bool {
    let modules = [floats::lines(), fit::lines(), kde::lines(), counting::lines(), fdr::lines(), features::lines()];
    let lines = modules.concat();
    lines.iter().all(|same| *same)
}

/// Prints the answers of both sides, and the expected ones where they are different. Answers are compared as Rust
/// writes them: the zeros differ, and all NaNs are the same. Where Rust leaves an answer open, two are given with "or"
/// between.
fn check(input: &str, (sage, wanted): (impl Debug, &str), (port, ruled): (impl Debug, &str)) -> bool {
    let (sage, port) = (format!("{sage:?}"), format!("{port:?}"));
    let same = [(&sage, wanted), (&port, ruled)].map(|(got, wanted)| wanted.split(" or ").any(|one| one == got));
    let should = if same == [true; 2] { String::new() } else { format!(", and it should be {wanted} and {ruled}") };
    println!("{input}: sage {sage}, port {port}{should}");
    same == [true; 2]
}

/// In place of an answer.
#[derive(Clone, Copy, Debug)]
struct Panicked;

/// The answer, unless the call panics; the panic is then not printed.
fn unless_it_panics<T>(call: impl FnOnce() -> T) -> Result<T, Panicked> {
    let hook = take_hook();
    set_hook(Box::new(|_| {}));
    let answer = catch_unwind(AssertUnwindSafe(call));
    set_hook(hook);
    answer.map_err(|_| Panicked)
}
