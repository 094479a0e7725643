//! Elimination beside sage's Gauss::solve.

use super::systems::{every_eps, System, Systems};
use crate::calls::solve;
use crate::report::{expect, expect_all, expect_column, Answer, Tally};
use host::FEATURES;
use sage_core::ml::gauss::Gauss;
use sage_core::ml::matrix::Matrix;

/// Sizes that no system has.
const NO_SIZE: [usize; 8] = [0, 21, 22, 40, 276, 1 << 32, (1 << 32) + 20, usize::MAX];

/// Compares small systems, every special entry in every place and `systems` random systems; says whether nothing
/// differed and every try occurred.
pub fn run(systems: u64) -> bool {
    let mut solve = Solve::new();
    let mut maker = Systems::new(11);
    maker.each_small(|system| solve.check(system));
    maker.each_place(|system| solve.check(system));
    (0..systems).for_each(|_| solve.check(&maker.next()));
    (0..100).for_each(|_| solve.refusals(&maker.next()));
    let same = [solve.tally.print(), solve.tries.print()];
    same.iter().all(|same| *same)
}

/// The tally, and at which try systems were solved.
struct Solve {
    tally: Tally,
    tries: Tries,
}

impl Solve {
    /// Nothing compared yet.
    fn new() -> Self {
        Solve { tally: Tally::new("solve"), tries: Tries::new() }
    }

    /// Compares one system.
    fn check(&mut self, system: &System) {
        self.tries.count(system);
        let outcome = compared(system);
        self.tally.outcome(outcome.map_err(|fault| format!("{fault}, in {}", described(system))));
    }

    /// A size that no system has is refused, whatever the entries are.
    fn refusals(&mut self, system: &System) {
        for size in NO_SIZE {
            let (number, values) = solve(&system.left, &system.right, size);
            let outcome = expect("number", number, 3).and_then(|()| expect_all("answer", &values, f64::NAN));
            self.tally.outcome(outcome.map_err(|fault| format!("{fault}, size {size}")));
        }
    }
}

/// The port's number and answer are sage's, with 0 past the size, or 7 and twenty NaN.
fn compared(system: &System) -> Result<(), String> {
    let (number, values) = solve(&system.left, &system.right, system.size);
    let (left, right) = system.matrices();
    match Gauss::solve(left, right).map(Matrix::take) {
        Some(answer) => {
            expect("number", number, 0)?;
            expect_column("answer", &values, answer.into_iter().chain([0.0; FEATURES]))
        }
        None => {
            expect("number", number, 7)?;
            expect_all("answer", &values, f64::NAN)
        }
    }
}

/// A system in a report: its size, and its entries where they are few.
fn described(system: &System) -> String {
    let size = system.size;
    if size > 3 {
        return format!("a system of size {size}");
    }
    let row = |i: usize| system.left[i][..size].iter().chain([&system.right[i]]).map(|x| x.hex() + " ").collect();
    let rows: Vec<String> = (0..size).map(row).collect();
    format!("a system with the rows {}", rows.join("; "))
}

/// At which eps systems were solved.
struct Tries {
    solved: Vec<(f64, u64)>,
    unsolved: u64,
}

impl Tries {
    /// Nothing solved yet.
    fn new() -> Self {
        Tries { solved: every_eps().into_iter().map(|eps| (eps, 0)).collect(), unsolved: 0 }
    }

    /// Counts a system at the first eps at which sage's solve_inner solves it.
    fn count(&mut self, system: &System) {
        let (left, right) = system.matrices();
        let solves = |eps| Gauss::solve_inner(left.clone(), right.clone(), eps).is_some();
        match self.solved.iter_mut().find(|(eps, _)| solves(*eps)) {
            Some((_, count)) => *count += 1,
            None => self.unsolved += 1,
        }
    }

    /// Prints the counts, and says whether there is one for each try and for none.
    fn print(&self) -> bool {
        println!("systems that sage solves at each eps, and at none:");
        self.solved.iter().for_each(|(eps, count)| println!("  {eps:<22e} {count:>9}"));
        println!("  {:22} {:>9}", "none", self.unsolved);
        let occurred = self.unsolved > 0 && self.solved.iter().all(|(_, count)| *count > 0);
        if !occurred {
            println!("  not every try was needed");
        }
        occurred
    }
}
