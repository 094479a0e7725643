//! Line checks beside a direct reading of demand 3.

use super::described;
use super::reading::Counted;
use crate::calls::check_line;
use crate::cases::Random;
use crate::lists::{label, LONGEST};
use crate::report::{expect, Tally};
use host::Rate;
use vayemuku_sys::LineNumbers;

/// A tally for each rate.
pub struct Lines([(Rate, Tally); 2]);

impl Lines {
    /// Nothing compared yet.
    pub fn new() -> Self {
        Lines([(Rate::OneIn100, Tally::new("check_line_100")), (Rate::OneIn20, Tally::new("check_line_20"))])
    }

    /// Compares every line of a list, and checks that exactly one is right.
    pub fn all(&mut self, labels: &[i32], counted: &Counted) {
        for (rate, tally) in &mut self.0 {
            let rights = (0..=labels.len()).map(|line| compared(labels, line, *rate, counted, tally)).sum();
            let outcome = expect("lines that are right", rights, 1);
            tally.outcome(outcome.map_err(|fault| format!("{fault}, in {}", described(labels))));
        }
    }

    /// Compares the first, the last, the right line and those beside it, and some others.
    pub fn some(&mut self, random: &mut Random, labels: &[i32], counted: &Counted) {
        let last = labels.len();
        for (rate, tally) in &mut self.0 {
            let right = counted.right_line(*rate);
            let mut any = || random.below(last as u64 + 1) as usize;
            for line in [0, last, right, right.saturating_sub(1), last.min(right + 1), any(), any(), any()] {
                compared(labels, line, *rate, counted, tally);
            }
        }
    }

    /// Lists that are too long, and lines past the end.
    pub fn refusals(&mut self) {
        let labels: Vec<i32> = (0..LONGEST + 2).map(|place| label(place % 300 == 250, place)).collect();
        for length in [0, 1, 14, 250, 5_000, LONGEST] {
            for line in [length + 1, length + 2, 2 * length + 1, LONGEST + 1, 1 << 32, usize::MAX] {
                self.refusal(&labels[..length], line, 9);
            }
        }
        for length in [LONGEST + 1, LONGEST + 2] {
            for line in [0, 250, LONGEST, length, length + 1, usize::MAX] {
                self.refusal(&labels[..length], line, 1);
            }
        }
    }

    /// A check of this line is refused, and every number returned is 0.
    fn refusal(&mut self, labels: &[i32], line: usize, number: u32) {
        let wanted = (number, LineNumbers::default());
        for (rate, tally) in &mut self.0 {
            let port = check_line(labels, line, *rate);
            tally.outcome(expect(&format!("line {line} of {} rows", labels.len()), port, wanted));
        }
    }

    /// Prints both lines, and says whether nothing differed.
    pub fn print(&self) -> bool {
        let same = self.0.each_ref().map(|(_, tally)| tally.print());
        same.iter().all(|same| *same)
    }
}

/// Compares the check of one line, and gives what it says: 1 for right.
fn compared(labels: &[i32], line: usize, rate: Rate, counted: &Counted, tally: &mut Tally) -> u32 {
    let (port, wanted) = (check_line(labels, line, rate), (0, counted.line_numbers(line, rate)));
    tally.count(port == wanted, || {
        format!("line {line}: port {port:?}, and it should be {wanted:?}, in {}", described(labels))
    });
    port.1.right
}
