//! Spectrum q-values beside sage's.

use super::reading::Counted;
use super::{described, expect_passing};
use crate::calls::{checked_spectra, spectrum_q_value};
use crate::lists::{label, LONGEST};
use crate::report::{expect, expect_all, expect_column, Tally};
use crate::sage::SageRows;
use host::Rate;
use vayemuku_sys::LineNumbers;

/// The contents of a q column before a call.
const GARBAGE: f32 = 0.005;

/// The tallies of the call alone and with the check of its line, sage's rows, and the port's column.
pub struct Spectrum {
    tally: Tally,
    checked: Tally,
    rows: SageRows,
    q: Vec<f32>,
}

impl Spectrum {
    /// Nothing compared yet.
    pub fn new() -> Self {
        let (tally, checked) = (Tally::new("spectrum_q_value"), Tally::new("checked_spectra"));
        Spectrum { tally, checked, rows: SageRows::default(), q: Vec::new() }
    }

    /// Compares one list.
    pub fn check(&mut self, labels: &[i32], counted: &Counted) {
        let outcome = self.compared(labels, counted);
        self.tally.outcome(outcome.map_err(|fault| format!("{fault}, in {}", described(labels))));
        let outcome = self.with_its_line(labels, counted);
        self.checked.outcome(outcome.map_err(|fault| format!("{fault}, in {}", described(labels))));
    }

    /// With the check of its line: the column is sage's, and the answer is the reading's of its right line, which is
    /// Right.
    fn with_its_line(&mut self, labels: &[i32], counted: &Counted) -> Result<(), String> {
        self.q.fill(GARBAGE);
        let (number, numbers) = checked_spectra(labels, &mut self.q);
        let (sage_q, sage_count) = self.rows.spectrum(labels);
        let line = counted.right_line(Rate::OneIn100);
        expect("number", number, 0)?;
        expect("answer", numbers, counted.line_numbers(line, Rate::OneIn100))?;
        expect("right", numbers.right, 1)?;
        expect("row", numbers.row, sage_count)?;
        expect_column("q", &self.q, sage_q)
    }

    /// The port's column and count are sage's, and pass exactly the rows up to the right one-in-100 line.
    fn compared(&mut self, labels: &[i32], counted: &Counted) -> Result<(), String> {
        self.q.clear();
        self.q.resize(labels.len(), GARBAGE);
        let (number, count) = spectrum_q_value(labels, &mut self.q);
        let (sage_q, sage_count) = self.rows.spectrum(labels);
        expect("number", number, 0)?;
        expect("count", count, sage_count)?;
        expect_column("q", &self.q, sage_q)?;
        let line = counted.right_line(Rate::OneIn100);
        expect("count beside the right line", count, line)?;
        expect_passing(&self.q, 0.01, |place| place < line)
    }

    /// Lists that are too long, and columns of another length.
    pub fn refusals(&mut self) {
        for labels in 0..40 {
            for q in (0..40).filter(|q| *q != labels) {
                self.refusal(labels, q, 2);
            }
        }
        for (labels, q) in [(5_000, 4_999), (5_000, 5_001), (5_000, 0), (0, LONGEST + 1), (LONGEST, LONGEST - 1)] {
            self.refusal(labels, q, 2);
        }
        for (labels, q) in [(LONGEST + 1, LONGEST + 1), (LONGEST + 1, 100), (LONGEST + 2, LONGEST), (2 * LONGEST, 0)] {
            self.refusal(labels, q, 1);
        }
    }

    /// A call with columns of these lengths is refused, and leaves blanks.
    fn refusal(&mut self, labels: usize, q: usize, wanted: u32) {
        let labels: Vec<i32> = (0..labels).map(|place| label(place % 200 == 0, place)).collect();
        let mut q = vec![GARBAGE; q];
        let (number, count) = spectrum_q_value(&labels, &mut q);
        let outcome = expect("number", number, wanted)
            .and_then(|()| expect("count", count, 0))
            .and_then(|()| expect_all("q", &q, f32::NAN));
        self.tally.outcome(outcome.map_err(|fault| format!("{fault}, lengths {} and {}", labels.len(), q.len())));
        q.fill(GARBAGE);
        let (number, numbers) = checked_spectra(&labels, &mut q);
        let outcome = expect("number", number, wanted)
            .and_then(|()| expect("numbers", numbers, LineNumbers::default()))
            .and_then(|()| expect_all("q", &q, f32::NAN));
        self.checked.outcome(outcome.map_err(|fault| format!("{fault}, lengths {} and {}", labels.len(), q.len())));
    }

    /// Notes lists that could not be compared.
    pub fn not_compared(&mut self, words: String) {
        self.tally.outcome(Err(words));
    }

    /// Prints the line, and says whether nothing differed.
    pub fn print(&self) -> bool {
        let same = [self.tally.print(), self.checked.print()];
        same.iter().all(|same| *same)
    }
}
