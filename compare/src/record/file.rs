//! A recording: the number of its cases, their numbers one after the other, least byte first, and an end mark. Beside
//! it is another, with some of its cases and a wrong bit in each.

use super::flips::{flipped, Column};
use crate::report::Answer;
use std::fs;
use std::io::Result;
use std::path::Path;

/// The end of a recording.
const END: u64 = 0x4445_5941_4c50_4552;

/// The start of each README.md.
const HEAD: &str = "# Recorded answers

Answers of lazear/sage's unchanged Rust at 4a051b214b, written by `make record` (`compare/src/record.rs` and the files
beside it say how the cases are drawn). The same bytes come each time.

Each file: the number of cases as u64, the cases, and the u64 0x444559414C504552. Numbers are stored least byte first,
floats as their bits, every NaN as 7FC00000 or 7FF8000000000000. `n * f64` is n floats.

";

/// The end of each README.md.
const FOOT: &str = "
FILE.flipped has 72 cases of FILE, of at most 900 bytes each, with wrong answers: in each case one bit of one answer
is flipped, and nothing else. FILE's cases agree, so that each of these must differ, by that bit alone. Every answer
of the layout has its turn, a column at its first place, at its last and between. No NaN is made of a NaN. A number
that says whether numbers follow is flipped only where as much is read afterwards. No flip reaches what is compared
with a constant, or with another call's answer, and is not recorded: the blanks of a refusal, zeros past a size,
cleared working columns, the f64 score of a scoring run.
";

/// The cases of one function so far, and where their answers are.
#[derive(Default)]
pub struct Recording {
    cases: Vec<Vec<u8>>,
    answers: Vec<Column>,
}

impl Recording {
    /// Begins a case.
    pub fn case(&mut self) {
        self.cases.push(Vec::new());
    }

    /// A length, or the number of an answer that says how much follows.
    pub fn length(&mut self, length: usize) {
        self.numbers(&[length as u32]);
    }

    /// The case that has begun.
    fn last(&mut self) -> &mut Vec<u8> {
        self.cases.last_mut().expect("a case has begun")
    }

    /// Whole numbers and floats, each with the bytes of its type.
    pub fn numbers<T: Answer>(&mut self, column: &[T]) {
        let case = self.last();
        column.iter().for_each(|x| case.extend(&x.canonical().to_le_bytes()[..size_of::<T>()]));
    }

    /// The same of answers.
    pub fn answers<T: Answer>(&mut self, name: &'static str, column: &[T]) {
        let start = self.last().len();
        self.numbers(column);
        let starts = (start..self.last().len()).step_by(size_of::<T>());
        let places = starts.map(|at| at..at + size_of::<T>()).collect();
        self.answers.push(Column { name, case: self.cases.len() - 1, places });
    }

    /// Writes the file, and that of wrong answers.
    pub fn save(&self, folder: &Path, name: &str) -> Result<()> {
        fs::create_dir_all(folder)?;
        write(folder, name, &self.cases)?;
        write(folder, &format!("{name}.flipped"), &flipped(&self.cases, &self.answers))
    }
}

/// Writes a file of these cases.
fn write(folder: &Path, name: &str, cases: &[Vec<u8>]) -> Result<()> {
    let whole = [&(cases.len() as u64).to_le_bytes(), &cases.concat()[..], &END.to_le_bytes()].concat();
    println!("{name:28} {:>5} cases, {:>7} bytes", cases.len(), whole.len());
    fs::write(folder.join(name), whole)
}

/// Writes the README.md of a folder: what each file is, and its layout.
pub fn describe(folder: &Path, files: &str) -> Result<()> {
    fs::write(folder.join("README.md"), [HEAD, files, FOOT].concat())
}

/// The first of what is drawn for which `fits` holds.
pub fn until<T>(mut draw: impl FnMut() -> T, fits: impl Fn(&T) -> bool) -> T {
    loop {
        let drawn = draw();
        if fits(&drawn) {
            return drawn;
        }
    }
}
