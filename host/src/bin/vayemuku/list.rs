//! Writes the rows of a table with fresh columns in place of the stored ones.

use crate::problem::Problem;
use crate::progress::Progress;
use crate::results_table::ResultsTable;
use std::io::Write;
use vayemuku::rescoring::Rescored;

/// The columns that a run works out.
const FRESH: [&str; 4] = ["sage_discriminant_score", "posterior_error", "spectrum_q", "protein_q"];

/// The columns that name the run, in every row.
const STAMP: [&str; 2] = ["rescored_on", "batch"];

/// Stored columns that depend on the stored score and are not worked out again: they are left out.
const LEFT_OUT: [&str; 2] = ["peptide_q", "protein_group_q"];

/// A list to write.
pub struct List<'a> {
    pub table: &'a ResultsTable,
    /// None: every fresh column is empty, and the rows are in the order of the table.
    pub rescored: Option<&'a Rescored>,
    pub date: &'a str,
    pub batch: &'a str,
}

/// Why a list was not written.
pub enum Failure {
    Write(std::io::Error),
    Problem(Problem),
}

impl From<std::io::Error> for Failure {
    fn from(why: std::io::Error) -> Failure {
        Failure::Write(why)
    }
}

impl From<Problem> for Failure {
    fn from(problem: Problem) -> Failure {
        Failure::Problem(problem)
    }
}

impl List<'_> {
    /// Writes the header and every row.
    pub fn write(&self, to: &mut impl Write, progress: &mut Progress) -> Result<(), Failure> {
        let names: Vec<&[u8]> = self.table.columns().collect();
        let kept: Vec<usize> = (0..names.len()).filter(|&place| passes_through(names[place])).collect();
        for &place in &kept {
            to.write_all(names[place])?;
            to.write_all(b"\t")?;
        }
        writeln!(to, "{}\t{}", FRESH.join("\t"), STAMP.join("\t"))?;
        let mut cells = Vec::new();
        let count = self.table.rows();
        for place in 0..count {
            progress.show("rows written", place + 1, count);
            let row = self.rescored.map_or(place, |rescored| rescored.order[place]);
            self.table.cells(row + 1, &mut cells)?;
            for &column in &kept {
                to.write_all(cells[column])?;
                to.write_all(b"\t")?;
            }
            self.write_fresh(to, place)?;
        }
        Ok(())
    }

    /// Writes the fresh cells at a place of the list, and the end of the line.
    fn write_fresh(&self, to: &mut impl Write, place: usize) -> std::io::Result<()> {
        match self.rescored {
            None => to.write_all(&[b'\t'; FRESH.len()])?,
            Some(rescored) => {
                let fresh = [
                    rescored.scores[place],
                    rescored.posterior_errors[place],
                    rescored.spectra.q[place],
                    rescored.proteins.q[place],
                ];
                for number in fresh {
                    // as few digits as give the same f32 back
                    write!(to, "{number:?}\t")?;
                }
            }
        }
        writeln!(to, "{}\t{}", self.date, self.batch)
    }
}

/// Whether a stored column passes through.
fn passes_through(name: &[u8]) -> bool {
    let known = [&FRESH[..], &STAMP, &LEFT_OUT].concat();
    !known.iter().any(|known| known.as_bytes() == name)
}
