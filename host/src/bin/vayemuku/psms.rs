//! Reads the rows of sage's results table.

use crate::cells::{number, Cell, Label};
use crate::problem::Problem;
use crate::progress::Progress;
use crate::proteins::Decoys;
use crate::results_table::ResultsTable;
use vayemuku::Psm;

/// The columns that are read.
const COLUMNS: [&str; 24] = [
    "rank",
    "label",
    "expmass",
    "calcmass",
    "charge",
    "peptide_len",
    "missed_cleavages",
    "isotope_error",
    "precursor_ppm",
    "fragment_ppm",
    "hyperscore",
    "delta_next",
    "delta_best",
    "aligned_rt",
    "delta_rt_model",
    "ion_mobility",
    "delta_mobility",
    "matched_peaks",
    "longest_b",
    "longest_y",
    "matched_intensity_pct",
    "poisson",
    "proteins",
    "num_proteins",
];

/// The rows of a table, and the name under which each row's protein competes.
pub struct Psms<'a> {
    pub rows: Vec<Psm>,
    pub protein_names: Vec<Option<&'a [u8]>>,
}

/// Reads all rows.
pub fn read<'a>(table: &'a ResultsTable, decoys: &Decoys, progress: &mut Progress) -> Result<Psms<'a>, Problem> {
    let mut places = [0; COLUMNS.len()];
    for (place, name) in places.iter_mut().zip(COLUMNS) {
        *place = table.column(name)?;
    }
    let count = table.rows();
    let mut psms = Psms { rows: Vec::with_capacity(count), protein_names: Vec::with_capacity(count) };
    let mut cells = Vec::new();
    for row in 1..=count {
        progress.show("rows read", row, count);
        table.cells(row, &mut cells)?;
        let cells = Cells { cells: &cells, places: &places };
        let (psm, name) = cells.psm(decoys).map_err(|why| table.problem(row, why))?;
        psms.rows.push(psm);
        psms.protein_names.push(name);
    }
    Ok(psms)
}

/// The cells of one row, and the places of the columns that are read.
struct Cells<'a, 'b> {
    cells: &'b [&'a [u8]],
    places: &'b [usize; COLUMNS.len()],
}

impl<'a> Cells<'a, '_> {
    /// The cell of a column that is read.
    fn cell(&self, column: &str) -> &'a [u8] {
        let known = COLUMNS.iter().position(|name| *name == column);
        self.cells[self.places[known.unwrap_or_else(|| unreachable!("{column} is among the columns"))]]
    }

    /// The number in a column.
    fn number<T: Cell>(&self, column: &str) -> Result<T, String> {
        number(column, self.cell(column))
    }

    /// The row, and the name under which its protein competes.
    fn psm(&self, decoys: &Decoys) -> Result<(Psm, Option<&'a [u8]>), String> {
        let Label(label) = self.number("label")?;
        let psm = Psm {
            label,
            rank: self.number("rank")?,
            expmass: self.number("expmass")?,
            calcmass: self.number("calcmass")?,
            charge: self.number("charge")?,
            peptide_len: self.number::<u32>("peptide_len")? as usize,
            missed_cleavages: self.number("missed_cleavages")?,
            isotope_error: self.number("isotope_error")?,
            precursor_ppm: self.number("precursor_ppm")?,
            fragment_ppm: self.number("fragment_ppm")?,
            hyperscore: self.number("hyperscore")?,
            delta_next: self.number("delta_next")?,
            delta_best: self.number("delta_best")?,
            aligned_rt: self.number("aligned_rt")?,
            delta_rt_model: self.number("delta_rt_model")?,
            ion_mobility: self.number("ion_mobility")?,
            delta_mobility: self.number("delta_mobility")?,
            matched_peaks: self.number("matched_peaks")?,
            longest_b: self.number("longest_b")?,
            longest_y: self.number("longest_y")?,
            matched_intensity_pct: self.number("matched_intensity_pct")?,
            poisson: self.number("poisson")?,
        };
        let name = decoys.protein_name(label, self.cell("proteins"), self.number("num_proteins")?)?;
        Ok((psm, name))
    }
}

#[cfg(test)]
mod tests {
    use super::*;

    #[test]
    fn each_column_is_read_into_its_field() {
        // 1 in the first column, 2 in the second, and so on; num_proteins is 1
        let numbers: Vec<String> = (1..COLUMNS.len()).map(|number| number.to_string()).collect();
        let text = format!("{}\n{}\t1\n", COLUMNS.join("\t"), numbers.join("\t"));
        let table = ResultsTable::from_text("x.tsv".to_string(), text.into()).ok().unwrap();
        let psms = read(&table, &Decoys::Fasta, &mut Progress::new(false)).ok().unwrap();
        let wanted = Psm {
            rank: 1,
            label: 2,
            expmass: 3.0,
            calcmass: 4.0,
            charge: 5,
            peptide_len: 6,
            missed_cleavages: 7,
            isotope_error: 8.0,
            precursor_ppm: 9.0,
            fragment_ppm: 10.0,
            hyperscore: 11.0,
            delta_next: 12.0,
            delta_best: 13.0,
            aligned_rt: 14.0,
            delta_rt_model: 15.0,
            ion_mobility: 16.0,
            delta_mobility: 17.0,
            matched_peaks: 18,
            longest_b: 19,
            longest_y: 20,
            matched_intensity_pct: 21.0,
            poisson: 22.0,
        };
        assert_eq!((psms.rows, psms.protein_names), (vec![wanted], vec![Some(&b"23"[..])]));
    }
}
