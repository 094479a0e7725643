//! The sample's table, and a list of it, in cells.

use super::ListRow;
use host::Psm;
use sage_core::database::PeptideIx;
use sage_core::scoring::Feature;
use std::collections::HashMap;
use std::str::FromStr;

/// A table in cells, with the places of its columns.
pub struct Cells {
    places: HashMap<String, usize>,
    rows: Vec<Vec<String>>,
}

/// A row of the sample: what sage keeps of it, and its proteins without the tag of decoys.
pub struct SampleRow {
    pub feature: Feature,
    pub proteins: Vec<String>,
}

/// The tag of decoys.
pub const TAG: &str = "rev_";

impl Cells {
    /// Reads a table.
    pub fn read(path: &str) -> Result<Cells, String> {
        let text = std::fs::read_to_string(path).map_err(|why| format!("{path}: {why}"))?;
        let mut lines = text.lines().map(|line| line.split('\t').map(String::from).collect::<Vec<_>>());
        let header = lines.next().ok_or_else(|| format!("{path}: it is empty"))?;
        let places = header.into_iter().enumerate().map(|(place, name)| (name, place)).collect();
        Ok(Cells { places, rows: lines.collect() })
    }

    /// The text in a column.
    fn text<'a>(&self, row: &'a [String], column: &str) -> &'a str {
        &row[self.places[column]]
    }

    /// The number in a column.
    fn number<T: FromStr>(&self, row: &[String], column: &str) -> T {
        let text = self.text(row, column);
        text.parse().unwrap_or_else(|_| panic!("column {column}: {text}"))
    }

    /// The rows of the sample.
    pub fn rows(&self) -> Vec<SampleRow> {
        self.rows.iter().enumerate().map(|(place, row)| self.row(place, row)).collect()
    }

    /// One row: the columns of sage's results table, in the fields that sage writes them from. Outputs start with the
    /// values that scoring.rs gives them.
    fn row(&self, place: usize, row: &[String]) -> SampleRow {
        let feature = Feature {
            peptide_idx: PeptideIx(place as u32),
            psm_id: self.number(row, "psm_id"),
            rank: self.number(row, "rank"),
            label: self.number(row, "label"),
            expmass: self.number(row, "expmass"),
            calcmass: self.number(row, "calcmass"),
            charge: self.number(row, "charge"),
            peptide_len: self.number(row, "peptide_len"),
            missed_cleavages: self.number(row, "missed_cleavages"),
            isotope_error: self.number(row, "isotope_error"),
            delta_mass: self.number(row, "precursor_ppm"),
            average_ppm: self.number(row, "fragment_ppm"),
            hyperscore: self.number(row, "hyperscore"),
            delta_next: self.number(row, "delta_next"),
            delta_best: self.number(row, "delta_best"),
            aligned_rt: self.number(row, "aligned_rt"),
            delta_rt_model: self.number(row, "delta_rt_model"),
            ims: self.number(row, "ion_mobility"),
            delta_ims_model: self.number(row, "delta_mobility"),
            matched_peaks: self.number(row, "matched_peaks"),
            longest_b: self.number(row, "longest_b"),
            longest_y: self.number(row, "longest_y"),
            matched_intensity_pct: self.number(row, "matched_intensity_pct"),
            poisson: self.number(row, "poisson"),
            posterior_error: 1.0,
            spectrum_q: 1.0,
            protein_q: 1.0,
            ..Feature::default()
        };
        let names = self.text(row, "proteins").split(';');
        let proteins = names.map(|name| name.strip_prefix(TAG).unwrap_or(name).to_string());
        SampleRow { feature, proteins: proteins.collect() }
    }

    /// The rows of a list; psm_id is one more than the place in the sample.
    pub fn list_rows(&self) -> Vec<ListRow> {
        let line = |row: &Vec<String>| ListRow {
            row: self.number::<usize>(row, "psm_id") - 1,
            score: self.number(row, "sage_discriminant_score"),
            posterior_error: self.number(row, "posterior_error"),
            spectrum_q: self.number(row, "spectrum_q"),
            protein_q: self.number(row, "protein_q"),
        };
        self.rows.iter().map(line).collect()
    }
}

impl SampleRow {
    /// The row, as host takes it.
    pub fn psm(&self) -> Psm {
        let feature = &self.feature;
        Psm {
            rank: feature.rank,
            label: feature.label,
            expmass: feature.expmass,
            calcmass: feature.calcmass,
            charge: feature.charge,
            peptide_len: feature.peptide_len,
            missed_cleavages: feature.missed_cleavages,
            isotope_error: feature.isotope_error,
            precursor_ppm: feature.delta_mass,
            fragment_ppm: feature.average_ppm,
            hyperscore: feature.hyperscore,
            delta_next: feature.delta_next,
            delta_best: feature.delta_best,
            aligned_rt: feature.aligned_rt,
            delta_rt_model: feature.delta_rt_model,
            ion_mobility: feature.ims,
            delta_mobility: feature.delta_ims_model,
            matched_peaks: feature.matched_peaks,
            longest_b: feature.longest_b,
            longest_y: feature.longest_y,
            matched_intensity_pct: feature.matched_intensity_pct,
            poisson: feature.poisson,
        }
    }

    /// The name under which the row's protein competes.
    pub fn protein_name(&self) -> Option<&[u8]> {
        match self.proteins.as_slice() {
            [protein] => Some(protein.as_bytes()),
            _ => None,
        }
    }
}
