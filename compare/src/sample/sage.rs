//! sage's unchanged functions over the sample, and the densities that they took.

use super::table::{SampleRow, TAG};
use super::ListRow;
use host::Densities;
use sage_core::database::IndexedDatabase;
use sage_core::fdr::picked_protein;
use sage_core::mass::Tolerance;
use sage_core::ml::kde::{recording, Build, Kde};
use sage_core::ml::linear_discriminant::score_psms;
use sage_core::ml::qvalue::spectrum_q_value;
use sage_core::peptide::Peptide;
use sage_core::scoring::Feature;
use std::collections::HashMap;
use std::sync::Arc;

/// The results of sage's functions, one after the other.
pub struct SageRun {
    /// The rows as ranked.
    pub features: Vec<Feature>,
    /// The estimators of mass errors, of scores and of proteins.
    pub builds: Vec<Build>,
    /// How many spectra and proteins pass.
    pub spectra: usize,
    pub proteins: usize,
}

impl SageRun {
    /// Scores and ranks rows, and assigns q-values, with decoys that sage generated; None where score_psms gives none.
    pub fn run(rows: &[SampleRow], tolerance: host::Tolerance) -> Option<SageRun> {
        let mut features: Vec<Feature> = rows.iter().map(|row| row.feature.clone()).collect();
        let (scored, mut builds) = recording(|| score_psms(&mut features, of_sage(tolerance)));
        scored?;
        features.sort_by(|a, b| b.discriminant_score.total_cmp(&a.discriminant_score));
        let spectra = spectrum_q_value(&mut features);
        let db = database(rows);
        let (proteins, build) = recording(|| picked_protein(&db, &mut features));
        builds.extend(build);
        Some(SageRun { features, builds, spectra, proteins })
    }

    /// sage's rows.
    pub fn list_rows(&self) -> impl Iterator<Item = ListRow> + '_ {
        self.features.iter().map(|feature| ListRow {
            row: feature.peptide_idx.0 as usize,
            score: feature.discriminant_score,
            posterior_error: feature.posterior_error,
            spectrum_q: feature.spectrum_q,
            protein_q: feature.protein_q,
        })
    }

    /// How many sides of proteins have the score of another: sage ranks those in the order of its map.
    pub fn ties(&self, rows: &[SampleRow]) -> usize {
        let mut best = HashMap::new();
        for feature in &self.features {
            if let Some(name) = rows[feature.peptide_idx.0 as usize].protein_name() {
                best.entry((name, feature.label == -1)).or_insert(feature.discriminant_score);
            }
        }
        let mut scores: Vec<f32> = best.into_values().collect();
        scores.sort_by(f32::total_cmp);
        scores.windows(2).filter(|pair| pair[0] == pair[1]).count()
    }
}

/// The tolerance, as sage has it.
fn of_sage(tolerance: host::Tolerance) -> Tolerance {
    match tolerance {
        host::Tolerance::Ppm(lo, hi) => Tolerance::Ppm(lo, hi),
        host::Tolerance::Pct(lo, hi) => Tolerance::Pct(lo, hi),
        host::Tolerance::Da(lo, hi) => Tolerance::Da(lo, hi),
    }
}

/// A database with one peptide per row.
fn database(rows: &[SampleRow]) -> IndexedDatabase {
    let peptide = |row: &SampleRow| Peptide {
        decoy: row.feature.label == -1,
        proteins: row.proteins.iter().map(|name| Arc::from(name.as_str())).collect(),
        ..Peptide::default()
    };
    IndexedDatabase {
        peptides: rows.iter().map(peptide).collect(),
        generate_decoys: true,
        decoy_tag: TAG.to_string(),
        ..IndexedDatabase::default()
    }
}

/// sage's densities: its kernels over the samples of its builds, in their order.
pub struct Recorded<'a> {
    builds: &'a [Build],
    /// How many densities were taken.
    pub taken: usize,
    /// How many samples differ from sage's.
    pub differ: usize,
}

impl<'a> Recorded<'a> {
    /// The densities of builds: of each its decoys', then its targets'.
    pub fn new(builds: &'a [Build]) -> Recorded<'a> {
        Recorded { builds, taken: 0, differ: 0 }
    }
}

impl Densities for Recorded<'_> {
    fn take(&mut self, _what: &str, sample: &[f64], width: f64, places: &[f64]) -> Vec<f64> {
        let build = &self.builds[self.taken / 2];
        let decoys = self.taken % 2 == 0;
        self.taken += 1;
        let of_sage = build.scores.iter().zip(&build.decoys).filter(|(_, decoy)| **decoy == decoys);
        let of_sage: Vec<f64> = of_sage.map(|(score, _)| *score).collect();
        self.differ += usize::from(sorted(sample) != sorted(&of_sage));
        let kernel = Kde::new(&of_sage, |bandwidth| bandwidth * width);
        places.iter().map(|place| kernel.pdf(*place)).collect()
    }
}

/// The bits of numbers, sorted: sage's map has proteins in another order than their slots'.
fn sorted(sample: &[f64]) -> Vec<u64> {
    let mut bits: Vec<u64> = sample.iter().map(|number| number.to_bits()).collect();
    bits.sort();
    bits
}
