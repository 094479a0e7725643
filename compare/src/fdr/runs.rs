//! Whole runs: all calls in the order in which a host makes them, beside sage's unchanged functions in the same order:
//! score_psms, the ranking of rows by their discriminant scores, spectrum_q_value, picked_protein and
//! picked_protein_group.

use super::beside_sage::{densities, Won};
use super::draws::SlotRows;
use super::picked::{database, Function, Sage, SHARED};
use super::reading::NO_PART;
use super::Calls;
use crate::calls::{self, bin_count, bin_scores, spectrum_q_value, train, Vector};
use crate::cases::Random;
use crate::kde::draws::{between, one_of};
use crate::kde::psms::row;
use crate::report::{expect, expect_column};
use sage_core::database::PeptideIx;
use sage_core::mass::Tolerance;
use sage_core::ml::kde::{recording, Build, Parts};
use sage_core::ml::linear_discriminant::score_psms;
use sage_core::ml::qvalue;
use sage_core::scoring::Feature;
use std::collections::HashSet;
use vayemuku_sys::{log_errors, posterior_bins, posterior_errors, score_rows};

/// The contents of columns before a call.
const GARBAGE: f64 = 0.089_123;

/// The port's results for a list: narrowed scores, and logarithms of posterior errors.
struct Scored {
    narrowed: Vec<f32>,
    logs: Vec<f32>,
}

impl Calls {
    /// Compares random lists. One is left out where two sides of proteins have the same score, which is rare.
    pub fn whole_runs(&mut self, lists: u64) {
        let mut compared = 0;
        for _ in 0..lists {
            let (slots, rows) = list(&mut self.random);
            let (unit, width) = (self.random.below(2) as usize, between(&mut self.random, 10.0, 1_500.0) as f32);
            match self.whole_run(slots, rows, unit, width) {
                Ok(in_domain) => {
                    compared += u64::from(in_domain);
                    self.whole_runs.outcome(Ok(()));
                }
                Err(fault) => self.whole_runs.outcome(Err(fault)),
            }
        }
        let enough = compared >= lists / 2;
        self.whole_runs.count(enough, || format!("only {compared} of {lists} lists were compared as a whole"));
    }

    /// One list; false where it is out of document 01's comparison domain.
    fn whole_run(&mut self, slots: usize, mut features: Vec<Feature>, unit: usize, width: f32) -> Result<bool, String> {
        let tolerance = [Tolerance::Ppm, Tolerance::Da][unit](-width / 2.0, width / 2.0);
        let raw = features.clone();
        let (answer, builds) = recording(|| score_psms(&mut features, tolerance));
        let scored = match (scored(&raw, unit, width, &builds)?, answer) {
            (Some(scored), Some(())) => scored,
            (port, sage) => {
                expect("rows are scored", port.is_some(), sage.is_some())?;
                return Ok(false);
            }
        };
        expect_column("discriminant score", &scored.narrowed, features.iter().map(|row| row.discriminant_score))?;
        expect_column("posterior error", &scored.logs, features.iter().map(|row| row.posterior_error))?;
        let order = ranked(&scored.narrowed);
        features.sort_by(|a, b| b.discriminant_score.total_cmp(&a.discriminant_score));
        let rows = rows(slots, &raw, &scored.narrowed, &order);
        spectra(&mut features, &rows.labels)?;
        if !in_domain(&rows) {
            return Ok(false);
        }
        self.proteins(slots, features, rows)?;
        Ok(true)
    }

    /// Proteins and their groups, on bins that are fitted.
    fn proteins(&mut self, slots: usize, features: Vec<Feature>, rows: SlotRows) -> Result<(), String> {
        let generate_decoys = self.random.below(2) == 0;
        let mut sage = Sage::with(database(slots, generate_decoys, "rev_"), features);
        let table = self.filled(slots, &rows);
        let winners = self.winners_as_read(&table);
        let won = Won { slots, rows: &rows, winners };
        for function in [Function::Protein, Function::Group] {
            let picked = sage.run(function, None);
            won.are_sages(&picked.build)?;
            let parts = won.fitted(&picked.build)?;
            self.competition(sage.names(function), &picked, &parts, &table, &rows);
        }
        Ok(())
    }
}

/// The port's fit and scores of rows, with sage's densities; None where the port has no fit.
fn scored(raw: &[Feature], unit: usize, width: f32, builds: &[Build]) -> Result<Option<Scored>, String> {
    let labels: Vec<i32> = raw.iter().map(|row| row.label).collect();
    let mass_error = |row: &Feature| match unit {
        0 => f64::from(row.delta_mass),
        _ => f64::from(row.expmass - row.calcmass),
    };
    let mass_errors: Vec<f64> = raw.iter().map(mass_error).collect();
    let (number, bin_count) = bin_count(unit as u32, -width / 2.0, width / 2.0);
    expect("number of bin_count", number, 0)?;
    let of_masses = estimator(&mass_errors, &labels, 0, bin_count, [2.0, 0.1][unit], &builds[0])?;
    let mut of_mass = vec![GARBAGE; raw.len()];
    errors(&of_masses, &mass_errors, &mut of_mass)?;
    let features: Vec<Vector> = raw.iter().zip(&of_mass).map(|(row, error)| transformed(row, *error)).collect();
    let (number, coefficients) = train(features.as_flattened(), &labels);
    if number != 0 {
        return Ok(None);
    }
    let (mut scores, mut narrowed) = (vec![GARBAGE; raw.len()], vec![GARBAGE as f32; raw.len()]);
    match score_rows(&coefficients, features.as_flattened(), &mut scores, &mut narrowed).number {
        0 => {}
        8 => return Ok(None),
        other => return Err(format!("number of score_rows: port {other}")),
    }
    let second = builds.get(1).ok_or("sage has no second build")?;
    let mut of_scores = vec![GARBAGE; raw.len()];
    errors(&estimator(&scores, &labels, 1, 1000, 1.0, second)?, &scores, &mut of_scores)?;
    let log10s: Vec<f64> = of_scores.iter().map(|error| error.log10()).collect();
    let mut logs = vec![GARBAGE as f32; raw.len()];
    expect("number of log_errors", log_errors(&log10s, &mut logs).number, 0)?;
    Ok(Some(Scored { narrowed, logs }))
}

/// The estimator that module 4's calls make of scores.
fn estimator(
    scores: &[f64],
    labels: &[i32],
    monotonic: u32,
    bin_count: usize,
    width: f64,
    build: &Build,
) -> Result<Parts, String> {
    let (mut at, mut column) = (vec![GARBAGE; bin_count], vec![GARBAGE; bin_count]);
    let built = bin_scores(bin_count, scores, &mut at);
    expect("number of bin_scores", built.number, 0)?;
    let [decoy, target] = densities(build, width, &at);
    let returned = posterior_bins(monotonic, bin_count, labels, &decoy, &target, &mut column);
    expect("number of posterior_bins", returned.number, 0)?;
    Ok(Parts { bins: column, min_score: built.min_score, score_step: built.score_step })
}

/// The posterior errors of scores.
fn errors(parts: &Parts, scores: &[f64], column: &mut [f64]) -> Result<(), String> {
    let returned = posterior_errors(calls::estimator(parts), scores, column);
    expect("number of posterior_errors", returned.number, 0)
}

/// The host's transformation of a row: the lines of score_psms.
pub fn transformed(perc: &Feature, mass_error: f64) -> Vector {
    let poisson = match (-perc.poisson).ln_1p() {
        x if x.is_finite() => x,
        _ => 3.5,
    };
    [
        perc.rank as f64,
        perc.charge as f64,
        perc.hyperscore.ln_1p(),
        perc.delta_next.ln_1p(),
        perc.delta_best.ln_1p(),
        mass_error,
        perc.isotope_error as f64,
        perc.average_ppm as f64,
        poisson,
        (perc.matched_intensity_pct as f64).ln_1p(),
        perc.matched_peaks as f64,
        (perc.longest_b as f64).ln_1p(),
        (perc.longest_y as f64).ln_1p(),
        perc.longest_y as f64 / perc.peptide_len as f64,
        (perc.peptide_len as f64).ln_1p(),
        perc.missed_cleavages as f64,
        perc.aligned_rt as f64,
        perc.ims as f64,
        (perc.delta_rt_model as f64).clamp(0.001, 0.999).sqrt(),
        (perc.delta_ims_model as f64).clamp(0.001, 0.999).sqrt(),
    ]
}

/// The places of rows, greatest score first.
fn ranked(scores: &[f32]) -> Vec<usize> {
    let mut order: Vec<usize> = (0..scores.len()).collect();
    order.sort_by(|a, b| scores[*b].total_cmp(&scores[*a]));
    order
}

/// The port's columns of rows in an order. A shared peptide takes no part.
fn rows(slots: usize, raw: &[Feature], scores: &[f32], order: &[usize]) -> SlotRows {
    let slot = |place: &usize| match raw[*place].peptide_idx.0 / 2 {
        slot if (slot as usize) < slots => slot,
        _ => NO_PART,
    };
    SlotRows {
        slots: order.iter().map(slot).collect(),
        labels: order.iter().map(|place| raw[*place].label).collect(),
        scores: order.iter().map(|place| scores[*place]).collect(),
    }
}

/// The q-values of the spectra are sage's.
fn spectra(features: &mut [Feature], labels: &[i32]) -> Result<(), String> {
    let mut q = vec![GARBAGE as f32; labels.len()];
    let port = spectrum_q_value(labels, &mut q);
    expect("number and count of spectra", port, (0, qvalue::spectrum_q_value(features)))?;
    expect_column("q of a spectrum", &q, features.iter().map(|row| row.spectrum_q))
}

/// Whether the best scores of all sides differ as numbers, and none is NaN.
fn in_domain(rows: &SlotRows) -> bool {
    let (mut sides, mut scores) = (HashSet::new(), HashSet::new());
    let rows = rows.slots.iter().zip(&rows.labels).zip(&rows.scores);
    // rows are ranked: the first of a side is its best
    let mut best = rows.filter(|((slot, label), _)| **slot != NO_PART && sides.insert((*slot, **label == -1)));
    best.all(|(_, score)| !score.is_nan() && scores.insert((score.max(f32::MIN) + 0.0).to_bits()))
}

/// From 20 to 300 rows of up to 60 proteins, and the number of proteins. Every third row is a decoy's, and one in ten
/// a shared peptide's.
fn list(random: &mut Random) -> (usize, Vec<Feature>) {
    let (length, proteins) = (20 + random.below(281), 1 + random.below(60));
    let better = one_of(random, &[2.0, 10.0, 500.0]);
    let mut list: Vec<Feature> = (0..length as usize).map(|place| row(random, place, better)).collect();
    for row in &mut list {
        let shared = random.below(10) == 0;
        let slot = if shared { proteins + random.below(SHARED.len() as u64) } else { random.below(proteins) };
        row.peptide_idx = PeptideIx(2 * slot as u32 + u32::from(row.label == -1));
        row.protein_q = 1.0;
        row.protein_group_q = 1.0;
        row.protein_groups = Some(format!("G{slot}"));
        row.num_protein_groups = 1 + u32::from(shared);
    }
    (proteins as usize, list)
}
