//! The rescoring job: stored rows in, fresh scores, posterior errors and q-values out, as sage's score_psms,
//! spectrum_q_value and picked_protein work them out.

use crate::{
    checked_spectra, log_errors, precursor_order, Builder, CheckedSpectra, CompetitionTable, Densities, Estimator,
    Line, Model, Names, Psm, QValues, Refused, Scores, Tolerance, FEATURES, NO_PART,
};
use std::cmp::Ordering;
use std::collections::HashMap;

/// The rescored rows. Each column has one entry per rank, the best row first.
#[derive(Clone, Debug, PartialEq)]
pub struct Rescored {
    /// The row, from 0, at each rank.
    pub order: Vec<usize>,
    /// The scores.
    pub scores: Vec<f32>,
    /// The log10 of the posterior errors; NaN where the densities give none.
    pub posterior_errors: Vec<f32>,
    /// The q-values of the spectra; the count is of the rows, decoys too, with a q-value of at most 0.01.
    pub spectra: QValues,
    /// The line check's answer for the line after the last row that passes.
    pub line: Line,
    /// The q-values of the proteins; the count is of the target proteins with a q-value of at most 0.01.
    pub proteins: QValues,
    /// The number of proteins that take part.
    pub protein_slots: usize,
    /// The mean scores of both classes.
    pub means: MeanScores,
}

impl Rescored {
    /// Whether the mean score of the decoys is not below that of the targets, so that the list may rank decoys first.
    /// Sage's comment has targets project higher than decoys by construction; a fit can be accepted that does not.
    pub fn decoys_first(&self) -> bool {
        let MeanScores { targets, decoys } = self.means;
        // a NaN is not below, and not above
        decoys.partial_cmp(&targets) != Some(Ordering::Less)
    }
}

/// The mean scores of targets and of decoys, in f64 over the list's scores.
#[derive(Clone, Copy, Debug, PartialEq)]
pub struct MeanScores {
    /// Of the rows whose label is not -1.
    pub targets: f64,
    /// Of the rows whose label is -1.
    pub decoys: f64,
}

impl MeanScores {
    /// The means of a list; NaN for a class that has no row.
    fn of(labels: &[i32], scores: &[f32]) -> MeanScores {
        let mean = |decoys: bool| {
            let rows = labels.iter().zip(scores).filter(|(&label, _)| (label == -1) == decoys);
            let (count, sum) = rows.fold((0u32, 0.0), |(count, sum), (_, &score)| (count + 1, sum + f64::from(score)));
            sum / f64::from(count)
        };
        MeanScores { targets: mean(false), decoys: mean(true) }
    }
}

/// Rescores rows.
///
/// `protein_names` has one entry per row: the name under which its protein competes, which for a generated decoy is
/// that of the protein that it was made from; None for a row that several proteins share. `names` says whether a decoy
/// has a name of its own.
///
/// # Panics
///
/// Where there are fewer protein names than rows.
pub fn rescore(
    rows: &[Psm],
    protein_names: &[Option<&[u8]>],
    names: Names,
    tolerance: Tolerance,
    densities: &mut dyn Densities,
) -> Result<Rescored, Refused> {
    let labels: Vec<i32> = rows.iter().map(|row| row.label).collect();
    let features = features(rows, &labels, tolerance, densities)?;
    let Scores { scores, narrowed } = Model::train(&features, &labels)?.score_rows(&features)?;
    drop(features);
    let posterior_errors = posterior_errors(&scores, &labels, densities)?;
    let order = precursor_order(&scores)?;

    let scores = ranked(&order, &narrowed);
    let labels = ranked(&order, &labels);
    let CheckedSpectra { q_values: spectra, line } = checked_spectra(&labels)?;
    let (slots, protein_slots) = slots(&ranked(&order, protein_names));
    let rows = RankedRows { slots: &slots, labels: &labels, scores: &scores };
    let proteins = rows.protein_q_values(names, protein_slots, densities)?;
    let posterior_errors = ranked(&order, &posterior_errors);
    let means = MeanScores::of(&labels, &scores);
    Ok(Rescored { order, scores, posterior_errors, spectra, line, proteins, protein_slots, means })
}

/// The entries of a column in the order of ranks.
fn ranked<T: Copy>(order: &[usize], column: &[T]) -> Vec<T> {
    order.iter().map(|&row| column[row]).collect()
}

/// The features of all rows, with the posterior errors of their mass errors among them.
fn features(
    rows: &[Psm],
    labels: &[i32],
    tolerance: Tolerance,
    densities: &mut dyn Densities,
) -> Result<Vec<f64>, Refused> {
    let builder = Builder { monotonic: false, bins: tolerance.bin_count()? };
    let width = if matches!(tolerance, Tolerance::Da(..)) { 0.1 } else { 2.0 };
    let errors: Vec<f64> = rows.iter().map(|row| row.mass_error(tolerance)).collect();
    let estimator = Build { what: "mass errors", builder, width }.estimator(&errors, labels, densities)?;
    let posteriors = estimator.posterior_errors(&errors)?;
    let mut features = Vec::with_capacity(rows.len() * FEATURES);
    for (row, posterior) in rows.iter().zip(posteriors) {
        features.extend(row.features(posterior));
    }
    Ok(features)
}

/// The log10 of every score's posterior error.
fn posterior_errors(scores: &[f64], labels: &[i32], densities: &mut dyn Densities) -> Result<Vec<f32>, Refused> {
    let build = Build { what: "scores", builder: Builder::default(), width: 1.0 };
    let errors = build.estimator(scores, labels, densities)?.posterior_errors(scores)?;
    let log10s: Vec<f64> = errors.into_iter().map(f64::log10).collect();
    log_errors(&log10s)
}

/// A build of an estimator from a list: its settings, the factor of sage's bandwidth, and what the list is of.
struct Build {
    what: &'static str,
    builder: Builder,
    width: f64,
}

impl Build {
    /// The estimator of a list: sage's Builder::build.
    fn estimator(&self, scores: &[f64], labels: &[i32], densities: &mut dyn Densities) -> Result<Estimator, Refused> {
        let bin_scores = self.builder.bin_scores(scores)?;
        let mut density = |class: &str, decoys: bool| {
            let rows = scores.iter().zip(labels).filter(|(_, &label)| (label == -1) == decoys);
            let sample: Vec<f64> = rows.map(|(score, _)| *score).collect();
            let what = format!("density of {} of {class}", self.what);
            densities.take(&what, &sample, self.width, bin_scores.scores())
        };
        let decoys = density("decoys", true);
        let targets = density("targets", false);
        bin_scores.posterior_bins(labels, &decoys, &targets)
    }
}

/// Numbers the proteins as slots, in the order in which the ranked rows name them; gives the slots and their number.
fn slots(protein_names: &[Option<&[u8]>]) -> (Vec<u32>, usize) {
    let mut numbers: HashMap<&[u8], u32> = HashMap::new();
    let mut slots = Vec::with_capacity(protein_names.len());
    for name in protein_names {
        let next = numbers.len() as u32;
        slots.push(name.map_or(NO_PART, |name| *numbers.entry(name).or_insert(next)));
    }
    (slots, numbers.len())
}

/// The ranked rows, as competitions take them.
struct RankedRows<'a> {
    slots: &'a [u32],
    labels: &'a [i32],
    scores: &'a [f32],
}

impl RankedRows<'_> {
    /// The q-values of the rows' slots: sage's picked_protein.
    fn protein_q_values(&self, names: Names, slots: usize, densities: &mut dyn Densities) -> Result<QValues, Refused> {
        let mut table = CompetitionTable::fresh(slots)?;
        table.add_rows(self.slots, self.labels, self.scores)?;
        let estimator = slot_estimator(&table, densities)?;
        table.assign_q_value(names, &estimator, self.slots, self.labels)
    }
}

/// The estimator of a competition table: sage's fit_kde.
fn slot_estimator(table: &CompetitionTable, densities: &mut dyn Densities) -> Result<Estimator, Refused> {
    let winners = table.winners()?;
    let scores: Vec<f64> = winners.scores.iter().map(|&score| score.into()).collect();
    let bin_scores = Builder::default().bin_scores(&scores)?;
    let mut density = |class: &str, flag: u32| {
        let slots = scores.iter().zip(&winners.is_decoy).filter(|(_, &decoy)| decoy == flag);
        let sample: Vec<f64> = slots.map(|(score, _)| *score).collect();
        densities.take(&format!("density of proteins won by {class}"), &sample, 1.0, bin_scores.scores())
    };
    let decoys = density("decoys", 1);
    let targets = density("targets", 0);
    bin_scores.slot_posterior_bins(&winners.is_decoy, &decoys, &targets)
}

#[cfg(test)]
mod tests {
    use super::*;
    use crate::kernel::Kernels;
    use crate::{Call, Refusal};

    #[test]
    fn slots_are_numbered_as_they_come() {
        let protein_names: [Option<&[u8]>; 6] = [Some(b"b"), None, Some(b"a"), Some(b"b"), Some(b""), Some(b"a")];
        assert_eq!(slots(&protein_names), (vec![0, NO_PART, 1, 0, 2, 1], 3));
        assert_eq!(slots(&[None]), (vec![NO_PART], 0));
    }

    /// Rows that a model can be fitted to.
    fn rows() -> Vec<Psm> {
        let row = |place: u32| {
            let part = |salt: u32| ((place + 1) * salt % 1009) as f32 / 1009.0;
            Psm {
                label: if place % 3 == 0 { -1 } else { 1 },
                hyperscore: part(577).into(),
                precursor_ppm: part(389),
                peptide_len: 8,
                ..Psm::default()
            }
        };
        (0..60).map(row).collect()
    }

    /// Densities that are 1 throughout: every posterior error is the share of decoys.
    struct Level;

    impl Densities for Level {
        fn take(&mut self, _what: &str, _sample: &[f64], _width: f64, points: &[f64]) -> Vec<f64> {
            vec![1.0; points.len()]
        }
    }

    /// Rescores rows of a target and decoys with these fragment errors and aligned retention times, and zeros elsewhere
    /// but for mass errors that differ.
    fn of_pairs(pairs: &[(f32, f32)]) -> Rescored {
        let row = |(place, &(fragment_ppm, aligned_rt)): (usize, &(f32, f32))| Psm {
            label: if place == 0 { 1 } else { -1 },
            precursor_ppm: place as f32,
            peptide_len: 8,
            fragment_ppm,
            aligned_rt,
            ..Psm::default()
        };
        let rows: Vec<Psm> = pairs.iter().enumerate().map(row).collect();
        rescore(&rows, &vec![None; rows.len()], Names::Two, Tolerance::Ppm(-10.0, 10.0), &mut Level).unwrap()
    }

    #[test]
    fn a_fit_that_ranks_decoys_first_is_accepted_and_seen() {
        let above = of_pairs(&[(0.0, 0.0), (1e8, 1e8), (0.0, -3.0)]);
        // the target is last
        assert_eq!(above.order, [2, 1, 0]);
        assert_eq!(above.scores, [18.0, 15.999999, 0.0]);
        assert_eq!(above.means, MeanScores { targets: 0.0, decoys: (18.0 + f64::from(15.999999f32)) / 2.0 });
        assert!(above.decoys_first());
        // equal rows have equal scores
        assert!(of_pairs(&[(0.0, 0.0), (0.0, 0.0)]).decoys_first());
        assert!(!of_pairs(&[(1.0, 0.0), (0.0, 0.0)]).decoys_first());
    }

    #[test]
    fn a_mean_of_nan_is_not_below() {
        let rescored = of_pairs(&[(1.0, 0.0), (0.0, 0.0)]);
        let first =
            |targets, decoys| Rescored { means: MeanScores { targets, decoys }, ..rescored.clone() }.decoys_first();
        assert!(!first(1.0, 0.5) && first(0.5, 0.5) && first(0.5, 1.0));
        assert!(first(f64::NAN, 0.5) && first(0.5, f64::NAN));
        assert_eq!(MeanScores::of(&[1, -1, 7], &[3.0, 0.5, 1.0]), MeanScores { targets: 2.0, decoys: 0.5 });
    }

    /// Densities by sage's kernel, of which one has an entry too few.
    struct Short {
        taken: usize,
        short: usize,
    }

    impl Densities for Short {
        fn take(&mut self, what: &str, sample: &[f64], width: f64, points: &[f64]) -> Vec<f64> {
            self.taken += 1;
            let points = &points[usize::from(self.taken == self.short)..];
            Kernels.take(what, sample, width, points)
        }
    }

    #[test]
    fn a_refusal_of_any_call_is_the_only_result() {
        let rows = rows();
        let proteins: Vec<String> = (0..rows.len()).map(|row| (row / 4).to_string()).collect();
        let protein_names: Vec<Option<&[u8]>> = proteins.iter().map(|name| Some(name.as_bytes())).collect();
        let tolerance = Tolerance::Ppm(-10.0, 10.0);
        let rescored = |rows: &[Psm], tolerance, short| {
            rescore(rows, &protein_names[..rows.len()], Names::Two, tolerance, &mut Short { taken: 0, short })
        };
        assert!(rescored(&rows, tolerance, 0).is_ok());
        let refused = |call, refusal| Some(Refused { call, refusal });
        let percent = rescored(&rows, Tolerance::Pct(-1.0, 1.0), 0).err();
        assert_eq!(percent, refused(Call::BinCount, Refusal::NoTolerance));
        assert_eq!(rescored(&rows[..1], tolerance, 0).err(), refused(Call::Train, Refusal::OneClass));
        // the densities of mass errors, of scores, and of proteins, which come last
        for short in 1..=6 {
            let call = if short <= 4 { Call::PosteriorBins } else { Call::SlotPosteriorBins };
            assert_eq!(rescored(&rows, tolerance, short).err(), refused(call, Refusal::WrongLength), "{short}");
        }
    }
}
