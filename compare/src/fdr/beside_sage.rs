//! The calls beside sage's unchanged picked_protein and picked_protein_group.

use super::buffers::{expect_up_to_zeros, TableBuffer, WinnersBuffer};
use super::draws::{self, SlotRows};
use super::picked::{competitions, Function, Picked, Sage};
use super::Calls;
use crate::calls::bin_scores;
use crate::kde::buffers::Buffer;
use crate::kde::builds::{expect_up_to_zero, Case};
use crate::kde::draws::Width;
use crate::kde::reading::both_zeros_from;
use crate::report::{expect, expect_column, Answer};
use host::Names;
use sage_core::fdr::opened;
use sage_core::ml::kde::{Build, Parts};
use vayemuku_sys::{slot_posterior_bins, vayemuku_widen};

/// The contents of columns before a call.
const GARBAGE: f64 = 0.078_912;

/// Builder's default.
const BINS: usize = 1000;

/// The port's winners of a list of rows.
pub struct Won<'a> {
    pub slots: usize,
    pub rows: &'a SlotRows,
    pub winners: WinnersBuffer,
}

impl Calls {
    /// Compares random lists of rows. Most get bins that are forced on sage, the others those that sage fits.
    pub fn beside_sage(&mut self, tables: u64) {
        for _ in 0..tables {
            let (slots, rows) = draws::distinct_rows(&mut self.random);
            let mut sage = Sage::new(&mut self.random, slots, &rows);
            let table = self.filled(slots, &rows);
            let winners = self.winners_as_read(&table);
            let won = Won { slots, rows: &rows, winners };
            for function in [Function::Protein, Function::Group] {
                let forced = match self.random.below(4) {
                    0 => None,
                    _ => Some(draws::estimator(&mut self.random, &table.contents())),
                };
                let picked = sage.run(function, forced.as_ref());
                self.winners.outcome(won.are_sages(&picked.build));
                if forced.is_none() {
                    self.fitted_bins.outcome(won.fitted(&picked.build).map(|_| ()));
                }
                self.competition(sage.names(function), &picked, &picked.build.estimator, &table, &rows);
            }
        }
    }

    /// Compares the q-values that rows get by these bins, and the count.
    pub fn competition(&mut self, names: Names, picked: &Picked, parts: &Parts, table: &TableBuffer, rows: &SlotRows) {
        let (read, count, filled) = self.q_as_read(names, parts, table, rows);
        let outcome = expect("count beside sage's", count, picked.count)
            .and_then(|()| expect_up_to_zeros("q beside sage's", filled.after()?, &picked.q, read.both_zeros));
        let in_rows = |fault| format!("{fault}, {names:?}, {} rows", rows.slots.len());
        self.assign_q_value.outcome(outcome.map_err(in_rows));
    }
}

impl Won<'_> {
    /// Whether rows have zeros of both signs: which of them is a side's best is open.
    fn both_zeros(&self) -> bool {
        let wide: Vec<f64> = self.rows.scores.iter().map(|score| f64::from(*score)).collect();
        both_zeros_from(&wide).is_some()
    }

    /// The winners are those of sage's competitions slot by slot, and together those that sage fits its bins to.
    pub fn are_sages(&self, build: &Build) -> Result<(), String> {
        let (scores, decoys) = (self.winners.scores.after()?, self.winners.is_decoy.after()?);
        let open = self.both_zeros();
        let slots = competitions(self.slots, self.rows);
        let sage_scores: Vec<f32> = slots.iter().map(|slot| slot.as_ref().map_or(f32::NAN, opened::score)).collect();
        let sage_decoys = slots.iter().map(|slot| slot.as_ref().map_or(u32::MAX, |slot| opened::is_decoy(slot).into()));
        expect_up_to_zeros("score beside sage's", scores, &sage_scores, open)?;
        expect_column("is_decoy beside sage's", decoys, sage_decoys)?;
        let one_zero = |score: f32| if open { score + 0.0 } else { score }.canonical();
        let seen = scores.iter().zip(decoys).filter(|(_, decoy)| **decoy != u32::MAX);
        let mut port: Vec<(u64, bool)> = seen.map(|(score, decoy)| (one_zero(*score), *decoy == 1)).collect();
        let mut sage: Vec<(u64, bool)> =
            build.scores.iter().zip(&build.decoys).map(|(score, decoy)| (one_zero(*score as f32), *decoy)).collect();
        port.sort_unstable();
        sage.sort_unstable();
        expect("all winners", port, sage)
    }

    /// The estimator that module 4's calls make of the winners, where it is the one that sage fitted. A kernel sum
    /// depends on the order of its scores: the densities are of the scores in the order of sage's map.
    pub fn fitted(&self, build: &Build) -> Result<Parts, String> {
        let fitted = self.built(build)?;
        let sage = &build.estimator;
        expect_up_to_zero("least score", fitted.min_score, sage.min_score, self.both_zeros())?;
        expect_column("step", &[fitted.score_step], [sage.score_step].into_iter())?;
        expect_column("bin", &fitted.bins, sage.bins.iter().copied())?;
        Ok(fitted)
    }

    /// The estimator of the winners.
    fn built(&self, build: &Build) -> Result<Parts, String> {
        let widened: Vec<f64> = self.winners.scores.after()?.iter().map(|score| vayemuku_widen(*score)).collect();
        let mut at = Buffer::new(BINS, GARBAGE);
        let built = bin_scores(BINS, &widened, at.column_mut());
        expect("number of bin_scores", built.number, 0)?;
        let [decoy, target] = densities(build, 1.0, at.after()?);
        let mut bins = Buffer::new(BINS, GARBAGE);
        let is_decoy = self.winners.is_decoy.after()?;
        let returned = slot_posterior_bins(1, BINS, is_decoy, &decoy, &target, bins.column_mut());
        expect("number of slot_posterior_bins", returned.number, 0)?;
        let bins = bins.after()?.to_vec();
        Ok(Parts { bins, min_score: built.min_score, score_step: built.score_step })
    }
}

/// sage's densities of decoys and targets among the scores of a build, with its bandwidth times `width`.
pub fn densities(build: &Build, width: f64, at: &[f64]) -> [Vec<f64>; 2] {
    let labels = build.decoys.iter().map(|decoy| if *decoy { -1 } else { 1 }).collect();
    let widths = [Width::Times(width); 2];
    let case = Case { monotonic: true, bins: at.len(), scores: build.scores.clone(), labels, widths };
    [true, false].map(|decoys| case.density(decoys, at))
}
