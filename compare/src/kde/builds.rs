//! bin_scores, posterior_bins and slot_posterior_bins beside sage's unchanged Builder::build, the densities being those
//! of sage's unchanged Kde::pdf at the scores that bin_scores gives.

use super::buffers::Buffer;
use super::draws::{self, Width};
use super::reading::{bin_score, both_zeros_from, span};
use super::{as_hex, expect_same, Calls};
use crate::calls::{bin_scores, Built};
use crate::lists::{label, LONGEST};
use crate::report::{expect, expect_column};
use sage_core::ml::kde::{Builder, Kde, Parts};
use std::cell::Cell;
use vayemuku_sys::{posterior_bins, slot_posterior_bins, Returned};

/// The contents of a column before a call.
const GARBAGE: f64 = 0.012_345;

/// The inputs of a build.
pub struct Case {
    pub monotonic: bool,
    pub bins: usize,
    pub scores: Vec<f64>,
    pub labels: Vec<i32>,
    pub widths: [Width; 2],
}

impl Case {
    /// sage's estimator. Its builder asks for the bandwidth of decoys, then for that of targets.
    pub fn sage(&self) -> Parts {
        let (widths, turn) = (self.widths, Cell::new(0));
        let decoys: Vec<bool> = self.labels.iter().map(|label| *label == -1).collect();
        let builder = Builder::default().monotonic(self.monotonic).bins(self.bins);
        let builder = builder.bw_adjust(move |own| widths[turn.replace(1)].of(own));
        builder.build(&self.scores, &decoys).parts()
    }

    /// sage's density of decoys or targets at these scores.
    pub fn density(&self, decoys: bool, at: &[f64]) -> Vec<f64> {
        let of_class = self.scores.iter().zip(&self.labels).filter(|(_, label)| (**label == -1) == decoys);
        let sample: Vec<f64> = of_class.map(|(score, _)| *score).collect();
        let width = self.widths[usize::from(!decoys)];
        let kde = Kde::new(&sample, |own| width.of(own));
        at.iter().map(|score| kde.pdf(*score)).collect()
    }

    /// The case in a report.
    fn described(&self) -> String {
        let Case { monotonic, bins, scores, labels, widths } = self;
        let few: Vec<&i32> = labels.iter().take(12).collect();
        let settings = format!("monotonic {monotonic}, {bins} bins, bandwidths {widths:?}");
        format!("{settings}, {} scores {}, labels {few:?}", scores.len(), as_hex(scores))
    }
}

impl Calls {
    /// Compares random builds, and builds of the longest lists.
    pub fn builds(&mut self, builds: u64) {
        for _ in 0..builds {
            let random = &mut self.random;
            let labels = draws::labels(random);
            let scores = draws::scores(random, &labels);
            let (monotonic, bins) = (random.below(2) == 0, draws::bin_count(random));
            let case = Case { monotonic, bins, scores, labels, widths: draws::widths(random) };
            let slots = case.labels.len() + random.below(case.labels.len() as u64 + 3) as usize;
            let sage = case.sage();
            self.build(&case, &sage, slots);
            self.errors_around(&sage, 40);
        }
        for rows in [LONGEST, LONGEST - 5_000] {
            let labels: Vec<i32> = (0..rows).map(|place| label(place % 5 == 1, place)).collect();
            let scores = labels.iter().zip(0..).map(|(label, place)| f64::from(*label == -1) - f64::from(place) / 1e6);
            let scores = scores.collect();
            let case = Case { monotonic: true, bins: 2, scores, labels, widths: [Width::Times(1.0); 2] };
            self.build(&case, &case.sage(), LONGEST);
        }
    }

    /// Compares one build with sage's, with the rows as labels and as some of `slots` slots.
    pub fn build(&mut self, case: &Case, sage: &Parts, slots: usize) {
        let of_case = |fault| format!("{fault}, in {}", case.described());
        let mut column = Buffer::new(case.bins, GARBAGE);
        let built = bin_scores(case.bins, &case.scores, column.column_mut());
        let spread = column.after().and_then(|scores| spread(case, built, sage, scores));
        self.bin_scores.outcome(spread.map_err(of_case));
        let [decoy, target] = [true, false].map(|decoys| case.density(decoys, column.column()));
        let flag = draws::flag(&mut self.random, case.monotonic);
        let over_labels = filled(sage, |bins| posterior_bins(flag, case.bins, &case.labels, &decoy, &target, bins));
        self.posterior_bins.outcome(over_labels.map_err(of_case));
        let slots = draws::slots(&mut self.random, &case.labels, slots);
        let over_slots = filled(sage, |bins| slot_posterior_bins(flag, case.bins, &slots, &decoy, &target, bins));
        self.slot_posterior_bins.outcome(over_slots.map_err(of_case));
    }
}

/// Least score and step are those of document 01's rule to the bit, and sage's. Where sage's least score is a zero, its
/// sign is open only if zeros of both signs are among the scores. Where its step is a zero, the sign is open only if in
/// addition every score is a zero or NaN: with one end that is no zero, the other's sign is lost in the difference. Bin
/// scores must equal the Rust's expression of the port's least score and step.
fn spread(case: &Case, built: Built, sage: &Parts, bin_scores: &[f64]) -> Result<(), String> {
    let Built { number, min_score, score_step } = built;
    expect("number", number, 0)?;
    let (least, step) = span(case.bins, &case.scores);
    expect_same("least score by document 01", min_score, least)?;
    expect_same("step by document 01", score_step, step)?;
    let open = both_zeros_from(&case.scores).is_some();
    let only_zeros = open && case.scores.iter().all(|score| *score == 0.0 || score.is_nan());
    expect_up_to_zero("least score", min_score, sage.min_score, open)?;
    expect_up_to_zero("step", score_step, sage.score_step, only_zeros)?;
    let wanted = (0..case.bins).map(|bin| bin_score(bin, min_score, score_step));
    expect_column("bin score", bin_scores, wanted)
}

/// Ok where both are the same, or, where the sign of a zero is open, both are zeros.
pub fn expect_up_to_zero(what: &str, port: f64, sage: f64, open: bool) -> Result<(), String> {
    match open && port == 0.0 && sage == 0.0 {
        true => Ok(()),
        false => expect_same(what, port, sage),
    }
}

/// The call accepts, and fills a column with sage's bins, to the bit. In one build all zeros among the bins have one
/// sign, that of the two bandwidths' product, so that the running maximum never meets zeros of both signs; and a
/// density is the same at a bin score of either zero.
fn filled(sage: &Parts, call: impl FnOnce(&mut [f64]) -> Returned) -> Result<(), String> {
    let mut bins = Buffer::new(sage.bins.len(), GARBAGE);
    expect("number", call(bins.column_mut()).number, 0)?;
    expect_column("bin", bins.after()?, sage.bins.iter().copied())
}
