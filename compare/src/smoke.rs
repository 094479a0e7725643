//! Calls sage's unchanged functions on document 01's known points and prints what they give.

use sage_core::database::{IndexedDatabase, PeptideIx};
use sage_core::fdr::{opened, picked_precursor, picked_protein, picked_protein_group, Competition};
use sage_core::lfq::{Peak, PrecursorId};
use sage_core::ml::gauss::Gauss;
use sage_core::ml::kde::{forcing, recording, Builder, Estimator, Parts};
use sage_core::ml::linear_discriminant::LinearDiscriminantAnalysis;
use sage_core::ml::matrix::Matrix;
use sage_core::ml::qvalue::spectrum_q_value;
use sage_core::peptide::Peptide;
use sage_core::scoring::Feature;
use std::fmt::Debug;

/// Calls each function once or twice, and says whether all gave what they should.
pub fn run() -> bool {
    let hundred = [vec![1; 100], vec![-1]].concat();
    let lines = [
        say("spectrum_q_value, 100 targets, 1 decoy", spectrum(&hundred), (vec![(0.01, 100), (0.02, 1)], 100)),
        say("spectrum_q_value, target, decoy, target", spectrum(&[1, -1, 1]), (vec![(1.0, 3)], 0)),
        say("Gauss::solve, [-1E-8] x = 5", solve(-1e-8, 5.0), Some(vec![5.0])),
        say("Gauss::solve, [NaN] x = 5", solve(f64::NAN, 5.0), None),
        say("LinearDiscriminantAnalysis, decoys 0 2, targets 4 6, row 1", fit(), Some(4.0 / (2.0 + 1e-8))),
        say("Estimator::posterior_error at 0.5, 2, -3", interpolated(), [0.375, 0.25, 1.25]),
        say("Builder::build, decoys 0 1, targets 2 3: bins, falling", built(), (1000, true)),
        say("picked_precursor, 20 targets, 1 decoy", precursors(), 20),
        say("picked_protein, targets 2.0 and 1.0", proteins(picked_protein, |x| x.protein_q), (vec![0.875; 2], 0)),
        say(
            "picked_protein_group, the same",
            proteins(picked_protein_group, |x| x.protein_group_q),
            (vec![0.875; 2], 0),
        ),
        say("Competition::is_decoy and score, both sides 1.5", equal_sides(), (true, 1.5)),
    ];
    lines.iter().all(|same| *same)
}

/// Prints what a call gave, and what it should have where that is something else.
fn say<T: Debug + PartialEq>(call: &str, got: T, wanted: T) -> bool {
    match got == wanted {
        true => println!("{call}: {got:?}"),
        false => println!("{call}: {got:?}, and it should be {wanted:?}"),
    }
    got == wanted
}

/// The q-values of rows with these labels, equal ones counted together, and the count.
fn spectrum(labels: &[i32]) -> (Vec<(f32, usize)>, usize) {
    let row = |&label| Feature { label, ..Feature::default() };
    let mut rows: Vec<Feature> = labels.iter().map(row).collect();
    let count = spectrum_q_value(&mut rows);
    let runs = rows.chunk_by(|a, b| a.spectrum_q == b.spectrum_q);
    (runs.map(|run| (run[0].spectrum_q, run.len())).collect(), count)
}

/// The answer of a system of size 1.
fn solve(left: f64, right: f64) -> Option<Vec<f64>> {
    Gauss::solve(Matrix::new([left], 1, 1), Matrix::col_vector(vec![right])).map(Matrix::take)
}

/// The score of the row 1 under the fit of four rows of one number.
fn fit() -> Option<f64> {
    let decoys = [true, true, false, false];
    let fit = LinearDiscriminantAnalysis::train(&[0.0, 2.0, 4.0, 6.0], &decoys, |x| [*x])?;
    Some(fit.score(&[1.0]))
}

/// Three posterior errors between and beside two bins.
fn interpolated() -> [f64; 3] {
    let parts = Parts { bins: vec![0.5, 0.25], min_score: 0.0, score_step: 1.0 };
    let estimator = Estimator::from_parts(parts);
    [0.5, 2.0, -3.0].map(|score| estimator.posterior_error(score))
}

/// The number of bins of a build, and whether the error falls from the least score to the greatest.
fn built() -> (usize, bool) {
    let (estimator, builds) =
        recording(|| Builder::default().build(&[0.0, 1.0, 2.0, 3.0], &[true, true, false, false]));
    let falls = estimator.posterior_error(0.0) > estimator.posterior_error(3.0);
    (builds[0].estimator.bins.len(), falls)
}

/// The count of 20 target precursors and a decoy under them.
fn precursors() -> usize {
    let peak = |row: u32| {
        let peak = Peak { score: -f64::from(row), ..Peak::default() };
        ((PrecursorId::Combined(PeptideIx(row)), row == 20), (peak, Vec::new()))
    };
    picked_precursor(&mut (0..=20).map(peak).collect())
}

/// The q-values and the count of two target proteins, scored 2.0 and 1.0 on the bins 0.5 and 0.25.
fn proteins(call: fn(&IndexedDatabase, &mut [Feature]) -> usize, q: fn(&Feature) -> f32) -> (Vec<f32>, usize) {
    let peptide = |name: &str| Peptide { proteins: vec![name.into()], ..Peptide::default() };
    let db = IndexedDatabase { peptides: vec![peptide("A"), peptide("B")], ..IndexedDatabase::default() };
    let row = |place: u32, name: &str, score: f32| Feature {
        peptide_idx: PeptideIx(place),
        discriminant_score: score,
        protein_groups: Some(name.to_string()),
        num_protein_groups: 1,
        ..Feature::default()
    };
    let mut rows = [row(0, "A", 2.0), row(1, "B", 1.0)];
    let parts = Parts { bins: vec![0.5, 0.25], min_score: 1.0, score_step: 1.0 };
    let count = forcing(parts, || call(&db, &mut rows));
    (rows.iter().map(q).collect(), count)
}

/// Who wins where both sides score the same.
fn equal_sides() -> (bool, f32) {
    let competition = Competition { forward: 1.5, reverse: 1.5, ..Competition::<u32>::default() };
    (opened::is_decoy(&competition), opened::score(&competition))
}
