//! Modules 2 and 3.

use super::{check, unless_it_panics};
use crate::calls::{solve, train, Vector};
use host::kernel::Kernels;
use host::rescoring::rescore;
use host::{Names, Psm, FEATURES};
use sage_core::mass::Tolerance;
use sage_core::ml::gauss::Gauss;
use sage_core::ml::linear_discriminant::{score_psms, LinearDiscriminantAnalysis};
use sage_core::ml::matrix::Matrix;
use sage_core::scoring::Feature;
use vayemuku_sys::{score, score_rows};

/// The lines of both modules.
pub fn lines() -> Vec<bool> {
    let lone = vec![lost_score(), infinite_score(), regular_fit(), zero_row()];
    let rest = [small_entry(), pivots(), exchanged(), spoiled(), vec![equal_features()]].concat();
    [systems(), accepted(), diagonals(), fits(), lengths(), projections(), turned(), masses(), lone, rest].concat()
}

/// The port's number and the first numbers of its answer to a system with these entries and this on its right side.
fn port_of(entries: &[f64], size: usize, right: f64) -> (u32, [f64; 2]) {
    let mut left = [[0.0; FEATURES]; FEATURES];
    for (place, entry) in entries.iter().enumerate() {
        left[place / size][place % size] = *entry;
    }
    let (number, values) = solve(&left, &[right; FEATURES], size);
    (number, [values[0], values[1]])
}

/// The same, with a right side of ones.
fn port(entries: &[f64], size: usize) -> (u32, [f64; 2]) {
    port_of(entries, size, 1.0)
}

/// sage's answer to the same.
fn sage(entries: &[f64], size: usize) -> Option<Vec<f64>> {
    let left = Matrix::new(entries, size, size);
    Gauss::solve(left, Matrix::col_vector(vec![1.0; size])).map(Matrix::take)
}

/// Sizes, and systems that have a solution.
fn systems() -> Vec<bool> {
    let twenty_one = sage(&Matrix::identity(21).take(), 21).map(|answer| answer.len());
    let (turned, shifted, ones) = ([-1.0, 0.0, 0.0, 1.0], [-2.0, 1.0, 0.0, -2.0], [-1.0, 1.0, 0.0, -1.0]);
    vec![
        check("a system of size 0", (sage(&[], 0), "Some([])"), (port(&[], 0), "(3, [NaN, NaN])")),
        check("of size 21: how many numbers", (twenty_one, "Some(21)"), (port(&[], 21), "(3, [NaN, NaN])")),
        check("-1 0, 0 1 = 1 1", (sage(&turned, 2), "None"), (port(&turned, 2), "(7, [NaN, NaN])")),
        check(
            "-2 1, 0 -2 = 1 1",
            (sage(&shifted, 2), "Some([-0.5000000025, 2.99999999])"),
            (port(&shifted, 2), "(0, [-0.5000000025, 2.99999999])"),
        ),
        check(
            "-1 1, 0 -1 = 1 1",
            (sage(&ones, 2), "Some([-1.0000000100000002, 1.99999999])"),
            (port(&ones, 2), "(0, [-1.0000000100000002, 1.99999999])"),
        ),
    ]
}

/// Systems that are accepted: with another eps than a small one, with an infinity on either side, and one whose left
/// side is not triangular after the elimination, which is not.
fn accepted() -> Vec<bool> {
    let infinity = f64::INFINITY;
    let (half, infinite, turned) = ([-0.5, 0.0, 0.0, 1.0], [-1.0, infinity, 0.0, 1.0], [-1.0, 0.0, 0.0, 1.0]);
    let ones = || Matrix::col_vector(vec![1.0; 2]);
    let diagonal = Gauss::reduced_diagonal(Matrix::new(turned, 2, 2), ones(), 1e-8);
    let right = Gauss::solve(Matrix::identity(2), Matrix::col_vector(vec![1.0, infinity])).map(Matrix::take);
    let (mut left, mut of_port) = ([[0.0; FEATURES]; FEATURES], [0.0; FEATURES]);
    (left[0][0], left[1][1], of_port[0], of_port[1]) = (1.0, 1.0, 1.0, infinity);
    let (number, values) = solve(&left, &of_port, 2);
    vec![
        check("-0.5 0, 0 1 = 1 1", (sage(&half, 2), "Some([2.0, 0.5])"), (port(&half, 2), "(0, [2.0, 0.5])")),
        check(
            "-1 infinity, 0 1 = 1 1",
            (sage(&infinite, 2), "Some([-1.0000000100000002, 1.0])"),
            (port(&infinite, 2), "(0, [-1.0000000100000002, 1.0])"),
        ),
        check(
            "1 0, 0 1 = 1 infinity",
            (right, "Some([NaN, inf])"),
            ((number, [values[0], values[1]]), "(0, [NaN, inf])"),
        ),
        check("the diagonal of -1 0, 0 1 after reduce", (diagonal, "[0.0, -0.0]"), (port(&turned, 2).0, "7")),
    ]
}

/// Systems of size 1: what eps does to the answer, and to the diagonal.
fn diagonals() -> Vec<bool> {
    let diagonal = |entry: f64| {
        let left = Matrix::new([entry], 1, 1);
        Gauss::reduced_diagonal(left, Matrix::col_vector(vec![1.0]), 1e-8)
    };
    let of_nan = Gauss::solve(Matrix::identity(1), Matrix::col_vector(vec![f64::NAN])).map(Matrix::take);
    let (one, small, infinite) = ([1.0], [-1e-8], [f64::INFINITY]);
    vec![
        check(
            "[1] = 1",
            (sage(&one, 1), "Some([0.9999999900000002])"),
            (port(&one, 1), "(0, [0.9999999900000002, 0.0])"),
        ),
        check("[1] = NaN", (of_nan, "Some([NaN])"), (port_of(&one, 1, f64::NAN), "(0, [NaN, 0.0])")),
        check(
            "[-1E-8] = 1: the diagonal after reduce, and the answer",
            ((diagonal(-1e-8), sage(&small, 1)), "([0.0], Some([1.0]))"),
            (port(&small, 1), "(0, [1.0, 0.0])"),
        ),
        check(
            "[infinity] = 1: the diagonal after reduce, and the answer",
            ((diagonal(f64::INFINITY), sage(&infinite, 1)), "([NaN], None)"),
            (port(&infinite, 1), "(7, [NaN, NaN])"),
        ),
    ]
}

/// A zero score, a coefficient that is not finite, and a list of one class.
fn fits() -> Vec<bool> {
    let (zeros, row) = ([0.0; FEATURES], [-0.0; FEATURES]);
    let zero = LinearDiscriminantAnalysis::from_coefficients(zeros.to_vec()).score(&row);
    let mut rows = [[0.0; FEATURES]; 2];
    rows[1][0] = f64::MAX;
    let of_sage = LinearDiscriminantAnalysis::train(&rows, &[true, false], |row: &Vector| *row);
    let of_sage = of_sage.map(|fit| (fit.coefficients()[0], fit.score(&rows[1])));
    let (number, coefficients) = train(rows.as_flattened(), &[-1, 1]);
    let (mut scores, mut narrowed) = ([0.0; 2], [0.0; 2]);
    let refused = score_rows(&coefficients, rows.as_flattened(), &mut scores, &mut narrowed).number;
    let mut psms = [0; 2].map(|_| Feature { label: 1, discriminant_score: 7.5, ..Feature::default() });
    let answer = score_psms(&mut psms, Tolerance::Ppm(-10.0, 10.0));
    let (one_class, blank) = train(&[0.0; 2 * FEATURES], &[1, 1]);
    vec![
        check("the score of a row of -0.0, coefficients 0.0", (zero, "-0.0 or 0.0"), (score(&zeros, &row), "0.0")),
        check(
            "a decoy of zeros, a target with f64::MAX: coefficient, and score",
            (of_sage, "Some((inf, inf))"),
            ((number, coefficients[0], refused, scores[1]), "(0, inf, 8, NaN)"),
        ),
        check(
            "two targets scored 7.5",
            ((answer, psms[0].discriminant_score), "(None, 7.5)"),
            ((one_class, blank[0]), "(6, NaN)"),
        ),
        check("no rows", (score_psms(&mut [], Tolerance::Ppm(-10.0, 10.0)), "None"), (train(&[], &[]).0, "6")),
    ]
}

/// A row and coefficients that are finite, and a score that is not: both products are past f64's range.
fn lost_score() -> bool {
    let (coefficients, row) = (pair(1e200, 1e200), pair(1e200, -1e200));
    let sage = LinearDiscriminantAnalysis::from_coefficients(coefficients.to_vec()).score(&row);
    let (mut scores, mut narrowed) = ([0.5], [0.5]);
    let number = score_rows(&coefficients, &row, &mut scores, &mut narrowed).number;
    check(
        "coefficients 1E200 1E200, a row 1E200 -1E200",
        (sage, "NaN"),
        ((number, scores, narrowed), "(0, [NaN], [NaN])"),
    )
}

/// A score that is finite as f64, and infinite as f32.
fn infinite_score() -> bool {
    let (coefficients, row) = (pair(1e39, 0.0), pair(1.0, 0.0));
    let sage = LinearDiscriminantAnalysis::from_coefficients(coefficients.to_vec()).score(&row);
    let (mut scores, mut narrowed) = ([0.5], [0.5]);
    let number = score_rows(&coefficients, &row, &mut scores, &mut narrowed).number;
    check(
        "a coefficient 1E39, a row of 1",
        ((sage, sage as f32), "(1e39, inf)"),
        ((number, scores[0], narrowed[0]), "(0, 1e39, inf)"),
    )
}

/// Columns of other lengths.
fn lengths() -> Vec<bool> {
    let rows = [[0.0; FEATURES], [1.0; FEATURES]];
    let fit = unless_it_panics(|| LinearDiscriminantAnalysis::train(&rows, &[true], |row: &Vector| *row).is_some());
    let of_19 = LinearDiscriminantAnalysis::from_coefficients(vec![1.0; FEATURES]).score(&[1.0; 19]);
    let (mut scores, mut narrowed) = ([0.0], [0.0]);
    let number = score_rows(&[1.0; FEATURES], &[1.0; 19], &mut scores, &mut narrowed).number;
    vec![
        check("a fit of two rows and one label", (fit, "Err(Panicked)"), (train(rows.as_flattened(), &[-1]).0, "2")),
        check("the score of 19 numbers", (of_19, "19.0"), ((number, scores[0]), "(2, NaN)")),
    ]
}

/// A row whose features are zeros after these.
fn row_of(first: &[f64]) -> Vector {
    let mut row = [0.0; FEATURES];
    row[..first.len()].copy_from_slice(first);
    row
}

/// A row whose features are zeros after the first two.
fn pair(first: f64, second: f64) -> Vector {
    row_of(&[first, second])
}

/// The scores that each side's fit gives its own rows, of which these are decoys.
fn scores(rows: &[Vector], decoys: &[bool]) -> (Option<Vec<f64>>, (u32, Vec<f64>)) {
    let labels: Vec<i32> = decoys.iter().map(|&decoy| if decoy { -1 } else { 1 }).collect();
    let sage = LinearDiscriminantAnalysis::train(rows, decoys, |row: &Vector| *row);
    let sage = sage.map(|fit| rows.iter().map(|row| fit.score(row)).collect());
    let (number, coefficients) = train(rows.as_flattened(), &labels);
    assert_eq!(number, 0);
    let (mut scores, mut narrowed) = (vec![0.5; rows.len()], vec![0.5; rows.len()]);
    let number = score_rows(&coefficients, rows.as_flattened(), &mut scores, &mut narrowed).number;
    (sage, (number, scores))
}

/// Fits that are accepted, and do not put their target above their decoys; and what a coefficient is.
fn projections() -> Vec<bool> {
    let (equal, above) = ([pair(0.0, 0.0); 2], [pair(0.0, 0.0), pair(1e8, 1e8), pair(0.0, -3.0)]);
    let (equal, port_equal) = scores(&equal, &[false, true]);
    let (above, port_above) = scores(&above, &[false, true, true]);
    let rows = [pair(2.0, 0.0), pair(0.0, 0.0)];
    let fit = LinearDiscriminantAnalysis::train(&rows, &[false, true], |row: &Vector| *row);
    let (number, coefficients) = train(rows.as_flattened(), &[1, -1]);
    vec![
        check("a target and a decoy of zeros: scores", (equal, "Some([0.0, 0.0])"), (port_equal, "(0, [0.0, 0.0])")),
        check(
            "target 0 0, decoys 1E8 1E8 and 0 -3: scores",
            (above, "Some([0.0, 15.999999403953552, 17.999999463558197])"),
            (port_above, "(0, [0.0, 15.999999403953552, 17.999999463558197])"),
        ),
        check(
            "a target 2, a decoy of zeros: coefficients",
            (fit.map(|fit| [fit.coefficients()[0], fit.coefficients()[1]]), "Some([200000000.0, 0.0])"),
            ((number, [coefficients[0], coefficients[1]]), "(0, [200000000.0, 0.0])"),
        ),
    ]
}

/// Fits of small whole numbers that put each decoy above each target. With every eps the matrix is positive-definite,
/// so that no answer of it would: what is accepted is none.
fn turned() -> Vec<bool> {
    let decoy =
        [&[0.0; 4], &[-1.0, 0.0, 0.0, -1.0], &[0.0, -1.0, 2.0, 0.0], &[-2.0, 2.0, -1.0, 0.0]].map(|row| row_of(row));
    let target = [&[0.0; 5], &[1.0, 0.0, 2.0, 0.0, 0.0], &[0.0, 2.0, 0.0, -1.0, 0.0], &[1.0, -1.0, 1.0, 0.0, 2.0]];
    let target = target.map(|row| row_of(row));
    let (late, port_late) = scores(&decoy, &[true, false, false, false]);
    let (first, port_first) = scores(&target, &[false, true, true, true]);
    let (below, above) = (
        "[0.0, -7.000000000000005, -6.66666666666667, -7.333333333333339]",
        "[0.0, 66666658.99879527, 66666656.99879548, 66666657.99879536]",
    );
    vec![
        check(
            "a decoy of zeros, targets -1 0 0 -1, 0 -1 2 0 and -2 2 -1 0: scores",
            (late, &format!("Some({below})")),
            (port_late, &format!("(0, {below})")),
        ),
        check(
            "a target of zeros, decoys 1 0 2 0 0, 0 2 0 -1 0 and 1 -1 1 0 2: scores",
            (first, &format!("Some({above})")),
            (port_first, &format!("(0, {above})")),
        ),
    ]
}

/// A whole run over rows with these labels and mass errors, on both sides: sage's answer, and the port's number.
fn run_of(rows: &[(i32, f32)]) -> (Option<()>, u32) {
    let feature =
        |&(label, delta_mass): &(i32, f32)| Feature { label, delta_mass, peptide_len: 8, ..Feature::default() };
    let psm = |&(label, precursor_ppm): &(i32, f32)| Psm { label, precursor_ppm, peptide_len: 8, ..Psm::default() };
    let mut features: Vec<Feature> = rows.iter().map(feature).collect();
    let psms: Vec<Psm> = rows.iter().map(psm).collect();
    let tolerance = host::Tolerance::Ppm(-10.0, 10.0);
    let port = rescore(&psms, &vec![None; rows.len()], Names::Two, tolerance, &mut Kernels);
    let number = port.map_or_else(|refused| refused.refusal.number(), |_| 0);
    (score_psms(&mut features, Tolerance::Ppm(-10.0, 10.0)), number)
}

/// Whole runs in which the density of a class is NaN, or both are 0: with it a feature of some rows is NaN.
fn masses() -> Vec<bool> {
    let labelled = |labels: [i32; 4], masses: [f32; 4]| [0, 1, 2, 3].map(|place| (labels[place], masses[place]));
    let (half, apart) = ([-1, -1, 1, 1], [0.0, 1.0, 2.0, 3.0]);
    let (one, two) = (run_of(&labelled([-1, 1, 1, 1], apart)), run_of(&labelled(half, apart)));
    let (least, equal) = (run_of(&[(-1, 0.0), (1, 1.0)]), run_of(&labelled(half, [0.0, 0.0, 2.0, 3.0])));
    let far = run_of(&labelled(half, [1.0, 1.0001, 0.0, 0.0001]));
    vec![
        check(
            "four rows with one decoy, and with two",
            ([one.0, two.0], "[None, Some(())]"),
            ([one.1, two.1], "[7, 0]"),
        ),
        check("a run over a decoy and a target", (least.0, "None"), (least.1, "7")),
        check("mass errors 0 and 0 of decoys, 2 and 3 of targets", (equal.0, "None"), (equal.1, "7")),
        check("mass errors 1 and 1.0001 of decoys, 0 and 0.0001 of targets", (far.0, "None"), (far.1, "7")),
    ]
}

/// A fit of finite rows of both classes: scatter 1 2, 2 4, and zeros. With any eps on its diagonal it can be inverted.
fn regular_fit() -> bool {
    let mut rows = [[0.0; FEATURES]; 3];
    (rows[0][0], rows[0][1], rows[1][0], rows[1][1]) = (1.0, 2.0, -1.0, -2.0);
    let sage = LinearDiscriminantAnalysis::train(&rows, &[true, true, false], |row: &Vector| *row);
    let port = train(rows.as_flattened(), &[-1, -1, 1]).0;
    check("decoys 1 2 and -1 -2, a target of zeros", (sage.map(|fit| fit.coefficients()[0]), "None"), (port, "7"))
}

/// A system, and the same with a third row and column of zeros.
fn zero_row() -> bool {
    let (two, three) = ([1.0, 2.0, 2.0, 4.0], [1.0, 2.0, 0.0, 2.0, 4.0, 0.0, 0.0, 0.0, 0.0]);
    check(
        "1 2, 2 4, and with a row and a column of zeros: whether it is solved",
        ([sage(&two, 2).is_some(), sage(&three, 3).is_some()], "[true, false]"),
        ([port(&two, 2).0, port(&three, 3).0], "[0, 7]"),
    )
}

/// A positive entry off the diagonal that passes, beside a row of zeros: an answer far from the solution. And one that
/// does not pass.
fn small_entry() -> Vec<bool> {
    let (small, large) = ([-1.0, -1e-9, 0.0, -1.0], [-1.0, -1e-8, 0.0, -1.0]);
    vec![
        check(
            "-1 -1E-9, 0 -1 = 1 1",
            (sage(&small, 2), "Some([-1.0000000100000002, -999999988.9999999])"),
            (port(&small, 2), "(0, [-1.0000000100000002, -999999988.9999999])"),
        ),
        check("-1 -1E-8, 0 -1 = 1 1", (sage(&large, 2), "None"), (port(&large, 2), "(7, [NaN, NaN])")),
    ]
}

/// What stands on the left side after reduce: where no row from h down has a pivot, row 0 is swapped down; and a number
/// below 0 that was skipped has become 1.
fn pivots() -> Vec<bool> {
    let (infinite, turned) = ([1.0, 5.0, 0.0, f64::NEG_INFINITY], [-1.0, 0.0, 0.0, 1.0]);
    let reduced = |left: [f64; 4]| Gauss::reduced_left(Matrix::new(left, 2, 2), Matrix::col_vector(vec![1.0; 2]), 1e-8);
    vec![
        check(
            "1 5, 0 -infinity = 1 1: the left side after reduce",
            (reduced(infinite), "[0.0, NaN, 1.0, 4.999999950000001]"),
            (port(&infinite, 2).0, "7"),
        ),
        check(
            "-1 0, 0 1 = 1 1: the left side after reduce",
            (reduced(turned), "[0.0, 1.0, 1.0, -0.0]"),
            (port(&turned, 2).0, "7"),
        ),
    ]
}

/// A whole run over four rows, of which the last is changed, on both sides: sage's answer, and the port's number.
fn run_changed(change: impl Fn(&mut Feature, &mut Psm)) -> (Option<()>, u32) {
    let masses = [(-1, 0.0), (-1, 1.0), (1, 2.0), (1, 3.0)];
    let mut features =
        masses.map(|(label, delta_mass)| Feature { label, delta_mass, peptide_len: 8, ..Feature::default() });
    let mut psms = masses.map(|(label, precursor_ppm)| Psm { label, precursor_ppm, peptide_len: 8, ..Psm::default() });
    change(&mut features[3], &mut psms[3]);
    let port = rescore(&psms, &[None; 4], Names::Two, host::Tolerance::Ppm(-10.0, 10.0), &mut Kernels);
    let number = port.map_or_else(|refused| refused.refusal.number(), |_| 0);
    (score_psms(&mut features, Tolerance::Ppm(-10.0, 10.0)), number)
}

/// Whole runs in which one row has a mass error of NaN, no peptide, or a hyperscore without a logarithm.
fn spoiled() -> Vec<bool> {
    let line = |input, (sage, port): (Option<()>, u32)| check(input, (sage, "None"), (port, "7"));
    let plain = run_changed(|_, _| ());
    vec![
        check("a run over two decoys and two targets", (plain.0, "Some(())"), (plain.1, "0")),
        line(
            "the same, one mass error NaN",
            run_changed(|row, psm| (row.delta_mass, psm.precursor_ppm) = (f32::NAN, f32::NAN)),
        ),
        line("the same, one peptide_len 0", run_changed(|row, psm| (row.peptide_len, psm.peptide_len) = (0, 0))),
        line("the same, one hyperscore -1", run_changed(|row, psm| (row.hyperscore, psm.hyperscore) = (-1.0, -1.0))),
    ]
}

/// Three decoys and a target that are equal, and whose means are not.
fn equal_features() -> bool {
    let (sage, port) = scores(&[pair(0.1, 0.0); 4], &[true, true, true, false]);
    let below = "[-1.3877787807814457e-10, -1.3877787807814457e-10, -1.3877787807814457e-10, -1.3877787807814457e-10]";
    let (wanted, ruled) = (format!("Some({below})"), format!("(0, {below})"));
    check("three decoys and a target of 0.1: the score of each", (sage, &wanted), (port, &ruled))
}

/// Fits of the same rows with two features, or two rows of a class, exchanged.
fn exchanged() -> Vec<bool> {
    let coefficients = |first: f64, second: f64| {
        let rows = [pair(first, second), pair(-first, -second), pair(first, second)];
        let sage = LinearDiscriminantAnalysis::train(&rows, &[true, true, false], |row: &Vector| *row);
        let (number, values) = train(rows.as_flattened(), &[-1, -1, 1]);
        (sage.map(|fit| [fit.coefficients()[0], fit.coefficients()[1]]), (number, [values[0], values[1]]))
    };
    let (as_given, turned) = (coefficients(1.0, 2.0), coefficients(2.0, 1.0));
    let [target, one, two, three] =
        [&[0.0; 3], &[1.0, -2.0, 2.0], &[-1.0, 0.0, 1.0], &[-2.0, 1.0, -2.0]].map(|row| row_of(row));
    let of = |rows: [Vector; 4]| scores(&rows, &[false, true, true, true]);
    let (in_order, other) = (of([target, one, two, three]), of([target, one, three, two]));
    let (small, large) = (
        "[0.0, -0.5188284518828452, -0.8702928870292889, -0.48117154811715496]",
        "[0.0, -50000000.30387355, -50000000.303873554, -50000001.80387351]",
    );
    vec![
        check("decoys 1 2 and -1 -2, a target 1 2", (as_given.0, "None"), (as_given.1, "(7, [NaN, NaN])")),
        check(
            "the same, both features exchanged",
            (turned.0, "Some([0.399999999, 0.2])"),
            (turned.1, "(0, [0.399999999, 0.2])"),
        ),
        check(
            "a target of zeros, then the decoys 1 -2 2, -1 0 1 and -2 1 -2: scores",
            (in_order.0, &format!("Some({small})")),
            (in_order.1, &format!("(0, {small})")),
        ),
        check(
            "the same, the last two rows exchanged",
            (other.0, &format!("Some({large})")),
            (other.1, &format!("(0, {large})")),
        ),
    ]
}
