//! Module 4.

use super::{check, unless_it_panics, Panicked, APART};
use crate::calls::{bin_count, bin_scores, estimator, posterior_error};
use crate::kde::builds::Case;
use crate::kde::draws::Width;
use crate::kde::reading::{bin_score, bins_across, log_error, mixed, DensityPair};
use host::kernel::Kernel;
use sage_core::mass::Tolerance;
use sage_core::ml::kde::{forcing, recording, Builder, Estimator, Kde, Parts};
use sage_core::ml::linear_discriminant::score_psms;
use sage_core::scoring::Feature;
use std::process::{Command, Stdio};
use vayemuku_sys::{posterior_bins, vayemuku_log_error, EstimatorRef};

/// The lines of the module.
pub fn lines() -> Vec<bool> {
    let lone = vec![aborted(), flags(), infinite_error(), stored_error(), last_score(), kernels()];
    let bins = [bin_counts(), tolerances(), infinite_tolerances(), no_rows(), spans()].concat();
    let rest = vec![equal_numbers(), equal_classes(), level(), far_under(), tiny_step(), first_nan()];
    [bins, last_bin(), near_zero(), errors(), nan_bins(), below_zero(), lone, rest].concat()
}

/// No bins, and one.
fn bin_counts() -> Vec<bool> {
    let none = |monotonic| Builder::default().monotonic(monotonic).bins(0).build(&[0.0, 1.0], &[true, false]);
    let raised = unless_it_panics(|| none(true).parts().bins);
    let plain = unless_it_panics(|| none(false).parts().bins);
    let error = unless_it_panics(|| none(false).posterior_error(0.5));
    let under = |score_step| {
        let parts = Parts { bins: vec![0.5], min_score: 0.0, score_step };
        let port = posterior_error(estimator(&parts), -3.0);
        (Estimator::from_parts(parts).posterior_error(-3.0), port)
    };
    let step = Builder::default().bins(1).build(&[0.0, 1.0], &[true, false]).parts().score_step;
    let (finite, infinite) = (under(1.0), under(step));
    let no_bins = EstimatorRef { min_score: 0.0, score_step: 1.0, bins: &[] };
    vec![
        check("no bins, monotonic", (raised, "Err(Panicked)"), (bin_scores(0, &[0.0, 1.0], &mut []).number, "3")),
        check("no bins, not monotonic", (plain, "Ok([])"), (bin_scores(0, &[0.0, 1.0], &mut []).number, "3")),
        check("an error of no bins", (error, "Err(Panicked)"), (posterior_error(no_bins, 0.5).0, "3")),
        check("one bin of 0.5, a score under it", (finite.0, "0.5"), (finite.1, "(0, 0.5)")),
        check("the same, with the step of two scores", (infinite.0, "NaN"), (infinite.1, "(0, NaN)")),
    ]
}

/// How many bins score_psms gives its mass model.
fn bins_of(tolerance: Tolerance) -> Result<usize, Panicked> {
    let mut rows = [Feature::default(), Feature::default()];
    let (_, builds) = unless_it_panics(|| recording(|| score_psms(&mut rows, tolerance)))?;
    Ok(builds[0].estimator.bins.len())
}

/// Bin counts of tolerances.
fn tolerances() -> Vec<bool> {
    let nan = f32::NAN;
    vec![
        check(
            "Pct -1 to 1",
            (bins_of(Tolerance::Pct(-1.0, 1.0)), "Err(Panicked)"),
            (bin_count(2, -1.0, 1.0), "(4, 0)"),
        ),
        check(
            "Da 0 to 65,537",
            (bins_of(Tolerance::Da(0.0, 65_537.0)), "Ok(65537)"),
            (bin_count(1, 0.0, 65_537.0), "(3, 0)"),
        ),
        check(
            "ppm -1E-6 to 100",
            (bins_of(Tolerance::Ppm(-1e-6, 100.0)), "Ok(100)"),
            (bin_count(0, -1e-6, 100.0), "(0, 100)"),
        ),
        check(
            "ppm NaN to 200",
            (bins_of(Tolerance::Ppm(nan, 200.0)), "Ok(100)"),
            (bin_count(0, nan, 200.0), "(0, 100)"),
        ),
        check(
            "ppm 200 to -200",
            (bins_of(Tolerance::Ppm(200.0, -200.0)), "Ok(100)"),
            (bin_count(0, 200.0, -200.0), "(0, 100)"),
        ),
    ]
}

/// Tolerances with an infinite end. sage's number of bins saturates, and its column cannot be made.
fn infinite_tolerances() -> Vec<bool> {
    let infinity = f32::INFINITY;
    let most = "18446744073709551615";
    vec![
        check(
            "ppm 0 to infinity: the number of bins",
            (bins_across(0.0, infinity, 100.0), most),
            (bin_count(0, 0.0, infinity), "(3, 0)"),
        ),
        check(
            "ppm 0 to infinity",
            (bins_of(Tolerance::Ppm(0.0, infinity)), "Err(Panicked)"),
            (bin_count(0, 0.0, infinity), "(3, 0)"),
        ),
        check(
            "Da -infinity to infinity",
            (bins_of(Tolerance::Da(-infinity, infinity)), "Err(Panicked)"),
            (bin_count(1, -infinity, infinity), "(3, 0)"),
        ),
        check(
            "Da 0 to 1E20",
            (bins_of(Tolerance::Da(0.0, 1e20)), "Err(Panicked)"),
            (bin_count(1, 0.0, 1e20), "(3, 0)"),
        ),
        check(
            "ppm infinity to -infinity",
            (bins_of(Tolerance::Ppm(infinity, -infinity)), "Ok(100)"),
            (bin_count(0, infinity, -infinity), "(0, 100)"),
        ),
        check(
            "ppm infinity to infinity",
            (bins_of(Tolerance::Ppm(infinity, infinity)), "Ok(100)"),
            (bin_count(0, infinity, infinity), "(0, 100)"),
        ),
    ]
}

/// A tolerance whose bins no memory has room for.
const TOO_WIDE: f32 = 1e15;

/// score_psms with that tolerance, which does not come back: its process is aborted.
pub fn run_apart() -> bool {
    bins_of(Tolerance::Da(0.0, TOO_WIDE)).is_err()
}

/// How a process ends that calls score_psms with that tolerance: None is a signal.
fn aborted() -> bool {
    let program = std::env::current_exe().expect("the path of this program");
    let ended = Command::new(program).args(["differences", APART]).stdout(Stdio::null()).stderr(Stdio::null()).status();
    let code = ended.expect("a process of this program").code();
    check("Da 0 to 1E15, in a process of its own", (code, "None"), (bin_count(1, 0.0, TOO_WIDE), "(3, 0)"))
}

/// Least score and step of scores in two bins, and the score of the first bin, on both sides.
fn span_of(scores: &[f64]) -> ((f64, f64), (f64, f64, f64)) {
    let decoys: Vec<bool> = scores.iter().map(|_| true).collect();
    let Parts { min_score, score_step, .. } = Builder::default().bins(2).build(scores, &decoys).parts();
    let mut at = [0.5; 2];
    let built = bin_scores(2, scores, &mut at);
    ((min_score, score_step), (built.min_score, built.score_step, at[0]))
}

/// Scores whose least is past f64's finite numbers, or whose distance is.
fn spans() -> Vec<bool> {
    let (plus, minus) = (span_of(&[f64::INFINITY]), span_of(&[f64::NEG_INFINITY]));
    let (nan, far) = (span_of(&[f64::NAN]), span_of(&[-1e308, 1e308]));
    let most = "1.7976931348623157e308";
    vec![
        check(
            "a score of infinity: least score and step",
            (plus.0, &format!("({most}, inf)")),
            (plus.1, &format!("({most}, inf, NaN)")),
        ),
        check("a score of -infinity: least score and step", (minus.0, "(-inf, inf)"), (minus.1, "(-inf, inf, NaN)")),
        check(
            "a score of NaN: least score and step",
            (nan.0, &format!("({most}, -inf)")),
            (nan.1, &format!("({most}, -inf, NaN)")),
        ),
        check("scores -1E308 and 1E308: least score and step", (far.0, "(-1e308, inf)"), (far.1, "(-1e308, inf, NaN)")),
    ]
}

/// The posterior error of a score under an estimator, on both sides.
fn error_of(bins: &[f64], (min_score, score_step): (f64, f64), score: f64) -> (f64, f64) {
    let parts = Parts { bins: bins.to_vec(), min_score, score_step };
    let (number, port) = posterior_error(estimator(&parts), score);
    assert_eq!(number, 0);
    (Estimator::from_parts(parts).posterior_error(score), port)
}

/// Scores at the last bin's own score, above it, and the largest score of a build: not the last value.
fn last_bin() -> Vec<bool> {
    let at = error_of(&[0.5, 0.25], (1.0, 0.4), 1.0 + 0.4);
    let own = 3.0f64 * 0.7 - 2.0;
    let above = |place| error_of(&[0.5, 0.5, 0.5, 0.25], (-2.0, 0.7), f64::from_bits(own.to_bits() + place));
    let step = Builder::default().bins(8).build(&[0.0, 9.0], &[true, false]).parts().score_step;
    let bins = [[0.5; 7].as_slice(), &[0.25]].concat();
    let (largest, past) = (error_of(&bins, (0.0, step), 9.0), error_of(&bins, (0.0, step), 9.000000000000002));
    let line = |input, (sage, port): (f64, f64), wanted| check(input, (sage, wanted), (port, wanted));
    vec![
        line("bins 0.5 0.25, least 1, step 0.4, score 1.4", at, "0.25000000000000006"),
        line(
            "bins 0.5 0.5 0.5 0.25, least -2, step 0.7, the fourth score after the last bin's",
            above(4),
            "0.2500000000000001",
        ),
        line("the same, the fifth", above(5), "0.25"),
        line("eight bins of the scores 0 and 9, the last 0.25, the others 0.5: score 9", largest, "0.2500000000000002"),
        line("the same: the score after 9", past, "0.25"),
    ]
}

/// A last bin at 0, far above the least score: what lies between 0 and half a place of the least score is no further.
fn near_zero() -> Vec<bool> {
    let step = Builder::default().bins(8).build(&[-9.0, 0.0], &[true, false]).parts().score_step;
    let bins = [[0.5; 7].as_slice(), &[0.25]].concat();
    let [at, near, past] = [0.0, 8.8e-16, 8.9e-16].map(|score| error_of(&bins, (-9.0, step), score));
    let wanted = "[0.2500000000000002, 0.25000000000000006, 0.25]";
    vec![check(
        "eight bins of the scores -9 and 0, the last 0.25, the others 0.5: scores 0, 8.8E-16 and 8.9E-16",
        ([at.0, near.0, past.0], wanted),
        ([at.1, near.1, past.1], wanted),
    )]
}

/// Errors beside a bin of NaN, and with one bin.
fn nan_bins() -> Vec<bool> {
    let [past, under] = [2.0, -1.0].map(|score| error_of(&[0.5, f64::NAN, 0.25], (0.0, 1.0), score));
    let (zero, far) = (error_of(&[-0.0], (0.0, 1.0), 0.0), error_of(&[0.5], (0.0, 1.0), f64::NEG_INFINITY));
    vec![
        check(
            "bins 0.5 NaN 0.25, scores 2 and -1",
            ((past.0, under.0), "(0.25, NaN)"),
            ((past.1, under.1), "(0.25, NaN)"),
        ),
        check("one bin of -0.0, score 0", (zero.0, "0.0"), (zero.1, "0.0")),
        check("one bin of 0.5, score -infinity", (far.0, "NaN"), (far.1, "NaN")),
    ]
}

/// Errors below every bin, and below 0, at the last bin's own score; and what the logarithm of one is stored as.
fn below_zero() -> Vec<bool> {
    let near = error_of(&[1.0, 1.0, 1.0, 0.0], (0.7, 0.7), 2.8);
    let [far, past] = [4.0, 6.0].map(|above| error_of(&[0.5, 0.5, 0.5, 0.0], (1e16, 1.4), 1e16 + above));
    let log = |error: f64| vayemuku_log_error(error.log10());
    let (small, large) = ("(-2.220446049250313e-16, NaN)", "(-0.2142857142857143, 0.0)");
    vec![
        check(
            "bins 1 1 1 0, least 0.7, step 0.7, score 2.8: the error, and its logarithm",
            ((near.0, log_error(near.0.log10())), small),
            ((near.1, log(near.1)), small),
        ),
        check(
            "bins 0.5 0.5 0.5 0, least 1E16, step 1.4, scores 1E16 + 4 and 1E16 + 6",
            ((far.0, past.0), large),
            ((far.1, past.1), large),
        ),
    ]
}

/// Errors that rise with the score, or are no number.
fn errors() -> Vec<bool> {
    let falling = [0.5, 0.5, 0.0];
    let (below, at) = (error_of(&falling, (-0.1, 0.4), 0.29999999999999993), error_of(&falling, (-0.1, 0.4), 0.3));
    let level = error_of(&[0.5, 0.5], (0.0, 1.0), f64::NEG_INFINITY);
    let beside = error_of(&[0.5, f64::NAN], (0.0, 1.0), 0.0);
    let [above, under] = [1.0, -1.0].map(|score| error_of(&[0.5, 0.25], (0.0, -0.0), score));
    let rises = "(0.5, 0.5000000000000001)";
    vec![
        check("bins 0.5 0.5 0, least -0.1, step 0.4, two scores", ((below.0, at.0), rises), ((below.1, at.1), rises)),
        check("bins 0.5 0.5, score -infinity", (level.0, "NaN"), (level.1, "NaN")),
        check("bins 0.5 NaN, score 0", (beside.0, "NaN"), (beside.1, "NaN")),
        check(
            "bins 0.5 0.25, step -0, scores 1 and -1",
            ((above.0, under.0), "(inf, NaN)"),
            ((above.1, under.1), "(inf, NaN)"),
        ),
    ]
}

/// A build of no rows.
fn no_rows() -> Vec<bool> {
    let Parts { bins, min_score, score_step } = Builder::default().bins(2).build(&[], &[]).parts();
    let (mut at, mut column) = ([0.5; 2], [0.5; 2]);
    let built = bin_scores(2, &[], &mut at);
    let number = posterior_bins(1, 2, &[], &[0.25; 2], &[0.25; 2], &mut column).number;
    vec![
        check(
            "least score and step of no rows",
            ((min_score, score_step), "(1.7976931348623157e308, -inf)"),
            ((built.min_score, built.score_step), "(1.7976931348623157e308, -inf)"),
        ),
        check("bins of no rows", (bins, "[NaN, NaN]"), ((number, column), "(0, [NaN, NaN])")),
    ]
}

/// Five scores with four flags: the share of decoys that the bins are made with.
fn flags() -> bool {
    let scores = vec![0.0, 1.0, 2.0, 3.0, 9.0];
    let case = Case { monotonic: false, bins: 3, scores, labels: vec![-1, -1, 1, 1], widths: [Width::Times(1.0); 2] };
    let (sage, mut at, mut column) = (case.sage(), [0.5; 3], [0.5; 3]);
    bin_scores(3, &case.scores, &mut at);
    let [decoy, target] = [true, false].map(|decoys| case.density(decoys, &at));
    let number = posterior_bins(0, 3, &case.labels, &decoy, &target, &mut column).number;
    assert_eq!(number, 0);
    let densities = DensityPair { decoy: &decoy, target: &target };
    let share = |bins: &[f64]| [0.4, 0.5].into_iter().filter(|pi| mixed(*pi, densities) == bins).collect::<Vec<f64>>();
    check("five scores, four flags with two decoys: pi", (share(&sage.bins), "[0.4]"), (share(&column), "[0.5]"))
}

/// The logarithm of a posterior error of plus infinity. Every mass error is the forced least score, whose error is the
/// first bin's; every score is so far under it that its error is infinite.
fn infinite_error() -> bool {
    let least = 1e30f32;
    let parts = Parts { bins: vec![1.0, 0.0], min_score: least.into(), score_step: 1e-300 };
    let row =
        |label, hyperscore| Feature { label, hyperscore, delta_mass: least, peptide_len: 8, ..Feature::default() };
    let mut rows = [row(-1, 1.0), row(1, 9.0)];
    let port = posterior_error(estimator(&parts), 9.0).1;
    let (answer, errors) = forcing(parts, || {
        let answer = score_psms(&mut rows, Tolerance::Ppm(-10.0, 10.0));
        (answer, rows.each_ref().map(|row| row.posterior_error))
    });
    check(
        "an error of plus infinity",
        ((answer, errors), "(Some(()), [-324.0, -324.0])"),
        ((port, vayemuku_log_error(port.log10())), "(inf, -324.0)"),
    )
}

/// What a row has as its posterior error where every error is 0.5.
fn stored_error() -> bool {
    let parts = Parts { bins: vec![0.5; 2], min_score: 0.0, score_step: 1.0 };
    let row = |label, hyperscore| Feature { label, hyperscore, peptide_len: 8, ..Feature::default() };
    let mut rows = [row(-1, 1.0), row(1, 9.0)];
    let port = posterior_error(estimator(&parts), 9.0).1;
    let answer = forcing(parts, || score_psms(&mut rows, Tolerance::Ppm(-10.0, 10.0)));
    check(
        "errors of 0.5, as rows have them",
        ((answer, rows.each_ref().map(|row| row.posterior_error)), "(Some(()), [-0.30103, -0.30103])"),
        ((port, vayemuku_log_error(port.log10())), "(0.5, -0.30103)"),
    )
}

/// The score of the last bin, which is not the largest score.
fn last_score() -> bool {
    let scores = [-1.0, 1e-17];
    let Parts { min_score, score_step, .. } = Builder::default().bins(2).build(&scores, &[true, false]).parts();
    let mut at = [0.5; 2];
    assert_eq!(bin_scores(2, &scores, &mut at).number, 0);
    check(
        "scores -1 and 1E-17: the scores of two bins",
        ([0, 1].map(|bin| bin_score(bin, min_score, score_step)), "[-1.0, 0.0]"),
        (at, "[-1.0, 0.0]"),
    )
}

/// The density of three numbers: sage adds the kernels of the last two first, and host those of the first two.
fn kernels() -> bool {
    let (sample, place) = ([13.704422, 16.069442, 13.813052], 16.02492);
    let sage = Kde::new(&sample, |bandwidth| bandwidth).pdf(place);
    let host = Kernel::new(&sample, 1.0).density(place);
    let (differ, near) = (sage != host, (sage - host).abs() < 1e-15 * host);
    let should = if differ && near { "" } else { ", and they should differ in their last digits" };
    println!("the density of {sample:?} at {place}: sage {sage:?}, host {host:?}{should}");
    differ && near
}

/// The density of three equal numbers at that number: NaN where their mean is the number, and not where it is rounded.
fn equal_numbers() -> bool {
    let densities = |of: fn(&[f64; 3], f64) -> f64| format!("{:?}", [0.5, 0.1].map(|number| of(&[number; 3], number)));
    let sage = densities(|sample, place| Kde::new(sample, |bandwidth| bandwidth).pdf(place));
    let host = densities(|sample, place| Kernel::new(sample, 1.0).density(place));
    let same = [&sage, &host].map(|side| side == "[NaN, 3.380853300798316e16]") == [true; 2];
    let should = if same { "" } else { ", and they should be NaN and 3.380853300798316e16" };
    println!("the densities of 0.5 0.5 0.5 and of 0.1 0.1 0.1: sage {sage}, host {host}{should}");
    same
}

/// The bins of both sides from these decoys and targets, the port's with host's densities.
fn built(bins: usize, decoys: &[f64], targets: &[f64]) -> (Vec<f64>, Vec<f64>) {
    let scores = [decoys, targets].concat();
    let flags: Vec<bool> = (0..scores.len()).map(|place| place < decoys.len()).collect();
    let labels: Vec<i32> = flags.iter().map(|&decoy| if decoy { -1 } else { 1 }).collect();
    let sage = Builder::default().bins(bins).build(&scores, &flags).parts().bins;
    let (mut at, mut column) = (vec![0.5; bins], vec![0.5; bins]);
    let built = bin_scores(bins, &scores, &mut at);
    let density = |sample| at.iter().map(|&score| Kernel::new(sample, 1.0).density(score)).collect::<Vec<f64>>();
    let number = posterior_bins(1, bins, &labels, &density(decoys), &density(targets), &mut column).number;
    assert_eq!((built.number, number), (0, 0));
    (sage, column)
}

/// Bins of three equal decoys.
fn equal_classes() -> bool {
    let (exact, rounded) = (built(2, &[0.5; 3], &[1.0, 2.0]), built(2, &[0.1; 3], &[1.0, 2.0]));
    let wanted = "([NaN, NaN], [1.0, 0.0])";
    check(
        "targets 1 and 2, and three decoys of 0.5, or of 0.1: two bins",
        ((exact.0, rounded.0), wanted),
        ((exact.1, rounded.1), wanted),
    )
}

/// Bins of targets that are the decoys' equals.
fn level() -> bool {
    let (sage, port) = built(2, &[0.0, 1.0], &[0.0, 1.0]);
    check("decoys 0 and 1, targets 0 and 1: two bins", (sage, "[0.5, 0.5]"), (port, "[0.5, 0.5]"))
}

/// A score so far under the first bin that the distance is infinite.
fn far_under() -> bool {
    let (sage, port) = error_of(&[0.5, 0.25], (1e308, 1.0), -1e308);
    check("bins 0.5 0.25, least 1E308, score -1E308", (sage, "inf"), (port, "inf"))
}

/// Scores that differ by the least f64: the step of three bins is half of it, rounded.
fn tiny_step() -> bool {
    let scores = [0.0, 5e-324];
    let step = Builder::default().bins(3).build(&scores, &[true, false]).parts().score_step;
    let built = bin_scores(3, &scores, &mut [0.5; 3]);
    check("scores 0 and 5E-324, three bins: the step", (step, "0.0"), (built.score_step, "0.0"))
}

/// A first bin of NaN.
fn first_nan() -> bool {
    let (sage, port) = error_of(&[f64::NAN, 0.5], (0.0, 1.0), -3.0);
    check("bins NaN 0.5, score -3", (sage, "NaN"), (port, "NaN"))
}
