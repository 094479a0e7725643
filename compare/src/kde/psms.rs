//! The calls beside sage's unchanged score_psms: the bin count and the bins of its mass errors, its posterior errors
//! and their logarithms.

use super::buffers::Buffer;
use super::builds::Case;
use super::draws::{between, one_of, Width};
use super::tolerances::{counted, UNITS};
use super::Calls;
use crate::calls::{bin_count, estimator};
use crate::cases::Random;
use crate::lists::label;
use crate::report::{expect, expect_column};
use sage_core::mass::Tolerance;
use sage_core::ml::kde::{recording, Build};
use sage_core::ml::linear_discriminant::score_psms;
use sage_core::scoring::Feature;
use vayemuku_sys::{log_errors, posterior_errors};

/// Runs of score_psms.
const RUNS: usize = 500;

/// Widths of tolerances: both least numbers of bins, the most bins, and beside them.
const WIDTHS: [f32; 12] = [0.0, 20.0, 99.5, 100.0, 100.5, 151.0, 999.9, 1000.0, 1000.1, 65_535.5, 65_536.0, 65_536.01];

/// The contents of columns before a call.
const GARBAGE: f64 = 0.056_789;

impl Calls {
    /// Runs score_psms on random rows, with tolerances at boundaries and random ones.
    pub fn psms(&mut self) {
        for run in 0..RUNS {
            let unit = run % 2;
            let (lo, hi) = ends(&mut self.random);
            let tolerance = [Tolerance::Ppm, Tolerance::Da][unit](lo, hi);
            let mut rows = rows(&mut self.random);
            let (answer, builds) = recording(|| score_psms(&mut rows, tolerance));
            self.mass_errors(unit, lo, hi, &rows, &builds[0]);
            if answer.is_some() {
                self.discriminants(&rows, &builds[1]);
            }
        }
    }

    /// The bin count is the number of bins of score_psms's first build, and the bins are its bins.
    fn mass_errors(&mut self, unit: usize, lo: f32, hi: f32, rows: &[Feature], build: &Build) {
        let (unit, least) = UNITS[unit];
        let bins = build.estimator.bins.len();
        let wanted = match counted(lo, hi, least) {
            (0, _) => (0, bins),
            refused => refused,
        };
        let outcome = expect(&format!("unit {unit} from {lo:e} to {hi:e}"), bin_count(unit, lo, hi), wanted);
        self.bin_count.outcome(outcome);
        if wanted.0 == 0 {
            let width = Width::Times([2.0, 0.1][unit as usize]);
            let case =
                Case { monotonic: false, bins, scores: build.scores.clone(), labels: labels(rows), widths: [width; 2] };
            self.build(&case, &build.estimator, rows.len());
        }
    }

    /// The bins of score_psms's second build, 1000 and monotonic, and the posterior errors of the rows.
    fn discriminants(&mut self, rows: &[Feature], build: &Build) {
        let (scores, widths) = (build.scores.clone(), [Width::Times(1.0); 2]);
        let case = Case { monotonic: true, bins: 1000, scores, labels: labels(rows), widths };
        self.build(&case, &build.estimator, rows.len());
        let outcome = logs_of_rows(rows, build);
        self.log_errors.outcome(outcome.map_err(|fault| format!("{fault}, in {} rows of score_psms", rows.len())));
    }
}

/// The port's posterior errors, their log10 by Rust and the port's rule for it give what score_psms gave the rows.
fn logs_of_rows(rows: &[Feature], build: &Build) -> Result<(), String> {
    let mut errors = Buffer::new(rows.len(), GARBAGE);
    let returned = posterior_errors(estimator(&build.estimator), &build.scores, errors.column_mut());
    expect("number of posterior_errors", returned.number, 0)?;
    let log10s: Vec<f64> = errors.after()?.iter().map(|error| error.log10()).collect();
    let mut logs = Buffer::new(rows.len(), GARBAGE as f32);
    expect("number", log_errors(&log10s, logs.column_mut()).number, 0)?;
    expect_column("logarithm", logs.after()?, rows.iter().map(|row| row.posterior_error))
}

/// Ends of a tolerance, NaN sometimes.
fn ends(random: &mut Random) -> (f32, f32) {
    let width = match random.below(8) {
        0..=3 => between(random, -100.0, 2_000.0) as f32,
        4 => between(random, 0.0, 70_000.0) as f32,
        _ => one_of(random, &WIDTHS),
    };
    match random.below(8) {
        0 => (f32::NAN, width),
        1..=3 => (0.0, width),
        _ => (-width / 2.0, width / 2.0),
    }
}

/// The labels of rows.
fn labels(rows: &[Feature]) -> Vec<i32> {
    rows.iter().map(|row| row.label).collect()
}

/// From 2 to 30 rows. Those of targets are better, in every second list so far that the error of some is zero.
fn rows(random: &mut Random) -> Vec<Feature> {
    let better = one_of(random, &[2.0, 500.0]);
    (0..2 + random.below(29)).map(|place| row(random, place as usize, better)).collect()
}

/// One row; every third is a decoy.
pub fn row(random: &mut Random, place: usize, better: f64) -> Feature {
    let decoy = place % 3 == 1;
    let gain = if decoy { 0.0 } else { better };
    let mut any = |high: f64| between(random, 0.0, high);
    Feature {
        label: label(decoy, place),
        rank: 1 + any(2.0) as u32,
        charge: 2 + any(3.0) as u8,
        expmass: 1000.0 + any(5.0) as f32,
        calcmass: 1000.0 + any(5.0) as f32,
        delta_mass: any(20.0) as f32 - 10.0,
        hyperscore: gain + any(20.0),
        delta_next: any(10.0),
        delta_best: any(1.0),
        isotope_error: any(2.0) as f32,
        average_ppm: any(10.0) as f32,
        poisson: -gain - any(10.0),
        matched_intensity_pct: any(100.0) as f32,
        matched_peaks: (gain + any(10.0)) as u32,
        longest_b: any(8.0) as u32,
        longest_y: any(8.0) as u32,
        peptide_len: 7 + any(20.0) as usize,
        missed_cleavages: any(3.0) as u8,
        aligned_rt: any(1.0) as f32,
        ims: any(1.0) as f32,
        delta_rt_model: any(1.0) as f32,
        delta_ims_model: any(1.0) as f32,
        ..Feature::default()
    }
}
