//! A row's score and the scoring run beside sage's score, and Rust's `as f32`.

use super::rows::{finite_coefficients, random_pair, random_rows};
use crate::calls::Vector;
use crate::cases::Random;
use crate::lists::LONGEST;
use crate::report::{expect, expect_all, expect_column, Answer, Tally};
use host::FEATURES;
use sage_core::ml::linear_discriminant::LinearDiscriminantAnalysis;
use vayemuku_sys::{score, score_rows};

/// The contents of a result column before a call.
const GARBAGE: f64 = 0.375;

/// Single scores for each scoring run.
const SINGLE: u64 = 40;

/// The most rows of a scoring run, and numbers of rows that some runs have instead.
const ROWS: u64 = 40;
const MORE_ROWS: [usize; 12] = [0, 1, 127, 128, 129, 255, 256, 257, 383, 384, 385, 1_000];

/// Coefficients that are refused.
const NOT_FINITE: [u64; 6] = [
    0x7ff0_0000_0000_0000, // infinity
    0xfff0_0000_0000_0000,
    0x7ff8_0000_0000_0000, // NaN
    0xfff8_0000_0000_0000,
    0x7ff0_0000_0000_0001,
    0xffff_ffff_ffff_ffff,
];

/// A tally of each of the two calls.
pub struct ScoreTallies {
    single: Tally,
    run: Tally,
}

impl ScoreTallies {
    /// Nothing compared yet.
    pub fn new() -> Self {
        ScoreTallies { single: Tally::new("score"), run: Tally::new("score_rows") }
    }

    /// Compares random runs, and single scores for each.
    pub fn random(&mut self, runs: u64) {
        let mut random = Random::new(14);
        for run in 0..runs {
            for _ in 0..SINGLE {
                self.check_single(random_pair(&mut random));
            }
            let length = match run % 8 {
                0 => MORE_ROWS[(run / 8) as usize % MORE_ROWS.len()],
                _ => random.below(ROWS + 1) as usize,
            };
            let coefficients = finite_coefficients(&mut random);
            self.check(&coefficients, &random_rows(&mut random, &coefficients, length));
        }
    }

    /// Compares the score of one row.
    fn check_single(&mut self, (coefficients, row): (Vector, Vector)) {
        let port = score(&coefficients, &row);
        let sage = LinearDiscriminantAnalysis::from_coefficients(coefficients.to_vec()).score(&row);
        self.single.count(is_score(port, &coefficients, &row, sage), || {
            format!("port {}, sage {}, coefficients {coefficients:?}, row {row:?}", port.hex(), sage.hex())
        });
    }

    /// Compares one run: each score with sage's, and its narrowing with Rust's.
    pub fn check(&mut self, coefficients: &Vector, rows: &[Vector]) {
        let (mut scores, mut narrowed) = (vec![GARBAGE; rows.len()], vec![GARBAGE as f32; rows.len()]);
        let returned = score_rows(coefficients, rows.as_flattened(), &mut scores, &mut narrowed);
        let sage = LinearDiscriminantAnalysis::from_coefficients(coefficients.to_vec());
        let other =
            scores.iter().zip(rows).position(|(port, row)| !is_score(*port, coefficients, row, sage.score(row)));
        let outcome = expect("number", returned.number, 0)
            .and_then(|()| expect("a score that is not sage's, at", other, None))
            .and_then(|()| expect_column("narrowed", &narrowed, scores.iter().map(|score| *score as f32)));
        let described = || format!("{} rows, coefficients {coefficients:?}", rows.len());
        self.run.outcome(outcome.map_err(|fault| format!("{fault}, of {}", described())));
    }

    /// Lists that are too long, columns of another length, and coefficients that are not finite.
    pub fn refusals(&mut self) {
        let features = vec![0.0; FEATURES * (LONGEST + 1)];
        let most = FEATURES * LONGEST;
        let long = LONGEST + 1;
        for (numbers, scores, narrowed, wanted) in [
            (most + 1, 0, 0, 1),
            (most + 1, 3, 5, 1),
            (most + 1, LONGEST, LONGEST, 1),
            (most + FEATURES, long, long, 1),
            (most + FEATURES, long, 7, 1),
            (0, long, long, 2),
            (FEATURES, 1, long, 2),
            (most, long, long, 2),
            (most, 3, 3, 2),
            (most, LONGEST, 7, 2),
            (most - 1, LONGEST, LONGEST, 2),
        ] {
            self.refusal(&features[..numbers], [scores, narrowed], wanted);
        }
        for [scores, narrowed] in (0..36).map(|choice| [choice / 6, choice % 6]) {
            let right = |numbers: usize| numbers == FEATURES * scores && narrowed == scores;
            for numbers in (0..130).filter(|numbers| !right(*numbers)) {
                self.refusal(&features[..numbers], [scores, narrowed], 2);
            }
        }
        self.not_finite();
    }

    /// Columns of these lengths are refused, whether or not a coefficient is finite, and hold blanks.
    fn refusal(&mut self, features: &[f64], lengths: [usize; 2], wanted: u32) {
        for coefficient in [1.0, f64::NAN] {
            self.refused(&[coefficient; FEATURES], features, lengths, wanted);
        }
    }

    /// A NaN or an infinity in each place, at several numbers of rows.
    fn not_finite(&mut self) {
        let mut random = Random::new(16);
        for rows in [0, 1, 2, 7, 127, 128, 129, 300] {
            for place in 0..FEATURES {
                for pattern in NOT_FINITE {
                    let mut coefficients = finite_coefficients(&mut random);
                    let features = random_rows(&mut random, &coefficients, rows);
                    coefficients[place] = f64::from_bits(pattern);
                    self.refused(&coefficients, features.as_flattened(), [rows; 2], 8);
                }
            }
        }
    }

    /// A run with result columns of these lengths is refused, and leaves blanks.
    fn refused(&mut self, coefficients: &Vector, features: &[f64], [scores, narrowed]: [usize; 2], wanted: u32) {
        let (mut scores, mut narrowed) = (vec![GARBAGE; scores], vec![GARBAGE as f32; narrowed]);
        let returned = score_rows(coefficients, features, &mut scores, &mut narrowed);
        let outcome = expect("number", returned.number, wanted)
            .and_then(|()| expect_all("score", &scores, f64::NAN))
            .and_then(|()| expect_all("narrowed", &narrowed, f32::NAN));
        let lengths = (features.len(), scores.len(), narrowed.len());
        self.run.outcome(outcome.map_err(|fault| format!("{fault}, lengths {lengths:?}")));
    }

    /// Prints both lines, and says whether nothing differed.
    pub fn print(&self) -> bool {
        let same = [self.single.print(), self.run.print()];
        same.iter().all(|same| *same)
    }
}

/// Whether a score is the sum in order, starting at +0.0, and is sage's. sage's may be a zero of the other sign, since
/// Rust leaves open where a sum starts.
fn is_score(port: f64, coefficients: &Vector, row: &Vector, sage: f64) -> bool {
    let ruled = coefficients.iter().zip(row).fold(0.0, |sum, (w, x)| sum + w * x);
    port.same(ruled) && (port.same(sage) || port == 0.0 && sage == 0.0)
}
