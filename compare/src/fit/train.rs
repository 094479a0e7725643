//! The fit beside sage's LinearDiscriminantAnalysis::train.

use super::rows::random_list;
use crate::calls::{train, Vector};
use crate::cases::Random;
use crate::lists::{label, LONGEST};
use crate::report::{expect, expect_all, expect_column, Tally};
use host::FEATURES;
use sage_core::ml::linear_discriminant::LinearDiscriminantAnalysis;

/// The longest random list.
const LONGEST_RANDOM: u64 = 300;

/// The tally, and how often a fit was accepted, refused with 6 and refused with 7.
pub struct Fits {
    tally: Tally,
    kinds: [(u32, u64); 3],
}

impl Fits {
    /// Nothing compared yet.
    pub fn new() -> Self {
        Fits { tally: Tally::new("train"), kinds: [0, 6, 7].map(|number| (number, 0)) }
    }

    /// Compares random fits.
    pub fn random(&mut self, fits: u64) {
        let mut random = Random::new(12);
        for _ in 0..fits {
            let (rows, labels) = random_list(&mut random, LONGEST_RANDOM);
            self.check(&rows, &labels);
        }
    }

    /// Compares one fit with sage's.
    pub fn check(&mut self, rows: &[Vector], labels: &[i32]) {
        let (wanted, coefficients) = fit_of_sage(rows, labels);
        self.kinds.iter_mut().filter(|kind| kind.0 == wanted).for_each(|kind| kind.1 += 1);
        let (number, port) = train(rows.as_flattened(), labels);
        let outcome = expect("number", number, wanted)
            .and_then(|()| expect_column("coefficient", &port, coefficients.into_iter()));
        self.tally.outcome(outcome.map_err(|fault| format!("{fault}, in {}", described(labels))));
    }

    /// Lists that are too long, columns of another length, and one class alone.
    pub fn refusals(&mut self) {
        let (labels, features) = (vec![0; LONGEST + 2], vec![0.0; FEATURES * (LONGEST + 2)]);
        let most = FEATURES * LONGEST;
        let long = LONGEST + 1;
        for (rows, numbers, wanted) in [
            (long, 0, 1),
            (long, most, 1),
            (long, most + FEATURES, 1),
            (long + 1, FEATURES, 1),
            (0, most + 1, 1),
            (3, most + 1, 1),
            (LONGEST, most + 1, 1),
            (LONGEST, most + FEATURES, 1),
            (0, most, 2),
            (LONGEST, 0, 2),
            (LONGEST, most - 1, 2),
            (LONGEST, most - FEATURES, 2),
            (LONGEST - 1, most, 2),
            (LONGEST, most, 6),
        ] {
            self.refusal(&features[..numbers], &labels[..rows], wanted);
        }
        for rows in 0..8 {
            for numbers in (0..200).filter(|numbers| *numbers != FEATURES * rows) {
                let classes: Vec<i32> = (0..rows).map(|place| label(place % 2 == 0, place)).collect();
                self.refusal(&features[..numbers], &classes, 2);
                self.refusal(&features[..numbers], &labels[..rows], 2);
                self.refusal(&[f64::NAN; 200][..numbers], &vec![-1; rows], 2);
            }
        }
        self.one_class();
        self.each_place();
    }

    /// Lists of one class alone, also of NaN features, which no eps solves; and the empty list.
    fn one_class(&mut self) {
        for rows in 0..70 {
            let targets: Vec<i32> = (0..rows).map(|place| label(false, place)).collect();
            for number in [0.0, 1.0, f64::NAN, f64::INFINITY] {
                let features = vec![number; FEATURES * rows];
                self.refusal(&features, &targets, 6);
                self.refusal(&features, &vec![-1; rows], 6);
            }
        }
    }

    /// A NaN or an infinity in each place of a list of four rows.
    fn each_place(&mut self) {
        let mut random = Random::new(13);
        for place in 0..4 * FEATURES {
            for number in [f64::NAN, f64::INFINITY, f64::NEG_INFINITY] {
                let mut rows = [[0.0; FEATURES]; 4].map(|row| row.map(|_: f64| random.below(100) as f64));
                rows.as_flattened_mut()[place] = number;
                self.check(&rows, &[-1, 1, 0, -1]);
            }
        }
    }

    /// A fit of these columns is refused, with twenty NaN.
    fn refusal(&mut self, features: &[f64], labels: &[i32], wanted: u32) {
        let (number, coefficients) = train(features, labels);
        let outcome =
            expect("number", number, wanted).and_then(|()| expect_all("coefficient", &coefficients, f64::NAN));
        let lengths = (features.len(), labels.len());
        self.tally.outcome(outcome.map_err(|fault| format!("{fault}, lengths {lengths:?}")));
    }

    /// Notes lists that could not be compared.
    pub fn not_compared(&mut self, words: String) {
        self.tally.outcome(Err(words));
    }

    /// Prints the line and the counts, and says whether nothing differed and every kind of answer occurred.
    pub fn print(&self) -> bool {
        let same = self.tally.print();
        let [accepted, one_class, unsolved] = self.kinds.map(|(_, count)| count);
        println!("  beside sage: {accepted} accepted, {one_class} refused with 6, {unsolved} refused with 7");
        same && accepted > 0 && one_class > 0 && unsolved > 0
    }
}

/// sage's coefficients with 0, or twenty NaN with 6 where a class is absent and else 7: sage does not say which.
pub fn fit_of_sage(rows: &[Vector], labels: &[i32]) -> (u32, Vec<f64>) {
    let decoys: Vec<bool> = labels.iter().map(|label| *label == -1).collect();
    match LinearDiscriminantAnalysis::train(rows, &decoys, |row| *row) {
        Some(fit) => (0, fit.coefficients().to_vec()),
        None => {
            let both = decoys.contains(&true) && decoys.contains(&false);
            (if both { 7 } else { 6 }, vec![f64::NAN; FEATURES])
        }
    }
}

/// A list in a report.
fn described(labels: &[i32]) -> String {
    let decoys = labels.iter().filter(|label| **label == -1).count();
    format!("{} rows with {decoys} decoys", labels.len())
}
