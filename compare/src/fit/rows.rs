//! The feature rows and labels that fits and scores are tried on.

use super::systems::{moderate, pick, power_of_ten, whole, SPECIAL};
use crate::calls::Vector;
use crate::cases::{partner, random_float, Random};
use crate::lists::label;
use host::FEATURES;

/// Random labels of up to `longest` rows: of one class, of one class except for one row, or of both at a random rate.
fn labels(random: &mut Random, longest: u64) -> Vec<i32> {
    let most = 1 + random.below(longest);
    let length = 1 + random.below(most) as usize;
    let rate = [0, 256, random.below(257), random.below(257)][random.below(4) as usize];
    let mut labels: Vec<i32> = (0..length).map(|place| label(random.below(256) < rate, place)).collect();
    if random.below(16) > 0 {
        let place = random.below(length as u64) as usize;
        labels[place] = label(labels[place] != -1, place);
    }
    labels
}

/// A random list of up to `longest` rows with labels.
pub fn random_list(random: &mut Random, longest: u64) -> (Vec<Vector>, Vec<i32>) {
    let labels = labels(random, longest);
    let mut rows = vec![[0.0; FEATURES]; labels.len()];
    let kinds = pick(random, &[6, 9, 9, 11]);
    for column in 0..FEATURES {
        let kind = random.below(kinds);
        fill_column(random, &mut rows, &labels, column, kind);
    }
    let place = random.below(rows.len() as u64) as usize;
    match random.below(10) {
        0 => {
            let factor = power_of_ten(random, 160);
            rows.iter_mut().flatten().for_each(|x| *x *= factor);
        }
        1 => rows[place][random.below(FEATURES as u64) as usize] = pick(random, &SPECIAL),
        2 => rows[place] = [pick(random, &SPECIAL); FEATURES],
        _ => {}
    }
    (rows, labels)
}

/// Fills a column by `kind` under 11; the last two have sizes that overflow and NaNs.
fn fill_column(random: &mut Random, rows: &mut [Vector], labels: &[i32], column: usize, kind: u64) {
    let earlier = random.below(column as u64 + 1) as usize;
    let (one, factor) = (moderate(random), whole(random));
    let small = power_of_ten(random, 8).min(1.0);
    let any = power_of_ten(random, 300);
    for (row, label) in rows.iter_mut().zip(labels) {
        row[column] = match kind {
            0 | 1 => moderate(random),
            2 => moderate(random) + one * f64::from(u8::from(*label == -1)),
            3 => whole(random),
            4 => one,
            5 => small * moderate(random),
            6 => row[earlier],
            7 => factor * row[earlier],
            8 => pick(random, &[0.0, -0.0]),
            9 => any * moderate(random),
            _ => random_float(random),
        };
    }
}

/// Random coefficients, all of them finite.
pub fn finite_coefficients(random: &mut Random) -> Vector {
    let kind = random.below(6);
    let mut row = numbers(random, kind);
    row.iter_mut().filter(|x| !x.is_finite()).for_each(|x| *x = 1.5);
    row
}

/// Twenty random numbers, by `kind` under 6: one of any pattern and zeros beside it, or moderate, of different sizes,
/// zeros, specials or of any pattern.
fn numbers(random: &mut Random, kind: u64) -> Vector {
    if kind == 0 {
        let mut row = [pick(random, &[0.0, -0.0]); FEATURES];
        row[random.below(FEATURES as u64) as usize] = random_float(random);
        return row;
    }
    std::array::from_fn(|_| match kind {
        1 => moderate(random),
        2 => moderate(random) * power_of_ten(random, 40),
        3 => pick(random, &[0.0, -0.0]),
        4 => pick(random, &SPECIAL),
        _ => random_float(random),
    })
}

/// Random coefficients and a row: of any kind, with terms that nearly cancel, or with one coefficient 1, the others 0.
pub fn random_pair(random: &mut Random) -> (Vector, Vector) {
    let [mut coefficients, mut row] = [0; 2].map(|_| {
        let kind = random.below(6);
        numbers(random, kind)
    });
    match random.below(4) {
        0 => {
            for j in (1..FEATURES).step_by(2) {
                coefficients[j] = -coefficients[j - 1];
                row[j] = partner(random, row[j - 1]);
            }
        }
        1 => {
            let place = random.below(FEATURES as u64) as usize;
            coefficients = [0.0; FEATURES];
            coefficients[place] = 1.0;
            row = std::array::from_fn(|j| if j == place { random_float(random) } else { whole(random) });
        }
        _ => {}
    }
    (coefficients, row)
}

/// Random rows for these coefficients: of any kind, or with one number that makes the score near to any float.
pub fn random_rows(random: &mut Random, coefficients: &Vector, length: usize) -> Vec<Vector> {
    let place = random.below(FEATURES as u64) as usize;
    let single = |x: f64| {
        let mut row = [0.0; FEATURES];
        row[place] = x / coefficients[place];
        row
    };
    (0..length)
        .map(|_| match random.below(8) {
            kind @ 0..6 => numbers(random, kind),
            _ => single(random_float(random)),
        })
        .collect()
}
