//! The scores, labels, bandwidths, densities, bins and estimators that the calls are tried on.

use super::reading::MOST_BINS;
use crate::cases::{random_float, Float, Random};
use crate::lists::{label, tied_scores};
use crate::report::Answer;
use sage_core::ml::kde::Parts;

/// The ends of the format, and one and a half.
const EDGES: [f64; 19] = [
    0.0,
    -0.0,
    5e-324,
    -5e-324,
    1e-310,
    f64::MIN_POSITIVE,
    -f64::MIN_POSITIVE,
    1e-300,
    0.5,
    1.0,
    -1.0,
    1e300,
    -1e300,
    f64::MAX,
    f64::MIN,
    f64::INFINITY,
    f64::NEG_INFINITY,
    f64::NAN,
    -f64::NAN,
];

/// Numbers of steps past both ends of the bins, and where a conversion to a whole number has its ends.
const FAR: [f64; 12] = [-1.0, -2.0, -1e6, -1e300, 1e6, 4294967296.0, 9e15, 9.3e18, 1.8e19, 1.9e19, 1e300, 1e308];

/// Flags of a slot that is neither a decoy nor a target.
const NEITHER: [u32; 10] = [2, 3, 7, 255, 256, 257, 65_537, 1 << 31, (1 << 31) + 1, u32::MAX];

/// Numbers that ask for monotonic bins.
const YES: [u32; 6] = [1, 2, 256, 65_536, 1 << 31, u32::MAX];

/// A class's bandwidth, from the one that sage works out.
#[derive(Clone, Copy, Debug)]
pub enum Width {
    Times(f64),
    Fixed(f64),
}

impl Width {
    /// The bandwidth.
    pub fn of(self, own: f64) -> f64 {
        match self {
            Width::Times(factor) => own * factor,
            Width::Fixed(width) => width,
        }
    }
}

/// One of a list.
pub fn one_of<T: Copy>(random: &mut Random, list: &[T]) -> T {
    list[random.below(list.len() as u64) as usize]
}

/// A float from `low` to `high`.
pub fn between(random: &mut Random, low: f64, high: f64) -> f64 {
    low + (high - low) * (random.next() >> 11) as f64 / 2f64.powi(53)
}

/// The number that asks for monotonic bins, or for others.
pub fn flag(random: &mut Random, monotonic: bool) -> u32 {
    one_of(random, &YES) * u32::from(monotonic)
}

/// A bin count: 1, 2, 3, 1000 or any up to 300, and rarely a large one.
pub fn bin_count(random: &mut Random) -> usize {
    match random.below(400) {
        0 => MOST_BINS,
        1 => 1 + random.below(MOST_BINS as u64) as usize,
        2..=41 => 1,
        42..=81 => 2,
        82..=121 => 3,
        122..=201 => 1000,
        _ => 1 + random.below(300) as usize,
    }
}

/// How many rows: none, one, up to 40, or up to 400.
fn row_count(random: &mut Random) -> u64 {
    match random.below(20) {
        0 => 0,
        1 => 1,
        2 => 2 + random.below(400),
        _ => 2 + random.below(39),
    }
}

/// Labels: only decoys, only targets, or any of both.
pub fn labels(random: &mut Random) -> Vec<i32> {
    let length = row_count(random) as usize;
    let rate = match random.below(10) {
        0 => 0,
        1 => 8,
        _ => 1 + random.below(7),
    };
    (0..length).map(|place| label(random.below(8) < rate, place)).collect()
}

/// Scores of these labels: moderate ones, the same with edges among them, few different ones, equal ones, zeros of both
/// signs with other edges sometimes, or any floats.
pub fn scores(random: &mut Random, labels: &[i32]) -> Vec<f64> {
    let length = labels.len();
    match random.below(12) {
        0..=5 => moderate(random, labels),
        6 | 7 => {
            let mut scores = moderate(random, labels);
            let edge = one_of(random, &EDGES);
            scores.iter_mut().filter(|_| random.below(8) == 0).for_each(|score| *score = edge);
            scores
        }
        8 => tied_scores(random, length),
        9 => vec![random_float(random); length],
        10 => {
            let third = one_of(random, &[0.0, -0.0, 5e-324, -5e-324, 1.0, -1.0, f64::NAN]);
            (0..length).map(|_| one_of(random, &[0.0, -0.0, third])).collect()
        }
        _ => (0..length).map(|_| random_float(random)).collect(),
    }
}

/// Scores of a moderate size, those of decoys lower, and far lower sometimes.
fn moderate(random: &mut Random, labels: &[i32]) -> Vec<f64> {
    let (unit, apart) = (10f64.powi(random.below(7) as i32 - 3), one_of(random, &[1.0, 2.0, 100.0]));
    let middle = between(random, -5.0, 5.0);
    let score = |&label: &i32| {
        let lower = f64::from(u8::from(label == -1)) * apart;
        unit * (middle - lower + between(random, -1.0, 1.0) + between(random, -1.0, 1.0))
    };
    labels.iter().map(score).collect()
}

/// The bandwidths of decoys and targets. Edges give densities of zero, of either sign, infinities and NaN.
pub fn widths(random: &mut Random) -> [Width; 2] {
    let mut one = || match random.below(3) {
        0 => Width::Fixed(one_of(random, &EDGES)),
        1 => Width::Fixed(between(random, -2.0, 2.0)),
        _ => Width::Times(one_of(random, &[1.0, -1.0, 1e-3, 1e3])),
    };
    let any = [one(), one()];
    let own = one_of(random, &[1.0, 1.0, 2.0, 0.1]);
    one_of(random, &[[Width::Times(own); 2], [Width::Times(own); 2], any])
}

/// The labels as a competition's slots, in their order, among `length` slots, of which the others take no part.
pub fn slots(random: &mut Random, labels: &[i32], length: usize) -> Vec<u32> {
    let mut labels = labels.iter();
    let mut flags = Vec::with_capacity(length);
    for left in (1..=length as u64).rev() {
        let slot = match random.below(left) < labels.len() as u64 {
            true => labels.next().map(|label| u32::from(*label == -1)),
            false => None,
        };
        flags.push(slot.unwrap_or_else(|| one_of(random, &NEITHER)));
    }
    flags
}

/// A density at every bin: moderate ones, zeros of both signs and ones, edges, small ones, or any floats.
pub fn density(random: &mut Random, bin_count: usize) -> Vec<f64> {
    let kind = random.below(6);
    let mut one = |_| match kind {
        0 => between(random, 0.0, 1.0),
        1 => one_of(random, &[0.0, -0.0, 1.0, -1.0]),
        2 => one_of(random, &EDGES),
        3 => f64::of(random.below(1 << 54)),
        4 => one_of(random, &[0.0, 1.0, 2.0, 3.0, f64::NAN]),
        _ => random_float(random),
    };
    (0..bin_count).map(&mut one).collect()
}

/// Bins that fall, the same with edges among them, equal ones, edges, or any floats.
fn bin_column(random: &mut Random, bin_count: usize) -> Vec<f64> {
    let kind = random.below(5);
    let equal = random_float(random);
    let mut one = |bin: usize| match kind {
        1 if random.below(3) == 0 => one_of(random, &EDGES),
        0 | 1 => 1.0 - (bin as f64 + between(random, 0.0, 1.0)) / bin_count as f64,
        2 => equal,
        3 => one_of(random, &EDGES),
        _ => random_float(random),
    };
    (0..bin_count).map(&mut one).collect()
}

/// Any estimator, also one that no build gives: 1, 2, 3, 1000, 65,536 or other numbers of bins, and steps of every
/// kind.
pub fn estimator(random: &mut Random) -> Parts {
    let bin_count = match random.below(40) {
        0 => MOST_BINS,
        1 => 1 + random.below(MOST_BINS as u64) as usize,
        2..=8 => 1000,
        _ => bin_count(random).min(1000),
    };
    let bins = bin_column(random, bin_count);
    let mut any = |low, high| match random.below(5) {
        0 | 1 => between(random, low, high),
        2 => one_of(random, &[0.0, 1.0, 0.125, 1e-3, -3.0]),
        3 => one_of(random, &EDGES),
        _ => random_float(random),
    };
    Parts { bins, min_score: any(-10.0, 10.0), score_step: any(0.0, 0.1) }
}

/// A score for an estimator: at a bin, up to two places beside it, between two, past the ends, or any float.
pub fn score(random: &mut Random, parts: &Parts) -> f64 {
    let last = parts.bins.len() - 1;
    let bin = match random.below(6) {
        0 => one_of(random, &FAR),
        1 => last as f64 + random.below(4) as f64 - 1.0,
        2 => random.below(3) as f64,
        _ => random.below(parts.bins.len() as u64) as f64,
    };
    let at = |bin: f64| bin * parts.score_step + parts.min_score;
    match random.below(8) {
        0 | 1 => at(bin),
        2..=4 => f64::of(at(bin).pattern().wrapping_add_signed(random.below(5) as i64 - 2)),
        5 => at(bin + between(random, 0.0, 1.0)),
        6 => one_of(random, &EDGES),
        _ => random_float(random),
    }
}
