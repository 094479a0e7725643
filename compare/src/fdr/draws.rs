//! The feature rows, tables and estimators that competitions are tried on.

use super::reading::{PlainTable, NO_PART};
use crate::cases::{random_float, Random};
use crate::kde::draws::{self, between, one_of};
use crate::lists::{distinct_scores, label, tied_scores};
use sage_core::ml::kde::Parts;
use std::collections::HashSet;
use vayemuku_sys::Batch;

/// Scores that leave a side at f32::MIN, the least finite f32, at which it starts.
const LEAST: [f32; 3] = [f32::NEG_INFINITY, f32::MIN, f32::NAN];

/// Marks of seen sides.
const SEEN: [u32; 8] = [1, 1, 1, 2, 256, 65_536, 1 << 31, u32::MAX];

/// Constant posterior errors. With 0.0, q is one over the targets.
const CONSTANT: [f64; 12] = [0.0, 0.0, 0.0, 1e-9, -0.005, -1e-3, 0.01, 0.5, -1.0, 1e30, 1e39, f64::NAN];

/// Posterior errors, of which some are the least f32.
const CANCELLING: [f64; 6] = [1e-45, -1e-45, 1e-45, -1e-45, 0.0, -0.0];

/// Feature rows: the slot, label and score of each.
#[derive(Clone, Default)]
pub struct SlotRows {
    pub slots: Vec<u32>,
    pub labels: Vec<i32>,
    pub scores: Vec<f32>,
}

impl SlotRows {
    /// Adds a row.
    fn push(&mut self, slot: u32, decoy: bool, score: f32) {
        self.labels.push(label(decoy, self.slots.len()));
        self.slots.push(slot);
        self.scores.push(score);
    }

    /// All of them as one batch.
    pub fn all(&self) -> Batch<'_> {
        self.part(0, self.slots.len())
    }

    /// Those from a place to another.
    pub fn part(&self, from: usize, to: usize) -> Batch<'_> {
        Batch { slots: &self.slots[from..to], labels: &self.labels[from..to], scores: &self.scores[from..to] }
    }

    /// The rows in random order.
    fn shuffle(&mut self, random: &mut Random) {
        for last in (1..self.slots.len()).rev() {
            let other = random.below(last as u64 + 1) as usize;
            self.slots.swap(last, other);
            self.labels.swap(last, other);
            self.scores.swap(last, other);
        }
    }
}

/// How many slots: few, up to 400, about 100 or 200, and rarely many.
fn slot_count(random: &mut Random) -> usize {
    let number = match random.below(100) {
        0..3 => random.below(2),
        3 => random.below(3_000),
        4..7 => 100,
        7..12 => 95 + random.below(11),
        12..15 => 195 + random.below(11),
        15..20 => random.below(400),
        _ => 1 + random.below(40),
    };
    number as usize
}

/// The sides that rows are of.
fn seen_sides(random: &mut Random, slots: usize) -> Vec<(u32, bool)> {
    let rates = [one_of(random, &[0, 2, 5, 8, 8]), one_of(random, &[0, 0, 1, 4, 8])];
    let mut sides = Vec::new();
    for slot in 0..slots as u32 {
        for decoy in [false, true] {
            if random.below(8) < rates[usize::from(decoy)] {
                sides.push((slot, decoy));
            }
        }
    }
    sides
}

/// Random rows, with the number of their slots. The best scores of all sides differ as numbers, which is document 01's
/// comparison domain.
pub fn distinct_rows(random: &mut Random) -> (usize, SlotRows) {
    let slots = slot_count(random);
    let sides = seen_sides(random, slots);
    let scores = side_scores(random, &sides);
    let mut rows = SlotRows::default();
    let (most, shared) = (random.below(4), random.below(8));
    for (&(slot, decoy), &best) in sides.iter().zip(&scores) {
        rows.push(slot, decoy, best);
        for _ in 0..random.below(most + 1) {
            rows.push(slot, decoy, lower(random, best));
        }
        if random.below(16) < shared {
            rows.push(NO_PART, random.below(2) == 0, any_score(random));
        }
    }
    rows.shuffle(random);
    (slots, rows)
}

/// The best score of every side: moderate, those of decoys lower, or multiples of a half, or f32s of the whole range.
/// Rarely one leaves f32::MIN.
fn side_scores(random: &mut Random, sides: &[(u32, bool)]) -> Vec<f32> {
    let (kind, apart) = (random.below(4), one_of(random, &[0.0, 2.0, 8.0]));
    let mut order: Vec<f64> = distinct_scores(random, sides.len());
    if kind == 1 {
        order = (0..sides.len()).map(|place| (place as f64 - 20.0) / 2.0).collect();
    }
    let mut taken = HashSet::new();
    let mut scores = Vec::new();
    for (_, decoy) in sides {
        let mut score = match kind {
            0 | 1 => order.swap_remove(random.below(order.len() as u64) as usize) as f32,
            _ => (between(random, -2.0, 2.0) + between(random, -2.0, 2.0) + apart * f64::from(u8::from(!decoy))) as f32,
        };
        if random.below(40) == 0 {
            score = one_of(random, &LEAST);
        }
        while !taken.insert((score.max(f32::MIN) + 0.0).to_bits()) {
            score = between(random, -9.0, 9.0) as f32;
        }
        scores.push(score);
    }
    scores
}

/// A score that does not raise a side above its best one, sometimes the zero of the other sign.
fn lower(random: &mut Random, best: f32) -> f32 {
    let score = any_score(random);
    match random.below(4) {
        0 => one_of(random, &LEAST),
        1 if best == 0.0 => -best,
        _ if score <= best => score,
        // a best score that leaves f32::MIN may be NaN
        _ if best > f32::MIN => best,
        _ => one_of(random, &LEAST),
    }
}

/// Any score.
fn any_score(random: &mut Random) -> f32 {
    match random.below(3) {
        0 => random_float(random),
        _ => between(random, -9.0, 9.0) as f32,
    }
}

/// Scores of which many are equal, with zeros, infinities and NaNs among them, or multiples of a half.
fn tied(random: &mut Random, length: usize) -> Vec<f32> {
    let (halves, with_min) = (random.below(4) == 0, random.below(2) == 0);
    let mut scores: Vec<f32> = tied_scores(random, length).into_iter().map(|score| score as f32).collect();
    for score in &mut scores {
        if halves {
            *score = random.below(300) as f32 / 2.0 - 20.0;
        }
        if with_min && random.below(8) == 0 {
            *score = f32::MIN;
        }
    }
    scores
}

/// Any table, also one that no rows give: tied scores, NaN among them, unseen sides with any score, and any marks.
pub fn table(random: &mut Random, slots: usize) -> PlainTable {
    let unseen = random.below(4);
    let mut marks = || {
        let mark = |_| if random.below(4) < unseen { 0 } else { one_of(random, &SEEN) };
        (0..slots).map(mark).collect::<Vec<u32>>()
    };
    let (forward_seen, reverse_seen) = (marks(), marks());
    let mut columns =
        PlainTable { forward: tied(random, slots), reverse: tied(random, slots), forward_seen, reverse_seen };
    if random.below(2) == 0 {
        for slot in 0..slots {
            if random.below(3) == 0 {
                columns.reverse[slot] = one_of(random, &[columns.forward[slot], -columns.forward[slot]]);
            }
        }
    }
    columns
}

/// Rows with tied scores, over these slots.
pub fn tied_rows(random: &mut Random, slots: usize) -> SlotRows {
    let most = one_of(random, &[3, 60, 4 * slots as u64 + 1]);
    let length = random.below(most) as usize;
    let scores = tied(random, length);
    let mut rows = SlotRows::default();
    for score in scores {
        let slot = match slots == 0 || random.below(8) == 0 {
            true => NO_PART,
            false => random.below(slots as u64) as u32,
        };
        rows.push(slot, random.below(2) == 0, score);
    }
    rows
}

/// The best scores of a table's seen sides.
fn best_scores(columns: &PlainTable) -> Vec<f64> {
    let forward = columns.forward.iter().zip(&columns.forward_seen);
    let sides = forward.chain(columns.reverse.iter().zip(&columns.reverse_seen));
    sides.filter(|(_, seen)| **seen != 0).map(|(score, _)| f64::from(*score)).collect()
}

/// An estimator for a table: bins from about the least of its scores to the greatest that fall, fall to zero and below,
/// are constant, or cancel, sometimes with a NaN among them; or any estimator.
pub fn estimator(random: &mut Random, columns: &PlainTable) -> Parts {
    let kind = random.below(8);
    if kind == 0 {
        return draws::estimator(random);
    }
    let mut scores = best_scores(columns);
    scores.retain(|score| score.abs() < 1e30);
    let (least, greatest) = (scores.iter().copied().fold(1e30, f64::min), scores.into_iter().fold(-1e30, f64::max));
    if kind == 1 {
        return cancelling(random, least, greatest);
    }
    let number = one_of(random, &[1, 2, 3, 5, 20, 1000]);
    let constant = one_of(random, &CONSTANT);
    let mut bin = |bin: usize| {
        let left = 1.0 - (bin as f64 + between(random, 0.0, 1.0)) / number as f64;
        match kind {
            2 | 3 => left,
            4 => 1.5 * left - 0.75,
            5 => (left - 0.5).max(0.0),
            _ => constant,
        }
    };
    let mut bins: Vec<f64> = (0..number).map(&mut bin).collect();
    if random.below(8) == 0 {
        bins[random.below(number as u64) as usize] = f64::NAN;
    }
    Parts { bins, min_score: least, score_step: (greatest - least) / number.max(2) as f64 }
}

/// Bins at every half from the least score to the greatest, for scores that are multiples of a half. At the greatest
/// the sum becomes 0, and below it stays so near that ratios are zeros of both signs.
fn cancelling(random: &mut Random, least: f64, greatest: f64) -> Parts {
    let number = (2.0 * (greatest - least)).clamp(0.0, 999.0) as usize + 1;
    let mut bins: Vec<f64> = (0..number).map(|_| one_of(random, &CANCELLING)).collect();
    bins[number - 1] = -1.0;
    Parts { bins, min_score: least, score_step: 0.5 }
}
