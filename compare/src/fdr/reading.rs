//! Competitions, read plainly from document 01, module 5. Posterior errors are those of sage's unchanged estimator.

use crate::cases::Float;
use crate::floats::{first_greatest, first_least};
use crate::kde::reading::in_range;
use crate::lists::LONGEST;
use crate::report::Answer;
use host::Names;
use sage_core::ml::kde::{Estimator, Parts};
use vayemuku_sys::{Batch, TableColumns, TableMut, TableRef};

/// Slot 4,294,967,295 marks a row that takes no part.
pub const NO_PART: u32 = 4_294_967_295;

/// The blank of a 32-bit whole number.
pub const BLANK: u32 = 4_294_967_295;

/// A competition table in plain columns, with one entry per slot in each.
#[derive(Clone)]
pub struct PlainTable {
    pub forward: Vec<f32>,
    pub reverse: Vec<f32>,
    pub forward_seen: Vec<u32>,
    pub reverse_seen: Vec<u32>,
}

/// A seen side.
struct Side {
    slot: u32,
    decoy: bool,
    score: f32,
    q: f32,
}

/// The q-values of rows, the count, and whether zeros of both signs are among what the minimum ran over.
pub struct Assigned {
    pub q: Vec<f32>,
    pub count: usize,
    pub both_zeros: bool,
}

impl PlainTable {
    /// Each side starts at f32::MIN and unseen.
    pub fn fresh(slots: usize) -> Self {
        let (scores, marks) = (vec![f32::MIN; slots], vec![0; slots]);
        PlainTable { forward: scores.clone(), reverse: scores, forward_seen: marks.clone(), reverse_seen: marks }
    }

    /// A row raises its side by max and marks it seen (mark 1), even if its score is NaN.
    pub fn add(&mut self, batch: Batch) {
        for ((&slot, &label), &score) in batch.slots.iter().zip(batch.labels).zip(batch.scores) {
            if slot == NO_PART {
                continue;
            }
            let (side, seen) = match label {
                -1 => (&mut self.reverse, &mut self.reverse_seen),
                _ => (&mut self.forward, &mut self.forward_seen),
            };
            let slot = slot as usize;
            side[slot] = first_greatest(side[slot], score);
            seen[slot] = 1;
        }
    }

    /// Every seen slot's score() and is_decoy(), 1 or 0, and an unseen slot's blanks. The winner is decoy if reverse ≥
    /// forward. Any mark but 0 reads as seen.
    pub fn winners(&self) -> (Vec<f32>, Vec<u32>) {
        let winner = |slot: usize| {
            let (forward, reverse) = (self.forward[slot], self.reverse[slot]);
            match self.forward_seen[slot] != 0 || self.reverse_seen[slot] != 0 {
                true => (first_greatest(forward, reverse), u32::from(reverse >= forward)),
                false => (f32::NAN, BLANK),
            }
        };
        (0..self.forward.len()).map(winner).unzip()
    }

    /// Seen sides become ranked rows: forward before reverse, slots in order, then a stable descending ranking by
    /// total_cmp, every NaN the one with the bits 7FC00000.
    fn ranked(&self) -> Vec<Side> {
        let mut sides = Vec::new();
        for slot in 0..self.forward.len() {
            let both = [
                (false, self.forward[slot], self.forward_seen[slot]),
                (true, self.reverse[slot], self.reverse_seen[slot]),
            ];
            for (decoy, score, _) in both.into_iter().filter(|(_, _, seen)| *seen != 0) {
                sides.push(Side { slot: slot as u32, decoy, score, q: 1.0 });
            }
        }
        let one_nan = |score: f32| f32::of(score.canonical());
        sides.sort_by(|a, b| one_nan(b.score).total_cmp(&one_nan(a.score)));
        sides
    }

    /// Every ranked row, target or decoy, adds its posterior error (narrowed) to a running f32 that starts at 1.0; q is
    /// that over the targets so far.
    fn ratios(&self, parts: &Parts) -> Vec<Side> {
        let estimator = Estimator::from_parts(parts.clone());
        let mut sides = self.ranked();
        let (mut sum, mut targets) = (1f32, 0u32);
        for side in &mut sides {
            sum += estimator.posterior_error(f64::from(side.score)) as f32;
            targets += u32::from(!side.decoy);
            side.q = sum / targets as f32;
        }
        sides
    }

    /// Then the minimum from the bottom starting at 1.0. The count takes targets at or under 0.01 only. Each feature
    /// row gets the q of its slot's side; 1.0 if its name was never ranked; 1.0 if it takes no part. Two names: each
    /// side gets its own row's q. One name: both sides get the q of the later ranked row.
    pub fn assigned(&self, names: Names, parts: &Parts, slots: &[u32], labels: &[i32]) -> Assigned {
        let mut sides = self.ratios(parts);
        let zero = |negative| sides.iter().any(|side| side.q == 0.0 && side.q.is_sign_negative() == negative);
        let both_zeros = zero(true) && zero(false);
        let mut least = 1f32;
        for side in sides.iter_mut().rev() {
            least = first_least(least, side.q);
            side.q = least;
        }
        let count = sides.iter().filter(|side| !side.decoy && side.q <= 0.01f32).count();
        let mut of_names = vec![[1f32; 2]; self.forward.len()];
        for side in &sides {
            match names {
                Names::Two => of_names[side.slot as usize][usize::from(side.decoy)] = side.q,
                Names::One => of_names[side.slot as usize] = [side.q; 2],
            }
        }
        let of_row = |(&slot, &label): (&u32, &i32)| match slot {
            NO_PART => 1.0,
            _ => of_names[slot as usize][usize::from(label == -1)],
        };
        Assigned { q: slots.iter().zip(labels).map(of_row).collect(), count, both_zeros }
    }

    /// The columns, to read.
    pub fn columns(&self) -> TableRef<'_> {
        let PlainTable { forward, reverse, forward_seen, reverse_seen } = self;
        TableColumns { forward, reverse, forward_seen, reverse_seen }
    }

    /// The columns, to write.
    pub fn columns_mut(&mut self) -> TableMut<'_> {
        let PlainTable { forward, reverse, forward_seen, reverse_seen } = self;
        TableColumns { forward, reverse, forward_seen, reverse_seen }
    }

    /// The lengths of the columns.
    pub fn lengths(&self) -> [usize; 4] {
        [self.forward.len(), self.reverse.len(), self.forward_seen.len(), self.reverse_seen.len()]
    }
}

/// The first of questions 1, 2, 3 and 5 that is answered with no, or 0: of lists with these lengths, of columns with
/// the lengths that they have and those stated, of a number of bins, and of slots with a slot count.
pub fn refusal(lists: &[usize], columns: &[(usize, usize)], bin_count: usize, slots: &[u32], slot_count: usize) -> u32 {
    if lists.iter().any(|length| *length > LONGEST) {
        1
    } else if columns.iter().any(|(length, stated)| length != stated) {
        2
    } else if !in_range(bin_count) {
        3
    } else if slots.iter().any(|slot| *slot as usize >= slot_count && *slot != NO_PART) {
        5
    } else {
        0
    }
}
