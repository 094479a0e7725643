//! The counting rule, the ranking and demand 3, read plainly from document 01.

use crate::cases::Float;
use crate::report::Answer;
use host::Rate;
use vayemuku_sys::LineNumbers;

/// Decoys up to each row of a list; row 0 comes before the first.
pub struct Counted(Vec<usize>);

impl Counted {
    /// Counts a list.
    pub fn new(labels: &[i32]) -> Self {
        let mut decoys = 0;
        let so_far = labels.iter().map(|&label| {
            decoys += usize::from(label == -1);
            decoys
        });
        Counted(std::iter::once(0).chain(so_far).collect())
    }

    /// The list's length.
    pub fn length(&self) -> usize {
        self.0.len() - 1
    }

    /// Targets up to a row.
    pub fn targets(&self, row: usize) -> usize {
        row - self.0[row]
    }

    /// Whether the rate times decoys plus one is at most the targets.
    fn qualifies(&self, row: usize, rate: Rate) -> bool {
        let per_decoy = match rate {
            Rate::OneIn100 => 100,
            Rate::OneIn20 => 20,
        };
        per_decoy * (self.0[row] + 1) <= self.targets(row)
    }

    /// The last row after a line that qualifies.
    fn last_later(&self, line: usize, rate: Rate) -> Option<usize> {
        (line + 1..=self.length()).rev().find(|&row| self.qualifies(row, rate))
    }

    /// Demand 3: no later row qualifies, and the line is zero or its own row does.
    fn is_right(&self, line: usize, rate: Rate) -> bool {
        self.last_later(line, rate).is_none() && (line == 0 || self.qualifies(line, rate))
    }

    /// The line that is right.
    pub fn right_line(&self, rate: Rate) -> usize {
        self.last_later(0, rate).unwrap_or(0)
    }

    /// The numbers that the check of a line should give.
    pub fn line_numbers(&self, line: usize, rate: Rate) -> LineNumbers {
        let right = self.is_right(line, rate);
        let row = self.last_later(line, rate).unwrap_or(line);
        LineNumbers { right: right.into(), row, decoys_plus_one: self.0[row] + 1, targets: self.targets(row) }
    }

    /// The q-value of each row: the least of 1 and of decoys plus one over targets, from the row down.
    pub fn q_values(&self) -> Vec<f32> {
        let mut q = vec![1.0; self.length()];
        let mut least = 1f32;
        for row in (1..=self.length()).rev() {
            least = least.min((self.0[row] + 1) as f32 / self.targets(row) as f32);
            q[row - 1] = least;
        }
        q
    }
}

/// The places of a list as ranked: greatest narrowed score first, every NaN the one above all, equal in list order.
pub fn ranked(scores: &[f64]) -> Vec<u32> {
    let narrowed = |x: f64| f32::of((x as f32).canonical());
    let mut rows: Vec<(f32, u32)> = scores.iter().map(|x| narrowed(*x)).zip(0..).collect();
    rows.sort_by(|a, b| b.0.total_cmp(&a.0));
    rows.into_iter().map(|(_, place)| place).collect()
}

/// The q-values of precursors at their places, and the count: targets at or under 0.05.
pub fn precursors(labels: &[i32], places: &[u32]) -> (Vec<f32>, usize) {
    let as_ranked: Vec<i32> = places.iter().map(|&place| labels[place as usize]).collect();
    let ranked_q = Counted::new(&as_ranked).q_values();
    let mut q = vec![0.0; labels.len()];
    for (&place, &value) in places.iter().zip(&ranked_q) {
        q[place as usize] = value;
    }
    let count = as_ranked.iter().zip(&ranked_q).filter(|(label, q)| **label != -1 && **q <= 0.05).count();
    (q, count)
}
