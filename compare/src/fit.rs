//! Modules 2 and 3, beside sage's unchanged Gauss::solve, and LinearDiscriminantAnalysis's train and score.

pub mod rows;
mod score;
mod solve;
pub mod systems;
pub mod train;

use crate::calls::Vector;
use crate::cases::Random;
use crate::lists::{label, LONGEST};
use crate::sage::room_for;
use score::ScoreTallies;
use systems::moderate;
use train::Fits;

/// The memory for a row: its features, its label, sage's mark of a decoy, and both scores.
const ROW_BYTES: usize = size_of::<Vector>() + 20;

/// The numbers of random systems and of random fits; there are as many scoring runs as fits.
pub struct FitPlan {
    systems: u64,
    fits: u64,
}

impl FitPlan {
    /// Reads `--systems N` and `--fits N`.
    pub fn from_words(words: &[&str]) -> Option<FitPlan> {
        let mut plan = FitPlan { systems: 1_000_000, fits: 50_000 };
        let mut words = words.iter();
        while let Some(&word) = words.next() {
            let number = words.next()?.parse().ok()?;
            match word {
                "--systems" => plan.systems = number,
                "--fits" => plan.fits = number,
                _ => return None,
            }
        }
        Some(plan)
    }
}

/// Compares every call, and says whether nothing differed.
pub fn run(plan: &FitPlan) -> bool {
    let same = [solve::run(plan.systems), fits_and_scores(plan.fits)];
    same.iter().all(|same| *same)
}

/// Fits, scores of one row, and scoring runs.
fn fits_and_scores(fits: u64) -> bool {
    let (mut train, mut scores) = (Fits::new(), ScoreTallies::new());
    train.random(fits);
    scores.random(fits);
    match room_for(LONGEST * ROW_BYTES) {
        Ok(()) => longest(&mut train, &mut scores),
        Err(words) => train.not_compared(format!("lists of {LONGEST} rows are not compared: {words}")),
    }
    train.refusals();
    scores.refusals();
    let same = [train.print(), scores.print()];
    same.iter().all(|same| *same)
}

/// A list of 16,777,215 rows.
fn longest(train: &mut Fits, scores: &mut ScoreTallies) {
    let mut random = Random::new(15);
    let rows: Vec<Vector> = (0..LONGEST).map(|_| std::array::from_fn(|_| moderate(&mut random))).collect();
    let labels: Vec<i32> = (0..LONGEST).map(|place| label(random.below(3) == 0, place)).collect();
    train.check(&rows, &labels);
    scores.check(&std::array::from_fn(|_| moderate(&mut random)), &rows);
}
