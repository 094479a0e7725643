//! Precursors beside sage where their scores differ, and beside the order of document 01 where they do not.

use super::reading::{self, ranked, Counted};
use super::{described, expect_passing, EVERY, HEADS, TAIL};
use crate::calls::{check_line, checked_precursors, picked_precursor};
use crate::cases::Random;
use crate::lists::{blocks, distinct_scores, each_pattern, label, random_labels, shuffle, tied_scores, LONGEST};
use crate::report::{expect, expect_all, expect_column, Tally};
use crate::sage;
use host::Rate;
use vayemuku_sys::{precursor_order, CheckedColumns, LineNumbers, RankingColumns};

/// The contents of working and result columns before a call.
const GARBAGE: u64 = 0x5a5a_5a5a_5a5a_5a5a;
const GARBAGE_Q: f32 = 0.025;
const GARBAGE_PLACE: u32 = 77;
const GARBAGE_LABEL: i32 = -1;

/// The blank of a whole number.
const BLANK: u32 = u32::MAX;

/// Compares the calls on `lists` random lists of each kind, and says whether nothing differed.
pub fn run(lists: u64) -> bool {
    let mut calls = Precursors::new();
    each_pattern(0, EVERY, |labels| calls.distinct(labels));
    HEADS.iter().for_each(|&head| each_pattern(head, TAIL, |labels| calls.distinct(labels)));
    let mut random = Random::new(5);
    let mut labels = Vec::new();
    for _ in 0..lists {
        random_labels(&mut random, &mut labels);
        calls.distinct(&labels);
        calls.tied(&labels);
    }
    calls.longest();
    calls.refusals();
    let same = [calls.picked.print(), calls.order.print(), calls.checked.print()];
    same.iter().all(|same| *same)
}

/// A tally of each call.
struct Precursors {
    picked: Tally,
    order: Tally,
    checked: Tally,
    random: Random,
}

impl Precursors {
    /// Nothing compared yet.
    fn new() -> Self {
        let [picked, order, checked] = ["picked_precursor", "precursor_order", "checked_precursors"].map(Tally::new);
        Precursors { picked, order, checked, random: Random::new(6) }
    }

    /// Labels as ranked by scores that differ, put into random order, beside sage.
    fn distinct(&mut self, as_ranked: &[i32]) {
        let mut labels = as_ranked.to_vec();
        let mut scores = distinct_scores(&mut self.random, labels.len());
        shuffle(&mut self.random, &mut labels, &mut scores);
        let wanted = sage::precursors(&labels, &scores);
        self.compare(&labels, &scores, &ranked(&scores), wanted);
    }

    /// Labels with scores of which many are equal, beside the order of document 01: as drawn, all equal, or falling and
    /// then put into random order.
    fn tied(&mut self, labels: &[i32]) {
        let mut labels = labels.to_vec();
        let mut scores = tied_scores(&mut self.random, labels.len());
        match self.random.below(4) {
            0 => {}
            1 => {
                let first = scores.first().copied().unwrap_or_default();
                scores.fill(first);
            }
            _ => {
                scores.sort_by(|a, b| b.total_cmp(a));
                shuffle(&mut self.random, &mut labels, &mut scores);
            }
        }
        let places = ranked(&scores);
        let wanted = reading::precursors(&labels, &places);
        self.compare(&labels, &scores, &places, wanted);
    }

    /// Lists of 16,777,215 rows, one of each kind.
    fn longest(&mut self) {
        if let Err(words) = sage::room_for(LONGEST * sage::PEAK_BYTES) {
            return self.picked.outcome(Err(format!("lists of {LONGEST} rows are not compared: {words}")));
        }
        let labels: Vec<i32> = blocks(20, 20, LONGEST).collect();
        self.distinct(&labels);
        self.tied(&labels);
    }

    /// Compares one list: q-values and count with those wanted, and the order with the places as ranked.
    fn compare(&mut self, labels: &[i32], scores: &[f64], places: &[u32], wanted: (Vec<f32>, usize)) {
        let mut columns = Columns::new([labels.len(); 5]);
        let checked = columns.checked_is(labels, scores, places, &wanted);
        let order = columns.order_is(scores, places);
        let right_order = order.is_ok();
        let picked = columns.q_values_are(labels, scores, wanted).and_then(|count| match right_order {
            true => columns.passed_up_to_the_line(labels, count),
            false => Ok(()),
        });
        let fault = |fault| format!("{fault}, in {}", described(labels));
        self.order.outcome(order.map_err(fault));
        self.picked.outcome(picked.map_err(fault));
        self.checked.outcome(checked.map_err(fault));
    }

    /// Lists that are too long, and columns of another length.
    fn refusals(&mut self) {
        for lengths in every_length::<5>().filter(|lengths| *lengths != [lengths[0]; 5]) {
            self.picked_refusal(lengths, 2);
        }
        for lengths in every_length::<4>().filter(|lengths| *lengths != [lengths[0]; 4]) {
            self.order_refusal(lengths, 2);
        }
        for lengths in every_length::<7>().filter(|lengths| *lengths != [lengths[0]; 7]) {
            self.checked_refusal(lengths, 2);
        }
        let long = LONGEST + 1;
        for (place, number) in [(0, 1), (1, 1), (2, 2), (3, 2), (4, 2), (5, 2), (6, 2)] {
            self.checked_refusal(with([3; 7], place, long), number);
            self.checked_refusal(with([5_000; 7], place, 4_999), 2);
            self.checked_refusal(with([5_000; 7], place, 5_001), 2);
        }
        self.checked_refusal([long; 7], 1);
        for (place, number) in [(0, 1), (1, 1), (2, 2), (3, 2), (4, 2)] {
            self.picked_refusal(with([3; 5], place, long), number);
            self.picked_refusal(with([5_000; 5], place, 4_999), 2);
            self.picked_refusal(with([5_000; 5], place, 5_001), 2);
        }
        for (place, number) in [(0, 1), (1, 2), (2, 2), (3, 2)] {
            self.order_refusal(with([3; 4], place, long), number);
            self.order_refusal(with([5_000; 4], place, 4_999), 2);
            self.order_refusal(with([5_000; 4], place, 5_001), 2);
        }
        self.picked_refusal([long; 5], 1);
        self.picked_refusal([LONGEST, LONGEST, LONGEST, LONGEST, long], 2);
        self.order_refusal([long; 4], 1);
        self.order_refusal([LONGEST, LONGEST, LONGEST, long], 2);
    }

    /// picked_precursor refuses labels, scores, keys, spare and q of these lengths, and leaves blanks.
    fn picked_refusal(&mut self, lengths: [usize; 5], wanted: u32) {
        let [labels, scores, keys, spare, q] = lengths;
        let mut columns = Columns::new([keys, spare, q, 0, 0]);
        let (number, count) = columns.pick(&some_labels(labels), &some_scores(scores));
        let outcome = expect("number", number, wanted)
            .and_then(|()| expect("count", count, 0))
            .and_then(|()| expect_all("q", &columns.q, f32::NAN))
            .and_then(|()| columns.cleared());
        self.picked.outcome(outcome.map_err(|fault| format!("{fault}, lengths {lengths:?}")));
    }

    /// checked_precursors refuses labels, scores, keys, spare, q, order and ranked of these lengths, and leaves blanks.
    fn checked_refusal(&mut self, lengths: [usize; 7], wanted: u32) {
        let [labels, scores, keys, spare, q, order, ranked] = lengths;
        let mut columns = Columns::new([keys, spare, q, order, ranked]);
        let (number, numbers) = columns.check(&some_labels(labels), &some_scores(scores));
        let outcome = expect("number", number, wanted)
            .and_then(|()| expect("numbers", numbers, LineNumbers::default()))
            .and_then(|()| expect_all("q", &columns.q, f32::NAN))
            .and_then(|()| expect_all("order", &columns.order, BLANK))
            .and_then(|()| expect_all("ranked", &columns.ranked, 0))
            .and_then(|()| columns.cleared());
        self.checked.outcome(outcome.map_err(|fault| format!("{fault}, lengths {lengths:?}")));
    }

    /// precursor_order refuses scores, keys, spare and order of these lengths, and leaves blanks.
    fn order_refusal(&mut self, lengths: [usize; 4], wanted: u32) {
        let [scores, keys, spare, order] = lengths;
        let mut columns = Columns::new([keys, spare, 0, order, 0]);
        let number = columns.rank(&some_scores(scores));
        let outcome = expect("number", number, wanted)
            .and_then(|()| expect_all("order", &columns.order, BLANK))
            .and_then(|()| columns.cleared());
        self.order.outcome(outcome.map_err(|fault| format!("{fault}, lengths {lengths:?}")));
    }
}

/// The working and result columns of the calls.
struct Columns {
    keys: Vec<u64>,
    spare: Vec<u64>,
    q: Vec<f32>,
    order: Vec<u32>,
    ranked: Vec<i32>,
}

impl Columns {
    /// Columns of these lengths, full of garbage.
    fn new([keys, spare, q, order, ranked]: [usize; 5]) -> Self {
        let (keys, spare) = (vec![GARBAGE; keys], vec![GARBAGE; spare]);
        let (order, ranked) = (vec![GARBAGE_PLACE; order], vec![GARBAGE_LABEL; ranked]);
        Columns { keys, spare, q: vec![GARBAGE_Q; q], order, ranked }
    }

    /// The call that gives q-values and order and checks their line, on columns full of garbage.
    fn check(&mut self, labels: &[i32], scores: &[f64]) -> (u32, LineNumbers) {
        let lengths = [self.keys.len(), self.spare.len(), self.q.len(), self.order.len(), self.ranked.len()];
        *self = Columns::new(lengths);
        let Columns { keys, spare, q, order, ranked } = self;
        checked_precursors(labels, scores, CheckedColumns { ranking: RankingColumns { keys, spare, q }, ranked, order })
    }

    /// Its q-values and its order are those wanted, and its answer is the reading's of the right line, which is Right;
    /// the targets are the count.
    fn checked_is(
        &mut self,
        labels: &[i32],
        scores: &[f64],
        places: &[u32],
        wanted: &(Vec<f32>, usize),
    ) -> Result<(), String> {
        let (number, numbers) = self.check(labels, scores);
        let as_ranked: Vec<i32> = places.iter().map(|&place| labels[place as usize]).collect();
        let counted = Counted::new(&as_ranked);
        let line = counted.right_line(Rate::OneIn20);
        expect("number", number, 0)?;
        expect("answer", numbers, counted.line_numbers(line, Rate::OneIn20))?;
        expect("right", numbers.right, 1)?;
        expect("targets", numbers.targets, wanted.1)?;
        expect_column("q", &self.q, wanted.0.iter().copied())?;
        expect_column("place at rank", &self.order, places.iter().copied())?;
        expect_all("ranked afterwards", &self.ranked, 0)?;
        self.cleared()
    }

    /// The call that gives q-values, on working columns full of garbage.
    fn pick(&mut self, labels: &[i32], scores: &[f64]) -> (u32, usize) {
        self.keys.fill(GARBAGE);
        self.spare.fill(GARBAGE);
        let Columns { keys, spare, q, .. } = self;
        picked_precursor(labels, scores, RankingColumns { keys, spare, q })
    }

    /// The call that gives the order, on working columns full of garbage.
    fn rank(&mut self, scores: &[f64]) -> u32 {
        self.keys.fill(GARBAGE);
        self.spare.fill(GARBAGE);
        precursor_order(scores, &mut self.keys, &mut self.spare, &mut self.order).number
    }

    /// Both working columns hold 0 in every place.
    fn cleared(&self) -> Result<(), String> {
        expect_all("keys afterwards", &self.keys, 0)?;
        expect_all("spare afterwards", &self.spare, 0)
    }

    /// The order is the places as ranked.
    fn order_is(&mut self, scores: &[f64], places: &[u32]) -> Result<(), String> {
        let number = self.rank(scores);
        expect("number", number, 0)?;
        expect_column("place at rank", &self.order, places.iter().copied())?;
        self.cleared()
    }

    /// The q-values and the count are those wanted; gives the count.
    fn q_values_are(&mut self, labels: &[i32], scores: &[f64], wanted: (Vec<f32>, usize)) -> Result<usize, String> {
        let (number, count) = self.pick(labels, scores);
        expect("number", number, 0)?;
        expect("count", count, wanted.1)?;
        expect_column("q", &self.q, wanted.0.into_iter())?;
        self.cleared()?;
        Ok(count)
    }

    /// In the order, precursors at or under 0.05 are those up to the right one-in-20 line of the labels as ranked, and
    /// the count is the targets up to it.
    fn passed_up_to_the_line(&self, labels: &[i32], count: usize) -> Result<(), String> {
        let as_ranked: Vec<i32> = self.order.iter().map(|&place| labels[place as usize]).collect();
        let counted = Counted::new(&as_ranked);
        let line = counted.right_line(Rate::OneIn20);
        let (number, numbers) = check_line(&as_ranked, line, Rate::OneIn20);
        let wanted = (0, counted.line_numbers(line, Rate::OneIn20));
        expect("the check of the right line", (number, numbers), wanted)?;
        expect("count beside the right line's targets", count, numbers.targets)?;
        let mut passes = vec![false; labels.len()];
        self.order[..line].iter().for_each(|&place| passes[place as usize] = true);
        expect_passing(&self.q, 0.05, |place| passes[place])
    }
}

/// Every choice of lengths from 0 to 3.
fn every_length<const COLUMNS: usize>() -> impl Iterator<Item = [usize; COLUMNS]> {
    (0..1usize << (2 * COLUMNS)).map(|choice| std::array::from_fn(|column| choice >> (2 * column) & 3))
}

/// The lengths with another at one place.
fn with<const COLUMNS: usize>(mut lengths: [usize; COLUMNS], place: usize, length: usize) -> [usize; COLUMNS] {
    lengths[place] = length;
    lengths
}

/// Labels of a call that is refused.
fn some_labels(length: usize) -> Vec<i32> {
    (0..length).map(|place| label(place % 50 == 49, place)).collect()
}

/// Scores of a call that is refused.
fn some_scores(length: usize) -> Vec<f64> {
    (0..length).map(|place| -(place as f64)).collect()
}
