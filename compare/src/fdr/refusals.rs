//! Refusals: the number of the first question answered with no, blanks in result columns, 0 in working columns, and
//! tables as they were.

use super::buffers::{RankingBuffer, TableBuffer, WinnersBuffer};
use super::draws;
use super::reading::{refusal, PlainTable, BLANK, NO_PART};
use super::Calls;
use crate::cases::Random;
use crate::kde::draws::{between, one_of};
use crate::kde::reading::MOST_BINS;
use crate::lists::{label, LONGEST};
use crate::report::{expect, expect_all, expect_column};
use host::Names;
use sage_core::ml::kde::Parts;
use vayemuku_sys::{add_rows, fresh_table, Batch};

/// Numbers of bins on either side of both ends.
const BINS: [usize; 8] = [0, 1, 2, 3, 20, MOST_BINS, MOST_BINS + 1, 2 * MOST_BINS];

/// Slots past the end of every table here that is not too long.
const PAST: [u32; 3] = [10_000, 1 << 31, BLANK - 1];

/// Random lengths of q-values' columns.
const TRIALS: usize = 40_000;

/// One entry more than a list may have.
const LONG: usize = LONGEST + 1;

/// The columns of rows; a slot in the middle is past the end where `past` says so.
struct Lists {
    slots: Vec<u32>,
    labels: Vec<i32>,
    scores: Vec<f32>,
}

impl Lists {
    /// Rows whose slots are below `slot_count`, except the one that is past the end. A long column is zeroed memory.
    fn new([slots, labels, scores]: [usize; 3], slot_count: usize, past: Option<u32>) -> Self {
        let mut lists = Lists { slots: vec![0; slots], labels: vec![0; labels], scores: vec![0.0; scores] };
        if slots < LONG && slot_count > 0 {
            lists.slots.iter_mut().zip(0..).for_each(|(slot, place)| *slot = place % slot_count as u32);
        } else if slots < LONG {
            lists.slots.fill(NO_PART);
        }
        if labels < LONG {
            lists.labels.iter_mut().enumerate().for_each(|(place, entry)| *entry = label(place % 3 == 1, place));
        }
        if scores < LONG {
            lists.scores.iter_mut().zip(1u8..).for_each(|(score, place)| *score = 1e30 * f32::from(place));
        }
        if let Some(past) = past {
            let middle = slots / 2;
            lists.slots.iter_mut().skip(middle).take(1).for_each(|slot| *slot = past);
        }
        lists
    }

    /// The rows as a batch.
    fn batch(&self) -> Batch<'_> {
        Batch { slots: &self.slots, labels: &self.labels, scores: &self.scores }
    }
}

/// A table with columns of these lengths. A long column is zeroed memory.
fn table(random: &mut Random, lengths: [usize; 4]) -> TableBuffer {
    let most = lengths.into_iter().max().unwrap_or_default();
    if most >= LONG {
        return TableBuffer::zeroed(lengths);
    }
    let mut columns = draws::table(random, most);
    columns.forward.truncate(lengths[0]);
    columns.reverse.truncate(lengths[1]);
    columns.forward_seen.truncate(lengths[2]);
    columns.reverse_seen.truncate(lengths[3]);
    TableBuffer::copy_of(&columns)
}

/// The length of each of a table's columns, with that of the first.
fn table_columns([forward, reverse, forward_seen, reverse_seen]: [usize; 4]) -> [(usize, usize); 3] {
    [reverse, forward_seen, reverse_seen].map(|length| (length, forward))
}

/// The lengths with one place long, for every place in turn, and with all of them long.
fn long_ones<const COLUMNS: usize>(short: [usize; COLUMNS]) -> impl Iterator<Item = [usize; COLUMNS]> {
    let one = move |place| {
        let mut lengths = short;
        lengths[place] = LONG;
        lengths
    };
    (0..COLUMNS).map(one).chain([[LONG; COLUMNS]])
}

/// Every choice of lengths below `end`.
fn every_length<const COLUMNS: usize>(end: usize) -> impl Iterator<Item = [usize; COLUMNS]> {
    (0..end.pow(COLUMNS as u32)).map(move |choice| std::array::from_fn(|column| choice / end.pow(column as u32) % end))
}

impl Calls {
    /// Every call.
    pub fn refusals(&mut self) {
        for lengths in every_length(4).chain(long_ones([3; 4])) {
            self.fresh_refusal(lengths);
        }
        for lengths in every_length(3).chain(long_ones([3; 7])) {
            for past in [None, Some(one_of(&mut self.random, &PAST))] {
                self.add_refusal(lengths, past);
            }
        }
        for lengths in every_length(4).chain(long_ones([3; 6])) {
            self.winners_refusal(lengths);
        }
        for _ in 0..TRIALS {
            let (lengths, bin_count) = (some_lengths(&mut self.random), one_of(&mut self.random, &BINS[..5]));
            let past = [None, None, Some(one_of(&mut self.random, &PAST))][self.random.below(3) as usize];
            self.q_refusal(lengths, bin_count, past);
        }
        let right = [5, 5, 5, 3, 3, 3, 3, 6, 6];
        for bin_count in BINS {
            for past in [None, Some(PAST[1])] {
                self.q_refusal(right, bin_count, past);
                self.q_refusal([5, 5, 4, 3, 3, 3, 3, 6, 6], bin_count, past);
            }
        }
        for lengths in long_ones(right).chain([[5, 5, 5, LONG, LONG, LONG, LONG, 2 * LONG, 2 * LONG]]) {
            for (bin_count, past) in [(0, Some(PAST[0])), (MOST_BINS + 1, None), (2, Some(PAST[2])), (2, None)] {
                self.q_refusal(lengths, bin_count, past);
            }
        }
    }

    /// A fresh table.
    fn fresh_refusal(&mut self, lengths: [usize; 4]) {
        let wanted = refusal(&lengths, &table_columns(lengths), 1, &[], 0);
        let mut table = table(&mut self.random, lengths);
        let before = table.contents();
        let number = fresh_table(table.columns_mut()).number;
        let after = if wanted == 0 { PlainTable::fresh(lengths[0]) } else { before };
        let outcome = expect("number", number, wanted).and_then(|()| table.expect_bits(&after));
        self.fresh_table.outcome(outcome.map_err(|fault| format!("{fault}, lengths {lengths:?}")));
    }

    /// A batch.
    fn add_refusal(&mut self, lengths: [usize; 7], past: Option<u32>) {
        let [slots, labels, scores, forward, reverse, forward_seen, reverse_seen] = lengths;
        let of_table = [forward, reverse, forward_seen, reverse_seen];
        let lists = Lists::new([slots, labels, scores], forward, past);
        let mut columns = vec![(labels, slots), (scores, slots)];
        columns.extend(table_columns(of_table));
        let wanted = refusal(&lengths, &columns, 1, &lists.slots, forward);
        let mut table = table(&mut self.random, of_table);
        let mut after = table.contents();
        if wanted == 0 {
            after.add(lists.batch());
        }
        let number = add_rows(lists.batch(), table.columns_mut()).number;
        let outcome = expect("number", number, wanted).and_then(|()| match wanted {
            0 => table.expect(&after),
            _ => table.expect_bits(&after),
        });
        self.add_rows.outcome(outcome.map_err(|fault| format!("{fault}, lengths {lengths:?}, past {past:?}")));
    }

    /// Winners.
    fn winners_refusal(&mut self, lengths: [usize; 6]) {
        let [forward, reverse, forward_seen, reverse_seen, scores, is_decoy] = lengths;
        let of_table = [forward, reverse, forward_seen, reverse_seen];
        let mut columns = vec![(scores, forward), (is_decoy, forward)];
        columns.extend(table_columns(of_table));
        let wanted = refusal(&of_table, &columns, 1, &[], 0);
        let table = table(&mut self.random, of_table);
        if wanted == 0 {
            self.winners_as_read(&table);
            return;
        }
        let before = table.contents();
        let (number, filled) = WinnersBuffer::call(&table, [scores, is_decoy]);
        let outcome = expect("number", number, wanted)
            .and_then(|()| expect_all("score", filled.scores.after()?, f32::NAN))
            .and_then(|()| expect_all("is_decoy", filled.is_decoy.after()?, BLANK))
            .and_then(|()| table.expect_bits(&before));
        self.winners.outcome(outcome.map_err(|fault| format!("{fault}, lengths {lengths:?}")));
    }

    /// Q-values of slots, labels and q, a table, keys and spare of these lengths.
    fn q_refusal(&mut self, lengths: [usize; 9], bin_count: usize, past: Option<u32>) {
        let [slots, labels, q, forward, reverse, forward_seen, reverse_seen, keys, spare] = lengths;
        let of_table = [forward, reverse, forward_seen, reverse_seen];
        let lists = Lists::new([slots, labels, 0], forward, past);
        let mut columns = vec![(labels, slots), (q, slots), (keys, 2 * forward), (spare, 2 * forward)];
        columns.extend(table_columns(of_table));
        let of_lists = [slots, labels, forward, reverse, forward_seen, reverse_seen];
        let wanted = refusal(&of_lists, &columns, bin_count, &lists.slots, forward);
        let random = &mut self.random;
        let bin_column = (0..bin_count).map(|_| between(random, -1.0, 1.0)).collect();
        let parts = Parts { bins: bin_column, min_score: -3.0, score_step: 0.5 };
        let table = table(random, of_table);
        let (before, two) = (table.contents(), random.below(2) as u32);
        let rows = (&lists.slots[..], &lists.labels[..]);
        let (number, count, filled) = RankingBuffer::call(two, &parts, &table, rows, [keys, spare, q]);
        let outcome = expect("number", number, wanted).and_then(|()| match wanted {
            0 => {
                let names = if two == 1 { Names::Two } else { Names::One };
                let read = before.assigned(names, &parts, rows.0, rows.1);
                expect("count", count, read.count)?;
                expect_column("q", filled.after()?, read.q.into_iter())
            }
            _ => {
                expect("count", count, 0)?;
                expect_all("q", filled.after()?, f32::NAN)
            }
        });
        let outcome = outcome.and_then(|()| table.expect_bits(&before));
        let in_case = |fault| format!("{fault}, lengths {lengths:?}, {bin_count} bins, past {past:?}");
        self.assign_q_value.outcome(outcome.map_err(in_case));
    }
}

/// Lengths of q-values' columns, most of them those stated.
fn some_lengths(random: &mut Random) -> [usize; 9] {
    let (rows, slots) = (random.below(6) as usize, random.below(6) as usize);
    let mut lengths = [rows, rows, rows, slots, slots, slots, slots, 2 * slots, 2 * slots];
    let wrong = random.below(3);
    for _ in 0..wrong {
        let place = random.below(lengths.len() as u64) as usize;
        lengths[place] = random.below(12) as usize;
    }
    lengths
}
