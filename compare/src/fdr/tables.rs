//! Every call beside the reading of document 01: tables made in one batch and in several with refused ones between, and
//! tables with equal scores, zeros of both signs, NaNs and any marks.

use super::buffers::{RankingBuffer, TableBuffer, WinnersBuffer};
use super::draws::{self, SlotRows};
use super::reading::{refusal, Assigned, PlainTable, NO_PART};
use super::Calls;
use crate::cases::Random;
use crate::kde::draws::{flag, one_of};
use crate::report::{expect, expect_column};
use host::Names;
use sage_core::ml::kde::Parts;
use vayemuku_sys::{add_rows, fresh_table, Batch};

/// Slots past the end of a table of less than 2^31.
const PAST: [u32; 4] = [0, 1, 1 << 31, NO_PART - 1];

impl Calls {
    /// Document 01's points.
    pub fn points(&mut self) {
        let parts = Parts { bins: vec![0.5, 0.25], min_score: 1.0, score_step: 1.0 };
        for names in [Names::One, Names::Two] {
            let table = self.filled(2, &rows(&[(0, 1, 2.0), (1, 1, 1.0)]));
            let (number, count, filled) =
                RankingBuffer::call(u32::from(names == Names::Two), &parts, &table, (&[0, 1], &[1, 1]), [4, 4, 2]);
            let outcome = expect("number and count", (number, count), (0, 0))
                .and_then(|()| expect_column("q", filled.after()?, [0.875; 2].into_iter()));
            self.assign_q_value.outcome(outcome.map_err(|fault| format!("{fault}, two targets 2.0 and 1.0")));
        }
        let table = self.filled(2, &rows(&[(0, 1, 1.5), (0, -1, 1.5), (1, 1, f32::NEG_INFINITY)]));
        let (number, filled) = WinnersBuffer::call(&table, [2; 2]);
        let outcome = expect("number", number, 0)
            .and_then(|()| expect_column("score", filled.scores.after()?, [1.5, f32::MIN].into_iter()))
            .and_then(|()| expect_column("is_decoy", filled.is_decoy.after()?, [1; 2].into_iter()));
        self.winners.outcome(outcome.map_err(|fault| format!("{fault}, equal sides, and -infinity")));
    }

    /// The port's table of these rows, made in one batch, and once more in several; both are compared with the reading.
    pub fn filled(&mut self, slots: usize, rows: &SlotRows) -> TableBuffer {
        let start = PlainTable::fresh(slots);
        let mut table = TableBuffer::garbage([slots; 4]);
        let number = fresh_table(table.columns_mut()).number;
        let outcome = expect("number", number, 0).and_then(|()| table.expect_bits(&start));
        self.fresh_table.outcome(outcome.map_err(|fault| format!("{fault}, {slots} slots")));
        self.added(&start, rows);
        self.one_batch(table, &start, rows)
    }

    /// The table with all rows in one batch.
    fn one_batch(&mut self, mut table: TableBuffer, start: &PlainTable, rows: &SlotRows) -> TableBuffer {
        let mut wanted = start.clone();
        wanted.add(rows.all());
        let number = add_rows(rows.all(), table.columns_mut()).number;
        let outcome = expect("number", number, 0).and_then(|()| table.expect(&wanted));
        self.add_rows.outcome(outcome.map_err(|fault| format!("{fault}, {}", described(start, rows))));
        table
    }

    /// The rows in random batches, between which others are refused.
    fn added(&mut self, start: &PlainTable, rows: &SlotRows) {
        let mut table = TableBuffer::copy_of(start);
        let mut wanted = start.clone();
        let mut from = 0;
        while from < rows.slots.len() {
            let refused = match self.random.below(2) {
                0 => Ok(()),
                _ => refused_batch(&mut self.random, &mut table, rows),
            };
            let to = from + 1 + self.random.below((rows.slots.len() - from) as u64) as usize;
            let batch = rows.part(from, to);
            wanted.add(batch);
            let number = add_rows(batch, table.columns_mut()).number;
            let outcome = refused.and_then(|()| expect("number", number, 0)).and_then(|()| table.expect(&wanted));
            self.add_rows
                .outcome(outcome.map_err(|fault| format!("{fault}, batch {from} to {to}, {}", described(start, rows))));
            from = to;
        }
    }

    /// Compares tables with equal scores, zeros of both signs, NaNs and any marks, and rows of other sides than those
    /// that were added.
    pub fn tied(&mut self, tables: u64) {
        for _ in 0..tables {
            let random = &mut self.random;
            let most = one_of(random, &[4, 30, 130]);
            let slots = random.below(most) as usize;
            let (start, rows) = (draws::table(random, slots), draws::tied_rows(random, slots));
            let asked = draws::tied_rows(random, slots);
            let table = match random.below(3) {
                0 => self.filled(slots, &rows),
                _ => {
                    self.added(&start, &rows);
                    self.one_batch(TableBuffer::copy_of(&start), &start, &rows)
                }
            };
            self.winners_as_read(&table);
            let parts = draws::estimator(&mut self.random, &table.contents());
            for names in [Names::One, Names::Two] {
                self.q_as_read(names, &parts, &table, &asked);
            }
        }
    }

    /// Compares the winners of a table, which stays as it is; gives the port's.
    pub fn winners_as_read(&mut self, table: &TableBuffer) -> WinnersBuffer {
        let columns = table.contents();
        let (scores, is_decoy) = columns.winners();
        let (number, filled) = WinnersBuffer::call(table, [scores.len(); 2]);
        let outcome = expect("number", number, 0)
            .and_then(|()| expect_column("score", filled.scores.after()?, scores.into_iter()))
            .and_then(|()| expect_column("is_decoy", filled.is_decoy.after()?, is_decoy.into_iter()))
            .and_then(|()| table.expect_bits(&columns));
        self.winners.outcome(outcome.map_err(|fault| format!("{fault}, {}", shown(&columns))));
        filled
    }

    /// Compares the q-values of rows, which leave the table as it is; gives the reading's with the port's.
    pub fn q_as_read(
        &mut self,
        names: Names,
        parts: &Parts,
        table: &TableBuffer,
        rows: &SlotRows,
    ) -> (Assigned, usize, RankingBuffer) {
        let (columns, two) = (table.contents(), flag(&mut self.random, names == Names::Two));
        let wanted = columns.assigned(names, parts, &rows.slots, &rows.labels);
        let (slots, length) = (columns.forward.len(), rows.slots.len());
        let lengths = [2 * slots, 2 * slots, length];
        let (number, count, filled) = RankingBuffer::call(two, parts, table, (&rows.slots, &rows.labels), lengths);
        let outcome = expect("number", number, 0)
            .and_then(|()| expect("count", count, wanted.count))
            .and_then(|()| expect_column("q", filled.after()?, wanted.q.iter().copied()))
            .and_then(|()| table.expect_bits(&columns));
        let in_case = |fault| format!("{fault}, {names:?} {two}, {length} rows, {}, {parts:.60?}", shown(&columns));
        self.assign_q_value.outcome(outcome.map_err(in_case));
        (wanted, count, filled)
    }
}

/// A batch that is refused by 2 or 5 leaves the table as it is.
fn refused_batch(random: &mut Random, table: &mut TableBuffer, rows: &SlotRows) -> Result<(), String> {
    let before = table.contents();
    let slot_count = before.forward.len();
    let mut rows = rows.clone();
    let place = random.below(rows.slots.len() as u64) as usize;
    match random.below(4) {
        0 => rows.labels.truncate(place),
        1 => rows.scores.truncate(place),
        2 => rows.scores.push(1.0),
        _ => {
            let past = one_of(random, &PAST);
            rows.slots[place] = if past < 2 { slot_count as u32 + past } else { past };
        }
    }
    let SlotRows { slots, labels, scores } = &rows;
    let (lists, stated) = ([slots.len(), labels.len(), scores.len(), slot_count], slots.len());
    let wanted = refusal(&lists, &[(labels.len(), stated), (scores.len(), stated)], 1, slots, slot_count);
    let number = add_rows(Batch { slots, labels, scores }, table.columns_mut()).number;
    expect("number of a refused batch", number, wanted)?;
    table.expect_bits(&before).map_err(|fault| format!("{fault}, after refusal {wanted}"))
}

/// Rows of these slots, labels and scores.
pub fn rows(list: &[(u32, i32, f32)]) -> SlotRows {
    let (slots, (labels, scores)) = list.iter().map(|(slot, label, score)| (*slot, (*label, *score))).unzip();
    SlotRows { slots, labels, scores }
}

/// The first twelve entries of a column in a report.
fn few<T: std::fmt::Debug>(column: &[T]) -> String {
    let more = if column.len() > 12 { " .." } else { "" };
    format!("{:?}{more}", &column[..column.len().min(12)])
}

/// A table in a report.
fn shown(columns: &PlainTable) -> String {
    let PlainTable { forward, reverse, forward_seen, reverse_seen } = columns;
    let scores = format!("forward {}, reverse {}", few(forward), few(reverse));
    format!("{} slots, {scores}, marks {} and {}", forward.len(), few(forward_seen), few(reverse_seen))
}

/// A table with rows in a report.
fn described(start: &PlainTable, rows: &SlotRows) -> String {
    let SlotRows { slots, labels, scores } = rows;
    format!("{}, slots {}, labels {}, scores {}", shown(start), few(slots), few(labels), few(scores))
}
