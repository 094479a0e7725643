//! Tables of 16,777,215 slots, with a row for each.

use super::draws::SlotRows;
use super::reading::PlainTable;
use super::Calls;
use crate::calls::{assign_q_value, estimator};
use crate::lists::{label, LONGEST};
use crate::report::{expect, expect_all, expect_column};
use crate::sage::room_for;
use host::Names;
use sage_core::ml::kde::Parts;
use vayemuku_sys::{add_rows, fresh_table, winners, RankingColumns};

/// The memory for a slot: two tables, a row, working columns, the reading's sides, and results.
const SLOT_BYTES: usize = 100;

/// The contents of columns before a call.
const GARBAGE: u64 = 0x5a5a_5a5a_5a5a_5a5a;

impl Calls {
    /// A row for each slot, some of them equal; and the same table with the other sides marked, too.
    pub fn longest(&mut self) {
        if let Err(words) = room_for(LONGEST * SLOT_BYTES) {
            return self.fresh_table.outcome(Err(format!("{LONGEST} slots are not compared: {words}")));
        }
        let rows = SlotRows {
            slots: (0..LONGEST as u32).rev().collect(),
            labels: (0..LONGEST).map(|place| label(place % 7 == 3, place)).collect(),
            scores: (0..LONGEST).map(|place| (place.wrapping_mul(7_919) % 9_999_991) as f32).collect(),
        };
        let mut wanted = PlainTable::fresh(LONGEST);
        let mut table = wanted.clone();
        table.forward.fill(0.5);
        table.reverse_seen.fill(5);
        let number = fresh_table(table.columns_mut()).number;
        self.fresh_table.outcome(expect("number", number, 0).and_then(|()| same(&table, &wanted)));
        wanted.add(rows.all());
        let number = add_rows(rows.all(), table.columns_mut()).number;
        self.add_rows.outcome(expect("number", number, 0).and_then(|()| same(&table, &wanted)));
        self.longest_winners(&table);
        self.longest_q(Names::One, &table, &rows);
        table.forward_seen.fill(1);
        table.reverse_seen.fill(3);
        self.longest_q(Names::Two, &table, &rows);
    }

    /// The winners of a table.
    fn longest_winners(&mut self, table: &PlainTable) {
        let (scores, decoys) = table.winners();
        let (mut port_scores, mut port_decoys) = (vec![0.5; LONGEST], vec![5; LONGEST]);
        let number = winners(table.columns(), &mut port_scores, &mut port_decoys).number;
        let outcome = expect("number", number, 0)
            .and_then(|()| expect_column("score", &port_scores, scores.into_iter()))
            .and_then(|()| expect_column("is_decoy", &port_decoys, decoys.into_iter()));
        self.winners.outcome(outcome.map_err(|fault| format!("{fault}, of {LONGEST} slots")));
    }

    /// The q-values of rows.
    fn longest_q(&mut self, names: Names, table: &PlainTable, rows: &SlotRows) {
        let bins = (0..100).map(|bin| 0.004 - f64::from(bin) * 4e-5).collect();
        let parts = Parts { bins, min_score: 0.0, score_step: 1e5 };
        let wanted = table.assigned(names, &parts, &rows.slots, &rows.labels);
        let (mut keys, mut spare) = (vec![GARBAGE; 2 * LONGEST], vec![GARBAGE; 2 * LONGEST]);
        let mut q = vec![0.5; LONGEST];
        let ranking = RankingColumns { keys: &mut keys, spare: &mut spare, q: &mut q };
        let two_names = u32::from(names == Names::Two);
        let of_rows = (&rows.slots[..], &rows.labels[..]);
        let answer = assign_q_value(two_names, estimator(&parts), table.columns(), of_rows, ranking);
        let outcome = expect("number and count", answer, (0, wanted.count))
            .and_then(|()| expect_column("q", &q, wanted.q.into_iter()))
            .and_then(|()| expect_all("keys afterwards", &keys, 0))
            .and_then(|()| expect_all("spare afterwards", &spare, 0));
        self.assign_q_value.outcome(outcome.map_err(|fault| format!("{fault}, {names:?}, {LONGEST} slots")));
    }
}

/// Ok where both tables have the same contents.
fn same(port: &PlainTable, wanted: &PlainTable) -> Result<(), String> {
    let fault = |fault| format!("{fault}, of {LONGEST} slots");
    expect_column("forward", &port.forward, wanted.forward.iter().copied())
        .and_then(|()| expect_column("reverse", &port.reverse, wanted.reverse.iter().copied()))
        .and_then(|()| expect_column("forward's mark", &port.forward_seen, wanted.forward_seen.iter().copied()))
        .and_then(|()| expect_column("reverse's mark", &port.reverse_seen, wanted.reverse_seen.iter().copied()))
        .map_err(fault)
}
