//! Module 5: competitions of targets with their decoys.

use crate::{Estimator, QValues, Refused, LONGEST};
use vayemuku_sys::{self as sys, Batch, RankingColumns, TableColumns, TableMut, TableRef};

/// The slot of a row that takes no part: a peptide that several proteins share.
pub const NO_PART: u32 = sys::VAYEMUKU_NO_PART;

/// How the two sides of a slot are named.
#[derive(Clone, Copy, Debug, PartialEq, Eq)]
pub enum Names {
    /// Both sides have one name, and the q-value of the later ranked one: sage's picked_protein_group.
    One,
    /// Each side has its own name and q-value: sage's picked_protein with decoys that sage generated.
    Two,
}

/// A competition table: for each slot the best score of its forward (target) and of its reverse (decoy) side.
#[derive(Clone, Debug, PartialEq)]
pub struct CompetitionTable(TableColumns<Vec<f32>, Vec<u32>>);

/// Who wins each slot.
#[derive(Clone, Debug, PartialEq)]
pub struct Winners {
    /// The score of each slot: the greater of both sides', and NaN where neither was seen.
    pub scores: Vec<f32>,
    /// 1 where the decoy wins, 0 where the target does, and 4,294,967,295 where neither was seen.
    pub is_decoy: Vec<u32>,
}

impl CompetitionTable {
    /// A table with this number of slots, of which no side was seen. Refuses with [`TooLong`](crate::Refusal::TooLong).
    pub fn fresh(slots: usize) -> Result<CompetitionTable, Refused> {
        // every number of slots above the most is refused in the same way
        let slots = slots.min(LONGEST + 1);
        let mut table = CompetitionTable(TableColumns {
            forward: vec![0.0; slots],
            reverse: vec![0.0; slots],
            forward_seen: vec![0; slots],
            reverse_seen: vec![0; slots],
        });
        Refused::check(sys::fresh_table(table.columns_mut()))?;
        Ok(table)
    }

    /// The number of slots.
    pub fn slots(&self) -> usize {
        self.0.forward.len()
    }

    /// The columns, to read.
    fn columns(&self) -> TableRef<'_> {
        let TableColumns { forward, reverse, forward_seen, reverse_seen } = &self.0;
        TableColumns { forward, reverse, forward_seen, reverse_seen }
    }

    /// The columns, to write.
    fn columns_mut(&mut self) -> TableMut<'_> {
        let TableColumns { forward, reverse, forward_seen, reverse_seen } = &mut self.0;
        TableColumns { forward, reverse, forward_seen, reverse_seen }
    }

    /// Adds rows: each raises one side of its slot, the reverse one where its label is −1. [`NO_PART`] is the slot of a
    /// row that takes no part.
    ///
    /// Refuses with [`TooLong`](crate::Refusal::TooLong), [`WrongLength`](crate::Refusal::WrongLength) and
    /// [`NoSuchSlot`](crate::Refusal::NoSuchSlot); the table is then unchanged.
    pub fn add_rows(&mut self, slots: &[u32], labels: &[i32], scores: &[f32]) -> Result<(), Refused> {
        Refused::check(sys::add_rows(Batch { slots, labels, scores }, self.columns_mut()))
    }

    /// The score of every slot and who wins it. Refuses with [`TooLong`](crate::Refusal::TooLong).
    pub fn winners(&self) -> Result<Winners, Refused> {
        let mut scores = vec![f32::NAN; self.slots()];
        let mut is_decoy = vec![u32::MAX; self.slots()];
        Refused::check(sys::winners(self.columns(), &mut scores, &mut is_decoy))?;
        Ok(Winners { scores, is_decoy })
    }

    /// The q-value of each row's slot and side, 1.0 for a row that takes no part. The count is of the targets among the
    /// slots' sides with a q-value of at most 0.01.
    ///
    /// Refuses with [`TooLong`](crate::Refusal::TooLong), [`WrongLength`](crate::Refusal::WrongLength),
    /// [`OutOfRange`](crate::Refusal::OutOfRange) and [`NoSuchSlot`](crate::Refusal::NoSuchSlot).
    pub fn assign_q_value(
        &self,
        names: Names,
        estimator: &Estimator,
        slots: &[u32],
        labels: &[i32],
    ) -> Result<QValues, Refused> {
        let mut keys = vec![0; 2 * self.slots()];
        let mut spare = vec![0; 2 * self.slots()];
        let mut q = vec![f32::NAN; slots.len()];
        let mut count = 0;
        let two_names = (names == Names::Two).into();
        let ranking = RankingColumns { keys: &mut keys, spare: &mut spare, q: &mut q };
        let table = self.columns();
        let returned = sys::assign_q_value(two_names, estimator.borrowed(), table, slots, labels, ranking, &mut count);
        Refused::check(returned)?;
        Ok(QValues { q, count })
    }
}
