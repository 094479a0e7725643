//! Tables and columns for a call to write, with places on both sides that the call must not write.

use super::reading::PlainTable;
use crate::calls::{assign_q_value, estimator};
use crate::kde::buffers::Buffer;
use crate::report::{expect_all, expect_column};
use sage_core::ml::kde::Parts;
use vayemuku_sys::{winners, RankingColumns, TableColumns, TableMut, TableRef};

/// The contents of columns before a call.
const GARBAGE: u64 = 0x5a5a_5a5a_5a5a_5a5a;
const GARBAGE_FLOAT: f32 = 0.007_5;
const GARBAGE_MARK: u32 = 77;

/// A competition table.
pub struct TableBuffer {
    forward: Buffer<f32>,
    reverse: Buffer<f32>,
    forward_seen: Buffer<u32>,
    reverse_seen: Buffer<u32>,
}

impl TableBuffer {
    /// A table of garbage, its columns of these lengths.
    pub fn garbage([forward, reverse, forward_seen, reverse_seen]: [usize; 4]) -> Self {
        TableBuffer {
            forward: Buffer::new(forward, GARBAGE_FLOAT),
            reverse: Buffer::new(reverse, GARBAGE_FLOAT),
            forward_seen: Buffer::new(forward_seen, GARBAGE_MARK),
            reverse_seen: Buffer::new(reverse_seen, GARBAGE_MARK),
        }
    }

    /// A table of zeroed memory that nothing has touched.
    pub fn zeroed([forward, reverse, forward_seen, reverse_seen]: [usize; 4]) -> Self {
        TableBuffer {
            forward: Buffer::new(forward, 0.0),
            reverse: Buffer::new(reverse, 0.0),
            forward_seen: Buffer::new(forward_seen, 0),
            reverse_seen: Buffer::new(reverse_seen, 0),
        }
    }

    /// A copy of a table.
    pub fn copy_of(table: &PlainTable) -> Self {
        let mut buffer = TableBuffer::garbage(table.lengths());
        let columns = buffer.columns_mut();
        columns.forward.copy_from_slice(&table.forward);
        columns.reverse.copy_from_slice(&table.reverse);
        columns.forward_seen.copy_from_slice(&table.forward_seen);
        columns.reverse_seen.copy_from_slice(&table.reverse_seen);
        buffer
    }

    /// The columns, to read.
    pub fn columns(&self) -> TableRef<'_> {
        TableColumns {
            forward: self.forward.column(),
            reverse: self.reverse.column(),
            forward_seen: self.forward_seen.column(),
            reverse_seen: self.reverse_seen.column(),
        }
    }

    /// The columns, to write.
    pub fn columns_mut(&mut self) -> TableMut<'_> {
        TableColumns {
            forward: self.forward.column_mut(),
            reverse: self.reverse.column_mut(),
            forward_seen: self.forward_seen.column_mut(),
            reverse_seen: self.reverse_seen.column_mut(),
        }
    }

    /// The contents.
    pub fn contents(&self) -> PlainTable {
        let columns = self.columns();
        PlainTable {
            forward: columns.forward.to_vec(),
            reverse: columns.reverse.to_vec(),
            forward_seen: columns.forward_seen.to_vec(),
            reverse_seen: columns.reverse_seen.to_vec(),
        }
    }

    /// Ok where the contents are those wanted, and nothing beside them was written.
    pub fn expect(&self, wanted: &PlainTable) -> Result<(), String> {
        expect_column("forward", self.forward.after()?, wanted.forward.iter().copied())?;
        expect_column("reverse", self.reverse.after()?, wanted.reverse.iter().copied())?;
        expect_column("forward's mark", self.forward_seen.after()?, wanted.forward_seen.iter().copied())?;
        expect_column("reverse's mark", self.reverse_seen.after()?, wanted.reverse_seen.iter().copied())
    }

    /// The same with the bits of NaNs.
    pub fn expect_bits(&self, wanted: &PlainTable) -> Result<(), String> {
        let bits = |floats: &[f32]| floats.iter().map(|x| x.to_bits()).collect::<Vec<u32>>();
        expect_column("forward's bits", &bits(self.forward.after()?), bits(&wanted.forward).into_iter())?;
        expect_column("reverse's bits", &bits(self.reverse.after()?), bits(&wanted.reverse).into_iter())?;
        self.expect(wanted)
    }
}

/// The two columns that winners writes.
pub struct WinnersBuffer {
    pub scores: Buffer<f32>,
    pub is_decoy: Buffer<u32>,
}

impl WinnersBuffer {
    /// The number of the winners of a table, and columns of these lengths afterwards.
    pub fn call(table: &TableBuffer, [scores, is_decoy]: [usize; 2]) -> (u32, WinnersBuffer) {
        let mut filled =
            WinnersBuffer { scores: Buffer::new(scores, GARBAGE_FLOAT), is_decoy: Buffer::new(is_decoy, GARBAGE_MARK) };
        let returned = winners(table.columns(), filled.scores.column_mut(), filled.is_decoy.column_mut());
        (returned.number, filled)
    }
}

/// The columns that assign_q_value writes: two working columns, and the q-values.
pub struct RankingBuffer {
    keys: Buffer<u64>,
    spare: Buffer<u64>,
    q: Buffer<f32>,
}

impl RankingBuffer {
    /// The number and the count of q-values, and columns of these lengths afterwards.
    pub fn call(
        two_names: u32,
        parts: &Parts,
        table: &TableBuffer,
        rows: (&[u32], &[i32]),
        [keys, spare, q]: [usize; 3],
    ) -> (u32, usize, RankingBuffer) {
        let mut filled = RankingBuffer {
            keys: Buffer::new(keys, GARBAGE),
            spare: Buffer::new(spare, GARBAGE),
            q: Buffer::new(q, GARBAGE_FLOAT),
        };
        let RankingBuffer { keys, spare, q } = &mut filled;
        let ranking = RankingColumns { keys: keys.column_mut(), spare: spare.column_mut(), q: q.column_mut() };
        let (number, count) = assign_q_value(two_names, estimator(parts), table.columns(), rows, ranking);
        (number, count, filled)
    }

    /// The q-values, where both working columns hold 0 in every place.
    pub fn after(&self) -> Result<&[f32], String> {
        expect_all("keys afterwards", self.keys.after()?, 0)?;
        expect_all("spare afterwards", self.spare.after()?, 0)?;
        self.q.after()
    }
}

/// Ok where both columns are the same; where the sign of a zero is open, zeros of either sign are.
pub fn expect_up_to_zeros(what: &str, port: &[f32], sage: &[f32], open: bool) -> Result<(), String> {
    // the sum of a zero and +0.0 is +0.0
    let one_zero = |x: &f32| if open { x + 0.0 } else { *x };
    let port: Vec<f32> = port.iter().map(one_zero).collect();
    expect_column(what, &port, sage.iter().map(one_zero))
}
