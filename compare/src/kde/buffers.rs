//! Columns for a call to write, with places on both sides that the call must not write.

use crate::report::{expect_all, Answer};

/// The number of places on either side.
const BESIDE: usize = 4;

/// A column of garbage between such places.
pub struct Buffer<T> {
    places: Vec<T>,
    garbage: T,
}

impl<T: Answer> Buffer<T> {
    /// A column of this length.
    pub fn new(length: usize, garbage: T) -> Self {
        Buffer { places: vec![garbage; length + 2 * BESIDE], garbage }
    }

    /// The column, to read.
    pub fn column(&self) -> &[T] {
        &self.places[BESIDE..self.places.len() - BESIDE]
    }

    /// The column, to write.
    pub fn column_mut(&mut self) -> &mut [T] {
        let end = self.places.len() - BESIDE;
        &mut self.places[BESIDE..end]
    }

    /// The column after a call; Err where a place beside it was written.
    pub fn after(&self) -> Result<&[T], String> {
        let (before, rest) = self.places.split_at(BESIDE);
        let (column, behind) = rest.split_at(rest.len() - BESIDE);
        expect_all("before the column", before, self.garbage)?;
        expect_all("behind the column", behind, self.garbage)?;
        Ok(column)
    }
}
