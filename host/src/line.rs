//! Module 7: whether a line of a list is right.

use crate::Refused;
use std::fmt::{Display, Formatter};
use vayemuku_sys::{self as sys, LineNumbers};

/// The rate of a line.
#[derive(Clone, Copy, Debug, PartialEq, Eq)]
pub enum Rate {
    /// 100 times (decoys plus one) is at most the targets.
    OneIn100,
    /// 20 times (decoys plus one) is at most the targets.
    OneIn20,
}

impl Display for Rate {
    fn fmt(&self, to: &mut Formatter<'_>) -> std::fmt::Result {
        to.write_str(match self {
            Rate::OneIn100 => "one in 100",
            Rate::OneIn20 => "one in 20",
        })
    }
}

/// A row, and the decoys and targets up to it, itself included.
#[derive(Clone, Copy, Debug, PartialEq, Eq)]
pub struct Counts {
    /// The row, from 1; 0 is the line above all rows.
    pub row: usize,
    /// The decoys, plus one.
    pub decoys_plus_one: usize,
    /// The targets.
    pub targets: usize,
}

impl Display for Counts {
    fn fmt(&self, to: &mut Formatter<'_>) -> std::fmt::Result {
        write!(to, "row {}, decoys plus one {}, targets {}", self.row, self.decoys_plus_one, self.targets)
    }
}

/// The answer to a line.
#[derive(Clone, Copy, Debug, PartialEq, Eq)]
pub enum Line {
    /// The line is right; the counts are its own.
    Right(Counts),
    /// The line is wrong; the counts are those of the last later row that qualifies or, if none does, its own.
    Wrong(Counts),
}

impl Display for Line {
    fn fmt(&self, to: &mut Formatter<'_>) -> std::fmt::Result {
        match self {
            Line::Right(counts) => write!(to, "Right: {counts}"),
            Line::Wrong(counts) => write!(to, "Wrong: {counts}"),
        }
    }
}

impl From<LineNumbers> for Line {
    fn from(numbers: LineNumbers) -> Line {
        let LineNumbers { right, row, decoys_plus_one, targets } = numbers;
        let counts = Counts { row, decoys_plus_one, targets };
        match right {
            1 => Line::Right(counts),
            _ => Line::Wrong(counts),
        }
    }
}

/// Whether a line of a ranked list is right: it is 0 or its row qualifies, and no later row does.
///
/// Refuses with [`TooLong`](crate::Refusal::TooLong) and [`PastTheEnd`](crate::Refusal::PastTheEnd).
///
/// ```
/// use vayemuku::{check_line, Counts, Line, Rate};
/// let mut labels = vec![1; 20];
/// labels.push(-1);
/// let counts = Counts { row: 20, decoys_plus_one: 1, targets: 20 };
/// assert_eq!(check_line(&labels, 20, Rate::OneIn20), Ok(Line::Right(counts)));
/// assert_eq!(check_line(&labels, 0, Rate::OneIn20), Ok(Line::Wrong(counts)));
/// ```
pub fn check_line(labels: &[i32], line: usize, rate: Rate) -> Result<Line, Refused> {
    let check = match rate {
        Rate::OneIn100 => sys::check_line_100,
        Rate::OneIn20 => sys::check_line_20,
    };
    let mut numbers = LineNumbers::default();
    Refused::check(check(labels, line, &mut numbers))?;
    Ok(numbers.into())
}
