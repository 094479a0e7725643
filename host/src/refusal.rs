//! Refusals: why a call refuses, and which call it was.

use std::fmt::{Display, Formatter};
use vayemuku_sys::{Call, Returned};

/// Why a call refuses: the questions that are asked of each call, by their numbers.
///
/// A call asks only what its inputs have, in the order of the numbers (4 is asked before 3), and returns the first
/// question that is answered with no.
///
/// ```
/// use vayemuku::Refusal;
/// assert_eq!(Refusal::OneClass.number(), 6);
/// assert_eq!(Refusal::OneClass.to_string(), "the fit needs at least one decoy and one target");
/// ```
#[derive(Clone, Copy, Debug, PartialEq, Eq, Hash, PartialOrd, Ord)]
#[repr(u32)]
pub enum Refusal {
    /// 1: a list is longer than 16,777,215.
    TooLong = 1,
    /// 2: a column does not have the length stated.
    WrongLength = 2,
    /// 3: the size of a system is not 1 to 20, or the number of bins not 1 to 65,536.
    OutOfRange = 3,
    /// 4: the tolerance is neither ppm nor Da.
    NoTolerance = 4,
    /// 5: a slot is neither below the number of slots nor the mark of a row that takes no part.
    NoSuchSlot = 5,
    /// 6: there is no decoy, or no target, to fit.
    OneClass = 6,
    /// 7: no eps solves the system.
    Unsolved = 7,
    /// 8: a coefficient is not finite.
    NotFinite = 8,
    /// 9: the line is past the list's end.
    PastTheEnd = 9,
}

impl Refusal {
    /// Every refusal, in the order of the numbers.
    pub const ALL: [Refusal; 9] = [
        Refusal::TooLong,
        Refusal::WrongLength,
        Refusal::OutOfRange,
        Refusal::NoTolerance,
        Refusal::NoSuchSlot,
        Refusal::OneClass,
        Refusal::Unsolved,
        Refusal::NotFinite,
        Refusal::PastTheEnd,
    ];

    /// The question's number, from 1 to 9.
    pub fn number(self) -> u32 {
        self as u32
    }

    /// The sentence that says why.
    pub fn sentence(self) -> &'static str {
        match self {
            Refusal::TooLong => "a list has more than 16,777,215 entries",
            Refusal::WrongLength => "a column does not have the length that the others call for",
            Refusal::OutOfRange => "the size is not 1 to 20, or the number of bins is not 1 to 65,536",
            Refusal::NoTolerance => "the tolerance is neither ppm nor Da",
            Refusal::NoSuchSlot => "a slot is past the table's end",
            Refusal::OneClass => "the fit needs at least one decoy and one target",
            Refusal::Unsolved => "no solution of the fit's equations was found",
            Refusal::NotFinite => "a coefficient of the fit is not finite",
            Refusal::PastTheEnd => "the line is past the end of the list",
        }
    }

    /// The refusal of a number.
    fn of_number(number: u32) -> Option<Refusal> {
        Self::ALL.into_iter().find(|refusal| refusal.number() == number)
    }
}

impl Display for Refusal {
    fn fmt(&self, to: &mut Formatter<'_>) -> std::fmt::Result {
        to.write_str(self.sentence())
    }
}

impl std::error::Error for Refusal {}

/// Which call refused, and why.
///
/// ```
/// use vayemuku::{spectrum_q_value, Call, Refusal, Refused, LONGEST};
/// let refused = spectrum_q_value(&vec![1; LONGEST + 1]).unwrap_err();
/// assert_eq!(refused, Refused { call: Call::SpectrumQValue, refusal: Refusal::TooLong });
/// let words = "vayemuku_spectrum_q_value refused with 1: a list has more than 16,777,215 entries";
/// assert_eq!(refused.to_string(), words);
/// ```
#[derive(Clone, Copy, Debug, PartialEq, Eq, Hash)]
pub struct Refused {
    /// The call.
    pub call: Call,
    /// Why it refused.
    pub refusal: Refusal,
}

impl Refused {
    /// Ok where a call accepted, otherwise its refusal.
    pub(crate) fn check(returned: Returned) -> Result<(), Refused> {
        let Returned { call, number } = returned;
        if number == 0 {
            return Ok(());
        }
        let refusal = Refusal::of_number(number);
        let refusal = refusal.unwrap_or_else(|| unreachable!("{call} returned {number}, and calls return 0 to 9"));
        Err(Refused { call, refusal })
    }
}

impl Display for Refused {
    fn fmt(&self, to: &mut Formatter<'_>) -> std::fmt::Result {
        write!(to, "{} refused with {}: {}", self.call, self.refusal.number(), self.refusal)
    }
}

impl std::error::Error for Refused {}

impl From<Refused> for Refusal {
    fn from(refused: Refused) -> Refusal {
        refused.refusal
    }
}
