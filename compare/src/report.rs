//! One line per function: its cases, its mismatches, and the first of them.

/// A result that is compared by its bits, all NaNs counting as one.
pub trait Answer: Copy {
    /// The bits.
    fn pattern(self) -> u64;

    /// The bits, with one pattern for every NaN.
    fn canonical(self) -> u64 {
        self.pattern()
    }

    /// Whether both have the same bits, or both are NaN.
    fn same(self, other: Self) -> bool {
        self.canonical() == other.canonical()
    }

    /// The bits, for a report.
    fn hex(self) -> String {
        format!("{:#0width$x}", self.pattern(), width = 2 + 2 * size_of::<Self>())
    }
}

impl Answer for f64 {
    fn pattern(self) -> u64 {
        self.to_bits()
    }

    fn canonical(self) -> u64 {
        if self.is_nan() {
            f64::NAN.to_bits()
        } else {
            self.to_bits()
        }
    }
}

impl Answer for f32 {
    fn pattern(self) -> u64 {
        self.to_bits().into()
    }

    fn canonical(self) -> u64 {
        if self.is_nan() {
            f32::NAN.to_bits().into()
        } else {
            self.to_bits().into()
        }
    }
}

impl Answer for u64 {
    fn pattern(self) -> u64 {
        self
    }
}

impl Answer for u32 {
    fn pattern(self) -> u64 {
        self.into()
    }
}

impl Answer for usize {
    fn pattern(self) -> u64 {
        self as u64
    }
}

impl Answer for i32 {
    fn pattern(self) -> u64 {
        (self as u32).into()
    }
}

/// Ok where both are equal, otherwise both in words.
pub fn expect<T: PartialEq + std::fmt::Debug>(what: &str, port: T, wanted: T) -> Result<(), String> {
    match port == wanted {
        true => Ok(()),
        false => Err(format!("{what}: port {port:?}, and it should be {wanted:?}")),
    }
}

/// Ok where the port's column has the entries wanted, otherwise the first place, from 0, at which they differ.
pub fn expect_column<T: Answer>(what: &str, port: &[T], mut wanted: impl Iterator<Item = T>) -> Result<(), String> {
    for (place, got) in port.iter().enumerate() {
        let wanted = wanted.next();
        if !wanted.is_some_and(|wanted| got.same(wanted)) {
            let wanted = wanted.map_or("absent".to_string(), Answer::hex);
            return Err(format!("{what} at {place}: port {}, and it should be {wanted}", got.hex()));
        }
    }
    Ok(())
}

/// Ok where the column holds one answer in every place.
pub fn expect_all<T: Answer>(what: &str, port: &[T], wanted: T) -> Result<(), String> {
    expect_column(what, port, std::iter::repeat(wanted))
}

/// The tally of one function.
pub struct Tally {
    name: &'static str,
    cases: u64,
    mismatches: u64,
    first: String,
}

impl Tally {
    /// A tally of nothing yet.
    pub fn new(name: &'static str) -> Self {
        Tally { name, cases: 0, mismatches: 0, first: String::new() }
    }

    /// Counts one case; the first mismatch is described.
    #[inline]
    pub fn count(&mut self, same: bool, describe: impl FnOnce() -> String) {
        self.cases += 1;
        if !same {
            if self.mismatches == 0 {
                self.first = format!(", first: {}", describe());
            }
            self.mismatches += 1;
        }
    }

    /// Counts one case, a mismatch where there are words for it.
    pub fn outcome(&mut self, outcome: Result<(), String>) {
        let words = outcome.as_ref().err();
        self.count(words.is_none(), || words.cloned().unwrap_or_default());
    }

    /// Prints the line, and says whether nothing differed.
    pub fn print(&self) -> bool {
        println!("{:19} {:>11} cases, {} mismatches{}", self.name, self.cases, self.mismatches, self.first);
        self.mismatches == 0
    }
}
