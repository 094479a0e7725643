//! The contents of a table's cells.

use std::fmt::Display;

/// A number that a cell can hold.
pub trait Cell: Sized {
    /// What an error says of a cell that holds none.
    const NONE: &'static str;

    /// The number that the text is.
    fn from_text(text: &str) -> Option<Self>;
}

impl Cell for f64 {
    const NONE: &'static str = "no number";

    fn from_text(text: &str) -> Option<Self> {
        text.parse().ok().filter(|number: &f64| number.is_finite() || is_infinity(text))
    }
}

impl Cell for f32 {
    const NONE: &'static str = "no number of 32 bits";

    fn from_text(text: &str) -> Option<Self> {
        text.parse().ok().filter(|number: &f32| number.is_finite() || is_infinity(text))
    }
}

/// Whether a text that is parsed as no finite number names an infinity, and is not a NaN or a number too large for the
/// type.
fn is_infinity(text: &str) -> bool {
    let word = text.trim_start_matches(['+', '-']);
    word.eq_ignore_ascii_case("inf") || word.eq_ignore_ascii_case("infinity")
}

impl Cell for u8 {
    const NONE: &'static str = "no whole number from 0 to 255";

    fn from_text(text: &str) -> Option<Self> {
        text.parse().ok()
    }
}

impl Cell for u32 {
    const NONE: &'static str = "no whole number from 0 to 4,294,967,295";

    fn from_text(text: &str) -> Option<Self> {
        text.parse().ok()
    }
}

/// A label: −1 is a decoy, every other number a target.
pub struct Label(pub i32);

impl Cell for Label {
    const NONE: &'static str = "no label, which is a whole number of 32 bits, -1 for a decoy";

    fn from_text(text: &str) -> Option<Self> {
        text.parse().ok().map(Label)
    }
}

/// The number that a cell holds, or what is wrong with it.
pub fn number<T: Cell>(column: &str, cell: &[u8]) -> Result<T, String> {
    let read = std::str::from_utf8(cell).ok().and_then(T::from_text);
    read.ok_or_else(|| format!("column {column}: '{}' is {}", shown(cell), T::NONE))
}

/// The most characters of a cell that a message shows.
const MOST_SHOWN: usize = 40;

/// The start of a cell, on one line.
pub fn shown(cell: &[u8]) -> impl Display {
    let text = String::from_utf8_lossy(cell);
    let start: String = text.chars().take(MOST_SHOWN).flat_map(char::escape_debug).collect();
    match text.chars().count() > MOST_SHOWN {
        true => format!("{start}…"),
        false => start,
    }
}

#[cfg(test)]
mod tests {
    use super::*;

    #[test]
    fn numbers_and_texts_that_are_none() {
        assert_eq!(number::<f64>("x", b"-inf"), Ok(f64::NEG_INFINITY));
        assert_eq!(number::<f32>("x", b"1e-3"), Ok(0.001));
        assert_eq!(number::<f32>("x", b"-inf"), Ok(f32::NEG_INFINITY));
        assert_eq!(number::<f32>("x", b"3.4028235e38"), Ok(f32::MAX));
        assert_eq!(number::<f32>("x", b"1e39"), Err("column x: '1e39' is no number of 32 bits".into()));
        assert_eq!(number::<u8>("charge", b"300"), Err("column charge: '300' is no whole number from 0 to 255".into()));
        for cell in [&b"NaN"[..], b"", b" 1", b"1 ", b"1,5", b"0x10", b"\xff", b"1e400", b"-1e400"] {
            assert!(number::<f64>("x", cell).is_err(), "{cell:?}");
        }
    }

    #[test]
    fn a_long_cell_is_cut_and_stays_on_one_line() {
        assert_eq!(shown(b"a\tb\n").to_string(), "a\\tb\\n");
        assert_eq!(shown(&[b'x'; 60]).to_string(), format!("{}…", "x".repeat(40)));
    }
}
