//! Wrong answers: some cases of a recording, each with one bit of one answer flipped.

use super::file::until;
use crate::cases::Random;
use crate::report::Answer;
use std::collections::BTreeSet;
use std::ops::Range;

/// The number of wrong cases, and the most bytes of each.
const WRONG: usize = 72;
const MOST_BYTES: usize = 900;

/// A column of answers: the number of its case, and its numbers' places in the case.
pub struct Column {
    pub name: &'static str,
    pub case: usize,
    pub places: Vec<Range<usize>>,
}

/// Small cases with a flipped bit. Each name has its turn, with a column's first place, its last and one between; every
/// other round takes no NaN.
pub fn flipped(cases: &[Vec<u8>], answers: &[Column]) -> Vec<Vec<u8>> {
    let mut random = Random::new(36);
    let small: Vec<&Column> = answers.iter().filter(|column| cases[column.case].len() <= MOST_BYTES).collect();
    let names = Vec::from_iter(BTreeSet::from_iter(answers.iter().map(|column| column.name)));
    let wrong = |turn: usize| {
        let named = with_places(&small, names[turn % names.len()]);
        let round = turn / names.len();
        let draw = || {
            let column = named[random.below(named.len() as u64) as usize];
            let last = column.places.len() - 1;
            let between = last.min(1) + random.below(last.max(2) as u64 - 1) as usize;
            (&cases[column.case], column.places[[0, last, between][round % 3]].clone())
        };
        let (case, place) = until(draw, |(case, place)| round % 2 == 0 || !is_nan(&case[place.clone()]));
        let mut wrong = case.clone();
        flip(&mut random, &mut wrong[place]);
        wrong
    };
    (0..WRONG).map(wrong).collect()
}

/// The columns of a name that have three places or more; if none has, the longest.
fn with_places<'a>(columns: &[&'a Column], name: &str) -> Vec<&'a Column> {
    let named = columns.iter().copied().filter(|column| column.name == name);
    let longest = named.clone().map(|column| column.places.len()).max().expect("a small case has each name");
    named.filter(|column| column.places.len() >= longest.min(3)).collect()
}

/// The bits of a number of four bytes or eight.
fn bits(number: &[u8]) -> u64 {
    let mut bytes = [0; 8];
    bytes[..number.len()].copy_from_slice(number);
    u64::from_le_bytes(bytes)
}

/// Whether they are a recorded NaN's.
fn is_nan(number: &[u8]) -> bool {
    bits(number) == if number.len() == 4 { f32::NAN.canonical() } else { f64::NAN.canonical() }
}

/// Flips a bit of a number: of a NaN one that leaves no NaN, and none that leaves 0, which is the number of no refusal.
fn flip(random: &mut Random, number: &mut [u8]) {
    let before = bits(number);
    let seen = |after: &u64| *after != 0 && (!is_nan(number) || before & after == *after);
    let after = until(|| before ^ (1 << random.below(8 * number.len() as u64)), seen);
    number.copy_from_slice(&after.to_le_bytes()[..number.len()]);
}
