//! Answers of picked_protein and picked_protein_group.

use super::file::{describe, until, Recording};
use crate::cases::Random;
use crate::fdr::draws::{self, SlotRows};
use crate::fdr::picked::{Function, Sage};
use crate::fdr::reading::PlainTable;
use crate::kde::reading::both_zeros_from;
use host::Names;
use sage_core::ml::kde::Parts;
use std::io::Result;
use std::path::Path;

/// The number of lists, their most slots, and the most rows of most of them.
const LISTS: usize = 2_000;
const MOST_SLOTS: usize = 210;
const FEW_ROWS: usize = 10;

/// One list in this many has about 100 slots or 200, and up to this many rows.
const MANY_EACH: usize = 40;
const MANY_ROWS: usize = 240;

/// The most bins that are forced on sage. One list in this many gets the 1000 bins that sage fits.
const MOST_BINS: usize = 5;
const FITTED_EACH: usize = 500;

/// The layout.
const FILES: &str = "\
`picked_protein` and `picked_protein_group`: 1 or 2 as u32 for the names of a slot's two sides, the number of bins as
u32, the bins, bins * f64, least score and step, f64, the number of slots and of rows as u32, the rows' slots, rows *
u32, labels, rows * i32, and scores, rows * f32, q-values, rows * f32, and the count as u32. Slot k is the protein or
group of the k-th name.

Most estimators are given to sage instead of the one that it fits; some are those that it fits. The best scores of all
sides differ as numbers, as document 01 has it. No case has scores, or ratios of a running minimum, that are zeros of
both signs: Rust leaves open which one is kept.
";

/// A list of rows, with the number of its slots and its table.
struct List {
    slots: usize,
    rows: SlotRows,
    table: PlainTable,
}

/// Records lists of either function.
pub fn record(folder: &Path) -> Result<()> {
    let mut random = Random::new(35);
    for (function, name) in [(Function::Protein, "picked_protein"), (Function::Group, "picked_protein_group")] {
        let mut recording = Recording::default();
        for turn in 0..LISTS {
            until(|| add(&mut recording, &mut random, function, turn), |added| *added);
        }
        recording.save(folder, name)?;
    }
    describe(folder, FILES)
}

/// A random list: at its turn one of many rows, otherwise one of few.
fn drawn(random: &mut Random, turn: usize) -> List {
    let many = turn % MANY_EACH == 0;
    let fits = |(slots, rows): &(usize, SlotRows)| match many {
        true => *slots >= 95 && rows.slots.len() <= MANY_ROWS,
        false => rows.slots.len() <= FEW_ROWS,
    };
    let short = |list: &(usize, SlotRows)| list.0 <= MOST_SLOTS && fits(list);
    let (slots, rows) = until(|| draws::distinct_rows(random), short);
    let mut table = PlainTable::fresh(slots);
    table.add(rows.all());
    List { slots, rows, table }
}

/// Records one list; false where a sign is open.
fn add(recording: &mut Recording, random: &mut Random, function: Function, turn: usize) -> bool {
    let List { slots, rows, table } = drawn(random, turn);
    let wide: Vec<f64> = rows.scores.iter().map(|score| f64::from(*score)).collect();
    let forced = match turn % FITTED_EACH == 0 {
        true => None,
        false => Some(until(|| draws::estimator(random, &table), |parts| parts.bins.len() <= MOST_BINS)),
    };
    let mut sage = Sage::new(random, slots, &rows);
    let names = sage.names(function);
    let picked = sage.run(function, forced.as_ref());
    let Parts { bins, min_score, score_step } = &picked.build.estimator;
    let read = table.assigned(names, &picked.build.estimator, &rows.slots, &rows.labels);
    if both_zeros_from(&wide).is_some() || read.both_zeros {
        return false;
    }
    recording.case();
    recording.length(if names == Names::Two { 2 } else { 1 });
    recording.length(bins.len());
    recording.numbers(bins);
    recording.numbers(&[*min_score, *score_step]);
    recording.length(slots);
    recording.length(rows.slots.len());
    recording.numbers(&rows.slots);
    recording.numbers(&rows.labels);
    recording.numbers(&rows.scores);
    recording.answers("q-values", &picked.q);
    recording.answers("count", &[picked.count as u32]);
    true
}
