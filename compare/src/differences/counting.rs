//! Module 6.

use super::check;
use crate::calls::{picked_precursor, spectrum_q_value};
use crate::sage::SageRows;
use fnv::FnvHashMap;
use sage_core::database::PeptideIx;
use sage_core::lfq::{Peak, PrecursorId};
use std::collections::BTreeSet;
use vayemuku_sys::RankingColumns;

/// Two targets and a decoy.
const LABELS: [i32; 3] = [1, 1, -1];

/// The lines of the module.
pub fn lines() -> Vec<bool> {
    vec![tied(), tied_as_f32(), zeros(), nan(), pair(), labels()]
}

/// sage's q-values of two targets and a decoy with these scores, whose peptides are numbered from `first` on.
fn sage(first: u32, scores: [f64; 3]) -> [f32; 3] {
    let key = |place: u32| (PrecursorId::Combined(PeptideIx(first + place)), place == 2);
    let peak = |score| (Peak { score, ..Peak::default() }, Vec::new());
    let mut peaks: FnvHashMap<_, _> = (0..3).map(|place| (key(place), peak(scores[place as usize]))).collect();
    sage_core::fdr::picked_precursor(&mut peaks);
    [0, 1, 2].map(|place| peaks[&key(place)].0.q_value)
}

/// The port's.
fn port(scores: [f64; 3]) -> [f32; 3] {
    let (mut keys, mut spare, mut q) = ([5; 3], [5; 3], [0.25; 3]);
    picked_precursor(&LABELS, &scores, RankingColumns { keys: &mut keys, spare: &mut spare, q: &mut q });
    q
}

/// Scores that are equal as f32: sage's answers under several numbers of the same three peptides.
fn by_number(input: &str, scores: [f64; 3]) -> bool {
    let answers: BTreeSet<String> = (0..16).map(|first| format!("{:?}", sage(first, scores))).collect();
    check(input, (answers, "{\"[0.5, 0.5, 1.0]\", \"[1.0, 1.0, 1.0]\"}"), (port(scores), "[0.5, 0.5, 1.0]"))
}

/// Equal scores.
fn tied() -> bool {
    by_number("two target precursors and a decoy, all scored 1.0", [1.0; 3])
}

/// A decoy that scores higher, but not as f32.
fn tied_as_f32() -> bool {
    by_number("target precursors 1.0 and 1.0, a decoy 1.00000001", [1.0, 1.0, 1.00000001])
}

/// Zeros of both signs, which are equal as numbers: total_cmp ranks them, and not their places.
fn zeros() -> bool {
    let scores = [-0.0, -0.0, 0.0];
    let answers: BTreeSet<String> = (0..16).map(|first| format!("{:?}", sage(first, scores))).collect();
    check(
        "target precursors -0.0 and -0.0, a decoy 0.0",
        (answers, "{\"[1.0, 1.0, 1.0]\"}"),
        (port(scores), "[1.0, 1.0, 1.0]"),
    )
}

/// A NaN with the sign set.
fn nan() -> bool {
    let scores = [1.0, 0.0, -f64::NAN];
    let (sage, port) = (sage(0, scores), port(scores));
    check("targets 1.0 and 0.0, a decoy -NaN", (sage, "[0.5, 0.5, 1.0]"), (port, "[1.0, 1.0, 1.0]"))
}

/// A target, another target and the decoy of the first, which lost to it: all three are ranked.
fn pair() -> bool {
    let key = |place: usize| (PrecursorId::Combined(PeptideIx([0, 1, 0][place])), place == 2);
    let scores = [3.0, 1.0, 2.0];
    let peak = |score| (Peak { score, ..Peak::default() }, Vec::new());
    let mut peaks: FnvHashMap<_, _> = (0..3).map(|place| (key(place), peak(scores[place]))).collect();
    sage_core::fdr::picked_precursor(&mut peaks);
    let sage = [0, 1, 2].map(|place| peaks[&key(place)].0.q_value);
    let ones = "[1.0, 1.0, 1.0]";
    check("target precursors 3.0 and 1.0, the first one's decoy 2.0", (sage, ones), (port(scores), ones))
}

/// Labels that are neither -1 nor 1.
fn labels() -> bool {
    let labels = [0, 7, -2];
    let (mut rows, mut q) = (SageRows::default(), [0.25; 3]);
    let sage: Vec<f32> = rows.spectrum(&labels).0.collect();
    spectrum_q_value(&labels, &mut q);
    let third = "[0.33333334, 0.33333334, 0.33333334]";
    check("spectra labelled 0, 7 and -2", (sage, third), (q, third))
}
