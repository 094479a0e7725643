//! Answers of spectrum_q_value and picked_precursor.

use super::file::{describe, Recording};
use crate::cases::Random;
use crate::lists::{distinct_scores, each_pattern, label, shuffle};
use crate::sage::{precursors, SageRows};
use std::io::Result;
use std::path::Path;

/// Numbers of targets, and the most labels of the patterns after them: about one in 100 for spectra, and one in 20 for
/// precursors.
const SPECTRA: [(usize, usize); 5] = [(0, 9), (98, 3), (100, 3), (197, 3), (200, 3)];
const PRECURSORS: [(usize, usize); 5] = [(0, 9), (19, 3), (20, 3), (37, 4), (40, 4)];

/// The number of random lists, and their most rows.
const RANDOM: usize = 930;
const LONGEST: u64 = 24;

/// The layout.
const FILES: &str = "\
`spectrum_q_value`: the number of rows as u32, labels, rows * i32, q-values, rows * f32, and the count as u32.

`picked_precursor`: the number of rows as u32, labels, rows * i32, scores, rows * f64, q-values, rows * f32, and the
count as u32. The scores differ as f32, since sage ranks equal ones in the order of its map.

The lists: every pattern of up to nine decoys and targets, patterns after numbers of targets at which rows are at and
beside one in 100 or one in 20, and random lists of up to 24 rows.
";

/// Records lists of each kind.
pub fn record(folder: &Path) -> Result<()> {
    let mut random = Random::new(34);
    let (mut spectra, mut rows) = (Recording::default(), SageRows::default());
    each_list(&mut random, SPECTRA, |_, labels| {
        let (q, count) = rows.spectrum(labels);
        add(&mut spectra, labels, &[], &q.collect::<Vec<f32>>(), count);
    });
    spectra.save(folder, "spectrum_q_value")?;
    let mut peaks = Recording::default();
    each_list(&mut random, PRECURSORS, |random, labels| {
        let (mut labels, mut scores) = (labels.to_vec(), distinct_scores(random, labels.len()));
        shuffle(random, &mut labels, &mut scores);
        let (q, count) = precursors(&labels, &scores);
        add(&mut peaks, &labels, &scores, &q, count);
    });
    peaks.save(folder, "picked_precursor")?;
    describe(folder, FILES)
}

/// Calls `record` with every list.
fn each_list(random: &mut Random, heads: [(usize, usize); 5], mut record: impl FnMut(&mut Random, &[i32])) {
    heads.iter().for_each(|(head, longest)| each_pattern(*head, *longest, |labels| record(random, labels)));
    for _ in 0..RANDOM {
        let rate = random.below(9);
        let length = random.below(LONGEST + 1) as usize;
        let labels: Vec<i32> = (0..length).map(|place| label(random.below(8) < rate, place)).collect();
        record(random, &labels);
    }
}

/// Records one list.
fn add(recording: &mut Recording, labels: &[i32], scores: &[f64], q: &[f32], count: usize) {
    recording.case();
    recording.length(labels.len());
    recording.numbers(labels);
    recording.numbers(scores);
    recording.answers("q-values", q);
    recording.answers("count", &[count as u32]);
}
