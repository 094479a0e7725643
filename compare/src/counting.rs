//! Modules 5, 6 and 7, the calls that count: beside sage's unchanged spectrum_q_value and picked_precursor, and beside
//! a plain reading of document 01.

mod keys;
mod lines;
mod precursors;
mod reading;
mod spectrum;

use crate::cases::Random;
use crate::lists::{blocks, each_pattern, random_labels, rising, LONGEST};
use crate::sage::{room_for, ROW_BYTES};
use lines::Lines;
use reading::Counted;
use spectrum::Spectrum;

/// Every pattern of decoys and targets is tried up to this length.
const EVERY: usize = 14;

/// Targets that every pattern of up to `TAIL` labels follows: short lists with rows at and just beside one in 20 or
/// 100. No row qualifies in a list of fewer than 20 targets.
const HEADS: [usize; 8] = [19, 20, 37, 40, 98, 100, 197, 200];
const TAIL: usize = 8;

/// The bare ranking is tried on every length under this.
const LENGTHS: usize = 1_000;

/// Compares every call on `lists` random lists, and says whether nothing differed.
pub fn run(lists: u64) -> bool {
    let same = [spectrum_and_lines(lists), precursors::run(lists.div_ceil(10)), keys::run(LENGTHS)];
    same.iter().all(|same| *same)
}

/// Spectrum q-values and line checks, on the same lists.
fn spectrum_and_lines(lists: u64) -> bool {
    let (mut spectrum, mut lines) = (Spectrum::new(), Lines::new());
    let mut short = |labels: &[i32]| {
        let counted = Counted::new(labels);
        spectrum.check(labels, &counted);
        lines.all(labels, &counted);
    };
    each_pattern(0, EVERY, &mut short);
    HEADS.iter().for_each(|&head| each_pattern(head, TAIL, &mut short));
    let mut random = Random::new(4);
    let mut labels = Vec::new();
    for _ in 0..lists {
        random_labels(&mut random, &mut labels);
        let counted = Counted::new(&labels);
        spectrum.check(&labels, &counted);
        lines.some(&mut random, &labels, &counted);
    }
    match room_for(LONGEST * ROW_BYTES) {
        Ok(()) => longest(&mut random, &mut spectrum, &mut lines),
        Err(words) => spectrum.not_compared(format!("lists of {LONGEST} rows are not compared: {words}")),
    }
    spectrum.refusals();
    lines.refusals();
    let same = [spectrum.print(), lines.print()];
    same.iter().all(|same| *same)
}

/// Lists of 16,777,215 rows: at one in 100 and one in 20, one beside, and with a decoy rate that rises to a half.
fn longest(random: &mut Random, spectrum: &mut Spectrum, lines: &mut Lines) {
    let mut labels = Vec::with_capacity(LONGEST);
    for (per, first) in [(100, 100), (100, 99), (20, 20), (20, 19), (0, 0)] {
        labels.clear();
        match per {
            0 => rising(random, 32_768, LONGEST, &mut labels),
            _ => labels.extend(blocks(per, first, LONGEST)),
        }
        let counted = Counted::new(&labels);
        spectrum.check(&labels, &counted);
        lines.some(random, &labels, &counted);
    }
}

/// Ok where exactly the rows for which `passes` holds have a q-value at or under the rate.
fn expect_passing(q: &[f32], rate: f32, passes: impl Fn(usize) -> bool) -> Result<(), String> {
    match q.iter().enumerate().find(|(place, q)| (**q <= rate) != passes(*place)) {
        None => Ok(()),
        Some((place, q)) => {
            Err(format!("q at {place} is {q}, and by the right line it is on the wrong side of {rate}"))
        }
    }
}

/// A list in a report: its labels, or where it is long its runs of targets (T) and decoys (D).
fn described(labels: &[i32]) -> String {
    if labels.len() <= EVERY {
        return format!("{labels:?}");
    }
    let runs: Vec<&[i32]> = labels.chunk_by(|a, b| (*a == -1) == (*b == -1)).collect();
    let run = |run: &&[i32]| format!(" {}{}", if run[0] == -1 { 'D' } else { 'T' }, run.len());
    let more = if runs.len() > EVERY { " .." } else { "" };
    format!("{} rows{}{more}", labels.len(), runs.iter().take(EVERY).map(run).collect::<String>())
}
