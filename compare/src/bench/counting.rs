//! Modules 5 and 6: spectrum q-values, precursors and the bare ranking, one thread on either side.

use super::{head, in_rounds, nanoseconds, ROUNDS};
use crate::calls::{picked_precursor, spectrum_q_value};
use crate::cases::Random;
use crate::lists::{rising, shuffle, LONGEST};
use crate::report::{expect, expect_column};
use crate::sage::{peaks, q_of, room_for, SageRows, PEAK_BYTES, ROW_BYTES};
use sage_core::scoring::Feature;
use sage_core::{fdr, ml::qvalue};
use vayemuku_sys::{rank_keys, vayemuku_order_key_f32, RankingColumns};

/// Numbers of rows, and of rounds.
const SIZES: [(usize, usize); 2] = [(1_000_000, ROUNDS), (LONGEST, 3)];

/// Numbers of keys of the bare ranking, and of rounds.
const RANKED: [(usize, usize); 4] = [(1_000, 1_001), (100_000, 101), (1_000_000, ROUNDS), (LONGEST, 3)];

/// Rust's sorts beside the bare ranking.
const SORTS: [(&str, Sort); 2] = [("sort", <[u64]>::sort), ("sort_unstable", <[u64]>::sort_unstable)];

/// A sort of keys.
type Sort = fn(&mut [u64]);

/// Times a call under a name, at a number of rows, in a number of rounds.
type Timed = fn(&str, usize, usize) -> Result<(), String>;

/// Times every call at every size; false where both sides do not give the same.
pub fn run() -> bool {
    println!("One thread on either side.");
    println!("spectrum: sage walks rows of {} bytes, the port columns of labels and q-values.", size_of::<Feature>());
    println!("precursors: scores in random order. sage reads an FnvHashMap of peaks, makes one of q-values and looks");
    println!("every peak up in it; that is part of its time.");
    println!(
        "ranking: keys of 64 bits (random score, then place), beside Rust's sorts of the same keys. Each run has a"
    );
    println!(
        "fresh copy of them, made before the clock starts. The port is given its spare column; sort makes a buffer of"
    );
    println!("its own, which is part of its time, and sort_unstable needs none.");
    let rounds = |sizes: &[(usize, usize)]| -> String {
        let words = |(rows, rounds): &(usize, usize)| format!("{rounds} rounds at {rows}");
        sizes.iter().map(words).collect::<Vec<_>>().join(", ")
    };
    head(&format!("ns per row, medians; {}; ranking {}", rounds(&SIZES), rounds(&RANKED)));
    let calls: [(&str, Timed); 2] = [("spectrum", spectrum), ("precursors", precursors)];
    let mut same = true;
    let mut note = |name: &str, outcome: Result<(), String>| {
        if let Err(words) = outcome {
            println!("{name}: {words}");
            same = false;
        }
    };
    for (call, time) in calls {
        for (rows, rounds) in SIZES {
            let name = format!("{call}, {rows}");
            note(&name, time(&name, rows, rounds));
        }
    }
    for (keys, rounds) in RANKED {
        let unsorted = keys_of_scores(keys);
        for (sort, by) in SORTS {
            let name = format!("ranking, {keys}, {sort}");
            note(&name, ranking(&name, &unsorted, rounds, by));
        }
    }
    same
}

/// Labels of a list whose decoy rate rises to a half.
fn labels_as_ranked(random: &mut Random, rows: usize) -> Vec<i32> {
    let mut labels = Vec::with_capacity(rows);
    rising(random, 32_768, rows, &mut labels);
    labels
}

/// Falling scores under 1 that narrow to adjacent f32s, with random digits beyond f32's.
fn falling_scores(random: &mut Random, rows: usize) -> Vec<f64> {
    let narrowed = (0..rows as u32).map(|place| f32::from_bits(1f32.to_bits() - 1 - place));
    narrowed.map(|x| f64::from_bits(f64::from(x).to_bits() + random.below(1 << 28))).collect()
}

/// Spectrum q-values.
fn spectrum(name: &str, rows: usize, rounds: usize) -> Result<(), String> {
    room_for(rows * ROW_BYTES)?;
    let labels = labels_as_ranked(&mut Random::new(8), rows);
    let mut sage = SageRows::default();
    let features = sage.labelled(&labels);
    let mut q = vec![0.0; rows];
    let (mut port_count, mut sage_count) = (0, 0);
    let mut port = || {
        port_count = spectrum_q_value(&labels, &mut q).1;
        port_count as u64
    };
    let mut rust = || {
        sage_count = qvalue::spectrum_q_value(features);
        sage_count as u64
    };
    in_rounds(name, rounds, rows, || nanoseconds(&mut port), || nanoseconds(&mut rust));
    expect("count", port_count, sage_count)?;
    expect_column("q", &q, features.iter().map(|row| row.spectrum_q))
}

/// Precursors' q-values.
fn precursors(name: &str, rows: usize, rounds: usize) -> Result<(), String> {
    room_for(rows * PEAK_BYTES)?;
    let mut random = Random::new(9);
    let mut labels = labels_as_ranked(&mut random, rows);
    let mut scores = falling_scores(&mut random, rows);
    shuffle(&mut random, &mut labels, &mut scores);
    let mut sage = peaks(&labels, &scores);
    let (mut keys, mut spare, mut q) = (vec![0; rows], vec![0; rows], vec![0.0; rows]);
    let (mut port_count, mut sage_count) = (0, 0);
    let mut port = || {
        let ranking = RankingColumns { keys: &mut keys, spare: &mut spare, q: &mut q };
        port_count = picked_precursor(&labels, &scores, ranking).1;
        port_count as u64
    };
    let mut rust = || {
        sage_count = fdr::picked_precursor(&mut sage);
        sage_count as u64
    };
    in_rounds(name, rounds, rows, || nanoseconds(&mut port), || nanoseconds(&mut rust));
    expect("count", port_count, sage_count)?;
    expect_column("q", &q, q_of(&sage, &labels))
}

/// Keys of random scores, in the order of their places.
fn keys_of_scores(count: usize) -> Vec<u64> {
    let mut random = Random::new(10);
    // from -2^20 to 2^20, with random digits
    let score = |_| (random.next() as i64 as f64 / 2f64.powi(43)) as f32;
    let key = |(score, place)| u64::from(u32::MAX - vayemuku_order_key_f32(score)) << 32 | place;
    (0..count).map(score).zip(0..).map(key).collect()
}

/// The bare ranking, beside one of Rust's sorts.
fn ranking(name: &str, unsorted: &[u64], rounds: usize, sort: Sort) -> Result<(), String> {
    let (mut keys, mut sorted) = (unsorted.to_vec(), unsorted.to_vec());
    let mut spare = vec![0; unsorted.len()];
    let port = || {
        keys.copy_from_slice(unsorted);
        nanoseconds(&mut || rank_keys(&mut keys, &mut spare).number.into())
    };
    let rust = || {
        sorted.copy_from_slice(unsorted);
        nanoseconds(&mut || {
            sort(&mut sorted);
            sorted[0]
        })
    };
    in_rounds(name, rounds, unsorted.len(), port, rust);
    expect_column("key", &keys, sorted.iter().copied())
}
