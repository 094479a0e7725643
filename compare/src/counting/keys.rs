//! The bare ranking beside Rust's sort of whole numbers.

use crate::cases::Random;
use crate::lists::LONGEST;
use crate::report::{expect, expect_all, expect_column, Tally};
use vayemuku_sys::rank_keys;

/// The contents of a working column before a call.
const GARBAGE: u64 = 0x5a5a_5a5a_5a5a_5a5a;

/// Compares columns of every length under `columns`, of lengths beside powers of two and of the greatest length, and
/// refusals; says whether nothing differed.
pub fn run(columns: usize) -> bool {
    let mut tally = Tally::new("rank_keys");
    let mut random = Random::new(7);
    let beside_powers = (1..20).flat_map(|k| [(1 << k) - 1, 1 << k, (1 << k) + 1]);
    for length in (0..columns).chain(beside_powers).chain([LONGEST]) {
        tally.outcome(compared(random_keys(&mut random, length)));
    }
    let long = LONGEST + 1;
    for (keys, spare, wanted) in
        [(0, 1, 2), (5, 4, 2), (5, 6, 2), (5, 0, 2), (3, long, 2), (long, 3, 1), (long, long, 1)]
    {
        tally.outcome(refused(keys, spare, wanted));
    }
    tally.print()
}

/// Keys are returned in ascending order, and the working column holds 0.
fn compared(mut keys: Vec<u64>) -> Result<(), String> {
    let mut wanted = keys.clone();
    wanted.sort_unstable();
    let mut spare = vec![GARBAGE; keys.len()];
    let number = rank_keys(&mut keys, &mut spare).number;
    expect("number", number, 0)
        .and_then(|()| expect_column("key", &keys, wanted.into_iter()))
        .and_then(|()| expect_all("spare afterwards", &spare, 0))
        .map_err(|fault| format!("{fault}, of {} keys", keys.len()))
}

/// Columns of these lengths are refused; the keys are then as they came, and the working column holds 0.
fn refused(keys: usize, spare: usize, wanted: u32) -> Result<(), String> {
    let came: Vec<u64> = (0..keys as u64).rev().collect();
    let (mut keys, mut spare) = (came.clone(), vec![GARBAGE; spare]);
    let number = rank_keys(&mut keys, &mut spare).number;
    expect("number", number, wanted)
        .and_then(|()| expect_column("key afterwards", &keys, came.into_iter()))
        .and_then(|()| expect_all("spare afterwards", &spare, 0))
        .map_err(|fault| format!("{fault}, lengths {} and {}", keys.len(), spare.len()))
}

/// Keys: any, few different ones, ones with the greatest first and the least last, or ones that rise or fall already.
fn random_keys(random: &mut Random, length: usize) -> Vec<u64> {
    let kind = random.below(5);
    let end = if kind == 1 { 1 + random.below(20) } else { u64::MAX };
    let mut keys: Vec<u64> = (0..length).map(|_| random.below(end)).collect();
    if kind == 2 && length > 1 {
        keys[0] = u64::MAX;
        keys[length - 1] = 0;
    }
    if kind > 2 {
        keys.sort_unstable();
    }
    if kind == 4 {
        keys.reverse();
    }
    keys
}
