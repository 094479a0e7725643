//! The lists of labels and scores that the counting calls are tried on.

use crate::cases::{partner, random_float, Random};

/// The longest list that a call accepts.
pub const LONGEST: usize = 16_777_215;

/// The longest random list.
const RANDOM_LONGEST: usize = 5_000;

/// Numbers that label a target. The last four hold -1 in some of their bytes.
const TARGETS: [i32; 9] = [1, 0, 7, -2, i32::MIN, i32::MAX, 255, 65_535, -65_536];

/// The number of infinity where zero is 0 and every next f32 is one more.
const INFINITE: i64 = 0x7f80_0000;

/// Scores that are equal only after narrowing, or not even then: zeros, infinities, NaNs and their neighbours.
const SPECIAL: [u64; 22] = [
    0x0000_0000_0000_0000, // 0
    0x8000_0000_0000_0000,
    0x0000_0000_0000_0001, // narrowed to 0
    0x8000_0000_0000_0001,
    0x3690_0000_0000_0000, // half the least f32, narrowed to 0
    0x3690_0000_0000_0001, // narrowed to the least f32
    0x36a0_0000_0000_0000, // the least f32
    0x3ff0_0000_0000_0000, // 1
    0x3ff0_0000_0000_0001, // narrowed to 1
    0x3ff0_0000_1000_0000, // the middle after 1, narrowed to 1
    0x3ff0_0000_1000_0001, // narrowed to the f32 after 1
    0xbff0_0000_0000_0000, // -1
    0x47ef_ffff_e000_0000, // the greatest f32
    0x47ef_ffff_efff_ffff, // narrowed to the greatest f32
    0x47ef_ffff_f000_0000, // narrowed to infinity
    0x7ff0_0000_0000_0000, // infinity
    0xfff0_0000_0000_0000,
    0x7ff8_0000_0000_0000, // NaN
    0xfff8_0000_0000_0000,
    0x7ff0_0000_0000_0001, // NaN, signalling, all of its digits lost in narrowing
    0xfff0_0000_0000_0001,
    0x7fff_ffff_ffff_ffff, // NaN
];

/// A label: -1 for a decoy, one of the numbers of a target by `turn`.
pub fn label(decoy: bool, turn: usize) -> i32 {
    match decoy {
        true => -1,
        false => TARGETS[turn % TARGETS.len()],
    }
}

/// Calls `check` with a run of `head` targets, followed by every pattern of up to `longest` decoys and targets.
pub fn each_pattern(head: usize, longest: usize, mut check: impl FnMut(&[i32])) {
    let mut labels = Vec::new();
    for length in 0..=longest {
        for pattern in 0..1usize << length {
            labels.clear();
            labels.extend((0..head).map(|place| label(false, place)));
            labels.extend((0..length).map(|place| label(pattern >> place & 1 == 1, pattern + place)));
            check(&labels);
        }
    }
}

/// Blocks of `per` targets and a decoy, the first block of `first` targets. Where `first` is `per`, the last target of
/// each block is exactly at one in `per`; with a target more or less every one is just beside it.
pub fn blocks(per: usize, first: usize, length: usize) -> impl Iterator<Item = i32> {
    (0..length).map(move |place| label(place >= first && (place - first) % (per + 1) == 0, place))
}

/// Labels whose decoy rate rises along the list, from 0 to `end` in 65,536.
pub fn rising(random: &mut Random, end: u64, length: usize, labels: &mut Vec<i32>) {
    for place in 0..length {
        let rate = end * place as u64 / length as u64;
        labels.push(label(random.below(65_536) < rate, place));
    }
}

/// A random list of up to 5,000 labels.
pub fn random_labels(random: &mut Random, labels: &mut Vec<i32>) {
    labels.clear();
    let length = random.below(RANDOM_LONGEST as u64 + 1) as usize;
    match random.below(4) {
        0 => flat(random, length, labels),
        1 => {
            let end = random.below(65_537);
            rising(random, end, length, labels);
        }
        2 => at_threshold(random, labels),
        _ => {
            let per = either(random);
            let first = per + random.below(3) as usize - 1;
            labels.extend(blocks(per, first, length));
        }
    }
}

/// 100 or 20.
fn either(random: &mut Random) -> usize {
    [100, 20][random.below(2) as usize]
}

/// Labels with one decoy rate: none, all, near one in 100, near one in 20, or any.
fn flat(random: &mut Random, length: usize, labels: &mut Vec<i32>) {
    let near = |random: &mut Random, rate: u64| rate / 2 + random.below(rate);
    let rate = match random.below(8) {
        0 => 0,
        1 => 65_536,
        2 | 3 => near(random, 655),
        4 | 5 => near(random, 3_277),
        _ => random.below(65_537),
    };
    labels.extend((0..length).map(|place| label(random.below(65_536) < rate, place)));
}

/// 100 k (or 20 k) targets and k - 1 decoys, or one more or less of each, in several orders, with a tail of any labels.
fn at_threshold(random: &mut Random, labels: &mut Vec<i32>) {
    let per = either(random);
    let k = 1 + random.below((RANDOM_LONGEST / (per + 1)) as u64) as usize;
    let targets = per * k + random.below(3) as usize - 1;
    let decoys = (k + random.below(3) as usize).saturating_sub(2);
    let (mut left, mut decoys_left) = (targets + decoys, decoys);
    let order = random.below(4);
    while left > 0 {
        let decoy = match order {
            0 => left <= decoys,
            1 => decoys_left > 0,
            // evenly
            2 => decoys_left * (targets + decoys) > left * decoys,
            _ => random.below(left as u64) < decoys_left as u64,
        };
        labels.push(label(decoy, left));
        left -= 1;
        decoys_left -= usize::from(decoy);
    }
    let tail = random.below(3) * random.below(60);
    labels.extend((0..tail as usize).map(|place| label(random.below(4) == 0, place)));
    labels.truncate(RANDOM_LONGEST);
}

/// Falling scores that differ as numbers after narrowing, none of them NaN: adjacent f32s, close ones, or ones from the
/// whole range, and sometimes both infinities.
pub fn distinct_scores(random: &mut Random, length: usize) -> Vec<f64> {
    let room = 2 * INFINITE as u64 + 1;
    let widest = room / length.max(1) as u64;
    let gap = [1, 1_000.min(widest), widest][random.below(3) as usize];
    let start = random.below(room - gap * length as u64 + 1) as i64 - INFINITE;
    let number = |place: usize, off: u64| start + (place as u64 * gap + off) as i64;
    let mut numbers: Vec<i64> = (0..length).rev().map(|place| number(place, random.below(gap))).collect();
    if length > 1 && random.below(4) == 0 {
        numbers[0] = INFINITE;
        numbers[length - 1] = -INFINITE;
    }
    numbers.into_iter().map(|number| narrowing_to(random, number)).collect()
}

/// An f64 that narrows to the f32 of this number: the f32 itself, or one up to the middle between it and the next.
fn narrowing_to(random: &mut Random, number: i64) -> f64 {
    let sign = u32::from(number < 0 || number == 0 && random.below(2) == 1) << 31;
    let exact = f32::from_bits(sign | number.unsigned_abs() as u32);
    let off = match random.below(3) {
        0 => 0,
        1 => random.below(1 << 29) as i64 - (1 << 28),
        _ => [-1 << 28, 1 << 28][random.below(2) as usize],
    };
    let beside = f64::from_bits(f64::from(exact).to_bits().wrapping_add_signed(off));
    match beside as f32 == exact {
        true => beside,
        false => exact.into(),
    }
}

/// Scores of which many are equal, with zeros, infinities and NaNs among them.
pub fn tied_scores(random: &mut Random, length: usize) -> Vec<f64> {
    let mut pool = Vec::new();
    for _ in 0..1 + random.below(40) {
        let last = *pool.last().unwrap_or(&1.0);
        pool.push(match random.below(4) {
            0 | 1 => f64::from_bits(SPECIAL[random.below(SPECIAL.len() as u64) as usize]),
            2 => random_float(random),
            _ => partner(random, last),
        });
    }
    (0..length).map(|_| pool[random.below(pool.len() as u64) as usize]).collect()
}

/// Puts labels and scores into one random order.
pub fn shuffle(random: &mut Random, labels: &mut [i32], scores: &mut [f64]) {
    for last in (1..labels.len()).rev() {
        let other = random.below(last as u64 + 1) as usize;
        labels.swap(last, other);
        scores.swap(last, other);
    }
}
