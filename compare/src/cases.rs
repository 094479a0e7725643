//! The floats that functions are tried on: every boundary of the format, then random bit patterns.

use crate::report::Answer;

/// How many random cases each function gets, and whether f32 functions get every pattern too.
pub struct CasePlan {
    pub cases: u64,
    pub exhaustive: bool,
}

impl CasePlan {
    /// Reads `--cases N` and `--exhaustive`.
    pub fn from_words(words: &[&str]) -> Option<CasePlan> {
        let mut plan = CasePlan { cases: 50_000_000, exhaustive: false };
        let mut words = words.iter();
        while let Some(&word) = words.next() {
            match word {
                "--cases" => plan.cases = words.next()?.parse().ok()?,
                "--exhaustive" => plan.exhaustive = true,
                _ => return None,
            }
        }
        Some(plan)
    }
}

/// The generator splitmix64.
pub struct Random(u64);

impl Random {
    /// The sequence of a seed.
    pub fn new(seed: u64) -> Self {
        Random(seed)
    }

    /// Any 64 bits.
    pub fn next(&mut self) -> u64 {
        self.0 = self.0.wrapping_add(0x9e37_79b9_7f4a_7c15);
        let mut z = self.0;
        z = (z ^ (z >> 30)).wrapping_mul(0xbf58_476d_1ce4_e5b9);
        z = (z ^ (z >> 27)).wrapping_mul(0x94d0_49bb_1331_11eb);
        z ^ (z >> 31)
    }

    /// A number under `end`.
    pub fn below(&mut self, end: u64) -> u64 {
        ((u128::from(self.next()) * u128::from(end)) >> 64) as u64
    }
}

/// A float's format, and its values by bit pattern.
pub trait Float: Answer + PartialOrd + Default {
    /// Stored digits of the significand.
    const DIGITS: u32;
    /// The exponent field of 1.0; twice that and one is the field of infinities and NaNs.
    const BIAS: u64;
    /// The sign bit.
    const SIGN: u64;

    /// The float with these bits.
    fn of(pattern: u64) -> Self;

    /// Boundaries that only this format has.
    fn own_boundaries() -> Vec<Self>;

    /// Random floats that only this format has.
    fn own_random(random: &mut Random) -> Self;

    /// The float with these fields; digits beyond the stored ones are dropped.
    fn pack(sign: u64, exponent: u64, digits: u64) -> Self {
        let stored = digits & ((1 << Self::DIGITS) - 1);
        Self::of((sign * Self::SIGN) | (exponent << Self::DIGITS) | stored)
    }
}

impl Float for f64 {
    const DIGITS: u32 = 52;
    const BIAS: u64 = 1023;
    const SIGN: u64 = 1 << 63;

    fn of(pattern: u64) -> f64 {
        f64::from_bits(pattern)
    }

    /// Every f32 boundary, and the middle after the first, middle and last f32s of every exponent, to two places.
    fn own_boundaries() -> Vec<f64> {
        let mut list: Vec<f64> = boundaries::<f32>(1).into_iter().map(f64::from).collect();
        for exponent in 0..255 {
            for digits in [0, 1, 2, 0x3f_ffff, 0x40_0000, 0x7f_fffe, 0x7f_ffff] {
                for off in -2..=2 {
                    let middle = middle_after(exponent << 23 | digits, off);
                    list.extend([middle, -middle]);
                }
            }
        }
        list
    }

    /// The middle after a random f32, or one place beside it; one in eight is subnormal.
    fn own_random(random: &mut Random) -> f64 {
        let exponent = random.below(255) * u64::from(random.below(8) != 0);
        let pattern = exponent << 23 | random.below(1 << 23);
        let middle = middle_after(pattern as u32, random.below(3) as i64 - 1);
        if random.below(2) == 0 {
            middle
        } else {
            -middle
        }
    }
}

impl Float for f32 {
    const DIGITS: u32 = 23;
    const BIAS: u64 = 127;
    const SIGN: u64 = 1 << 31;

    fn of(pattern: u64) -> f32 {
        f32::from_bits(pattern as u32)
    }

    fn own_boundaries() -> Vec<f32> {
        Vec::new()
    }

    /// Floats of moderate size, where f32 has a fraction or fits in a whole number.
    fn own_random(random: &mut Random) -> f32 {
        f32::pack(random.below(2), 117 + random.below(76), random.next())
    }
}

/// The middle between a positive f32 and the next (after the largest: 2^128), `off` f64 places further.
fn middle_after(pattern: u32, off: i64) -> f64 {
    let low = f64::from(f32::from_bits(pattern));
    let next = f64::from(f32::from_bits(pattern + 1));
    let high = if next.is_finite() { next } else { 2f64.powi(128) };
    let middle = (low + high) / 2.0;
    f64::from_bits(middle.to_bits().wrapping_add_signed(off))
}

/// Zeros, every `step`-th power of two and infinities, each with its neighbours one and two places either side, and
/// NaNs: quiet, signalling, with all digits; both signs.
pub fn boundaries<F: Float>(step: usize) -> Vec<F> {
    let infinite = 2 * F::BIAS + 1;
    let subnormal = (0..F::DIGITS).step_by(step).map(|digit| 1 << digit);
    let normal = (1..infinite).step_by(step).chain(F::BIAS - 2..F::BIAS + 66);
    let edges = [0, 1, 2, F::BIAS, infinite - 1, infinite];
    let centres = subnormal.chain(normal.chain(edges).map(|exponent| exponent << F::DIGITS));
    let mut patterns: Vec<u64> = centres.flat_map(|p: u64| p.saturating_sub(2)..=p + 2).collect();
    let quiet = infinite << F::DIGITS | 1 << (F::DIGITS - 1);
    patterns.extend([quiet - 1, quiet, quiet + 1, F::SIGN - 1]);
    patterns.sort_unstable();
    patterns.dedup();
    patterns.iter().flat_map(|&p| [F::of(p), F::of(p | F::SIGN)]).collect()
}

/// A float from 2^k to 2^(k+1) whose fraction is 0, a half, or one place beside a whole number or a half, by
/// `choice` under 6.
fn near_whole<F: Float>(sign: u64, k: u64, whole: u64, choice: u64) -> F {
    let unit = 1u64 << F::DIGITS.saturating_sub(k as u32);
    let half = unit >> 1;
    let fraction = [0, 1, half.saturating_sub(1), half, half + 1, unit - 1][choice as usize] % unit;
    F::pack(sign, F::BIAS + k, whole.wrapping_mul(unit) | fraction)
}

/// Every boundary that a function of one float is tried on.
fn single_boundaries<F: Float>() -> Vec<F> {
    let mut list = boundaries(1);
    list.extend(F::own_boundaries());
    for k in 0..66 {
        for whole in [0, 1, 2, u64::MAX - 1, u64::MAX] {
            for choice in 0..6 {
                list.extend([0, 1].map(|sign| near_whole::<F>(sign, k, whole, choice)));
            }
        }
    }
    list
}

/// One random float: any pattern, one in the range of f32, one near a whole number or one of the format's own.
pub fn random_float<F: Float>(random: &mut Random) -> F {
    let infinite = 2 * F::BIAS + 1;
    match random.below(4) {
        0 => F::of(random.next() & (F::SIGN | (F::SIGN - 1))),
        1 => {
            let exponent = F::BIAS.saturating_sub(152) + random.below(283);
            F::pack(random.below(2), exponent.min(infinite), random.next())
        }
        2 => near_whole(random.below(2), random.below(66), random.next(), random.below(6)),
        _ => F::own_random(random),
    }
}

/// A second float: unrelated, up to two places beside the first, or the first with the other sign.
pub fn partner<F: Float>(random: &mut Random, first: F) -> F {
    match random.below(4) {
        0 | 1 => random_float(random),
        2 => {
            let off = random.below(5) as i64 - 2;
            F::of(first.pattern().wrapping_add_signed(off) & (F::SIGN | (F::SIGN - 1)))
        }
        _ => F::of(first.pattern() ^ F::SIGN),
    }
}

/// Calls `check` with every boundary, then with the planned number of random floats, then with every f32 where planned.
pub fn each_single<F: Float>(plan: &CasePlan, mut check: impl FnMut(F)) {
    single_boundaries().into_iter().for_each(&mut check);
    let mut random = Random::new(1);
    for _ in 0..plan.cases {
        check(random_float(&mut random));
    }
    if plan.exhaustive && F::DIGITS == 23 {
        (0..1 << 32).for_each(|pattern| check(F::of(pattern)));
    }
}

/// Calls `check` with all pairs of a list of boundaries, then with the planned number of random pairs.
pub fn each_pair<F: Float>(plan: &CasePlan, mut check: impl FnMut(F, F)) {
    let list = boundaries::<F>(if F::DIGITS == 23 { 1 } else { 8 });
    for &a in &list {
        for &b in &list {
            check(a, b);
        }
    }
    let mut random = Random::new(2);
    for _ in 0..plan.cases {
        let a = random_float(&mut random);
        check(a, partner(&mut random, a));
    }
}
