//! Module 1, float helpers, beside Rust's own `as`, floor, ceil, min, max and total_cmp.

use crate::cases::{each_pair, each_single, CasePlan, Float};
use crate::report::{Answer, Tally};
use std::cmp::Ordering;
use vayemuku_sys::*;

/// Compares every function, and says whether nothing differed.
pub fn run(plan: &CasePlan) -> bool {
    let lines = [
        one("narrow", plan, vayemuku_narrow, |x| x as f32),
        one("widen", plan, vayemuku_widen, |x| x as f64),
        one("f64_to_u64", plan, vayemuku_f64_to_u64, |x| x as u64),
        one("f32_to_u64", plan, vayemuku_f32_to_u64, |x| x as u64),
        one("f64_to_usize", plan, vayemuku_f64_to_usize, |x| x as usize),
        one("f32_to_usize", plan, vayemuku_f32_to_usize, |x| x as usize),
        one("floor_f64", plan, vayemuku_floor_f64, f64::floor),
        one("floor_f32", plan, vayemuku_floor_f32, f32::floor),
        one("ceil_f64", plan, vayemuku_ceil_f64, f64::ceil),
        one("ceil_f32", plan, vayemuku_ceil_f32, f32::ceil),
        extreme("min_f64", plan, vayemuku_min_f64, first_least, f64::min),
        extreme("min_f32", plan, vayemuku_min_f32, first_least, f32::min),
        extreme("max_f64", plan, vayemuku_max_f64, first_greatest, f64::max),
        extreme("max_f32", plan, vayemuku_max_f32, first_greatest, f32::max),
        total("total_cmp_f64", plan, vayemuku_total_cmp_f64, f64_order),
        total("total_cmp_f32", plan, vayemuku_total_cmp_f32, f32_order),
        keys("order_key_f64", plan, vayemuku_order_key_f64, f64_order),
        keys("order_key_f32", plan, vayemuku_order_key_f32, f32_order),
    ];
    lines.iter().all(|same| *same)
}

/// Rust's total order with every NaN replaced by the positive quiet one.
fn f64_order(a: f64, b: f64) -> Ordering {
    f64::of(a.canonical()).total_cmp(&f64::of(b.canonical()))
}

/// The same for f32.
fn f32_order(a: f32, b: f32) -> Ordering {
    f32::of(a.canonical()).total_cmp(&f32::of(b.canonical()))
}

/// The smaller of two, the first where they are equal; a NaN is ignored.
pub fn first_least<F: Float>(a: F, b: F) -> F {
    if a.partial_cmp(&a).is_none() || b < a {
        b
    } else {
        a
    }
}

/// The larger of two, the first where they are equal; a NaN is ignored.
pub fn first_greatest<F: Float>(a: F, b: F) -> F {
    if a.partial_cmp(&a).is_none() || b > a {
        b
    } else {
        a
    }
}

/// The words of a mismatch of a function of two floats.
fn describe<F: Float, R: Answer>(a: F, b: F, port: R, rust: R) -> String {
    format!("({}, {}) port {} Rust {}", a.hex(), b.hex(), port.hex(), rust.hex())
}

/// A function of one float.
fn one<F: Float, R: Answer>(
    name: &'static str,
    plan: &CasePlan,
    port: extern "C" fn(F) -> R,
    rust: impl Fn(F) -> R,
) -> bool {
    let mut tally = Tally::new(name);
    each_single(plan, |x: F| {
        let (got, wanted) = (port(x), rust(x));
        tally.count(got.same(wanted), || format!("({}) port {} Rust {}", x.hex(), got.hex(), wanted.hex()));
    });
    tally.print()
}

/// min or max: the port keeps to `rule` exactly; Rust's own gives the same, up to the sign where two zeros meet.
fn extreme<F: Float>(
    name: &'static str,
    plan: &CasePlan,
    port: extern "C" fn(F, F) -> F,
    rule: impl Fn(F, F) -> F,
    rust: impl Fn(F, F) -> F,
) -> bool {
    let mut tally = Tally::new(name);
    let zero = F::default();
    each_pair(plan, |a, b| {
        let (got, ruled, own) = (port(a, b), rule(a, b), rust(a, b));
        let zeros = a == zero && b == zero && own == zero;
        tally.count(got.same(ruled) && (zeros || got.same(own)), || {
            format!("{} rule {}", describe(a, b, got, own), ruled.hex())
        });
    });
    tally.print()
}

/// The total order: -1, 0 or 1.
fn total<F: Float>(
    name: &'static str,
    plan: &CasePlan,
    port: extern "C" fn(F, F) -> i32,
    rust: impl Fn(F, F) -> Ordering,
) -> bool {
    let mut tally = Tally::new(name);
    each_pair(plan, |a, b| {
        let (got, wanted) = (port(a, b), rust(a, b) as i32);
        tally.count(got == wanted, || describe(a, b, got, wanted));
    });
    tally.print()
}

/// Order keys: two keys compare as their floats do.
fn keys<F: Float, K: Answer + Ord>(
    name: &'static str,
    plan: &CasePlan,
    port: extern "C" fn(F) -> K,
    rust: impl Fn(F, F) -> Ordering,
) -> bool {
    let mut tally = Tally::new(name);
    let mut check = |a, b| {
        let (x, y) = (port(a), port(b));
        tally.count(x.cmp(&y) == rust(a, b), || format!("({}, {}) keys {} {}", a.hex(), b.hex(), x.hex(), y.hex()));
    };
    each_pair(plan, &mut check);
    if plan.exhaustive && F::DIGITS == 23 {
        // Each pattern with the next of its sign: together with the pairs of boundaries, that fixes the order of all.
        (0..F::SIGN - 1).for_each(|pattern| check(F::of(pattern), F::of(pattern + 1)));
        (F::SIGN..2 * F::SIGN - 1).for_each(|pattern| check(F::of(pattern), F::of(pattern + 1)));
    }
    tally.print()
}
