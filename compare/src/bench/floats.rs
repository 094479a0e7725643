//! Module 1: on both sides each call is one of a function that is not inlined.

use super::{head, side_by_side, ROUNDS};
use crate::cases::Random;
use crate::report::Answer;
use std::hint::black_box;
use vayemuku_sys::*;

const CALLS: usize = 1_000_000;

/// Rust's side of each function, kept from being inlined.
macro_rules! rust {
    ($($name:ident($($x:ident: $from:ty),+) -> $to:ty { $body:expr })+) => {
        $(#[inline(never)]
        extern "C" fn $name($($x: $from),+) -> $to {
            $body
        })+
    };
}

rust! {
    same_f64(x: f64) -> f64 { x }
    narrow(x: f64) -> f32 { x as f32 }
    widen(x: f32) -> f64 { x as f64 }
    f64_to_u64(x: f64) -> u64 { x as u64 }
    f32_to_u64(x: f32) -> u64 { x as u64 }
    f64_to_usize(x: f64) -> usize { x as usize }
    f32_to_usize(x: f32) -> usize { x as usize }
    floor_f64(x: f64) -> f64 { x.floor() }
    floor_f32(x: f32) -> f32 { x.floor() }
    ceil_f64(x: f64) -> f64 { x.ceil() }
    ceil_f32(x: f32) -> f32 { x.ceil() }
    min_f64(a: f64, b: f64) -> f64 { a.min(b) }
    min_f32(a: f32, b: f32) -> f32 { a.min(b) }
    max_f64(a: f64, b: f64) -> f64 { a.max(b) }
    max_f32(a: f32, b: f32) -> f32 { a.max(b) }
    total_cmp_f64(a: f64, b: f64) -> i32 { a.total_cmp(&b) as i32 }
    total_cmp_f32(a: f32, b: f32) -> i32 { a.total_cmp(&b) as i32 }
    order_key_f64(x: f64) -> u64 { x.to_bits() ^ ((x.to_bits() as i64 >> 63) as u64 | 1 << 63) }
    order_key_f32(x: f32) -> u32 { x.to_bits() ^ ((x.to_bits() as i32 >> 31) as u32 | 1 << 31) }
}

/// Times every function.
pub fn run() -> bool {
    let mut random = Random::new(3);
    // from -2^20 to 2^20, with random digits
    let f64s: Vec<f64> = (0..CALLS).map(|_| random.next() as i64 as f64 / 2f64.powi(43)).collect();
    let f32s: Vec<f32> = f64s.iter().map(|x| *x as f32).collect();
    println!("{CALLS} random floats from -2^20 to 2^20. Each call, on both sides, is one of a function that is not");
    println!("inlined; \"call alone\" is a function that gives back its argument. Rust has no order keys: beside");
    println!("them stands the bit rule of total_cmp.");
    head(&format!("ns per call, median of {ROUNDS} rounds"));
    let same: extern "C" fn(f64) -> f64 = black_box(same_f64);
    one("call alone", &f64s, |x| same(x), |x| same(x));
    one("narrow", &f64s, |x| vayemuku_narrow(x), |x| narrow(x));
    one("widen", &f32s, |x| vayemuku_widen(x), |x| widen(x));
    one("f64_to_u64", &f64s, |x| vayemuku_f64_to_u64(x), |x| f64_to_u64(x));
    one("f32_to_u64", &f32s, |x| vayemuku_f32_to_u64(x), |x| f32_to_u64(x));
    one("f64_to_usize", &f64s, |x| vayemuku_f64_to_usize(x), |x| f64_to_usize(x));
    one("f32_to_usize", &f32s, |x| vayemuku_f32_to_usize(x), |x| f32_to_usize(x));
    one("floor_f64", &f64s, |x| vayemuku_floor_f64(x), |x| floor_f64(x));
    one("floor_f32", &f32s, |x| vayemuku_floor_f32(x), |x| floor_f32(x));
    one("ceil_f64", &f64s, |x| vayemuku_ceil_f64(x), |x| ceil_f64(x));
    one("ceil_f32", &f32s, |x| vayemuku_ceil_f32(x), |x| ceil_f32(x));
    two("min_f64", &f64s, |a, b| vayemuku_min_f64(a, b), |a, b| min_f64(a, b));
    two("min_f32", &f32s, |a, b| vayemuku_min_f32(a, b), |a, b| min_f32(a, b));
    two("max_f64", &f64s, |a, b| vayemuku_max_f64(a, b), |a, b| max_f64(a, b));
    two("max_f32", &f32s, |a, b| vayemuku_max_f32(a, b), |a, b| max_f32(a, b));
    two("total_cmp_f64", &f64s, |a, b| vayemuku_total_cmp_f64(a, b), |a, b| total_cmp_f64(a, b));
    two("total_cmp_f32", &f32s, |a, b| vayemuku_total_cmp_f32(a, b), |a, b| total_cmp_f32(a, b));
    one("order_key_f64", &f64s, |x| vayemuku_order_key_f64(x), |x| order_key_f64(x));
    one("order_key_f32", &f32s, |x| vayemuku_order_key_f32(x), |x| order_key_f32(x));
    true
}

/// Times a function of one float. Every side has a loop of its own: one call with several targets is predicted worse.
fn one<A: Copy, R: Answer>(name: &str, inputs: &[A], port: impl Fn(A) -> R, rust: impl Fn(A) -> R) {
    side_by_side(
        name,
        inputs.len(),
        || inputs.iter().fold(0, |sum, &x| sum.wrapping_add(port(x).pattern())),
        || inputs.iter().fold(0, |sum, &x| sum.wrapping_add(rust(x).pattern())),
    );
}

/// Times a function of two floats on neighbouring inputs.
fn two<A: Copy, R: Answer>(name: &str, inputs: &[A], port: impl Fn(A, A) -> R, rust: impl Fn(A, A) -> R) {
    side_by_side(
        name,
        inputs.len() - 1,
        || inputs.windows(2).fold(0, |sum, x| sum.wrapping_add(port(x[0], x[1]).pattern())),
        || inputs.windows(2).fold(0, |sum, x| sum.wrapping_add(rust(x[0], x[1]).pattern())),
    );
}
