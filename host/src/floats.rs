//! Module 1: float helpers. Each has an answer for every float.

use std::cmp::Ordering;
use vayemuku_sys as sys;

/// The nearest f32, ties to even: Rust's `x as f32`.
pub fn narrow(x: f64) -> f32 {
    sys::vayemuku_narrow(x)
}

/// The same number: Rust's `x as f64`.
pub fn widen(x: f32) -> f64 {
    sys::vayemuku_widen(x)
}

/// Toward zero and saturating, 0 for a NaN: Rust's `x as u64`.
pub fn f64_to_u64(x: f64) -> u64 {
    sys::vayemuku_f64_to_u64(x)
}

/// Toward zero and saturating, 0 for a NaN: Rust's `x as u64`.
pub fn f32_to_u64(x: f32) -> u64 {
    sys::vayemuku_f32_to_u64(x)
}

/// Toward zero and saturating, 0 for a NaN: Rust's `x as usize`.
pub fn f64_to_usize(x: f64) -> usize {
    sys::vayemuku_f64_to_usize(x)
}

/// Toward zero and saturating, 0 for a NaN: Rust's `x as usize`.
pub fn f32_to_usize(x: f32) -> usize {
    sys::vayemuku_f32_to_usize(x)
}

/// The greatest whole number not above x.
pub fn floor_f64(x: f64) -> f64 {
    sys::vayemuku_floor_f64(x)
}

/// The greatest whole number not above x.
pub fn floor_f32(x: f32) -> f32 {
    sys::vayemuku_floor_f32(x)
}

/// The least whole number not below x.
pub fn ceil_f64(x: f64) -> f64 {
    sys::vayemuku_ceil_f64(x)
}

/// The least whole number not below x.
pub fn ceil_f32(x: f32) -> f32 {
    sys::vayemuku_ceil_f32(x)
}

/// A whole number; two of them compare as their floats do under total_cmp.
pub fn order_key_f64(x: f64) -> u64 {
    sys::vayemuku_order_key_f64(x)
}

/// A whole number; two of them compare as their floats do under total_cmp.
pub fn order_key_f32(x: f32) -> u32 {
    sys::vayemuku_order_key_f32(x)
}

/// The smaller; a NaN is ignored, and of two zeros the first is kept.
pub fn min_f64(a: f64, b: f64) -> f64 {
    sys::vayemuku_min_f64(a, b)
}

/// The smaller; a NaN is ignored, and of two zeros the first is kept.
pub fn min_f32(a: f32, b: f32) -> f32 {
    sys::vayemuku_min_f32(a, b)
}

/// The larger; a NaN is ignored, and of two zeros the first is kept.
pub fn max_f64(a: f64, b: f64) -> f64 {
    sys::vayemuku_max_f64(a, b)
}

/// The larger; a NaN is ignored, and of two zeros the first is kept.
pub fn max_f32(a: f32, b: f32) -> f32 {
    sys::vayemuku_max_f32(a, b)
}

/// Rust's `a.total_cmp(&b)`, with every NaN the one above all.
pub fn total_cmp_f64(a: f64, b: f64) -> Ordering {
    sys::vayemuku_total_cmp_f64(a, b).cmp(&0)
}

/// Rust's `a.total_cmp(&b)`, with every NaN the one above all.
pub fn total_cmp_f32(a: f32, b: f32) -> Ordering {
    sys::vayemuku_total_cmp_f32(a, b).cmp(&0)
}
