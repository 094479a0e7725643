//! Module 1.

use super::check;
use std::hint::black_box;
use vayemuku_sys::{vayemuku_f64_to_u64, vayemuku_narrow};

/// The lines of the module.
pub fn lines() -> Vec<bool> {
    // halfway between f32::MAX and 2^128, and the f64 before it
    let (halfway, before) = (3.4028235677973366e38, 3.4028235677973362e38);
    let (narrow, whole) = (|x| black_box(x) as f32, |x| black_box::<f64>(x) as u64);
    let largest = "[3.4028235e38, inf]";
    let cut = "[1, 18446744073709551615]";
    vec![
        check(
            "3.4028235677973362E38 and 3.4028235677973366E38 narrowed",
            ([before, halfway].map(narrow), largest),
            ([before, halfway].map(|x| vayemuku_narrow(x)), largest),
        ),
        check(
            "1.5 and infinity as whole numbers",
            ([1.5, f64::INFINITY].map(whole), cut),
            ([1.5, f64::INFINITY].map(|x| vayemuku_f64_to_u64(x)), cut),
        ),
    ]
}
