//! The calls of libvayemuku.a: as include/vayemuku.h declares them, and safely over slices.
//!
//! The declarations of this crate are compared with the header by its test `header`. A call that can refuse is in
//! [`Call`], and over slices it returns its number together with its name, as [`Returned`]. What each call computes,
//! and which numbers it refuses with, is said in the header.
//!
//! ```
//! use vayemuku_sys::{spectrum_q_value, Call, Returned};
//! let (mut q, mut count) = ([0.5; 2], 7);
//! let returned = spectrum_q_value(&[1, -1, 1], &mut q, &mut count);
//! assert_eq!(returned, Returned { call: Call::SpectrumQValue, number: 2 });
//! assert!(q.iter().all(|q| q.is_nan()) && count == 0);
//! ```

mod calls;
mod declared;

pub use calls::*;
pub use declared::*;
