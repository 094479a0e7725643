//! Sage's false-discovery arithmetic, proved: safe calls of libvayemuku.a.
//!
//! A column is a slice. A call returns its results, which this call worked out, or its refusal: [`Refused`], which is
//! the call and a [`Refusal`].
//!
//! ```
//! use vayemuku::{checked_spectra, Line};
//!
//! // 100 targets and a decoy, the best row first: 100 rows pass at one in 100, and the line after them is right.
//! let mut labels = vec![1; 100];
//! labels.push(-1);
//! let checked = checked_spectra(&labels)?;
//! assert_eq!(checked.q_values.count, 100);
//! assert!(matches!(checked.line, Line::Right(_)));
//! # Ok::<(), vayemuku::Refused>(())
//! ```
//!
//! There is no way to read a result of a call that refused. This does not compile:
//!
//! ```compile_fail
//! let count = vayemuku::spectrum_q_value(&[1]).count;
//! ```
//!
//! [`rescoring::rescore`] makes the calls in the order of sage's score_psms, spectrum_q_value and picked_protein. What
//! the port leaves to the host is here too: the logarithms in [`features`], the kernel in [`kernel`]. The package
//! `vayemuku-sys` has the declarations, and all unsafe code.

#![forbid(unsafe_code)]

mod checked;
mod competition;
mod counting;
mod discriminant;
pub mod features;
pub mod floats;
mod gauss;
pub mod kernel;
mod line;
mod posterior;
mod refusal;
pub mod rescoring;

pub use checked::{checked_precursors, checked_spectra, CheckedPrecursors, CheckedSpectra};
pub use competition::{CompetitionTable, Names, Winners, NO_PART};
pub use counting::{picked_precursor, precursor_order, rank_keys, spectrum_q_value, QValues, LONGEST};
pub use discriminant::{Model, Scores};
pub use features::Psm;
pub use gauss::{solve, FEATURES};
pub use kernel::Densities;
pub use line::{check_line, Counts, Line, Rate};
pub use posterior::{log_error, log_errors, BinScores, Builder, Estimator, Tolerance, MOST_BINS};
pub use refusal::{Refusal, Refused};
pub use vayemuku_sys::Call;
