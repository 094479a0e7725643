//! The declarations: the calls that cannot refuse, and those that can, each in the order of include/vayemuku.h. A
//! column is a pointer and a length.

use std::fmt::{Display, Formatter};

/// What a call that can refuse returned.
#[derive(Clone, Copy, Debug, PartialEq, Eq)]
#[must_use]
pub struct Returned {
    /// The call.
    pub call: Call,
    /// 0 where it accepted, otherwise the number of its refusal.
    pub number: u32,
}

/// Declares calls that can refuse. Each one becomes a function as C has it, a variant of [`Call`], and a function of
/// the module `named`, which returns the number with the variant.
macro_rules! refusing_calls {
    ($($(#[$doc:meta])* $call:ident: fn $name:ident($($parameter:ident: $type:ty),* $(,)?) -> u32;)*) => {
        unsafe extern "C" {
            $($(#[$doc])* pub fn $name($($parameter: $type),*) -> u32;)*
        }

        /// A call that can refuse.
        #[derive(Clone, Copy, Debug, PartialEq, Eq, Hash)]
        pub enum Call {
            $($(#[$doc])* $call,)*
        }

        impl Call {
            /// Every call, in the order of the header.
            pub const ALL: &'static [Call] = &[$(Call::$call),*];

            /// The name in include/vayemuku.h.
            pub const fn name(self) -> &'static str {
                match self {
                    $(Call::$call => stringify!($name),)*
                }
            }
        }

        #[allow(clippy::too_many_arguments)]
        pub(crate) mod named {
            use super::{Call, Returned};
            $(pub unsafe fn $name($($parameter: $type),*) -> Returned {
                // SAFETY: the caller's arguments are those that the declaration asks for.
                Returned { call: Call::$call, number: unsafe { super::$name($($parameter),*) } }
            })*
        }
    };
}

impl Display for Call {
    fn fmt(&self, to: &mut Formatter<'_>) -> std::fmt::Result {
        to.write_str(self.name())
    }
}

/// Module 4: the number of bins that sage's builder starts with.
pub const VAYEMUKU_BINS: usize = 1000;

/// Module 5: the slot of a row that takes no part.
pub const VAYEMUKU_NO_PART: u32 = 4_294_967_295;

// module 1, and the calls of modules 3 and 4 that cannot refuse
unsafe extern "C" {
    /// Rust's `x as f32`: the nearest f32, ties to even.
    pub safe fn vayemuku_narrow(x: f64) -> f32;
    /// Rust's `x as f64`.
    pub safe fn vayemuku_widen(x: f32) -> f64;
    /// Rust's `x as u64`.
    pub safe fn vayemuku_f64_to_u64(x: f64) -> u64;
    /// Rust's `x as u64`.
    pub safe fn vayemuku_f32_to_u64(x: f32) -> u64;
    /// Rust's `x as usize`.
    pub safe fn vayemuku_f64_to_usize(x: f64) -> usize;
    /// Rust's `x as usize`.
    pub safe fn vayemuku_f32_to_usize(x: f32) -> usize;
    /// The greatest whole number not above x.
    pub safe fn vayemuku_floor_f64(x: f64) -> f64;
    /// The greatest whole number not above x.
    pub safe fn vayemuku_floor_f32(x: f32) -> f32;
    /// The least whole number not below x.
    pub safe fn vayemuku_ceil_f64(x: f64) -> f64;
    /// The least whole number not below x.
    pub safe fn vayemuku_ceil_f32(x: f32) -> f32;
    /// A whole number; two of them compare as their floats do under total_cmp.
    pub safe fn vayemuku_order_key_f64(x: f64) -> u64;
    /// A whole number; two of them compare as their floats do under total_cmp.
    pub safe fn vayemuku_order_key_f32(x: f32) -> u32;
    /// Rust's `a.min(b)`; of two zeros the first is kept.
    pub safe fn vayemuku_min_f64(a: f64, b: f64) -> f64;
    /// Rust's `a.min(b)`; of two zeros the first is kept.
    pub safe fn vayemuku_min_f32(a: f32, b: f32) -> f32;
    /// Rust's `a.max(b)`; of two zeros the first is kept.
    pub safe fn vayemuku_max_f64(a: f64, b: f64) -> f64;
    /// Rust's `a.max(b)`; of two zeros the first is kept.
    pub safe fn vayemuku_max_f32(a: f32, b: f32) -> f32;
    /// Rust's `a.total_cmp(&b)` with one NaN, as -1, 0 or 1.
    pub safe fn vayemuku_total_cmp_f64(a: f64, b: f64) -> i32;
    /// Rust's `a.total_cmp(&b)` with one NaN, as -1, 0 or 1.
    pub safe fn vayemuku_total_cmp_f32(a: f32, b: f32) -> i32;
    /// The score of one row, from twenty coefficients and twenty features.
    pub fn vayemuku_score(coefficients: *const f64, row: *const f64) -> f64;
    /// How many bins sage's builder starts with.
    pub safe fn vayemuku_default_bins() -> usize;
    /// The log10 of a posterior error, narrowed, with -324 for an infinity.
    pub safe fn vayemuku_log_error(log10: f64) -> f32;
}

refusing_calls! {
    /// Module 2: the answer of a system of 1 to 20 equations.
    Solve: fn vayemuku_solve(left: *const [f64; 20], right: *const f64, size: usize, values: *mut f64) -> u32;

    /// Module 3: the coefficients of a fit.
    Train: fn vayemuku_train(
        features: *const f64,
        features_len: usize,
        labels: *const i32,
        labels_len: usize,
        coefficients: *mut f64,
    ) -> u32;

    /// Module 3: the score of every row.
    ScoreRows: fn vayemuku_score_rows(
        coefficients: *const f64,
        features: *const f64,
        features_len: usize,
        scores: *mut f64,
        scores_len: usize,
        narrowed: *mut f32,
        narrowed_len: usize,
    ) -> u32;

    /// Module 4: the least score, the step, and the score of every bin.
    BinScores: fn vayemuku_bin_scores(
        bin_count: usize,
        scores: *const f64,
        scores_len: usize,
        bin_scores: *mut f64,
        bin_scores_len: usize,
        min_score: *mut f64,
        score_step: *mut f64,
    ) -> u32;

    /// Module 4: the bins of an estimator, from labels and two densities.
    PosteriorBins: fn vayemuku_posterior_bins(
        monotonic: u32,
        bin_count: usize,
        labels: *const i32,
        labels_len: usize,
        decoy_density: *const f64,
        decoy_density_len: usize,
        target_density: *const f64,
        target_density_len: usize,
        bins: *mut f64,
        bins_len: usize,
    ) -> u32;

    /// Module 4: the bins of an estimator, from a competition's slots and two densities.
    SlotPosteriorBins: fn vayemuku_slot_posterior_bins(
        monotonic: u32,
        bin_count: usize,
        is_decoy: *const u32,
        is_decoy_len: usize,
        decoy_density: *const f64,
        decoy_density_len: usize,
        target_density: *const f64,
        target_density_len: usize,
        bins: *mut f64,
        bins_len: usize,
    ) -> u32;

    /// Module 4: the posterior error of a score.
    PosteriorError: fn vayemuku_posterior_error(
        min_score: f64,
        score_step: f64,
        bins: *const f64,
        bins_len: usize,
        score: f64,
        error: *mut f64,
    ) -> u32;

    /// Module 4: the posterior error of every score.
    PosteriorErrors: fn vayemuku_posterior_errors(
        min_score: f64,
        score_step: f64,
        bins: *const f64,
        bins_len: usize,
        scores: *const f64,
        scores_len: usize,
        errors: *mut f64,
        errors_len: usize,
    ) -> u32;

    /// Module 4: the number of bins for mass errors within a tolerance.
    BinCount: fn vayemuku_bin_count(unit: u32, lo: f32, hi: f32, bin_count: *mut usize) -> u32;

    /// Module 4: the log10 of every posterior error, narrowed, with -324 for an infinity.
    LogErrors: fn vayemuku_log_errors(
        log10s: *const f64,
        log10s_len: usize,
        errors: *mut f32,
        errors_len: usize,
    ) -> u32;

    /// Module 5: the competition table in which no side is seen.
    FreshTable: fn vayemuku_fresh_table(
        forward: *mut f32,
        forward_len: usize,
        reverse: *mut f32,
        reverse_len: usize,
        forward_seen: *mut u32,
        forward_seen_len: usize,
        reverse_seen: *mut u32,
        reverse_seen_len: usize,
    ) -> u32;

    /// Module 5: adds a batch of rows to a competition table.
    AddRows: fn vayemuku_add_rows(
        slots: *const u32,
        slots_len: usize,
        labels: *const i32,
        labels_len: usize,
        scores: *const f32,
        scores_len: usize,
        forward: *mut f32,
        forward_len: usize,
        reverse: *mut f32,
        reverse_len: usize,
        forward_seen: *mut u32,
        forward_seen_len: usize,
        reverse_seen: *mut u32,
        reverse_seen_len: usize,
    ) -> u32;

    /// Module 5: the score of every slot, and who wins it.
    Winners: fn vayemuku_winners(
        forward: *const f32,
        forward_len: usize,
        reverse: *const f32,
        reverse_len: usize,
        forward_seen: *const u32,
        forward_seen_len: usize,
        reverse_seen: *const u32,
        reverse_seen_len: usize,
        scores: *mut f32,
        scores_len: usize,
        is_decoy: *mut u32,
        is_decoy_len: usize,
    ) -> u32;

    /// Module 5: the q-values of rows by their slots' names.
    AssignQValue: fn vayemuku_assign_q_value(
        two_names: u32,
        min_score: f64,
        score_step: f64,
        bins: *const f64,
        bins_len: usize,
        forward: *const f32,
        forward_len: usize,
        reverse: *const f32,
        reverse_len: usize,
        forward_seen: *const u32,
        forward_seen_len: usize,
        reverse_seen: *const u32,
        reverse_seen_len: usize,
        slots: *const u32,
        slots_len: usize,
        labels: *const i32,
        labels_len: usize,
        keys: *mut u64,
        keys_len: usize,
        spare: *mut u64,
        spare_len: usize,
        q: *mut f32,
        q_len: usize,
        count: *mut usize,
    ) -> u32;

    /// Module 6: the q-values of a ranked list of spectra.
    SpectrumQValue: fn vayemuku_spectrum_q_value(
        labels: *const i32,
        labels_len: usize,
        q: *mut f32,
        q_len: usize,
        count: *mut usize,
    ) -> u32;

    /// Module 6: the q-values of precursors.
    PickedPrecursor: fn vayemuku_picked_precursor(
        labels: *const i32,
        labels_len: usize,
        scores: *const f64,
        scores_len: usize,
        keys: *mut u64,
        keys_len: usize,
        spare: *mut u64,
        spare_len: usize,
        q: *mut f32,
        q_len: usize,
        count: *mut usize,
    ) -> u32;

    /// Module 6: the place of the precursor at each rank.
    PrecursorOrder: fn vayemuku_precursor_order(
        scores: *const f64,
        scores_len: usize,
        keys: *mut u64,
        keys_len: usize,
        spare: *mut u64,
        spare_len: usize,
        order: *mut u32,
        order_len: usize,
    ) -> u32;

    /// Modules 5 and 6: the ranking alone.
    RankKeys: fn vayemuku_rank_keys(keys: *mut u64, keys_len: usize, spare: *mut u64, spare_len: usize) -> u32;

    /// Module 7: whether a line is right at one in 100.
    CheckLine100: fn vayemuku_check_line_100(
        labels: *const i32,
        labels_len: usize,
        line: usize,
        right: *mut u32,
        row: *mut usize,
        decoys_plus_one: *mut usize,
        targets: *mut usize,
    ) -> u32;

    /// Module 7: whether a line is right at one in 20.
    CheckLine20: fn vayemuku_check_line_20(
        labels: *const i32,
        labels_len: usize,
        line: usize,
        right: *mut u32,
        row: *mut usize,
        decoys_plus_one: *mut usize,
        targets: *mut usize,
    ) -> u32;

    /// Modules 6 and 7: the q-values of spectra, and the check of their line at one in 100.
    CheckedSpectra: fn vayemuku_checked_spectra(
        labels: *const i32,
        labels_len: usize,
        q: *mut f32,
        q_len: usize,
        right: *mut u32,
        row: *mut usize,
        decoys_plus_one: *mut usize,
        targets: *mut usize,
    ) -> u32;

    /// Modules 6 and 7: the q-values and the order of precursors, and the check of their line at one in 20.
    CheckedPrecursors: fn vayemuku_checked_precursors(
        labels: *const i32,
        labels_len: usize,
        scores: *const f64,
        scores_len: usize,
        keys: *mut u64,
        keys_len: usize,
        spare: *mut u64,
        spare_len: usize,
        ranked: *mut i32,
        ranked_len: usize,
        order: *mut u32,
        order_len: usize,
        q: *mut f32,
        q_len: usize,
        right: *mut u32,
        row: *mut usize,
        decoys_plus_one: *mut usize,
        targets: *mut usize,
    ) -> u32;
}
