//! posterior_bins and slot_posterior_bins on any densities, also ones that no kernel gives, beside the lines of
//! Builder::build.

use super::buffers::Buffer;
use super::builds::expect_up_to_zero;
use super::reading::{both_zeros_from, mixed, raised, DensityPair};
use super::{as_hex, draws, Calls};
use crate::floats::first_greatest;
use crate::report::{expect, expect_column};
use vayemuku_sys::{posterior_bins, slot_posterior_bins, Returned};

/// The contents of a column before a call.
const GARBAGE: f64 = 0.023_456;

impl Calls {
    /// Compares random pairs of density columns.
    pub fn mixing(&mut self, pairs: u64) {
        for _ in 0..pairs {
            let random = &mut self.random;
            let (labels, bin_count) = (draws::labels(random), draws::bin_count(random));
            let decoy = draws::density(random, bin_count);
            let target = draws::density(random, bin_count);
            let monotonic = random.below(2) == 0;
            let flag = draws::flag(random, monotonic);
            self.mix(flag, &labels, DensityPair { decoy: &decoy, target: &target });
        }
    }

    /// Compares one pair over labels, and over the same as slots.
    fn mix(&mut self, flag: u32, labels: &[i32], densities: DensityPair) {
        let DensityPair { decoy, target } = densities;
        let bin_count = decoy.len();
        let decoys = labels.iter().filter(|label| **label == -1).count();
        let plain = mixed(decoys as f64 / labels.len() as f64, densities);
        let among = labels.len() + self.random.below(9) as usize;
        let slots = draws::slots(&mut self.random, labels, among);
        let of_pair = |fault| {
            let (decoy, target) = (as_hex(decoy), as_hex(target));
            format!("{fault}, {bin_count} bins, {decoys} decoys of {}, densities {decoy} and {target}", labels.len())
        };
        let over_labels =
            filled(flag != 0, &plain, |bins| posterior_bins(flag, bin_count, labels, decoy, target, bins));
        self.posterior_bins.outcome(over_labels.map_err(of_pair));
        let over_slots =
            filled(flag != 0, &plain, |bins| slot_posterior_bins(flag, bin_count, &slots, decoy, target, bins));
        self.slot_posterior_bins.outcome(over_slots.map_err(of_pair));
    }
}

/// The call accepts, and fills a column with these bins, raised or not. Raised bins are those of document 01's rule to
/// the bit, and those of Rust's max up to the sign of a zero where zeros of both signs met, that is, where both are
/// among the bins from the place on.
fn filled(monotonic: bool, plain: &[f64], call: impl FnOnce(&mut [f64]) -> Returned) -> Result<(), String> {
    let mut bins = Buffer::new(plain.len(), GARBAGE);
    expect("number", call(bins.column_mut()).number, 0)?;
    let bins = bins.after()?;
    if !monotonic {
        return expect_column("bin", bins, plain.iter().copied());
    }
    expect_column("bin by document 01", bins, raised(plain.to_vec(), first_greatest).into_iter())?;
    let rust = raised(plain.to_vec(), f64::max);
    let open = both_zeros_from(plain);
    let mut pairs = bins.iter().zip(&rust).enumerate();
    pairs.try_for_each(|(bin, (port, rust))| expect_up_to_zero("bin", *port, *rust, Some(bin) <= open))
}
