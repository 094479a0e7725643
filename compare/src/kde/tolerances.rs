//! bin_count beside the expression of score_psms.

use super::reading::{bins_across, in_range};
use super::Calls;
use crate::calls::bin_count;
use crate::cases::{each_pair, CasePlan, Random};
use crate::report::expect;

/// The units that have a bin count, with the least number of bins.
pub const UNITS: [(u32, f32); 2] = [(0, 100.0), (1, 1000.0)];

/// Document 01's points: unit, ends, number and bins. Pct is any other unit.
const POINTS: [(u32, f32, f32, (u32, usize)); 5] = [
    (0, -10.0, 10.0, (0, 100)),
    (0, -75.5, 75.0, (0, 151)),
    (1, -600.0, 600.0, (0, 1200)),
    (1, 0.0, 65_537.0, (3, 0)),
    (2, -1.0, 1.0, (4, 0)),
];

/// Whole numbers up to this are tried as the width of a tolerance.
const WIDEST: u32 = 70_000;

impl Calls {
    /// Compares document 01's points, every pair of boundaries, the planned number of random pairs, and widths at every
    /// whole number and up to two places beside it.
    pub fn tolerances(&mut self, plan: &CasePlan) {
        for (unit, lo, hi, wanted) in POINTS {
            self.bin_count.outcome(expect(&format!("unit {unit} from {lo} to {hi}"), bin_count(unit, lo, hi), wanted));
        }
        each_pair(plan, |lo, hi| self.tolerance(lo, hi));
        for width in 0..=WIDEST {
            for off in -2..=2 {
                let width = f32::from_bits((width as f32).to_bits().wrapping_add_signed(off));
                self.tolerance(0.0, width);
                self.tolerance(-width / 2.0, width / 2.0);
                self.tolerance(-width, 0.0);
            }
        }
    }

    /// Compares a tolerance in ppm, in Da, and in any other unit.
    fn tolerance(&mut self, lo: f32, hi: f32) {
        for (unit, least) in UNITS {
            let (port, wanted) = (bin_count(unit, lo, hi), counted(lo, hi, least));
            self.bin_count.count(port == wanted, || differing(unit, lo, hi, port, wanted));
        }
        let unit = other_unit(&mut self.random);
        let port = bin_count(unit, lo, hi);
        self.bin_count.count(port == (4, 0), || differing(unit, lo, hi, port, (4, 0)));
    }
}

/// The number and the bin count that a tolerance should give.
pub fn counted(lo: f32, hi: f32, least: f32) -> (u32, usize) {
    let bins = bins_across(lo, hi, least);
    match in_range(bins) {
        true => (0, bins),
        false => (3, 0),
    }
}

/// A unit that is neither ppm nor Da: a small number, one with a single bit, any, or the greatest.
fn other_unit(random: &mut Random) -> u32 {
    match random.below(4) {
        0 => 2 + random.below(4) as u32,
        1 => 2 << random.below(31),
        2 => 2 + random.below(u64::from(u32::MAX) - 1) as u32,
        _ => u32::MAX,
    }
}

/// A mismatch in words.
fn differing(unit: u32, lo: f32, hi: f32, port: (u32, usize), wanted: (u32, usize)) -> String {
    format!("unit {unit} from {lo:e} to {hi:e}: port {port:?}, and it should be {wanted:?}")
}
