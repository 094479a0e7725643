//! The twenty features of a row, as sage's score_psms computes them.

use crate::{Tolerance, FEATURES};

/// What each feature is.
pub const FEATURE_NAMES: [&str; FEATURES] = [
    "rank",
    "charge",
    "ln1p(hyperscore)",
    "ln1p(delta_next)",
    "ln1p(delta_best)",
    "posterior error of the mass error",
    "isotope_error",
    "fragment_ppm",
    "ln1p(-poisson)",
    "ln1p(matched_intensity_pct)",
    "matched_peaks",
    "ln1p(longest_b)",
    "ln1p(longest_y)",
    "longest_y / peptide_len",
    "ln1p(peptide_len)",
    "missed_cleavages",
    "aligned_rt",
    "ion_mobility",
    "sqrt(delta_rt_model)",
    "sqrt(delta_mobility)",
];

/// A match of a spectrum and a peptide, as stored: what score_psms reads of sage's Feature. The fields are named as the
/// columns of sage's results table.
#[derive(Clone, Debug, Default, PartialEq)]
pub struct Psm {
    /// The rank among the matches of its spectrum, from 1.
    pub rank: u32,
    /// −1 is a decoy, every other number a target.
    pub label: i32,
    /// The measured mass.
    pub expmass: f32,
    /// The calculated mass.
    pub calcmass: f32,
    /// The precursor's charge.
    pub charge: u8,
    /// The length of the peptide.
    pub peptide_len: usize,
    /// The number of missed cleavages.
    pub missed_cleavages: u8,
    /// The isotope error.
    pub isotope_error: f32,
    /// The mass error of the precursor in ppm: delta_mass of sage's Feature.
    pub precursor_ppm: f32,
    /// The mean mass error of the matched fragments in ppm: average_ppm of sage's Feature.
    pub fragment_ppm: f32,
    /// The hyperscore.
    pub hyperscore: f64,
    /// The difference to the next best match of the spectrum.
    pub delta_next: f64,
    /// The difference to the best match of the spectrum.
    pub delta_best: f64,
    /// The aligned retention time.
    pub aligned_rt: f32,
    /// The difference to the predicted retention time.
    pub delta_rt_model: f32,
    /// The ion mobility: ims of sage's Feature.
    pub ion_mobility: f32,
    /// The difference to the predicted ion mobility: delta_ims_model of sage's Feature.
    pub delta_mobility: f32,
    /// The number of matched fragments.
    pub matched_peaks: u32,
    /// The longest run of b ions.
    pub longest_b: u32,
    /// The longest run of y ions.
    pub longest_y: u32,
    /// The matched part of the intensity in percent.
    pub matched_intensity_pct: f32,
    /// The log10 of the probability of this many matched fragments; minus infinity where sage could not compute it.
    pub poisson: f64,
}

impl Psm {
    /// The mass error in the tolerance's unit.
    pub fn mass_error(&self, tolerance: Tolerance) -> f64 {
        match tolerance {
            Tolerance::Ppm(..) | Tolerance::Pct(..) => self.precursor_ppm.into(),
            Tolerance::Da(..) => (self.expmass - self.calcmass).into(),
        }
    }

    /// The features, given the posterior error of the mass error.
    pub fn features(&self, mass_posterior: f64) -> [f64; FEATURES] {
        let poisson = match (-self.poisson).ln_1p() {
            x if x.is_finite() => x,
            _ => 3.5,
        };
        [
            self.rank.into(),
            self.charge.into(),
            self.hyperscore.ln_1p(),
            self.delta_next.ln_1p(),
            self.delta_best.ln_1p(),
            mass_posterior,
            self.isotope_error.into(),
            self.fragment_ppm.into(),
            poisson,
            f64::from(self.matched_intensity_pct).ln_1p(),
            self.matched_peaks.into(),
            f64::from(self.longest_b).ln_1p(),
            f64::from(self.longest_y).ln_1p(),
            f64::from(self.longest_y) / self.peptide_len as f64,
            (self.peptide_len as f64).ln_1p(),
            self.missed_cleavages.into(),
            self.aligned_rt.into(),
            self.ion_mobility.into(),
            f64::from(self.delta_rt_model).clamp(0.001, 0.999).sqrt(),
            f64::from(self.delta_mobility).clamp(0.001, 0.999).sqrt(),
        ]
    }
}

#[cfg(test)]
mod tests {
    use super::*;

    /// A row whose features are easy to work out by hand.
    fn plain() -> Psm {
        Psm {
            rank: 2,
            charge: 3,
            isotope_error: 1.0,
            fragment_ppm: -4.0,
            matched_peaks: 12,
            longest_b: 0,
            longest_y: 6,
            peptide_len: 8,
            missed_cleavages: 1,
            aligned_rt: 0.5,
            ion_mobility: 0.25,
            delta_rt_model: 0.25,
            ..Psm::default()
        }
    }

    #[test]
    fn each_feature_is_at_its_place() {
        let ln = |x: f64| x.ln();
        let e1 = std::f64::consts::E - 1.0;
        let row = Psm { hyperscore: e1, poisson: -e1, matched_intensity_pct: 3.0, ..plain() };
        let wanted = [
            2.0,
            3.0,
            1.0,
            0.0,
            0.0,
            0.125,
            1.0,
            -4.0,
            1.0,
            ln(4.0),
            12.0,
            0.0,
            ln(7.0),
            0.75,
            ln(9.0),
            1.0,
            0.5,
            0.25,
            0.5,
            0.001f64.sqrt(),
        ];
        for (place, (got, wanted)) in row.features(0.125).into_iter().zip(wanted).enumerate() {
            assert!((got - wanted).abs() < 1E-15, "{}: {got}, and it should be {wanted}", FEATURE_NAMES[place]);
        }
    }

    #[test]
    fn a_poisson_without_a_logarithm_is_3_5() {
        let features = |poisson| Psm { poisson, ..plain() }.features(0.0)[8];
        assert_eq!(features(f64::NEG_INFINITY), 3.5);
        assert_eq!(features(1.0), 3.5);
        assert_eq!(features(2.0), 3.5);
        assert_eq!(features(0.0), 0.0);
    }

    #[test]
    fn differences_are_clamped_to_a_range() {
        let row = |difference| Psm { delta_rt_model: difference, delta_mobility: difference, ..plain() };
        assert_eq!(row(5.0).features(0.0)[18..], [0.999f64.sqrt(); 2]);
        assert_eq!(row(-5.0).features(0.0)[18..], [0.001f64.sqrt(); 2]);
    }

    #[test]
    fn the_mass_error_goes_by_the_unit() {
        let row = Psm { precursor_ppm: 1.5, expmass: 1000.25, calcmass: 1000.0, ..plain() };
        assert_eq!(row.mass_error(Tolerance::Ppm(-10.0, 10.0)), 1.5);
        assert_eq!(row.mass_error(Tolerance::Da(-1.0, 1.0)), 0.25);
    }
}
