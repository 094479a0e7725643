//! The kernel and the bandwidth of sage's kde.rs, with which the host takes its densities.

/// A source of densities, which the host takes at the scores of bins.
pub trait Densities {
    /// The density of a sample at each point, with sage's bandwidth times `width`; `what` describes it for a reader.
    fn take(&mut self, what: &str, sample: &[f64], width: f64, points: &[f64]) -> Vec<f64>;
}

/// Densities by sage's kernel.
#[derive(Clone, Copy, Debug, Default)]
pub struct Kernels;

impl Densities for Kernels {
    fn take(&mut self, _what: &str, sample: &[f64], width: f64, points: &[f64]) -> Vec<f64> {
        let kernel = Kernel::new(sample, width);
        points.iter().map(|&point| kernel.density(point)).collect()
    }
}

/// A kernel over a sample: sage's Kde.
///
/// The operations are those of kde.rs in their order. Sage adds the kernels in parts, as its threads divide the sample;
/// here they are added in the order of the sample.
#[derive(Clone, Debug)]
pub struct Kernel<'a> {
    sample: &'a [f64],
    bandwidth: f64,
    constant: f64,
}

impl<'a> Kernel<'a> {
    /// The kernel of a sample, with sage's bandwidth times `width`.
    pub fn new(sample: &'a [f64], width: f64) -> Kernel<'a> {
        let factor = 4. / 3.;
        let exponent = 1. / 5.;
        let count = sample.len() as f64;
        let bandwidth = deviation(sample) * f64::powf(factor / count, exponent) * width;
        let constant = (2.0 * std::f64::consts::PI).sqrt() * bandwidth * count;
        Kernel { sample, bandwidth, constant }
    }

    /// The bandwidth.
    pub fn bandwidth(&self) -> f64 {
        self.bandwidth
    }

    /// The density at a point; NaN for an empty sample, or one of equal numbers whose mean is not rounded.
    pub fn density(&self, point: f64) -> f64 {
        let kernel = |x: f64| (-0.5 * x.powi(2)).exp();
        let sum = self.sample.iter().fold(0.0, |sum, x| sum + kernel((point - x) / self.bandwidth));
        sum / self.constant
    }
}

/// The standard deviation: sage's std.
fn deviation(sample: &[f64]) -> f64 {
    let count = sample.len() as f64;
    let mean = sample.iter().sum::<f64>() / count;
    let squares = sample.iter().fold(0.0, |sum, x| sum + (x - mean).powi(2));
    (squares / count).sqrt()
}

#[cfg(test)]
mod tests {
    use super::*;

    /// Whether both differ by at most a few units in the last place.
    fn near(a: f64, b: f64) -> bool {
        (a - b).abs() <= 1E-14 * b.abs()
    }

    #[test]
    fn two_numbers() {
        // The deviation of 0 and 2 is 1, so that the bandwidth is (2/3)^(1/5), and its logarithm 0.2 ln(2/3).
        let sample = [0.0, 2.0];
        let kernel = Kernel::new(&sample, 1.0);
        let bandwidth = (0.2 * (2f64 / 3.0).ln()).exp();
        assert!(near(kernel.bandwidth(), bandwidth));
        // In the middle both kernels are exp(-1 / (2 h^2)), and the density is their mean over h sqrt(2 pi).
        let wanted = (-1.0 / (2.0 * bandwidth * bandwidth)).exp() / (bandwidth * std::f64::consts::TAU.sqrt());
        assert!(near(kernel.density(1.0), wanted));
    }

    #[test]
    fn width_scales_the_bandwidth() {
        let sample = [1.0, 4.0, 9.0, 16.0];
        assert_eq!(Kernel::new(&sample, 2.0).bandwidth(), 2.0 * Kernel::new(&sample, 1.0).bandwidth());
    }

    #[test]
    fn densities_add_up_to_one() {
        let sample = [-1.0, 0.5, 0.75, 3.0];
        let kernel = Kernel::new(&sample, 1.0);
        let area: f64 = (-10_000..14_000).map(|step| kernel.density(step as f64 / 1000.0) / 1000.0).sum();
        assert!((area - 1.0).abs() < 1E-9, "{area}");
    }

    #[test]
    fn no_numbers_and_equal_ones_have_no_density() {
        assert!(Kernel::new(&[], 1.0).density(0.0).is_nan());
        assert!(Kernel::new(&[2.0, 2.0], 1.0).density(2.0).is_nan());
    }
}
