impl LinearDiscriminantAnalysis {
    /// The fit that has these coefficients.
    pub fn from_coefficients(coef: Vec<f64>) -> Self {
        LinearDiscriminantAnalysis { coef }
    }

    /// The private coefficients.
    pub fn coefficients(&self) -> &[f64] {
        &self.coef
    }
}

/// The private names of features.
pub const NAMES: [&str; FEATURES] = FEATURE_NAMES;
