impl Estimator {
    /// The estimator of these fields.
    pub fn from_parts(parts: Parts) -> Self {
        Estimator { bins: parts.bins, min_score: parts.min_score, score_step: parts.score_step }
    }

    /// The private fields.
    pub fn parts(&self) -> Parts {
        Parts { bins: self.bins.clone(), min_score: self.min_score, score_step: self.score_step }
    }

    /// The posterior error of every score, in a loop that posterior_error can be inlined into.
    pub fn posterior_errors(&self, scores: &[f64], errors: &mut [f64]) {
        for (error, score) in errors.iter_mut().zip(scores) {
            *error = self.posterior_error(*score);
        }
    }
}
