impl Gauss {
    /// The diagonal of the left side after the private steps up to reduce.
    pub fn reduced_diagonal(left: Matrix, right: Matrix, eps: f64) -> Vec<f64> {
        let mut g = Gauss { left, right };
        g.fill_zero(eps);
        g.echelon();
        g.reduce();
        (0..g.left.cols).map(|i| g.left[(i, i)]).collect()
    }

    /// The left side after the private steps up to reduce.
    pub fn reduced_left(left: Matrix, right: Matrix, eps: f64) -> Vec<f64> {
        let mut g = Gauss { left, right };
        g.fill_zero(eps);
        g.echelon();
        g.reduce();
        g.left.take()
    }
}
