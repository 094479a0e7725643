//! The type that mobility_model.rs names; nothing here is called.

pub struct LinearRegression {
    pub beta: Vec<f64>,
    pub r2: f64,
}

impl LinearRegression {
    pub fn fit<T, const D: usize>(
        _items: &[T],
        _keep: impl Fn(&T) -> bool,
        _row: impl Fn(&T) -> [f64; D],
        _answer: impl Fn(&T) -> f64,
    ) -> Option<Self> {
        unimplemented!()
    }
}
