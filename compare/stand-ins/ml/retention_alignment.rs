//! The type that lfq.rs names.

#[derive(Copy, Clone)]
pub struct Alignment {
    pub max_rt: f32,
    pub slope: f32,
    pub intercept: f32,
}
