//! The types that scoring.rs and lfq.rs name; nothing here is called.

use crate::mass::Tolerance;

#[derive(Clone)]
pub struct Precursor {
    pub mz: f32,
    pub charge: Option<u8>,
    pub inverse_ion_mobility: Option<f32>,
    pub isolation_window: Option<Tolerance>,
}

#[derive(Clone)]
pub struct ProcessedSpectrum {
    pub level: u8,
    pub id: String,
    pub file_id: usize,
    pub scan_start_time: f32,
    pub total_ion_current: f32,
    pub precursors: Vec<Precursor>,
    pub masses: Vec<f32>,
    pub intensities: Vec<f32>,
    pub charges: Vec<u8>,
    pub mobilities: Vec<f32>,
}

impl ProcessedSpectrum {
    pub fn peak_mz(&self, _peak: usize) -> f32 {
        unimplemented!()
    }
}

pub fn select_most_intense_peak(
    _masses: &[f32],
    _intensities: &[f32],
    _mass: f32,
    _tolerance: Tolerance,
    _offset: Option<f32>,
) -> Option<usize> {
    unimplemented!()
}
