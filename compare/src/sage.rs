//! sage's rows and peaks, made from the columns that the port takes.

use fnv::FnvHashMap;
use sage_core::database::PeptideIx;
use sage_core::fdr::picked_precursor;
use sage_core::lfq::{Peak, PrecursorId};
use sage_core::ml::qvalue::spectrum_q_value;
use sage_core::scoring::Feature;

/// The memory for a row: sage's row, and the port's columns.
pub const ROW_BYTES: usize = size_of::<Feature>() + 60;

/// The memory for a precursor: sage's two maps and its rows, and the port's columns.
pub const PEAK_BYTES: usize = 400;

/// The key of a precursor: what it is, and whether it is a decoy.
type Key = (PrecursorId, bool);

/// The argument of picked_precursor.
pub type Peaks = FnvHashMap<Key, (Peak, Vec<f64>)>;

/// sage's rows, which are used for one list after the other.
#[derive(Default)]
pub struct SageRows(Vec<Feature>);

impl SageRows {
    /// Rows with these labels.
    pub fn labelled(&mut self, labels: &[i32]) -> &mut [Feature] {
        if self.0.len() < labels.len() {
            self.0.resize_with(labels.len(), Feature::default);
        }
        for (row, label) in self.0.iter_mut().zip(labels) {
            row.label = *label;
            row.spectrum_q = f32::NAN;
        }
        &mut self.0[..labels.len()]
    }

    /// sage's spectrum q-values, and its count.
    pub fn spectrum(&mut self, labels: &[i32]) -> (impl Iterator<Item = f32> + '_, usize) {
        let rows = self.labelled(labels);
        let count = spectrum_q_value(rows);
        (rows.iter().map(|row| row.spectrum_q), count)
    }
}

/// The key of the precursor at a place; every second one has a charge.
fn key(place: usize, label: i32) -> Key {
    let peptide = PeptideIx(place as u32);
    let id = match place % 2 {
        0 => PrecursorId::Combined(peptide),
        _ => PrecursorId::Charged((peptide, 2)),
    };
    (id, label == -1)
}

/// Peaks with these labels and scores.
pub fn peaks(labels: &[i32], scores: &[f64]) -> Peaks {
    let mut peaks = Peaks::with_capacity_and_hasher(labels.len(), Default::default());
    for (place, (&label, &score)) in labels.iter().zip(scores).enumerate() {
        let peak = Peak { score, q_value: f32::NAN, ..Peak::default() };
        peaks.insert(key(place, label), (peak, Vec::new()));
    }
    peaks
}

/// sage's q-values of precursors, at their places, and its count.
pub fn precursors(labels: &[i32], scores: &[f64]) -> (Vec<f32>, usize) {
    let mut peaks = peaks(labels, scores);
    let count = picked_precursor(&mut peaks);
    (q_of(&peaks, labels).collect(), count)
}

/// The q-values that peaks hold, at the places of these labels.
pub fn q_of<'a>(peaks: &'a Peaks, labels: &'a [i32]) -> impl Iterator<Item = f32> + 'a {
    labels.iter().enumerate().map(|(place, &label)| peaks[&key(place, label)].0.q_value)
}

/// Ok where this much memory is available, or where /proc does not say how much is.
pub fn room_for(bytes: usize) -> Result<(), String> {
    let memory = std::fs::read_to_string("/proc/meminfo").unwrap_or_default();
    let line = memory.lines().find_map(|line| line.strip_prefix("MemAvailable:")?.strip_suffix("kB"));
    let left = line.and_then(|kilobytes| kilobytes.trim().parse().ok()).map_or(usize::MAX, |k: usize| k * 1024);
    match left >= bytes {
        true => Ok(()),
        false => Err(format!("{} MB of memory are needed, {} MB are available", bytes >> 20, left >> 20)),
    }
}
