//! The function that lfq.rs names; it is not called.

pub fn peptide_isotopes(_carbon: u16, _sulfur: u16) -> [f32; 3] {
    unimplemented!()
}
