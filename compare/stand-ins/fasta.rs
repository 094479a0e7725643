//! The types that database.rs names; nothing here is called.

use crate::enzyme::{Digest, EnzymeParameters};

pub struct Fasta {
    pub targets: Vec<(String, String)>,
}

impl Fasta {
    pub fn digest(&self, _enzyme: &EnzymeParameters) -> Vec<Digest> {
        unimplemented!()
    }
}
