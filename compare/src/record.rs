//! Answers of sage's unchanged Rust, written to files that the programs replay_* read, and some of them with a wrong
//! bit each. Each run writes the same bytes.

mod counting;
mod fdr;
mod file;
mod fit;
mod flips;
mod gauss;
mod kde;

use sage_core::ml::kde::on_rayons_thread;
use std::io::Result;
use std::path::Path;

/// Writes every recording, each to the folder data/ of its program's crate; says whether all were written.
pub fn run(crates: &str) -> bool {
    // Called from another thread, each kernel sum of sage's would wait for rayon's.
    match on_rayons_thread(|| recorded(Path::new(crates))) {
        Ok(()) => true,
        Err(fault) => {
            eprintln!("record: {fault}");
            false
        }
    }
}

/// Writes every recording.
fn recorded(crates: &Path) -> Result<()> {
    gauss::record(&crates.join("replay_gauss/data"))?;
    fit::record(&crates.join("replay_linear_discriminant/data"))?;
    kde::record(&crates.join("replay_kde/data"))?;
    counting::record(&crates.join("replay_counting/data"))?;
    fdr::record(&crates.join("replay_fdr/data"))
}
