//! Makes two tables in the shape of sage's results table, from a fixed seed: the same bytes on every machine.
//!
//! `good.tsv` is a batch of 20,000 rows that can be rescored. In `refused.tsv` one row of 2,000 has an infinite
//! matched_intensity_pct, as sage writes it where matched peaks have an intensity and the spectrum has none: no fit is
//! found.

mod random;
mod rows;

use random::Random;
use rows::{row, HEADER};
use std::io::{BufWriter, Write};
use std::path::Path;
use std::process::ExitCode;

/// The rows of the batch that can be rescored.
const GOOD: usize = 20_000;

/// The rows of the batch whose fit refuses.
const REFUSED: usize = 2_000;

/// The row, from 1, of `refused.tsv` that has no finite intensity.
const BROKEN: usize = 1_234;

/// Writes a batch of `count` rows; the row `broken` has an infinite matched_intensity_pct.
fn batch(path: &Path, seed: u64, count: usize, broken: usize) -> std::io::Result<()> {
    let mut random = Random::new(seed);
    let mut file = BufWriter::new(std::fs::File::create(path)?);
    writeln!(file, "{}", HEADER.join("\t"))?;
    for id in 1..=count {
        let mut cells = row(&mut random, id);
        if id == broken {
            cells[rows::INTENSITY] = "inf".to_string();
        }
        writeln!(file, "{}", cells.join("\t"))?;
    }
    file.flush()
}

/// Writes both batches into a folder.
fn write(folder: &Path) -> std::io::Result<()> {
    std::fs::create_dir_all(folder)?;
    batch(&folder.join("good.tsv"), 3, GOOD, 0)?;
    batch(&folder.join("refused.tsv"), 2, REFUSED, BROKEN)
}

/// Ends with 0 where both were written, 2 where no folder is named, and 3 where one cannot be written.
fn main() -> ExitCode {
    let words: Vec<_> = std::env::args_os().skip(1).collect();
    let [folder] = words.as_slice() else {
        eprintln!("usage: vayemuku-sample FOLDER");
        return ExitCode::from(2);
    };
    match write(Path::new(folder)) {
        Ok(()) => ExitCode::SUCCESS,
        Err(why) => {
            eprintln!("vayemuku-sample: {}: {why}", Path::new(folder).display());
            ExitCode::from(3)
        }
    }
}
