//! Lists of 16,777,215 rows, the most, and of one more. They come through a pipe: no file is written.

mod common;

use common::{program, Folder, Ran};
use std::io::Write;
use std::process::Stdio;
use vayemuku::LONGEST;

/// The columns that rescore reads.
const READ: [&str; 24] = [
    "rank",
    "charge",
    "hyperscore",
    "delta_next",
    "delta_best",
    "precursor_ppm",
    "expmass",
    "calcmass",
    "isotope_error",
    "fragment_ppm",
    "poisson",
    "matched_intensity_pct",
    "matched_peaks",
    "longest_b",
    "longest_y",
    "peptide_len",
    "missed_cleavages",
    "aligned_rt",
    "ion_mobility",
    "delta_rt_model",
    "delta_mobility",
    "label",
    "proteins",
    "num_proteins",
];

/// Runs the program with a table on its standard input: a header, a first row, and equal rows after it.
fn run(words: &[&str], header: &str, first: &str, row: &str, rows: usize) -> Ran {
    let mut command = program();
    let piped = command.args(words).stdin(Stdio::piped()).stdout(Stdio::piped()).stderr(Stdio::piped());
    let mut child = piped.spawn().unwrap();
    let mut to = child.stdin.take().unwrap();
    const BLOCK: usize = 1 << 16;
    let block = format!("{row}\n").repeat(BLOCK);
    let line = row.len() + 1;
    writeln!(to, "{header}\n{first}").unwrap();
    let mut left = rows - 1;
    while left > 0 {
        let some = left.min(BLOCK);
        to.write_all(&block.as_bytes()[..some * line]).unwrap();
        left -= some;
    }
    drop(to);
    Ran::of(child.wait_with_output().unwrap())
}

#[test]
fn check() {
    let words = |line| ["check", "/dev/stdin", "--line", line];
    let header = "label\tsage_discriminant_score\tspectrum_q";
    let over = run(&words("1"), header, "1\t1\t1", "1\t1\t1", LONGEST + 1);
    over.failed(3, "/dev/stdin: row 16777216 (line 16777217): a list has at most 16,777,215 rows");
    // targets alone: every row qualifies, so that the line is after the last, and every q-value is one over the targets
    let most = run(&words("16777215"), header, "1\t1\t1", "1\t1\t1", LONGEST);
    assert_eq!((most.status, most.stderr.as_str()), (Some(1), ""));
    assert_eq!(
        most.stdout,
        "list      /dev/stdin: 16777215 rows, in ranked order\n\
         line      16777215 at one in 100 is Right: row 16777215, decoys plus one 1, targets 16777215\n\
         q-values  wrong in 16777215 of 16777215 rows; the first by rank, row 1 (line 2), has 1.0 in place of \
         5.960465e-8\n"
    );
}

#[test]
fn rescore() {
    let folder = Folder::new("long-rescore");
    let header = READ.join("\t");
    let row = ["1"; READ.len()].join("\t");
    let out = folder.path("out.tsv");
    let words = ["rescore", "/dev/stdin", out.to_str().unwrap()];
    let over = run(&words, &header, &row, &row, LONGEST + 1);
    over.failed(3, "/dev/stdin: row 16777216 (line 16777217): a list has at most 16,777,215 rows");
    // with one row less, the error is that of the first row
    let first = row.replacen('1', "x", 1);
    let most = run(&words, &header, &first, &row, LONGEST);
    let why = "column rank: 'x' is no whole number from 0 to 4,294,967,295";
    most.failed(3, &format!("/dev/stdin: row 1 (line 2): {why}"));
    assert!(folder.files().is_empty());
}
