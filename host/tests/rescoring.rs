//! The rescoring job on the sample: the contents of the list, and of the list of a refusal.

mod common;

use common::{Cells, Folder, Ran};
use std::process::Command;

/// The columns that a run works out.
const FRESH: [&str; 4] = ["sage_discriminant_score", "posterior_error", "spectrum_q", "protein_q"];

/// Stored columns that are never passed through.
const STORED: [&str; 5] = ["sage_discriminant_score", "posterior_error", "spectrum_q", "peptide_q", "protein_q"];

/// Today's date in UTC, from another program.
fn today() -> String {
    let output = Command::new("date").args(["-u", "+%F"]).output().unwrap();
    String::from_utf8(output.stdout).unwrap().trim().to_string()
}

/// Rescores a table in the folder, with options.
fn rescored(folder: &Folder, table: &Cells, options: &str) -> (Ran, Cells) {
    folder.write("in.tsv", table.text());
    if folder.files().iter().any(|name| name == "out.tsv") {
        folder.remove("out.tsv");
    }
    let words = format!("rescore in.tsv out.tsv {options}");
    let ran = folder.run(words.trim());
    let list = Cells::of(&folder.read("out.tsv"), usize::MAX - 1);
    (ran, list)
}

/// Asserts that a call refused: status 4, the line, every fresh cell empty, and the other cells unchanged.
fn refuses(folder: &Folder, table: &Cells, options: &str, why: &str) {
    let (ran, list) = rescored(folder, table, options);
    assert_eq!((ran.status, ran.stdout.as_str()), (Some(4), ""), "{}", ran.stderr);
    assert_eq!(ran.stderr.lines().next(), Some(format!("vayemuku: in.tsv: {why}").as_str()));
    let last = "vayemuku: out.tsv: written with every fresh column empty";
    assert_eq!(ran.stderr.lines().last(), Some(last));
    for column in FRESH {
        assert!(list.column(column).iter().all(|cell| cell.is_empty()), "{column}");
    }
    assert!(list.column("rescored_on").iter().all(|cell| cell.len() == "2026-01-31".len()));
    assert!(list.column("batch").iter().all(|cell| *cell == "in"));
    assert_eq!(kept(&list), kept(table));
    assert_eq!(folder.files(), ["in.tsv", "out.tsv"]);
}

/// The columns that pass through.
fn kept(table: &Cells) -> Cells {
    let mut kept = table.clone();
    for column in STORED.iter().chain(&["rescored_on", "batch"]) {
        if kept.0[0].iter().any(|name| name == column) {
            kept = kept.without(column);
        }
    }
    kept
}

/// The rows of a table in the order of their text.
fn sorted(table: Cells) -> Cells {
    let mut table = table;
    table.0[1..].sort();
    table
}

/// The q-values of ranked labels by the counting rule, and how many are at most 0.01.
fn counting_rule(labels: &[i32]) -> (Vec<f32>, usize) {
    let mut q = Vec::new();
    for row in 1..=labels.len() {
        let decoys = labels[..row].iter().filter(|label| **label == -1).count();
        q.push((decoys + 1) as f32 / (row - decoys) as f32);
    }
    let mut least = 1f32;
    for q in q.iter_mut().rev() {
        least = least.min(*q);
        *q = least;
    }
    let passing = q.iter().filter(|q| **q <= 0.01).count();
    (q, passing)
}

#[test]
fn the_list_holds_every_row_ranked_with_its_q_value() {
    let folder = Folder::new("list");
    let sample = folder.sample(3000);
    let before = today();
    let (ran, list) = rescored(&folder, &sample, "--batch B7");
    assert_eq!((ran.status, ran.stderr.as_str()), (Some(0), ""));
    assert_eq!(sorted(kept(&list)), sorted(kept(&sample)));
    let tail: Vec<&str> = list.0[0].iter().rev().take(6).rev().map(String::as_str).collect();
    assert_eq!(tail, ["sage_discriminant_score", "posterior_error", "spectrum_q", "protein_q", "rescored_on", "batch"]);
    assert!(list.0[0].iter().all(|name| name != "peptide_q"));

    let scores: Vec<f32> = list.numbers("sage_discriminant_score");
    assert!(scores.windows(2).all(|pair| pair[0] >= pair[1]));
    // a smaller score has no smaller posterior error
    let errors: Vec<f32> = list.numbers("posterior_error");
    let falls = |place: &usize| scores[*place - 1] > scores[*place] && errors[*place - 1] > errors[*place];
    assert_eq!((1..scores.len()).find(falls), None);
    let (q, passing) = counting_rule(&list.numbers("label"));
    assert_eq!(list.numbers::<f32>("spectrum_q"), q);
    assert!(ran.stdout.contains(&format!("spectra   {passing} rows")), "{}", ran.stdout);
    assert!(ran.stdout.contains(&format!("line      {passing} at one in 100 is Right")), "{}", ran.stdout);
    // some 1650 of the 3000 rows are correct matches
    assert!((1500..1800).contains(&passing), "{passing}");
    assert!(list.column("batch").iter().all(|cell| *cell == "B7"));
    let dates = list.column("rescored_on");
    assert!(dates.iter().all(|cell| *cell == before || *cell == today()));
}

#[test]
fn no_stored_score_is_read_or_passed_through() {
    let folder = Folder::new("stored");
    let sample = folder.sample(600);
    let (_, list) = rescored(&folder, &sample, "");
    let mut marked = sample.clone();
    for column in STORED {
        marked = marked.with_all(column, "777.125");
    }
    let (_, again) = rescored(&folder, &marked, "");
    assert_eq!(again, list);
    assert!(!again.text().contains("777.125"));
    let mut bare = sample.clone();
    for column in STORED {
        bare = bare.without(column);
    }
    assert_eq!(rescored(&folder, &bare, "").1, list);
    // a list that is rescored gets one date and one batch
    let (ran, twice) = rescored(&folder, &list, "--batch next");
    assert_eq!(ran.status, Some(0));
    assert_eq!(twice.0[0], list.0[0]);
    assert!(twice.column("batch").iter().all(|cell| *cell == "next"));
    let refused = list.with(1, "hyperscore", "inf");
    refuses(&folder, &refused, "", "vayemuku_train refused with 7: no solution of the fit's equations was found");
    assert!(!folder.read("out.tsv").contains(list.column("sage_discriminant_score")[0]));
}

#[test]
fn columns_are_found_by_their_names() {
    let folder = Folder::new("columns");
    let sample = folder.sample(600);
    let (_, list) = rescored(&folder, &sample, "");
    let (ran, other) = rescored(&folder, &sample.reversed(), "");
    assert_eq!(ran.status, Some(0), "{}", ran.stderr);
    assert_eq!(other.0[0][0], "ms2_intensity");
    for column in &list.0[0] {
        assert_eq!(other.column(column), list.column(column), "{column}");
    }
}

#[test]
fn the_batch_is_the_files_name_unless_it_is_given() {
    let folder = Folder::new("batch");
    let sample = folder.sample(60);
    for (file, batch) in [("day.1", "day.1"), ("day.2.tsv", "day.2")] {
        folder.write(file, sample.text());
        assert_eq!(folder.run(&format!("rescore {file} out.tsv")).status, Some(0));
        let list = folder.read("out.tsv");
        assert!(list.lines().skip(1).all(|line| line.ends_with(&format!("\t{batch}"))), "{file}");
        folder.remove("out.tsv");
    }
}

#[test]
fn every_refusal_leaves_the_fresh_columns_empty() {
    let folder = Folder::new("refusals");
    let sample = folder.sample(400);
    let one = "vayemuku_train refused with 6: the fit needs at least one decoy and one target";
    refuses(&folder, &sample.only("label", "1"), "", one);
    refuses(&folder, &sample.only("label", "-1"), "", one);
    refuses(&folder, &folder.sample(0), "", one);
    let none = "vayemuku_train refused with 7: no solution of the fit's equations was found";
    refuses(&folder, &sample.with(7, "matched_intensity_pct", "inf"), "", none);
    let percent = "vayemuku_bin_count refused with 4: the tolerance is neither ppm nor Da";
    refuses(&folder, &sample, "--tolerance pct:-1:1", percent);
    let range = "vayemuku_bin_count refused with 3: the size is not 1 to 20, or the number of bins is not 1 to 65,536";
    refuses(&folder, &sample, "--tolerance da:0:65537", range);
}

#[test]
fn a_refusal_names_the_row_that_is_not_finite() {
    let folder = Folder::new("cause");
    let sample = folder.sample(400);
    for (column, cell, why) in [
        ("matched_intensity_pct", "inf", "ln1p(matched_intensity_pct) is inf"),
        ("hyperscore", "-2", "ln1p(hyperscore) is NaN"),
        ("precursor_ppm", "-inf", "the mass error is -inf"),
        ("peptide_len", "0", "longest_y / peptide_len is inf"),
    ] {
        let (ran, _) = rescored(&folder, &sample.with(33, column, cell), "");
        let line = format!("vayemuku: in.tsv: row 33 (line 34): {why}");
        assert_eq!(ran.stderr.lines().nth(1), Some(line.as_str()));
    }
}

#[test]
fn the_tolerance_decides_what_a_mass_error_is() {
    let folder = Folder::new("tolerance");
    let sample = folder.sample(600);
    let scores = |table: &Cells, options: &str| -> Vec<String> {
        let (ran, list) = rescored(&folder, table, options);
        assert_eq!(ran.status, Some(0), "{}", ran.stderr);
        list.column("sage_discriminant_score").into_iter().map(String::from).collect()
    };
    let ppm = scores(&sample, "--tolerance ppm:-10:10");
    assert_eq!(scores(&sample, ""), ppm);
    // 100 bins are the least, and 150 are not the same
    assert_eq!(scores(&sample, "--tolerance ppm:0:5.5"), ppm);
    assert_ne!(scores(&sample, "--tolerance ppm:-75:75"), ppm);
    // in Da the masses are looked at and not the errors in ppm, and the other way around
    let da = scores(&sample, "--tolerance da:-1:1");
    assert_ne!(da, ppm);
    let no_errors = sample.with_all("precursor_ppm", "0.5").with(1, "precursor_ppm", "1.5");
    assert_eq!(scores(&no_errors, "--tolerance da:-1:1"), da);
    let no_masses = sample.with_all("expmass", "1000.5").with_all("calcmass", "1000");
    assert_eq!(scores(&no_masses, ""), ppm);
}

#[test]
fn proteins_compete_with_their_decoys() {
    let folder = Folder::new("competition");
    let sample = folder.sample(3000);
    let (_, list) = rescored(&folder, &sample, "");
    let shared = list.column("num_proteins");
    let q: Vec<f32> = list.numbers("protein_q");
    assert!(shared.iter().zip(&q).all(|(count, q)| *count == "1" || *q == 1.0));
    // rows of one protein have one q-value, and a protein whose best row is ranked later has no smaller one
    let mut seen = std::collections::HashMap::new();
    let mut last = 0f32;
    for ((protein, count), q) in list.column("proteins").into_iter().zip(&shared).zip(&q) {
        if *count == "1" {
            let first = *seen.entry(protein).or_insert_with(|| {
                assert!(*q >= last, "{protein}");
                last = *q;
                *q
            });
            assert_eq!(first, *q, "{protein}");
        }
    }
    assert!(q.iter().any(|q| *q <= 0.01) && q.contains(&1.0));
    // the names do not matter, as long as decoys are named after their targets
    let renamed = Cells::of(&sample.text().replace("sp|S", "tr|T").replace("rev_", "DECOY-"), 3000);
    let (_, other) = rescored(&folder, &renamed, "--decoy-tag DECOY-");
    assert_eq!(other.column("protein_q"), list.column("protein_q"));
    // decoys with names of their own do not compete with targets
    let (ran, apart) = rescored(&folder, &sample, "--fasta-decoys");
    assert_eq!(ran.status, Some(0));
    let names: std::collections::HashSet<_> = seen.into_keys().collect();
    assert!(ran.stdout.contains(&format!(" targets of {} names have a q-value", names.len())), "{}", ran.stdout);
    assert_ne!(apart.column("protein_q"), list.column("protein_q"));
    assert_eq!(apart.column("spectrum_q"), list.column("spectrum_q"));
}

#[test]
fn a_list_that_ranks_decoys_first_is_written_with_a_warning() {
    let folder = Folder::new("decoys-first");
    let mut table = folder.sample(1);
    table.0.resize(5, table.0[1].clone());
    // the rows differ in these columns alone; both classes have the same mass errors, so that all rows have one
    // posterior error
    let columns = ["label", "precursor_ppm", "fragment_ppm", "aligned_rt"];
    let cells =
        [["1", "-1", "0", "0"], ["1", "1", "0", "0"], ["-1", "-1", "100000000", "100000000"], ["-1", "1", "0", "-3"]];
    for (row, cells) in cells.into_iter().enumerate() {
        for (column, cell) in columns.into_iter().zip(cells) {
            table = table.with(row + 1, column, cell);
        }
    }
    let (ran, list) = rescored(&folder, &table, "");
    let means = "the mean score of decoys, 16.999999523162842, is not below that of targets, 0.0";
    let warning = format!("vayemuku: in.tsv: warning: {means}: the list may rank decoys first\n");
    assert_eq!((ran.status, ran.stderr), (Some(0), warning));
    assert!(ran.stdout.ends_with("written   out.tsv\n"), "{}", ran.stdout);
    assert_eq!(list.column("label"), ["-1", "-1", "1", "1"]);
    assert_eq!(list.column("sage_discriminant_score"), ["18.0", "15.999999", "0.0", "0.0"]);
    // targets score higher in the sample
    let (ran, _) = rescored(&folder, &folder.sample(600), "");
    assert_eq!((ran.status, ran.stderr.as_str()), (Some(0), ""));
}

#[test]
fn progress_is_shown_where_it_is_asked_for() {
    let folder = Folder::new("progress");
    let (ran, list) = rescored(&folder, &folder.sample(600), "--progress");
    assert_eq!(ran.status, Some(0));
    for what in ["rows read: 1 of 600", "density of scores of targets: 1 of 1000", "rows written: 1 of 600"] {
        assert!(ran.stderr.contains(&format!("vayemuku: {what}\n")), "{}", ran.stderr);
    }
    assert_eq!(list.0.len(), 601);
}

#[test]
fn the_sample_is_the_same_every_time() {
    let folder = Folder::new("seed");
    let (once, again) = (folder.sample(20_001), folder.sample(20_001));
    assert_eq!(once.0.len(), 20_001);
    assert!(once == again);
}
