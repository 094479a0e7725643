//! The check of lists that are already out. The lists and the answers are known points of the counting rule.

mod common;

use common::{Folder, Ran};

/// A list of `targets` targets and then `decoys` decoys, the best score first, with a q-value for each.
fn list(targets: usize, decoys: usize, q: impl Fn(usize) -> f32) -> Vec<String> {
    let row = |place: usize| {
        let label = if place < targets { 1 } else { -1 };
        format!("{}\t{label}\t{:?}", 1000.5 - place as f32, q(place))
    };
    (0..targets + decoys).map(row).collect()
}

/// Checks a list that is made of these rows.
fn check(folder: &Folder, rows: &[String], options: &str) -> Ran {
    folder.write("list.tsv", format!("sage_discriminant_score\tlabel\tspectrum_q\n{}\n", rows.join("\n")));
    let ran = folder.run(&format!("check list.tsv {options}"));
    assert_eq!(ran.stderr, "");
    ran
}

/// Asserts that a check printed these three lines and ended with this status.
fn printed(ran: &Ran, status: i32, lines: [&str; 3]) {
    assert_eq!(ran.status, Some(status), "{}", ran.stdout);
    assert_eq!(ran.stdout.lines().collect::<Vec<_>>(), lines);
}

/// The line of a list whose rows are in the order of their ranks.
fn ranked(rows: usize) -> String {
    format!("list      list.tsv: {rows} rows, in ranked order")
}

/// The line of a list whose q-values are all right.
const Q_RIGHT: &str = "q-values  each is what the counting rule gives";

#[test]
fn a_hundred_targets_and_a_decoy() {
    let folder = Folder::new("hundred");
    let rows = list(100, 1, |place| if place < 100 { 0.01 } else { 0.02 });
    let right = "line      100 at one in 100 is Right: row 100, decoys plus one 1, targets 100";
    printed(&check(&folder, &rows, "--line 100"), 0, [&ranked(101), right, Q_RIGHT]);
    let wrong = "line      99 at one in 100 is Wrong: row 100, decoys plus one 1, targets 100";
    printed(&check(&folder, &rows, "--line 99 --rate 100"), 1, [&ranked(101), wrong, Q_RIGHT]);
    let wrong = "line      101 at one in 100 is Wrong: row 101, decoys plus one 2, targets 100";
    printed(&check(&folder, &rows, "--line 101"), 1, [&ranked(101), wrong, Q_RIGHT]);
    let right = "line      101 at one in 20 is Right: row 101, decoys plus one 2, targets 100";
    printed(&check(&folder, &rows, "--rate 20 --line 101"), 0, [&ranked(101), right, Q_RIGHT]);
}

#[test]
fn ninety_nine_targets_and_a_decoy() {
    let folder = Folder::new("ninety-nine");
    let rows = list(99, 1, |place| if place < 99 { 1.0 / 99.0 } else { 2.0 / 99.0 });
    let right = "line      0 at one in 100 is Right: row 0, decoys plus one 1, targets 0";
    printed(&check(&folder, &rows, "--line 0"), 0, [&ranked(100), right, Q_RIGHT]);
    let wrong = "line      99 at one in 100 is Wrong: row 99, decoys plus one 1, targets 99";
    printed(&check(&folder, &rows, "--line 99"), 1, [&ranked(100), wrong, Q_RIGHT]);
}

#[test]
fn forty_targets_and_a_decoy_at_one_in_twenty() {
    let folder = Folder::new("forty");
    let rows = list(40, 1, |place| if place < 40 { 0.025 } else { 0.05 });
    let right = "line      41 at one in 20 is Right: row 41, decoys plus one 2, targets 40";
    printed(&check(&folder, &rows, "--line 41 --rate 20"), 0, [&ranked(41), right, Q_RIGHT]);
}

#[test]
fn no_rows() {
    let folder = Folder::new("no-rows");
    folder.write("list.tsv", "sage_discriminant_score\tlabel\tspectrum_q\n");
    let right = "line      0 at one in 100 is Right: row 0, decoys plus one 1, targets 0";
    printed(&folder.run("check list.tsv --line 0"), 0, [&ranked(0), right, Q_RIGHT]);
}

#[test]
fn a_list_in_another_order_is_ranked_by_its_scores() {
    let folder = Folder::new("order");
    let mut rows = list(100, 1, |place| if place < 100 { 0.01 } else { 0.02 });
    rows.reverse();
    let order = "list      list.tsv: 101 rows, of which row 101 (line 102) is ranked first";
    let right = "line      100 at one in 100 is Right: row 100, decoys plus one 1, targets 100";
    printed(&check(&folder, &rows, "--line 100"), 0, [order, right, Q_RIGHT]);
    rows.reverse();
    rows.swap(2, 3);
    let order = "list      list.tsv: 101 rows, of which row 4 (line 5) is ranked as 3";
    printed(&check(&folder, &rows, "--line 100"), 0, [order, right, Q_RIGHT]);
}

#[test]
fn q_values_that_the_counting_rule_does_not_give() {
    let folder = Folder::new("q-values");
    let right = "line      100 at one in 100 is Right: row 100, decoys plus one 1, targets 100";
    // the f32 next to 0.01
    let next = f32::from_bits(0x3c23_d70b);
    let rows = list(100, 1, |place| if place == 70 { next } else { [0.01, 0.02][place / 100] });
    let wrong =
        "q-values  wrong in 1 of 101 rows; the first by rank, row 71 (line 72), has 0.010000001 in place of 0.01";
    printed(&check(&folder, &rows, "--line 100"), 1, [&ranked(101), right, wrong]);
    // without the one that is added to the decoys
    let rows = list(100, 1, |place| if place < 100 { 0.0 } else { 0.01 });
    let wrong = "q-values  wrong in 101 of 101 rows; the first by rank, row 1 (line 2), has 0.0 in place of 0.01";
    printed(&check(&folder, &rows, "--line 100"), 1, [&ranked(101), right, wrong]);
}

#[test]
fn labels_other_than_minus_one_are_targets() {
    let folder = Folder::new("labels");
    let mut rows = list(20, 1, |place| if place < 20 { 0.05 } else { 0.1 });
    rows[0] = rows[0].replace("\t1\t", "\t0\t");
    rows[1] = rows[1].replace("\t1\t", "\t7\t");
    let right = "line      20 at one in 20 is Right: row 20, decoys plus one 1, targets 20";
    printed(&check(&folder, &rows, "--line 20 --rate 20"), 0, [&ranked(21), right, Q_RIGHT]);
}

#[test]
fn a_list_that_was_rescored() {
    let folder = Folder::new("rescored");
    folder.write("in.tsv", folder.sample(2000).text());
    let ran = folder.run("rescore in.tsv list.tsv");
    let line: usize = ran.stdout.split("spectra   ").nth(1).unwrap().split(' ').next().unwrap().parse().unwrap();
    assert_eq!(folder.run(&format!("check list.tsv --line {line}")).status, Some(0));
    for wrong in [0, line - 1, line + 1, 2000] {
        assert_eq!(folder.run(&format!("check list.tsv --line {wrong}")).status, Some(1));
    }
    // the table as stored: its q-values are an old run's
    let stored = folder.run(&format!("check in.tsv --line {line}"));
    assert_eq!(stored.status, Some(1));
    assert!(stored.stdout.contains("wrong in 2000 of 2000 rows"), "{}", stored.stdout);
}
