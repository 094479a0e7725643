//! Module 5.

use super::check;
use crate::calls::{assign_q_value, bin_scores, estimator};
use crate::fdr::draws::SlotRows;
use crate::fdr::reading::{PlainTable, NO_PART};
use crate::fdr::tables::rows as columns;
use fnv::FnvHashMap;
use host::kernel::Kernel;
use sage_core::database::{IndexedDatabase, PeptideIx};
use sage_core::fdr::{opened, picked_protein, picked_protein_group, Competition};
use sage_core::ml::kde::{forcing, recording, Build, Parts};
use sage_core::peptide::Peptide;
use sage_core::scoring::Feature;
use std::collections::BTreeSet;
use vayemuku_sys::{add_rows, fresh_table, slot_posterior_bins, winners, RankingColumns};

/// The field of a q-value before a call.
const BEFORE: f32 = 0.5;

/// The bins of sage's builder.
const BINS: usize = 1000;

/// A row: its slot, label and score.
type BatchRow = (u32, i32, f32);

/// The lines of the module.
pub fn lines() -> Vec<bool> {
    let lone =
        [label_and_peptide(), no_rows(), no_targets(), never_scored(), names_that_meet(), one_name(), nan_side()];
    let rest = [halves(), one_in_100(), vec![decoy_row_first(), label_and_group(), one_protein()]].concat();
    [lone.to_vec(), few_decoys(), never_scored_beside(), sums(), tied(), no_part(), vec![one_group()], sides(), rest]
        .concat()
}

/// Bins from the least score 0 on, a step of 1 apart.
fn bins(bins: &[f64]) -> Parts {
    Parts { bins: bins.to_vec(), min_score: 0.0, score_step: 1.0 }
}

/// A database of proteins, each with a target peptide and then a decoy.
fn database(names: &[&str], generate_decoys: bool) -> IndexedDatabase {
    let of = |decoy, name: &str| Peptide { decoy, proteins: vec![name.into()], ..Peptide::default() };
    let peptides = names.iter().flat_map(|name| [of(false, name), of(true, name)]).collect();
    IndexedDatabase { peptides, generate_decoys, decoy_tag: "rev_".to_string(), ..IndexedDatabase::default() }
}

/// A row of sage's of a peptide.
fn feature(peptide: u32, label: i32, score: f32) -> Feature {
    let (peptide_idx, protein_q) = (PeptideIx(peptide), BEFORE);
    Feature { peptide_idx, label, discriminant_score: score, protein_q, protein_group_q: BEFORE, ..Feature::default() }
}

/// sage's rows.
fn features(rows: &[BatchRow]) -> Vec<Feature> {
    let row = |&(slot, label, score): &BatchRow| feature(2 * slot + u32::from(label == -1), label, score);
    rows.iter().map(row).collect()
}

/// sage's q-values of proteins, and its count.
fn sage(db: &IndexedDatabase, rows: &[BatchRow], parts: &Parts) -> (Vec<f32>, usize) {
    let mut rows = features(rows);
    let count = forcing(parts.clone(), || picked_protein(db, &mut rows));
    (rows.iter().map(|row| row.protein_q).collect(), count)
}

/// The port's table of these rows, of two slots or as many as they have.
fn table(rows: &[BatchRow]) -> PlainTable {
    let slots = rows.iter().filter(|row| row.0 != NO_PART).map(|row| row.0 as usize + 1).fold(2, usize::max);
    let (scores, marks) = (vec![0.5; slots], vec![5; slots]);
    let mut table =
        PlainTable { forward: scores.clone(), reverse: scores, forward_seen: marks.clone(), reverse_seen: marks };
    let fresh = fresh_table(table.columns_mut());
    let added = add_rows(columns(rows).all(), table.columns_mut());
    assert_eq!((fresh.number, added.number), (0, 0));
    table
}

/// The port's q-values of rows in a table, and its count; `two_names` is 0 for one name.
fn assigned(two_names: u32, table: &PlainTable, rows: &[BatchRow], parts: &Parts) -> (Vec<f32>, usize) {
    let SlotRows { slots, labels, .. } = columns(rows);
    let sides = 2 * table.forward.len();
    let (mut keys, mut spare, mut q) = (vec![5; sides], vec![5; sides], vec![BEFORE; rows.len()]);
    let ranking = RankingColumns { keys: &mut keys, spare: &mut spare, q: &mut q };
    let (_, count) = assign_q_value(two_names, estimator(parts), table.columns(), (&slots, &labels), ranking);
    (q, count)
}

/// The port's winners of a table: scores, and whether they are decoys.
fn port_winners(table: &PlainTable) -> (Vec<f32>, Vec<u32>) {
    let (mut scores, mut is_decoy) = (vec![0.5; table.forward.len()], vec![5; table.forward.len()]);
    let returned = winners(table.columns(), &mut scores, &mut is_decoy);
    assert_eq!(returned.number, 0);
    (scores, is_decoy)
}

/// The port's q-values of rows in a table of them alone, and its count.
fn port(two_names: u32, rows: &[BatchRow], parts: &Parts) -> (Vec<f32>, usize) {
    assigned(two_names, &table(rows), rows, parts)
}

/// A row labelled as a decoy whose peptide is a target.
fn label_and_peptide() -> bool {
    let mut rows = [feature(0, -1, 0.0)];
    let db = database(&["P", "Q"], true);
    let count = forcing(bins(&[-1.0]), || picked_protein(&db, &mut rows));
    let port = port(1, &[(0, -1, 0.0)], &bins(&[-1.0]));
    check("label -1, peptide a target, error -1", ((rows[0].protein_q, count), "(0.0, 1)"), (port, "([1.0], 0)"))
}

/// No rows.
fn no_rows() -> bool {
    let sage = sage(&database(&["P", "Q"], true), &[], &bins(&[0.5]));
    check("no rows of proteins", (sage, "([], 0)"), (port(1, &[], &bins(&[0.5])), "([], 0)"))
}

/// A decoy alone, whose error brings the sum to -1: over no targets that is an infinity.
fn no_targets() -> bool {
    let (rows, parts) = ([(0, -1, 0.0)], bins(&[-2.0]));
    let sage = sage(&database(&["P", "Q"], true), &rows, &parts);
    check("a decoy alone, error -2", (sage, "([-inf], 0)"), (port(1, &rows, &parts), "([-inf], 0)"))
}

/// A target whose only score leaves f32::MIN: what the densities are made of.
fn never_scored() -> bool {
    let mut rows = [feature(0, 1, f32::NEG_INFINITY)];
    let (_, builds) = recording(|| picked_protein(&database(&["P", "Q"], true), &mut rows));
    let Build { scores, decoys, .. } = &builds[0];
    check(
        "a target scored -infinity alone: the slot's score, and whether it is a decoy",
        ((scores[0], decoys[0]), "(-3.4028234663852886e38, true)"),
        (port_winners(&table(&[(0, 1, f32::NEG_INFINITY)])), "([-3.4028235e38, NaN], [1, 4294967295])"),
    )
}

/// The decoy of P and the target rev_P, under two names.
fn names_that_meet() -> bool {
    let (rows, parts) = ([(0, -1, 0.0), (1, 1, 1.0)], bins(&[1.0, -1.0]));
    let sage = sage(&database(&["P", "rev_P"], true), &rows, &parts);
    check(
        "a decoy of P 0.0, the target rev_P 1.0",
        (sage, "([1.0, 1.0], 1)"),
        (port(1, &rows, &parts), "([1.0, 0.0], 1)"),
    )
}

/// The q-value of a name, and the count, which is of rows.
fn one_name() -> bool {
    let (rows, parts) = ([(0, 1, 1.0), (0, -1, 0.0)], bins(&[1.0, -1.0]));
    let sage = sage(&database(&["P", "Q"], false), &rows, &parts);
    check("one name, target 1.0, decoy 0.0", (sage, "([1.0, 1.0], 1)"), (port(0, &rows, &parts), "([1.0, 1.0], 1)"))
}

/// The port's estimator of a table, with host's kernel.
fn fitted(table: &PlainTable) -> Parts {
    let (scores, is_decoy) = port_winners(table);
    let scores: Vec<f64> = scores.into_iter().map(f64::from).collect();
    let (mut at, mut bins) = ([0.5; BINS], vec![0.5; BINS]);
    let built = bin_scores(BINS, &scores, &mut at);
    let density = |flag| {
        let slots = scores.iter().zip(&is_decoy).filter(|(_, decoy)| **decoy == flag);
        let sample: Vec<f64> = slots.map(|(score, _)| *score).collect();
        at.map(|point| Kernel::new(&sample, 1.0).density(point))
    };
    let number = slot_posterior_bins(1, BINS, &is_decoy, &density(1), &density(0), &mut bins).number;
    assert_eq!((built.number, number), (0, 0));
    Parts { bins, min_score: built.min_score, score_step: built.score_step }
}

/// The line of q-values of proteins with the bins that are fitted.
fn line_fitted(input: &str, rows: &[BatchRow], wanted: &str) -> bool {
    let mut of_sage = features(rows);
    let count = picked_protein(&database(&["P", "Q", "R", "S", "T"], true), &mut of_sage);
    let q: Vec<f32> = of_sage.iter().map(|row| row.protein_q).collect();
    check(input, ((q, count), wanted), (port(1, rows, &fitted(&table(rows))), wanted))
}

/// Proteins of which no decoy wins, and of which one does: the q-values with the bins that are fitted.
fn few_decoys() -> Vec<bool> {
    let line = |input, rows: &[BatchRow]| line_fitted(input, rows, "([1.0, 1.0], 0)");
    vec![
        line("targets 2.0 and 1.0 of two proteins, no decoy, fitted", &[(0, 1, 2.0), (1, 1, 1.0)]),
        line("a target 2.0 and a decoy 1.0 of two proteins, fitted", &[(0, 1, 2.0), (1, -1, 1.0)]),
    ]
}

/// Four proteins, and a fifth whose only score is NaN, or infinite: with it the bins are those of another scale.
fn never_scored_beside() -> Vec<bool> {
    let four = [(0, 1, 9.0), (1, 1, 8.0), (2, -1, 1.0), (3, -1, 0.0)];
    let beside = |score: f32| [four.as_slice(), &[(4, 1, score)]].concat();
    let ones = "([1.0, 1.0, 1.0, 1.0, 1.0], 0)";
    vec![
        line_fitted(
            "targets 9.0 and 8.0, decoys 1.0 and 0.0 of four proteins, fitted",
            &four,
            "([0.5, 0.5, 1.0, 1.0], 0)",
        ),
        line_fitted("the same, and a target of a fifth scored NaN", &beside(f32::NAN), ones),
        line_fitted("the same, and a target of a fifth scored infinity", &beside(f32::INFINITY), ones),
    ]
}

/// A side that lost, errors that are lost in the sum, and a ratio above 1.
fn sums() -> Vec<bool> {
    let db = database(&["P", "Q"], true);
    let line = |input, rows: &[BatchRow], error: f64, wanted| {
        let parts = bins(&[error]);
        check(input, (sage(&db, rows, &parts), wanted), (port(1, rows, &parts), wanted))
    };
    let pair = [(0, 1, 3.0), (0, -1, 2.0), (1, 1, 1.0)];
    vec![
        line("a target 3.0, its decoy 2.0, another target 1.0", &pair, 0.25, "([0.875, 0.875, 0.875], 0)"),
        line("targets 2.0 and 1.0, errors 5E-8", &[(0, 1, 2.0), (1, 1, 1.0)], 5e-8, "([0.5, 0.5], 0)"),
        line("a decoy alone, error -1", &[(0, -1, 0.0)], -1.0, "([1.0], 0)"),
        line("a decoy alone, error 0.5", &[(0, -1, 0.0)], 0.5, "([1.0], 0)"),
    ]
}

/// Errors of half a unit in the last place of the sum and less: lost from an even sum, and not from an odd one, nor
/// below 1.0, where a unit is half as large.
fn halves() -> Vec<bool> {
    let (db, rows, half) = (database(&["P", "Q"], true), [(0, 1, 2.0), (1, 1, 1.0)], f64::from(f32::EPSILON) / 2.0);
    let line =
        |input, parts: &Parts, wanted| check(input, (sage(&db, &rows, parts), wanted), (port(1, &rows, parts), wanted));
    let odd = Parts { bins: vec![half, 2.0 * half], min_score: 1.0, score_step: 1.0 };
    vec![
        line("targets 2.0 and 1.0, errors 2^-24", &bins(&[half]), "([0.5, 0.5], 0)"),
        line("targets 2.0 and 1.0, errors 2^-23 and 2^-24", &odd, "([0.5000001, 0.5000001], 0)"),
        line("targets 2.0 and 1.0, errors -5E-8", &bins(&[-5e-8]), "([0.49999994, 0.49999994], 0)"),
    ]
}

/// Targets of as many proteins, all but the last with an error of 0: the last one's q-value, and the count.
fn one_in_100() -> Vec<bool> {
    let line = |input, targets: u32, error, wanted| {
        let names: Vec<String> = (0..targets).map(|name| format!("P{name}")).collect();
        let db = database(&names.iter().map(String::as_str).collect::<Vec<_>>(), true);
        let rows: Vec<BatchRow> = (0..targets).map(|slot| (slot, 1, slot as f32)).collect();
        let parts = bins(&[error, 0.0]);
        let last = |(q, count): (Vec<f32>, usize)| (q[0], count);
        check(input, (last(sage(&db, &rows, &parts)), wanted), (last(port(1, &rows, &parts)), wanted))
    };
    vec![
        line("110 targets, the last with an error of 0.1: its q-value, and the count", 110, 0.1, "(0.01, 110)"),
        line("107 targets, the last with an error of 0.07: likewise", 107, 0.07, "(0.010000001, 106)"),
    ]
}

/// A protein with equal sides, whose decoy's row comes first: its target is ranked first.
fn decoy_row_first() -> bool {
    let (rows, parts) = ([(1, 1, 2.0), (0, -1, 1.0), (0, 1, 1.0)], bins(&[0.25]));
    let (sage, wanted) = (sage(&database(&["P", "Q"], true), &rows, &parts), "([0.75, 0.875, 0.75], 0)");
    check(
        "a target 2.0, then another protein's decoy 1.0 and target 1.0",
        (sage, wanted),
        (port(1, &rows, &parts), wanted),
    )
}

/// A row labelled as a decoy whose peptide is a target, among groups.
fn label_and_group() -> bool {
    let group = Some("P".to_string());
    let mut rows = [Feature { protein_groups: group, num_protein_groups: 1, ..feature(0, -1, 0.0) }];
    let count = forcing(bins(&[-1.0]), || picked_protein_group(&database(&["P", "Q"], true), &mut rows));
    let port = port(0, &[(0, -1, 0.0)], &bins(&[-1.0]));
    check("a group: label -1, peptide a target", ((rows[0].protein_group_q, count), "(0.0, 1)"), (port, "([1.0], 0)"))
}

/// Two target rows of one protein: the count is of proteins.
fn one_protein() -> bool {
    let (rows, parts) = ([(0, 1, 1.0), (0, 1, 0.5)], bins(&[-1.0]));
    let (sage, wanted) = (sage(&database(&["P", "Q"], true), &rows, &parts), "([0.0, 0.0], 1)");
    check("two target rows of one protein, error -1", (sage, wanted), (port(1, &rows, &parts), wanted))
}

/// Sides scored 1.0: sage's answers under several names of the two proteins.
fn tied() -> Vec<bool> {
    let answers = |rows: &[BatchRow], parts: &Parts| -> BTreeSet<String> {
        let under = |name: u32| sage(&database(&["P", &format!("Q{name}")], true), rows, parts).0;
        (0..32).map(|name| format!("{:?}", under(name))).collect()
    };
    let (two, below) = ([(0, 1, 1.0), (1, -1, 1.0)], bins(&[-2.0]));
    let (three, quarter) = ([(0, 1, 1.0), (1, 1, 1.0), (1, -1, 1.0)], bins(&[0.25]));
    vec![
        check(
            "a target of one protein, a decoy of another, both 1.0, errors -2",
            (answers(&two, &below), "{\"[-3.0, -3.0]\", \"[-3.0, -inf]\"}"),
            (port(1, &two, &below).0, "[-3.0, -3.0]"),
        ),
        check(
            "a target of one protein, both sides of another, all 1.0, errors 0.25",
            (answers(&three, &quarter), "{\"[0.75, 0.75, 0.875]\", \"[0.875, 0.875, 0.875]\"}"),
            (port(1, &three, &quarter).0, "[0.75, 0.75, 0.875]"),
        ),
    ]
}

/// A side of -NaN, ranked last by sage and first by the port: its error is NaN, and with it every later sum.
fn nan_side() -> bool {
    let slot = Competition { forward: 1.0, foward_ix: Some(0), reverse: -f32::NAN, reverse_ix: Some(1) };
    let map: FnvHashMap<u32, Competition<u32>> = [(0, slot)].into_iter().collect();
    let (q, _) = forcing(bins(&[-0.5]), || opened::assign_q_value(map, 0.01));
    let rows = [(0, 1, 1.0), (0, -1, 0.0)];
    let mut table = table(&rows);
    table.reverse[0] = -f32::NAN;
    let port = assigned(1, &table, &rows, &bins(&[-0.5])).0;
    check("a target 1.0, its decoy -NaN, error -0.5", ([q[&0], q[&1]], "[0.5, 1.0]"), (port, "[1.0, 1.0]"))
}

/// Rows that take no part: of two proteins, of none and of one twice; of two groups, of one without a name, and of a
/// name without a number.
fn no_part() -> Vec<bool> {
    let of = |names: &[&str], group: Option<&str>, num_protein_groups: u32| {
        let peptide = Peptide { proteins: names.iter().map(|name| (*name).into()).collect(), ..Peptide::default() };
        let db = IndexedDatabase { peptides: vec![peptide], ..IndexedDatabase::default() };
        let mut rows =
            [Feature { protein_groups: group.map(str::to_string), num_protein_groups, ..feature(0, 1, 1.0) }];
        picked_protein(&db, &mut rows);
        picked_protein_group(&db, &mut rows);
        (rows[0].protein_q, rows[0].protein_group_q)
    };
    let line = |input, sage| {
        let port = port(1, &[(NO_PART, 1, 1.0)], &bins(&[0.5])).0;
        check(input, (sage, "(0.5, 0.5)"), (port, "[1.0]"))
    };
    vec![
        line("two proteins, two groups, fields 0.5", of(&["P", "Q"], Some("P/Q"), 2)),
        line("no protein, one group without a name, fields 0.5", of(&[], None, 1)),
        line("the protein P twice, no group by number, fields 0.5", of(&["P", "P"], Some("P"), 0)),
    ]
}

/// A peptide that two proteins of one group share: it takes no part among proteins, and does among groups.
fn one_group() -> bool {
    let peptide = Peptide { proteins: vec!["P".into(), "Q".into()], ..Peptide::default() };
    let db = IndexedDatabase { peptides: vec![peptide], ..IndexedDatabase::default() };
    let mut rows = [Feature { protein_groups: Some("P/Q".to_string()), num_protein_groups: 1, ..feature(0, 1, 1.0) }];
    picked_protein(&db, &mut rows);
    let count = forcing(bins(&[-1.0]), || picked_protein_group(&db, &mut rows));
    let sage = (rows[0].protein_q, rows[0].protein_group_q, count);
    let port = port(0, &[(0, 1, 1.0)], &bins(&[-1.0]));
    check("a peptide of two proteins of one group, error -1, fields 0.5", (sage, "(0.5, 0.0, 1)"), (port, "([0.0], 1)"))
}

/// Sides that are zeros, and a NaN: the slot's score, and whether it is a decoy.
fn sides() -> Vec<bool> {
    let of = |forward: f32, reverse: f32| {
        let slot = Competition { forward, reverse, ..Competition::<u32>::default() };
        let sage = (opened::score(&slot), opened::is_decoy(&slot));
        let mut table = table(&[(0, 1, 0.0)]);
        (table.forward[0], table.reverse[0]) = (forward, reverse);
        let (scores, is_decoy) = port_winners(&table);
        (sage, (scores[0], is_decoy[0]))
    };
    let (zeros, nan) = (of(0.0, -0.0), of(f32::NAN, 1.0));
    vec![
        check("forward 0.0, reverse -0.0", (zeros.0, "(0.0, true) or (-0.0, true)"), (zeros.1, "(0.0, 1)")),
        check("forward NaN, reverse 1.0", (nan.0, "(1.0, false)"), (nan.1, "(1.0, 0)")),
    ]
}
