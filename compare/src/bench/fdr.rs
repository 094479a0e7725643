//! Module 5: a batch of rows and their q-values, one thread on either side.

use super::{head, in_rounds, median, nanoseconds, ROUNDS};
use crate::calls::{assign_q_value, estimator};
use crate::cases::Random;
use crate::fdr::picked::{database, Function, Sage};
use crate::fdr::reading::PlainTable;
use crate::report::{expect, expect_column};
use sage_core::database::PeptideIx;
use sage_core::ml::kde::{forcing, on_rayons_thread, Parts};
use sage_core::scoring::Feature;
use vayemuku_sys::{add_rows, fresh_table, Batch, RankingColumns};

/// Rows, slots and bins.
const ROWS: usize = 1_000_000;
const SLOTS: usize = 100_000;
const BINS: usize = 1000;

/// Times both names; false where both sides do not give the same.
pub fn run() -> bool {
    println!("{ROWS} rows over {SLOTS} slots, {BINS} bins that are given (sage's builder is made to give them).");
    println!("One thread on either side; rows and columns are made before the clock starts.");
    println!("two names: beside sage's picked_protein, decoys generated; one name: beside its picked_protein_group.");
    println!(
        "sage's maps have strings as keys: making the strings, hashing them and looking every row's up is part of"
    );
    println!("its time. Numbering its keys as slots is the host's part, and in neither time of the port's.");
    println!("The port's time is a fresh table, one batch of all rows, and the q-values; below, the parts alone.");
    head(&format!("ns per row, median of {ROUNDS} rounds"));
    // Called from another thread, each parallel loop of sage's would wait for rayon's.
    let outcomes = on_rayons_thread(|| [Function::Protein, Function::Group].map(competition));
    for words in outcomes.iter().filter_map(|outcome| outcome.as_ref().err()) {
        println!("{words}");
    }
    outcomes.iter().all(|outcome| outcome.is_ok())
}

/// The port's columns.
struct Port {
    slots: Vec<u32>,
    labels: Vec<i32>,
    scores: Vec<f32>,
    table: PlainTable,
    keys: Vec<u64>,
    spare: Vec<u64>,
    q: Vec<f32>,
}

impl Port {
    /// Rows of random slots. Scores are different f32s under 1; the lower, the more decoys.
    fn new(random: &mut Random) -> Self {
        let mut places: Vec<u32> = (0..ROWS as u32).collect();
        for last in (1..ROWS).rev() {
            places.swap(last, random.below(last as u64 + 1) as usize);
        }
        let decoy = |place: &u32| if random.below(ROWS as u64) < u64::from(*place) { -1 } else { 1 };
        let labels = places.iter().map(decoy).collect();
        Port {
            slots: (0..ROWS).map(|_| random.below(SLOTS as u64) as u32).collect(),
            labels,
            scores: places.iter().map(|place| f32::from_bits(1f32.to_bits() - 1 - place)).collect(),
            table: PlainTable::fresh(SLOTS),
            keys: vec![0; 2 * SLOTS],
            spare: vec![0; 2 * SLOTS],
            q: vec![0.0; ROWS],
        }
    }

    /// A fresh table, and all rows added to it.
    fn add(&mut self) -> u64 {
        let Port { slots, labels, scores, table, .. } = self;
        let fresh = fresh_table(table.columns_mut());
        let added = add_rows(Batch { slots, labels, scores }, table.columns_mut());
        u64::from(fresh.number) + u64::from(added.number)
    }

    /// The number and the count of q-values.
    fn assign(&mut self, function: Function, parts: &Parts) -> (u32, usize) {
        let Port { slots, labels, table, keys, spare, q, .. } = self;
        let two_names = u32::from(matches!(function, Function::Protein));
        assign_q_value(two_names, estimator(parts), table.columns(), (slots, labels), RankingColumns { keys, spare, q })
    }
}

/// sage's rows of the port's.
fn features(port: &Port) -> Vec<Feature> {
    let row = |((slot, label), score): ((&u32, &i32), &f32)| Feature {
        peptide_idx: PeptideIx(2 * slot + u32::from(*label == -1)),
        label: *label,
        discriminant_score: *score,
        protein_groups: Some(format!("G{slot}")),
        num_protein_groups: 1,
        ..Feature::default()
    };
    port.slots.iter().zip(&port.labels).zip(&port.scores).map(row).collect()
}

/// A table, a batch and its q-values.
fn competition(function: Function) -> Result<(), String> {
    let mut port = Port::new(&mut Random::new(21));
    let min_score = f64::from(f32::from_bits(1f32.to_bits() - ROWS as u32));
    let bins = (0..BINS).map(|bin| 1.0 - bin as f64 / (BINS - 1) as f64).collect();
    let parts = Parts { bins, min_score, score_step: (1.0 - min_score) / (BINS - 1) as f64 };
    let mut sage = Sage::with(database(SLOTS, true, "rev_"), features(&port));
    let (mut answer, mut sage_count, mut times) = ((0, 0), 0, Vec::new());
    let both = || {
        let adding = nanoseconds(&mut || port.add());
        let assigning = nanoseconds(&mut || {
            answer = port.assign(function, &parts);
            answer.1 as u64
        });
        times.push([adding, assigning]);
        adding + assigning
    };
    let mut rust = || {
        sage_count = forcing(parts.clone(), || sage.call(function));
        sage_count as u64
    };
    let name = ["two names", "one name"][function as usize];
    in_rounds(name, ROUNDS, ROWS, both, || nanoseconds(&mut rust));
    for (part, words) in ["  of that, adding", "  of that, q-values"].into_iter().enumerate() {
        println!("{words:34} {:>10.2}", median(times.iter().map(|time| time[part])) / ROWS as f64);
    }
    expect("number and count", answer, (0, sage_count))?;
    expect_column("q", &port.q, sage.q(function))
}
