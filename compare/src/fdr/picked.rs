//! sage's unchanged picked_protein and picked_protein_group, on rows that a port's table is made of.

use super::draws::SlotRows;
use super::reading::NO_PART;
use crate::cases::Random;
use crate::kde::draws::one_of;
use host::Names;
use sage_core::database::{IndexedDatabase, PeptideIx};
use sage_core::fdr::{picked_protein, picked_protein_group, Competition};
use sage_core::ml::kde::{forcing, recording, Build, Parts};
use sage_core::peptide::Peptide;
use sage_core::scoring::Feature;
use std::sync::Arc;

/// Tags of decoys' names. With the empty one, both sides of a protein have one name.
const TAGS: [&str; 4] = ["rev_", "DECOY_", "rev_", ""];

/// Protein names of shared peptides, and of peptides of no protein.
pub const SHARED: [&[&str]; 4] = [&["P0", "P1"], &["P1", "X", "Y"], &["P0", "P0"], &[]];

/// Group names and numbers of groups of rows that take no part.
const NO_GROUP: [(Option<&str>, u32); 5] = [(Some("G0"), 2), (Some("G1"), 0), (None, 1), (None, 0), (Some("G0/G1"), 3)];

/// One of the two functions.
#[derive(Clone, Copy, Debug)]
pub enum Function {
    Protein,
    Group,
}

/// What a function gave: each row's q-value, the count, and the build that it made.
pub struct Picked {
    pub q: Vec<f32>,
    pub count: usize,
    pub build: Build,
}

/// A database and rows.
pub struct Sage {
    db: IndexedDatabase,
    rows: Vec<Feature>,
}

/// A peptide of these proteins.
fn peptide(proteins: &[Arc<str>], decoy: bool) -> Peptide {
    Peptide { decoy, proteins: proteins.to_vec(), ..Peptide::default() }
}

/// A database in which slot k is the protein Pk, its target peptide at 2k and its decoy peptide at 2k + 1. Shared
/// peptides come last.
pub fn database(slots: usize, generate_decoys: bool, decoy_tag: &str) -> IndexedDatabase {
    let mut peptides = Vec::with_capacity(2 * (slots + SHARED.len()));
    for slot in 0..slots {
        let name = [Arc::from(format!("P{slot}"))];
        peptides.extend([false, true].map(|decoy| peptide(&name, decoy)));
    }
    for names in SHARED {
        let names: Vec<Arc<str>> = names.iter().map(|name| Arc::from(*name)).collect();
        peptides.extend([false, true].map(|decoy| peptide(&names, decoy)));
    }
    IndexedDatabase { peptides, generate_decoys, decoy_tag: decoy_tag.to_string(), ..IndexedDatabase::default() }
}

impl Sage {
    /// The rows over `slots` slots, with decoys generated or not. The fields of q-values start as 1.0.
    pub fn new(random: &mut Random, slots: usize, rows: &SlotRows) -> Self {
        let db = database(slots, random.below(2) == 0, one_of(random, &TAGS));
        let mut features = Vec::with_capacity(rows.slots.len());
        for ((&slot, &label), &score) in rows.slots.iter().zip(&rows.labels).zip(&rows.scores) {
            features.push(feature(random, slots, slot, label, score));
        }
        Sage { db, rows: features }
    }

    /// A database with rows.
    pub fn with(db: IndexedDatabase, rows: Vec<Feature>) -> Self {
        Sage { db, rows }
    }

    /// The names of a slot's sides. `Peptide::proteins` puts the tag before a decoy's proteins only where decoys are
    /// generated; otherwise both sides have the protein's name.
    pub fn names(&self, function: Function) -> Names {
        match function {
            Function::Protein if self.db.generate_decoys && !self.db.decoy_tag.is_empty() => Names::Two,
            _ => Names::One,
        }
    }

    /// Calls a function; gives its count.
    pub fn call(&mut self, function: Function) -> usize {
        match function {
            Function::Protein => picked_protein(&self.db, &mut self.rows),
            Function::Group => picked_protein_group(&self.db, &mut self.rows),
        }
    }

    /// The q-values that a function gave.
    pub fn q(&self, function: Function) -> impl Iterator<Item = f32> + '_ {
        self.rows.iter().map(move |row| match function {
            Function::Protein => row.protein_q,
            Function::Group => row.protein_group_q,
        })
    }

    /// Runs a function, on these bins where there are some, and otherwise on those that it fits.
    pub fn run(&mut self, function: Function, forced: Option<&Parts>) -> Picked {
        let (count, mut builds) = recording(|| match forced {
            Some(parts) => forcing(parts.clone(), || self.call(function)),
            None => self.call(function),
        });
        Picked { q: self.q(function).collect(), count, build: builds.remove(0) }
    }
}

/// A row of sage's.
fn feature(random: &mut Random, slots: usize, slot: u32, label: i32, score: f32) -> Feature {
    let decoy = u32::from(label == -1);
    let (pair, (group, groups)) = match slot {
        NO_PART => {
            let (group, groups) = one_of(random, &NO_GROUP);
            (slots as u32 + random.below(SHARED.len() as u64) as u32, (group.map(str::to_string), groups))
        }
        _ => (slot, (Some(format!("G{slot}")), 1)),
    };
    Feature {
        peptide_idx: PeptideIx(2 * pair + decoy),
        label,
        discriminant_score: score,
        protein_q: 1.0,
        protein_group_q: 1.0,
        protein_groups: group,
        num_protein_groups: groups,
        ..Feature::default()
    }
}

/// sage's competitions of the slots, and whether each slot has a row: the loop of picked_protein, over slots.
pub fn competitions(slots: usize, rows: &SlotRows) -> Vec<Option<Competition<u32>>> {
    let mut map = vec![None; slots];
    for ((&slot, &label), &score) in rows.slots.iter().zip(&rows.labels).zip(&rows.scores) {
        if slot == NO_PART {
            continue;
        }
        let entry = map[slot as usize].get_or_insert_with(Competition::<u32>::default);
        match label == -1 {
            true => entry.reverse = entry.reverse.max(score),
            false => entry.forward = entry.forward.max(score),
        }
    }
    map
}
