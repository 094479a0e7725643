//! Answers of Gauss::solve.

use super::file::{describe, until, Recording};
use crate::fit::systems::{every_eps, System, Systems};
use host::FEATURES;
use sage_core::ml::gauss::Gauss;
use sage_core::ml::matrix::Matrix;
use std::io::Result;
use std::path::Path;

/// By size, one system in this many of those that `each_small` gives is recorded.
const STEPS: [usize; 4] = [1, 1, 787, 3_907];

/// The number of random systems of each size is this, divided by the size.
const OF_EACH_SIZE: usize = 150;

/// For each eps a system of each size from 2 to this that sage solves there first.
const LATE_SIZES: usize = 6;

/// The layout.
const FILES: &str = "\
`solve`, Gauss::solve: the size as u32, the left side row after row, size * size * f64, the right side, size * f64, 0
as u32 and the answer, size * f64, or only 7 as u32 where no eps solves the system. The systems: every one of size 1
with entries of a list of boundaries, some of sizes 2 and 3, random ones of sizes 1 to 20, and for each eps some that
it solves first.
";

/// Records small systems with boundaries as entries, and random systems of every size.
pub fn record(folder: &Path) -> Result<()> {
    let mut recording = Recording::default();
    let mut maker = Systems::new(31);
    let mut turns = [0; 4];
    maker.each_small(|system| {
        let turn = &mut turns[system.size];
        if *turn % STEPS[system.size] == 0 {
            add(&mut recording, system);
        }
        *turn += 1;
    });
    for size in 1..=FEATURES {
        for _ in 0..OF_EACH_SIZE / size {
            add(&mut recording, &maker.of_size(size));
        }
    }
    for eps in every_eps() {
        for size in 2..=LATE_SIZES {
            add(&mut recording, &until(|| maker.of_size(size), |system| first_eps(system) == Some(eps)));
        }
    }
    recording.save(folder, "solve")?;
    describe(folder, FILES)
}

/// The first eps at which sage solves a system.
fn first_eps(system: &System) -> Option<f64> {
    let (left, right) = system.matrices();
    every_eps().into_iter().find(|eps| Gauss::solve_inner(left.clone(), right.clone(), *eps).is_some())
}

/// Records one system.
fn add(recording: &mut Recording, system: &System) {
    let size = system.size;
    recording.case();
    recording.length(size);
    system.left[..size].iter().for_each(|row| recording.numbers(&row[..size]));
    recording.numbers(&system.right[..size]);
    let (left, right) = system.matrices();
    match Gauss::solve(left, right).map(Matrix::take) {
        Some(answer) => {
            recording.answers("accepted", &[0u32]);
            recording.answers("answer", &answer);
        }
        None => recording.answers("refusal", &[7u32]),
    }
}
