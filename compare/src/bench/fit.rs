//! Modules 2 and 3: elimination, the fit and the scoring run, one thread on either side.

use super::{head, in_rounds, nanoseconds, ROUNDS};
use crate::calls::{train, Vector};
use crate::cases::Random;
use crate::fit::systems::{gram, moderate, System};
use crate::lists::label;
use crate::report::{expect, expect_column};
use host::FEATURES;
use sage_core::ml::gauss::Gauss;
use sage_core::ml::linear_discriminant::LinearDiscriminantAnalysis;
use sage_core::ml::matrix::Matrix;
use vayemuku_sys::{score_rows, solve};

/// Sizes of systems, and how many different ones there are of each.
const SIZES: [usize; 3] = [2, 8, 20];
const SYSTEMS: usize = 100;

/// Rounds of systems; on a busy machine short runs in many rounds are disturbed least.
const SYSTEM_ROUNDS: usize = 101;

/// Numbers of rows, of calls in a run, and of rounds.
const ROWS: [(usize, usize, usize); 3] = [(1_000, 10, 101), (100_000, 1, 31), (1_000_000, 1, ROUNDS)];

/// Times a call under a name, at a number of rows, of calls and of rounds.
type Timed = fn(&str, (usize, usize, usize)) -> Result<(), String>;

/// Prints what each side's time includes, and the head of the table.
fn print_head() {
    println!("One thread on either side.");
    println!(
        "solve: {SYSTEMS} random systems of a size, solved at the first eps, or by none. sage's matrices are made"
    );
    println!(
        "before the clock starts; that it copies them for each try, and frees them, is part of its time. The port"
    );
    println!("is handed twenty rows of twenty numbers whatever the size; its table for each try is part of its time.");
    println!("train: random rows, half of them decoys at random. sage's feat_fn copies a row of the port's feature");
    println!("column; its decoy marks are made before the clock starts. The port reads labels. Solving the system of");
    println!("size {FEATURES} is part of both times.");
    println!(
        "score: scores of random sign and size, and those narrowed, into two columns that are allocated before the"
    );
    println!("clock starts. sage's side is a loop of its score and Rust's `as f32`.");
    let rounds = ROWS.map(|(rows, _, rounds)| format!("{rounds} at {rows} rows")).join(", ");
    head(&format!("ns per call of solve, else per row; median of {SYSTEM_ROUNDS} rounds of solve, {rounds}"));
}

/// Times every call at every size; false where both sides do not give the same.
pub fn run() -> bool {
    print_head();
    let mut same = true;
    let mut report = |name: String, timed: Result<(), String>| {
        if let Err(words) = timed {
            println!("{name}: {words}");
            same = false;
        }
    };
    for (words, fails) in [("first eps", false), ("no eps", true)] {
        for size in SIZES {
            let name = format!("solve {size}, {words}");
            report(name.clone(), solving(&name, size, fails));
        }
    }
    for (words, time) in [("train", training as Timed), ("score", scoring)] {
        for size in ROWS {
            let name = format!("{words}, {}", size.0);
            report(name.clone(), time(&name, size));
        }
    }
    same
}

/// Random symmetric systems. Those that are to fail have a first row of negative numbers and only 0 below its first: no
/// eps makes a pivot of that.
fn some_systems(size: usize, fails: bool) -> Vec<System> {
    let mut random = Random::new(17);
    let mut system = |_| {
        let mut system = System::new(&mut random, size);
        gram(&mut random, &mut system, 2 * size);
        system.right = std::array::from_fn(|_| moderate(&mut random));
        if fails {
            system.left.iter_mut().for_each(|row| row[0] = 0.0);
            system.left[0] = system.left[0].map(|x| -x.abs());
            system.left[0][0] = -2.0;
        }
        system
    };
    (0..SYSTEMS).map(&mut system).collect()
}

/// Elimination.
fn solving(name: &str, size: usize, fails: bool) -> Result<(), String> {
    let systems = some_systems(size, fails);
    let sides: Vec<(Matrix, Matrix)> = systems.iter().map(System::matrices).collect();
    let first = |(left, right): &&(Matrix, Matrix)| Gauss::solve_inner(left.clone(), right.clone(), 1E-8).is_some();
    let solvable = if fails { 0 } else { SYSTEMS };
    expect("systems that the first eps solves", sides.iter().filter(first).count(), solvable)?;
    let mut values = vec![[0.0; FEATURES]; SYSTEMS];
    let mut answers: Vec<Option<Matrix>> = Vec::with_capacity(SYSTEMS);
    let mut port = || {
        let solved = systems.iter().zip(&mut values);
        solved.map(|(system, values)| u64::from(solve(&system.left, &system.right, size, values).number)).sum()
    };
    let mut rust = || {
        answers.clear();
        let mut made = sides.clone();
        nanoseconds(&mut || {
            answers.extend(made.drain(..).map(|(left, right)| Gauss::solve(left, right)));
            0
        })
    };
    in_rounds(name, SYSTEM_ROUNDS, SYSTEMS, || nanoseconds(&mut port), &mut rust);
    expect("systems that sage solves", answers.iter().flatten().count(), solvable)?;
    for (port, sage) in values.iter().zip(answers) {
        let wanted = sage.map_or(vec![f64::NAN; size], Matrix::take);
        expect_column("answer", &port[..size], wanted.into_iter())?;
    }
    Ok(())
}

/// The fit.
fn training(name: &str, (rows, calls, rounds): (usize, usize, usize)) -> Result<(), String> {
    let mut random = Random::new(18);
    let features: Vec<Vector> = (0..rows).map(|_| std::array::from_fn(|_| moderate(&mut random))).collect();
    let labels: Vec<i32> = (0..rows).map(|place| label(random.below(2) == 0, place)).collect();
    let decoys: Vec<bool> = labels.iter().map(|label| *label == -1).collect();
    let mut answer = (0, [0.0; FEATURES]);
    let mut fit = None;
    let mut port = || {
        (0..calls).for_each(|_| answer = train(features.as_flattened(), &labels));
        answer.0.into()
    };
    let mut rust = || {
        (0..calls).for_each(|_| fit = LinearDiscriminantAnalysis::train(&features, &decoys, |row| *row));
        fit.is_some().into()
    };
    in_rounds(name, rounds, calls * rows, || nanoseconds(&mut port), || nanoseconds(&mut rust));
    expect("number", answer.0, 0)?;
    let fit = fit.ok_or("sage has no fit")?;
    expect_column("coefficient", &answer.1, fit.coefficients().iter().copied())
}

/// The scoring run.
fn scoring(name: &str, (rows, calls, rounds): (usize, usize, usize)) -> Result<(), String> {
    let mut random = Random::new(19);
    let coefficients: Vector = std::array::from_fn(|_| moderate(&mut random));
    let features: Vec<Vector> = (0..rows)
        .map(|_| {
            let size = 2f64.powi(random.below(60) as i32 - 30);
            std::array::from_fn(|_| size * moderate(&mut random))
        })
        .collect();
    let sage = LinearDiscriminantAnalysis::from_coefficients(coefficients.to_vec());
    let (mut scores, mut narrowed) = (vec![1.0; rows], vec![1.0; rows]);
    let (mut sage_scores, mut sage_narrowed) = (scores.clone(), narrowed.clone());
    let mut port = || {
        let call = |_| u64::from(score_rows(&coefficients, features.as_flattened(), &mut scores, &mut narrowed).number);
        (0..calls).map(call).sum()
    };
    let mut rust = || {
        for _ in 0..calls {
            for ((row, score), narrow) in features.iter().zip(&mut sage_scores).zip(&mut sage_narrowed) {
                *score = sage.score(row);
                *narrow = *score as f32;
            }
        }
        sage_scores[0].to_bits()
    };
    in_rounds(name, rounds, calls * rows, || nanoseconds(&mut port), || nanoseconds(&mut rust));
    expect_column("score", &scores, sage_scores.iter().copied())?;
    expect_column("narrowed", &narrowed, sage_narrowed.iter().copied())
}
