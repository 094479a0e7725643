//! The systems that elimination is tried on.

use crate::calls::Vector;
use crate::cases::{partner, random_float, Random};
use host::FEATURES;
use sage_core::ml::matrix::Matrix;

/// Entries that decide a comparison, or that arithmetic treats as a special case.
pub const SPECIAL: [f64; 18] = [
    0.0,
    -0.0,
    f64::NAN,
    f64::INFINITY,
    f64::NEG_INFINITY,
    f64::MAX,
    f64::MIN,
    f64::MIN_POSITIVE,
    5e-324,
    -5e-324,
    1.0,
    -1.0,
    1.0 - f64::EPSILON / 2.0,
    1.0 + f64::EPSILON,
    1e-8,
    -1e-8,
    1e16,
    -2.0,
];

/// Entries that lead to zeros of either sign.
const ZEROS_AND_ONES: [f64; 6] = [0.0, -0.0, 0.0, -0.0, 1.0, -1.0];

/// The contents of a system past its size: one of these in every place.
const PAST: [f64; 6] = [f64::NAN, f64::INFINITY, f64::NEG_INFINITY, 1e300, -3.5, 0.0];

/// Entries of every system of size 2: with them columns have no pivot, or have one from some eps on.
const OF_SIZE_2: [f64; 9] = [0.0, -0.0, 1.0, -2.0, 0.5, -1e-8, -5e-8, f64::NAN, f64::INFINITY];

/// Entries of every left side of size 3. Where a column has no pivot, and the next only NaN and -infinity, it matters
/// that row 0 is picked.
const OF_SIZE_3: [f64; 5] = [0.0, 1.0, -2.0, f64::NAN, f64::NEG_INFINITY];

/// A system. Past its size it holds garbage.
#[derive(Clone)]
pub struct System {
    pub size: usize,
    pub left: [Vector; FEATURES],
    pub right: Vector,
}

impl System {
    /// A system of this size with garbage in every place.
    pub fn new(random: &mut Random, size: usize) -> Self {
        let garbage = pick(random, &PAST);
        System { size, left: [[garbage; FEATURES]; FEATURES], right: [garbage; FEATURES] }
    }

    /// Sets each entry of the left side, row after row.
    fn set(&mut self, mut entry: impl FnMut(usize, usize) -> f64) {
        for i in 0..self.size {
            for j in 0..self.size {
                self.left[i][j] = entry(i, j);
            }
        }
    }

    /// Changes each entry of the left side.
    fn map(&mut self, entry: impl Fn(f64) -> f64) {
        for row in &mut self.left[..self.size] {
            row[..self.size].iter_mut().for_each(|x| *x = entry(*x));
        }
    }

    /// Sets each number of the right side.
    fn set_right(&mut self, number: impl FnMut(usize) -> f64) {
        let numbers: Vec<f64> = (0..self.size).map(number).collect();
        self.right[..self.size].copy_from_slice(&numbers);
    }

    /// sage's two sides.
    pub fn matrices(&self) -> (Matrix, Matrix) {
        let entries = self.left[..self.size].iter().flat_map(|row| &row[..self.size]);
        let left = Matrix::new(entries.copied().collect::<Vec<f64>>(), self.size, self.size);
        (left, Matrix::col_vector(self.right[..self.size].to_vec()))
    }
}

/// One of a list.
pub fn pick<T: Copy>(random: &mut Random, list: &[T]) -> T {
    list[random.below(list.len() as u64) as usize]
}

/// From -1 to 1.
pub fn moderate(random: &mut Random) -> f64 {
    random.next() as i64 as f64 / 2f64.powi(63)
}

/// A whole number from -3 to 3.
pub fn whole(random: &mut Random) -> f64 {
    random.below(7) as f64 - 3.0
}

/// A power of ten from 10^-n to 10^n.
pub fn power_of_ten(random: &mut Random, n: i32) -> f64 {
    10f64.powi(random.below(2 * n as u64 + 1) as i32 - n)
}

/// A subnormal float, or one a little above.
fn subnormal(random: &mut Random) -> f64 {
    let digits = 1 + random.below(53);
    f64::from_bits(random.below(2) << 63 | random.below(1 << digits))
}

/// Each eps that is tried.
pub fn every_eps() -> Vec<f64> {
    let next = |eps: &f64| Some(eps * 10.0).filter(|eps| *eps <= 1.0);
    std::iter::successors(Some(1E-8), next).collect()
}

/// The symmetric matrix of `rank` random rows, as a fit has it.
pub fn gram(random: &mut Random, system: &mut System, rank: usize) {
    let rows: Vec<Vector> = (0..rank).map(|_| std::array::from_fn(|_| moderate(random))).collect();
    system.set(|i, j| rows.iter().map(|row| row[i] * row[j]).sum());
}

/// The product of two matrices of whole numbers: exactly singular where `rank` is under the size.
fn product(random: &mut Random, system: &mut System, rank: usize) {
    let mut numbers = || -> Vec<Vector> { (0..rank).map(|_| std::array::from_fn(|_| whole(random))).collect() };
    let (a, b) = (numbers(), numbers());
    system.set(|i, j| a.iter().zip(&b).map(|(a, b)| a[i] * b[j]).sum());
}

/// Makes random systems.
pub struct Systems {
    random: Random,
    eps: Vec<f64>,
}

impl Systems {
    /// The systems of a seed.
    pub fn new(seed: u64) -> Self {
        Systems { random: Random::new(seed), eps: every_eps() }
    }

    /// Calls `check` with every system of size 1 and 2, and every left side of size 3, with entries of a short list.
    pub fn each_small(&mut self, mut check: impl FnMut(&System)) {
        let random = &mut self.random;
        for (size, list, numbers) in [(1, &SPECIAL[..], 2), (2, &OF_SIZE_2, 6), (3, &OF_SIZE_3, 9)] {
            for choice in 0..list.len().pow(numbers) {
                let mut rest = choice;
                let mut next = || {
                    let entry = list[rest % list.len()];
                    rest /= list.len();
                    entry
                };
                let mut system = System::new(random, size);
                system.set(|_, _| next());
                match size {
                    3 => system.set_right(|_| whole(random)),
                    _ => system.set_right(|_| next()),
                }
                check(&system);
            }
        }
    }

    /// Calls `check` with systems of every size, with each special entry in each place.
    pub fn each_place(&mut self, mut check: impl FnMut(&System)) {
        for size in 1..=FEATURES {
            for (i, j) in (0..size).flat_map(|i| (0..=size).map(move |j| (i, j))) {
                for special in SPECIAL {
                    for kind in [0, 5, 7] {
                        let mut system = System::new(&mut self.random, size);
                        self.fill(&mut system, kind);
                        match j == size {
                            true => system.right[i] = special,
                            false => system.left[i][j] = special,
                        }
                        check(&system);
                    }
                }
            }
        }
    }

    /// A random system of a random size.
    pub fn next(&mut self) -> System {
        let size = 1 + self.random.below(FEATURES as u64) as usize;
        self.of_size(size)
    }

    /// A random system of this size.
    pub fn of_size(&mut self, size: usize) -> System {
        let mut system = System::new(&mut self.random, size);
        let kind = self.random.below(10);
        self.fill(&mut system, kind);
        for _ in 0..self.random.below(4) {
            self.change(&mut system);
        }
        system
    }

    /// Fills both sides, by `kind` under 10.
    fn fill(&mut self, system: &mut System, kind: u64) {
        let random = &mut self.random;
        let rank = 1 + random.below(system.size as u64 + 2) as usize;
        match kind {
            0 => system.set(|_, _| whole(random)),
            1 => system.set(|_, _| random_float(random)),
            2 => system.set(|_, _| moderate(random)),
            3 => system.set(|_, _| -moderate(random).abs()),
            4 => system.set(|_, _| subnormal(random)),
            5 => system.set(|i, j| if i > j { 0.0 } else { whole(random) }),
            6 => product(random, system, rank),
            7 => gram(random, system, rank),
            8 => system.set(|_, _| pick(random, &SPECIAL)),
            _ => system.set(|_, _| pick(random, &ZEROS_AND_ONES)),
        }
        let kinds = if kind == 9 { 6 } else { 4 };
        match random.below(kinds) {
            0 => system.set_right(|_| whole(random)),
            1 => system.set_right(|_| random_float(random)),
            2 | 3 => system.set_right(|_| moderate(random)),
            _ => system.set_right(|_| pick(random, &ZEROS_AND_ONES)),
        }
    }

    /// Makes one change to the left side, or to one number of the right.
    fn change(&mut self, system: &mut System) {
        let random = &mut self.random;
        let size = system.size;
        let [i, j] = [0; 2].map(|_| random.below(size as u64) as usize);
        let zero = pick(random, &[0.0, -0.0]);
        let left = &mut system.left;
        match random.below(12) {
            0 => left[i][..size].fill(zero),
            1 => left[..size].iter_mut().for_each(|row| row[j] = zero),
            2 => left[i][j] = pick(random, &SPECIAL),
            3 => system.right[i] = pick(random, &SPECIAL),
            4 => {
                let factor = whole(random);
                (0..size).for_each(|k| left[i][k] = factor * left[j][k]);
            }
            5 => left[..size].iter_mut().for_each(|row| row[i] = row[j]),
            6 => (0..size).for_each(|k| left[i][k] = partner(random, left[j][k])),
            7 => self.late(system, i),
            8 => {
                let factor = power_of_ten(random, 20);
                system.map(|x| x * factor);
            }
            9 => (0..size).for_each(|k| left[i][k] = left[k][i]),
            10 => system.map(|x| -x.abs()),
            _ => left.swap(i, j),
        }
    }

    /// Column i gets a diagonal entry that some eps lifts to zero or above, and nothing else from the diagonal down.
    fn late(&mut self, system: &mut System, i: usize) {
        let eps = pick(&mut self.random, &self.eps);
        let factor = pick(&mut self.random, &[1.0, 1.0, 3.0, 10.0]);
        system.left[i..system.size].iter_mut().for_each(|row| row[i] = 0.0);
        system.left[i][i] = -factor * eps;
    }
}
