//! FEATURE_NAMES beside what score_psms computes: at seven places the name describes something else.

use crate::calls::Vector;
use crate::cases::Random;
use crate::fdr::runs::transformed;
use crate::kde::draws::between;
use crate::kde::psms::row;
use sage_core::mass::Tolerance;
use sage_core::ml::kde::{recording, Build, Estimator};
use sage_core::ml::linear_discriminant::{score_psms, LinearDiscriminantAnalysis, NAMES};
use sage_core::scoring::Feature;

/// A place at which the name does not describe the feature: the name, and what it describes.
type Named = (usize, &'static str, fn(&Feature) -> f64);

/// Every such place. The others are computed as they are named.
const NAMED: [Named; 7] = [
    (5, "delta_mass_model", |row| row.delta_mass.into()),
    (8, "ln1p(-poisson)", |row| (-row.poisson).ln_1p()),
    (10, "ln1p(matched_peaks)", |row| f64::from(row.matched_peaks).ln_1p()),
    (13, "longest_y_pct", |row| row.longest_y_pct.into()),
    (16, "rt", |row| row.rt.into()),
    (18, "sqrt(delta_rt_model)", |row| f64::from(row.delta_rt_model).sqrt()),
    (19, "sqrt(delta_ims_model)", |row| f64::from(row.delta_ims_model).sqrt()),
];

/// The line of the features as they are computed, and one for each name.
pub fn lines() -> Vec<bool> {
    let mut random = Random::new(41);
    let rows: Vec<Feature> = (0..60).map(|place| varied(&mut random, place)).collect();
    let mut scored = rows.clone();
    let (_, builds) = recording(|| score_psms(&mut scored, Tolerance::Ppm(-10.0, 10.0)));
    let holds =
        |named: Option<Named>| scores(&rows, &builds[0], named).is_some_and(|scores| scores == builds[1].scores);
    let mut lines = vec![names(), say("as the Rust computes them", holds(None), true)];
    for named in NAMED {
        lines.push(say(&format!("with place {} as it is named", named.0), holds(Some(named)), false));
    }
    lines
}

/// The names are those of FEATURE_NAMES.
fn names() -> bool {
    let (sage, wanted) = (NAMED.map(|named| NAMES[named.0]), NAMED.map(|named| named.1));
    let should = if sage == wanted { String::new() } else { format!(", and they should be {wanted:?}") };
    println!("names at the places {:?}: {sage:?}{should}", NAMED.map(|named| named.0));
    sage == wanted
}

/// Prints whether features give score_psms's scores, and whether they should.
fn say(features: &str, same: bool, wanted: bool) -> bool {
    let should = if same == wanted { "" } else { ", and it should be the other way" };
    println!("features {features} {} the scores of score_psms{should}", if same { "give" } else { "do not give" });
    same == wanted
}

/// The scores that sage's own fit gives, of features of which one may be as it is named.
fn scores(rows: &[Feature], of_masses: &Build, named: Option<Named>) -> Option<Vec<f64>> {
    let estimator = Estimator::from_parts(of_masses.estimator.clone());
    let features = |row: &Feature| -> Vector {
        let mut features = transformed(row, estimator.posterior_error(row.delta_mass.into()));
        if let Some((place, _, read)) = named {
            features[place] = read(row);
        }
        features
    };
    let fit = LinearDiscriminantAnalysis::train(rows, &of_masses.decoys, features)?;
    Some(rows.iter().map(|row| fit.score(&features(row))).collect())
}

/// A row in which what is named differs from what is computed. At times Poisson's logarithm is infinite.
fn varied(random: &mut Random, place: usize) -> Feature {
    let feature = row(random, place, 2.0);
    Feature {
        rt: between(random, 0.0, 90.0) as f32,
        longest_y_pct: feature.longest_y as f32 / feature.peptide_len as f32,
        poisson: if place % 7 == 3 { f64::NEG_INFINITY } else { feature.poisson },
        delta_rt_model: if place % 5 == 2 { 0.0 } else { feature.delta_rt_model },
        delta_ims_model: if place % 5 == 4 { 1.0 } else { feature.delta_ims_model },
        ..feature
    }
}
