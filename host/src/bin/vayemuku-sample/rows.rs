//! Rows in the shape of sage's results table.

use crate::random::Random;

/// The columns, as sage orders them.
pub const HEADER: [&str; 40] = [
    "psm_id",
    "peptide",
    "proteins",
    "num_proteins",
    "filename",
    "scannr",
    "rank",
    "label",
    "expmass",
    "calcmass",
    "charge",
    "peptide_len",
    "missed_cleavages",
    "semi_enzymatic",
    "isotope_error",
    "precursor_ppm",
    "fragment_ppm",
    "hyperscore",
    "delta_next",
    "delta_best",
    "rt",
    "aligned_rt",
    "predicted_rt",
    "delta_rt_model",
    "ion_mobility",
    "predicted_mobility",
    "delta_mobility",
    "matched_peaks",
    "longest_b",
    "longest_y",
    "longest_y_pct",
    "matched_intensity_pct",
    "scored_candidates",
    "poisson",
    "sage_discriminant_score",
    "posterior_error",
    "spectrum_q",
    "peptide_q",
    "protein_q",
    "ms2_intensity",
];

/// The place of matched_intensity_pct.
pub const INTENSITY: usize = 31;

/// Proteins in the sample's FASTA file, and how many of them were in the sample's vial.
const PROTEINS: usize = 2_000;
const PRESENT: usize = 800;

/// The mass between isotopes.
const NEUTRON: f64 = 1.00335;

/// What a match is.
#[derive(Clone, Copy, PartialEq)]
enum Kind {
    /// The peptide that was measured.
    Correct,
    /// A target by chance.
    Chance,
    /// A decoy by chance.
    Decoy,
}

/// What a match looks like where it is correct, and where it is by chance.
struct Looks {
    hyperscore: f64,
    delta_next: f64,
    delta_best: f64,
    rank: u32,
    peaks: f64,
    runs: f64,
    intensity: f64,
    fragment_ppm: f64,
    precursor_ppm: f64,
    delta_rt: f64,
}

impl Looks {
    /// The looks of a correct match.
    fn correct(random: &mut Random) -> Looks {
        Looks {
            hyperscore: random.around(38.0, 9.0),
            delta_next: random.around(12.0, 4.0),
            delta_best: 0.0,
            rank: 1,
            peaks: random.around(18.0, 5.0),
            runs: random.between(0.3, 0.8),
            intensity: random.around(45.0, 15.0),
            fragment_ppm: random.around(2.5, 1.0),
            precursor_ppm: random.around(0.4, 1.5),
            delta_rt: random.around(0.0, 0.01),
        }
    }

    /// The looks of a match by chance; some are second to another match of their spectrum.
    fn chance(random: &mut Random) -> Looks {
        let second = random.below(20) == 0;
        Looks {
            hyperscore: random.around(19.0, 4.5),
            delta_next: random.around(2.0, 1.5),
            delta_best: if second { random.between(0.5, 12.0) } else { 0.0 },
            rank: if second { 2 } else { 1 },
            peaks: random.around(8.0, 2.0),
            runs: random.between(0.05, 0.4),
            intensity: random.around(15.0, 7.0),
            fragment_ppm: random.around(6.0, 3.0),
            precursor_ppm: random.between(-10.0, 10.0),
            delta_rt: random.between(0.0, 0.5),
        }
    }
}

/// The cells of one row.
pub fn row(random: &mut Random, id: usize) -> [String; HEADER.len()] {
    let kind = match random.below(40) {
        0..22 => Kind::Correct,
        22..31 => Kind::Chance,
        _ => Kind::Decoy,
    };
    let looks = match kind {
        Kind::Correct => Looks::correct(random),
        _ => Looks::chance(random),
    };
    let peptide = peptide(random);
    let proteins = proteins(random, kind);
    let mut cells = HEADER.map(|_| String::new());
    let mut put = |column: &str, cell: String| {
        let place = HEADER.iter().position(|name| *name == column);
        cells[place.unwrap_or_else(|| unreachable!("{column} is among the columns"))] = cell;
    };
    put("psm_id", id.to_string());
    put("num_proteins", proteins.len().to_string());
    put("proteins", proteins.join(";"));
    put("filename", format!("run{}.mzML", 1 + id % 3));
    put("scannr", format!("controllerType=0 controllerNumber=1 scan={}", 1_000 + id));
    put("label", if kind == Kind::Decoy { -1 } else { 1 }.to_string());
    masses(random, &looks, peptide.len(), &mut put);
    scores(random, &looks, peptide.len(), &mut put);
    times(random, &looks, &mut put);
    stored(&looks, &mut put);
    put("peptide", peptide);
    cells
}

/// A peptide of 7 to 30 residues that ends in K or R.
fn peptide(random: &mut Random) -> String {
    const RESIDUES: &[u8; 18] = b"ACDEFGHILMNPQSTVWY";
    let inner = 6 + random.below(24);
    let mut letters: Vec<u8> = (0..inner).map(|_| RESIDUES[random.below(RESIDUES.len())]).collect();
    letters.push(b"KR"[random.below(2)]);
    letters.into_iter().map(char::from).collect()
}

/// The proteins of a match; every sixteenth is shared by two.
fn proteins(random: &mut Random, kind: Kind) -> Vec<String> {
    let (tag, range) = match kind {
        Kind::Correct => ("", PRESENT),
        Kind::Chance => ("", PROTEINS),
        Kind::Decoy => ("rev_", PROTEINS),
    };
    let count = if random.below(16) == 0 { 2 } else { 1 };
    let first = random.below(range);
    (0..count).map(|next| format!("{tag}sp|S{:05}|SAMPLE", (first + next) % PROTEINS)).collect()
}

/// The masses and their errors.
fn masses(random: &mut Random, looks: &Looks, length: usize, put: &mut impl FnMut(&str, String)) {
    let isotope = if random.below(12) == 0 { NEUTRON } else { 0.0 };
    let calculated = length as f64 * random.around(111.0, 3.0) + 18.010565;
    let measured = calculated * (1.0 + looks.precursor_ppm / 1E6) + isotope;
    put("calcmass", single(calculated));
    put("expmass", single(measured));
    put("isotope_error", single(isotope));
    put("precursor_ppm", single(looks.precursor_ppm));
    put("fragment_ppm", single(looks.fragment_ppm.max(0.1)));
    put("charge", (2 + random.below(10) / 6 + random.below(10) / 9).to_string());
    put("peptide_len", length.to_string());
    put("missed_cleavages", (random.below(8) / 6).to_string());
    put("semi_enzymatic", "0".to_string());
}

/// What the search scored.
fn scores(random: &mut Random, looks: &Looks, length: usize, put: &mut impl FnMut(&str, String)) {
    let run = |share: f64| (share * length as f64) as usize;
    let longest_y = run(looks.runs).max(1);
    let peaks = looks.peaks.max(4.0) as usize;
    put("rank", looks.rank.to_string());
    put("hyperscore", double(looks.hyperscore.max(5.0)));
    put("delta_next", double(looks.delta_next.max(0.0)));
    put("delta_best", double(looks.delta_best));
    put("matched_peaks", peaks.to_string());
    put("longest_b", run(looks.runs * random.part()).to_string());
    put("longest_y", longest_y.to_string());
    put("longest_y_pct", single(longest_y as f64 / length as f64));
    put("matched_intensity_pct", single(looks.intensity.clamp(1.0, 100.0)));
    put("scored_candidates", (100 + random.below(4_000)).to_string());
    put("poisson", poisson(random, peaks));
    put("ms2_intensity", single(random.between(1E4, 1E7)));
}

/// The log10 of the probability of this number of peaks; for one in 2,000 sage could not compute it.
fn poisson(random: &mut Random, peaks: usize) -> String {
    match random.below(2_000) {
        0 => "-inf".to_string(),
        _ => double(-(0.6 * peaks as f64 + random.part())),
    }
}

/// Retention times; there is no ion mobility.
fn times(random: &mut Random, looks: &Looks, put: &mut impl FnMut(&str, String)) {
    let aligned = random.part();
    let predicted = (aligned + looks.delta_rt).clamp(0.0, 1.0);
    put("rt", single(90.0 * aligned));
    put("aligned_rt", single(aligned));
    put("predicted_rt", single(predicted));
    put("delta_rt_model", single((predicted - aligned).abs()));
    put("ion_mobility", "0.0".to_string());
    put("predicted_mobility", "0.0".to_string());
    put("delta_mobility", "0.999".to_string());
}

/// The results of an earlier run: a plausible score, and q-values that pass.
fn stored(looks: &Looks, put: &mut impl FnMut(&str, String)) {
    put("sage_discriminant_score", single(0.1 * looks.hyperscore));
    put("posterior_error", "-5.0".to_string());
    for column in ["spectrum_q", "peptide_q", "protein_q"] {
        put(column, "0.0001".to_string());
    }
}

/// A number as sage stores it in 32 bits.
fn single(number: f64) -> String {
    format!("{:?}", number as f32)
}

/// A number as sage stores it in 64 bits.
fn double(number: f64) -> String {
    format!("{number:?}")
}
