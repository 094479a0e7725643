//! The safe calls: known points of document 01, and each of its nine refusals.

use vayemuku::{
    check_line, log_error, log_errors, picked_precursor, precursor_order, rank_keys, solve, spectrum_q_value, Builder,
    Call, CompetitionTable, Counts, Estimator, Line, Model, Names, Rate, Refusal, Refused, Tolerance, LONGEST, NO_PART,
};

/// The answer of a call that refuses.
fn refused<T>(call: Call, refusal: Refusal) -> Result<T, Refused> {
    Err(Refused { call, refusal })
}

/// A builder with this number of bins.
fn bins(bin_count: usize) -> Builder {
    Builder { monotonic: false, bins: bin_count }
}

/// A system of one equation.
fn single(left: f64, right: f64) -> ([[f64; 20]; 20], [f64; 20]) {
    let mut matrix = [[f64::NAN; 20]; 20];
    matrix[0][0] = left;
    let mut column = [f64::NAN; 20];
    column[0] = right;
    (matrix, column)
}

#[test]
fn refusals_have_their_numbers_and_differ_in_words() {
    let numbers = Refusal::ALL.map(Refusal::number);
    assert_eq!(numbers, [1, 2, 3, 4, 5, 6, 7, 8, 9]);
    let mut sentences = Refusal::ALL.map(|refusal| refusal.to_string());
    sentences.sort();
    assert!(sentences.windows(2).all(|pair| pair[0] != pair[1]));
    let error: &dyn std::error::Error = &Refusal::Unsolved;
    assert_eq!(error.to_string(), Refusal::Unsolved.sentence());
}

#[test]
fn a_refusal_names_its_call() {
    let refused = Model::train(&[], &[]).unwrap_err();
    let words = "vayemuku_train refused with 6: the fit needs at least one decoy and one target";
    let error: &dyn std::error::Error = &refused;
    assert_eq!(error.to_string(), words);
    assert_eq!(Refusal::from(refused), Refusal::OneClass);
}

#[test]
fn one_a_list_is_too_long() {
    let labels = vec![1; LONGEST + 1];
    assert_eq!(spectrum_q_value(&labels), refused(Call::SpectrumQValue, Refusal::TooLong));
    assert_eq!(check_line(&labels, 0, Rate::OneIn20), refused(Call::CheckLine20, Refusal::TooLong));
    assert_eq!(Model::train(&[], &labels), refused(Call::Train, Refusal::TooLong));
    assert!(spectrum_q_value(&labels[1..]).is_ok());
    let scores = vec![0.0; LONGEST + 1];
    assert_eq!(precursor_order(&scores), refused(Call::PrecursorOrder, Refusal::TooLong));
    assert_eq!(bins(10).bin_scores(&scores), refused(Call::BinScores, Refusal::TooLong));
    assert_eq!(log_errors(&scores), refused(Call::LogErrors, Refusal::TooLong));
    assert_eq!(rank_keys(vec![1; LONGEST + 1]), refused(Call::RankKeys, Refusal::TooLong));
    for slots in [LONGEST + 1, usize::MAX] {
        assert_eq!(CompetitionTable::fresh(slots), refused(Call::FreshTable, Refusal::TooLong));
    }
}

#[test]
fn two_a_column_has_another_length() {
    assert_eq!(Model::train(&[0.0; 39], &[1, -1]), refused(Call::Train, Refusal::WrongLength));
    let scores = Model::from_coefficients([1.0; 20]).score_rows(&[0.0; 39]);
    assert_eq!(scores, refused(Call::ScoreRows, Refusal::WrongLength));
    assert_eq!(picked_precursor(&[1, -1], &[0.0]), refused(Call::PickedPrecursor, Refusal::WrongLength));
    let bin_scores = bins(3).bin_scores(&[0.0, 1.0]).unwrap();
    let estimator = bin_scores.posterior_bins(&[1, -1], &[0.5; 2], &[0.5; 3]);
    assert_eq!(estimator, refused(Call::PosteriorBins, Refusal::WrongLength));
    let estimator = bin_scores.slot_posterior_bins(&[1, 0], &[0.5; 3], &[0.5; 2]);
    assert_eq!(estimator, refused(Call::SlotPosteriorBins, Refusal::WrongLength));
    let mut table = CompetitionTable::fresh(2).unwrap();
    assert_eq!(table.add_rows(&[0, 1], &[1, -1], &[0.0]), refused(Call::AddRows, Refusal::WrongLength));
    let estimator = Estimator::from_parts(1.0, 1.0, vec![0.5, 0.25]);
    let q = table.assign_q_value(Names::Two, &estimator, &[0, 1], &[1]);
    assert_eq!(q, refused(Call::AssignQValue, Refusal::WrongLength));
}

#[test]
fn three_a_size_is_out_of_range() {
    let (left, right) = single(1.0, 1.0);
    for size in [0, 21] {
        assert_eq!(solve(&left, &right, size), refused(Call::Solve, Refusal::OutOfRange));
    }
    for bin_count in [0, 65_537, usize::MAX] {
        assert_eq!(bins(bin_count).bin_scores(&[0.0]), refused(Call::BinScores, Refusal::OutOfRange));
    }
    assert_eq!(bins(65_536).bin_scores(&[0.0]).map(|bins| bins.scores().len()), Ok(65_536));
    assert_eq!(Tolerance::Da(0.0, 65_537.0).bin_count(), refused(Call::BinCount, Refusal::OutOfRange));
    let no_bins = Estimator::from_parts(0.0, 1.0, vec![]);
    assert_eq!(no_bins.posterior_error(1.0), refused(Call::PosteriorError, Refusal::OutOfRange));
    assert_eq!(no_bins.posterior_errors(&[1.0]), refused(Call::PosteriorErrors, Refusal::OutOfRange));
}

#[test]
fn four_the_tolerance_is_none_of_masses() {
    for tolerance in [Tolerance::Pct(-1.0, 1.0), Tolerance::Pct(0.0, 65_537.0)] {
        assert_eq!(tolerance.bin_count(), refused(Call::BinCount, Refusal::NoTolerance));
    }
    assert_eq!(Tolerance::Ppm(-10.0, 10.0).bin_count(), Ok(100));
    assert_eq!(Tolerance::Ppm(-75.5, 75.0).bin_count(), Ok(151));
    assert_eq!(Tolerance::Da(-600.0, 600.0).bin_count(), Ok(1200));
}

#[test]
fn five_a_slot_is_past_the_table() {
    let mut table = CompetitionTable::fresh(2).unwrap();
    table.add_rows(&[0], &[1], &[3.0]).unwrap();
    let before = table.clone();
    assert_eq!(table.add_rows(&[1, 2], &[1, 1], &[1.0, 1.0]), refused(Call::AddRows, Refusal::NoSuchSlot));
    assert_eq!(table, before);
    let estimator = Estimator::from_parts(1.0, 1.0, vec![0.5, 0.25]);
    let q = table.assign_q_value(Names::Two, &estimator, &[2], &[1]);
    assert_eq!(q, refused(Call::AssignQValue, Refusal::NoSuchSlot));
}

#[test]
fn six_there_is_one_class() {
    for (features, labels) in [(&[1.0; 40][..], &[1, 7][..]), (&[1.0; 20], &[-1]), (&[], &[])] {
        assert_eq!(Model::train(features, labels), refused(Call::Train, Refusal::OneClass));
    }
}

#[test]
fn seven_nothing_solves_the_system() {
    let (left, right) = single(f64::NAN, 5.0);
    assert_eq!(solve(&left, &right, 1), refused(Call::Solve, Refusal::Unsolved));
    let (left, right) = single(-1E-8, 5.0);
    let mut wanted = [0.0; 20];
    wanted[0] = 5.0;
    assert_eq!(solve(&left, &right, 1), Ok(wanted));
}

#[test]
fn eight_a_coefficient_is_not_finite() {
    for coefficient in [f64::NAN, f64::INFINITY, f64::NEG_INFINITY] {
        let mut coefficients = [1.0; 20];
        coefficients[19] = coefficient;
        let scores = Model::from_coefficients(coefficients).score_rows(&[0.0; 20]);
        assert_eq!(scores, refused(Call::ScoreRows, Refusal::NotFinite));
    }
    let model = Model::from_coefficients(std::array::from_fn(|place| place as f64));
    let scores = model.score_rows(&[1.0; 40]).unwrap();
    assert_eq!((scores.scores, scores.narrowed), (vec![190.0; 2], vec![190.0; 2]));
    assert_eq!(model.score(&[0.5; 20]), 95.0);
}

#[test]
fn nine_the_line_is_past_the_end() {
    assert_eq!(check_line(&[], 1, Rate::OneIn100), refused(Call::CheckLine100, Refusal::PastTheEnd));
    assert_eq!(check_line(&[1, -1], 3, Rate::OneIn20), refused(Call::CheckLine20, Refusal::PastTheEnd));
    let counts = Counts { row: 0, decoys_plus_one: 1, targets: 0 };
    assert_eq!(check_line(&[], 0, Rate::OneIn100), Ok(Line::Right(counts)));
}

#[test]
fn a_fit_of_one_feature() {
    // decoys 0 and 2, targets 3 and 7 in the first feature: means 1 and 5, scatter 1 + 4, difference 4
    let mut features = [0.0; 80];
    for (row, value) in [0.0, 2.0, 3.0, 7.0].into_iter().enumerate() {
        features[20 * row] = value;
    }
    let model = Model::train(&features, &[-1, -1, 1, 1]).unwrap();
    let [first, rest @ ..] = model.coefficients();
    assert!((first - 0.8).abs() < 1E-6, "{first}");
    assert_eq!(rest, &[0.0; 19]);
}

#[test]
fn q_values_and_order() {
    let two_hundred: Vec<i32> = [vec![1; 200], vec![-1]].concat();
    assert_eq!(spectrum_q_value(&two_hundred).unwrap().count, 201);
    let twenty: Vec<i32> = [vec![1; 20], vec![-1]].concat();
    let scores: Vec<f64> = (0..21).rev().map(f64::from).collect();
    let answer = picked_precursor(&twenty, &scores).unwrap();
    assert_eq!(answer.count, 20);
    assert_eq!(answer.q[..20], [0.05; 20]);
    assert_eq!(answer.q[20], 0.1);
    assert_eq!(precursor_order(&[1.0, 2.0, 1.0]), Ok(vec![1, 0, 2]));
    assert_eq!(rank_keys(vec![3, 1, 2]), Ok(vec![1, 2, 3]));
}

#[test]
fn posterior_errors() {
    let estimator = Estimator::from_parts(0.0, 1.0, vec![0.5, 0.25]);
    assert_eq!(estimator.posterior_errors(&[0.5, 2.0, -3.0]), Ok(vec![0.375, 0.25, 1.25]));
    assert_eq!((log_error(f64::NEG_INFINITY), log_error(f64::INFINITY), log_error(-2.0)), (-324.0, -324.0, -2.0));
    // half of the rows are decoys, so that a bin is decoy / (target + decoy)
    let densities = ([1.0, 3.0, 1.0], [1.0, 1.0, 3.0]);
    let free = bins(3).bin_scores(&[0.0, 4.0]).unwrap();
    assert_eq!(free.scores(), [0.0, 2.0, 4.0]);
    let estimator = free.posterior_bins(&[-1, 1], &densities.0, &densities.1).unwrap();
    let parts = (estimator.min_score(), estimator.score_step(), estimator.bins());
    assert_eq!(parts, (0.0, 2.0, &[0.5, 0.75, 0.25][..]));
    // one decoy and one target among the slots, and one that takes no part
    let of_slots = free.slot_posterior_bins(&[1, 0, u32::MAX], &densities.0, &densities.1);
    assert_eq!(of_slots, Ok(estimator));
    let monotonic = Builder { bins: 3, ..Builder::default() }.bin_scores(&[0.0, 4.0]).unwrap();
    let estimator = monotonic.posterior_bins(&[-1, 1], &densities.0, &densities.1).unwrap();
    assert_eq!(estimator.bins(), [0.75, 0.75, 0.25]);
}

#[test]
fn competitions() {
    let mut table = CompetitionTable::fresh(3).unwrap();
    assert_eq!(table.winners().unwrap().is_decoy, [u32::MAX; 3]);
    // equal scores: the decoy wins; a row that takes no part changes nothing
    table.add_rows(&[0, 0, 1, NO_PART], &[1, -1, 1, 1], &[2.0, 2.0, 1.0, 9.0]).unwrap();
    let winners = table.winners().unwrap();
    assert_eq!(winners.is_decoy, [1, 0, u32::MAX]);
    assert_eq!(winners.scores[..2], [2.0, 1.0]);
    assert!(winners.scores[2].is_nan());
    // document 01: two target slots scored 2.0 and 1.0, bins 0.5, 0.25, least 1, step 1: q 0.875 for both, count 0
    let mut targets = CompetitionTable::fresh(2).unwrap();
    targets.add_rows(&[0, 1], &[1, 1], &[2.0, 1.0]).unwrap();
    let estimator = Estimator::from_parts(1.0, 1.0, vec![0.5, 0.25]);
    let answer = targets.assign_q_value(Names::Two, &estimator, &[0, 1, NO_PART], &[1, 1, 1]).unwrap();
    assert_eq!((answer.q, answer.count), (vec![0.875, 0.875, 1.0], 0));
    // the decoy of slot 0 was never seen: under two names its row has 1.0, under one name its target's q-value
    assert_eq!(targets.assign_q_value(Names::Two, &estimator, &[0], &[-1]).unwrap().q, [1.0]);
    assert_eq!(targets.assign_q_value(Names::One, &estimator, &[0], &[-1]).unwrap().q, [0.875]);
}
