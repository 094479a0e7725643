/* The calls of libvayemuku.a. Each is proved to meet its definition; see docs/CLAIMS.md. The modules are those of
 * document 01.
 *
 * Every call:
 * - keeps no state, allocates nothing, and makes no system call. Calls may run in several threads at once, each on
 *   columns of its own; columns that a call only reads (const) may be shared.
 * - ends on every input, and needs less than 32 KiB of stack: vayemuku_train the most, some 22.
 * - takes pointers that are aligned as their types are in C. A pointer to a column may be null where its length is 0;
 *   pointers to arrays of twenty and to single numbers may not. */
#ifndef VAYEMUKU_H
#define VAYEMUKU_H

#include <stddef.h>
#include <stdint.h>

#ifdef __cplusplus
extern "C" {
#endif

/* Module 1: float helpers. Each has an answer for every float. */

/* Rust's x as f32: the nearest f32, ties to even. */
float vayemuku_narrow(double x);

/* Rust's x as f64. */
double vayemuku_widen(float x);

/* Rust's x as u64: toward zero, saturating, 0 for a NaN. */
uint64_t vayemuku_f64_to_u64(double x);
uint64_t vayemuku_f32_to_u64(float x);

/* Rust's x as usize. */
size_t vayemuku_f64_to_usize(double x);
size_t vayemuku_f32_to_usize(float x);

/* The greatest whole number not above x. */
double vayemuku_floor_f64(double x);
float vayemuku_floor_f32(float x);

/* The least whole number not below x. */
double vayemuku_ceil_f64(double x);
float vayemuku_ceil_f32(float x);

/* A whole number; two of them compare as their floats do under total_cmp. */
uint64_t vayemuku_order_key_f64(double x);
uint32_t vayemuku_order_key_f32(float x);

/* Rust's a.min(b): a NaN is ignored, and of two zeros the first is kept. */
double vayemuku_min_f64(double a, double b);
float vayemuku_min_f32(float a, float b);

/* Rust's a.max(b), likewise. */
double vayemuku_max_f64(double a, double b);
float vayemuku_max_f32(float a, float b);

/* Rust's a.total_cmp(&b), with one NaN, which is above all numbers: -1 for less, 0 for equal, 1 for greater. */
int32_t vayemuku_total_cmp_f64(double a, double b);
int32_t vayemuku_total_cmp_f32(float a, float b);

/* The calls below take columns as a pointer and a length. All but vayemuku_score, vayemuku_default_bins and
 * vayemuku_log_error return 0, or refuse: then they return the number of the question that is answered with no, each
 * result column holds only blanks at its own length (NaN, or 4294967295 for 32-bit whole numbers), working columns hold
 * 0, and of the numbers given back floats are NaN and the others 0. What a call writes must not overlap with anything
 * else that it is given: columns, arrays and the numbers that pointers such as count or row point to. Columns that it
 * only reads may overlap. */

/* Module 2: a system of size 1 to 20, one right-hand column; entries past the size are not read. values gets the
 * answer, with 0 past the size, or twenty NaN. Refusals: 3 the size, 7 no eps solves. */
uint32_t vayemuku_solve(const double left[20][20], const double right[20], size_t size, double values[20]);

/* Module 3: the fit. features has twenty numbers for each label, row after row. coefficients gets twenty numbers that
 * this call worked out, or twenty NaN. Refusals: 1 more than 16,777,215 labels or 335,544,300 features, 2 not twenty
 * features for each label, 6 no decoy or no target, 7 no eps solves. */
uint32_t vayemuku_train(const double *features, size_t features_len, const int32_t *labels, size_t labels_len,
                        double coefficients[20]);

/* Module 3: the score of one row; this call never refuses. */
double vayemuku_score(const double coefficients[20], const double row[20]);

/* Module 3: the scoring run: each row's score, and the score narrowed. The length of scores is the number of rows.
 * Refusals: 1 more than 335,544,300 features, 2 not twenty features or not one narrowed score for each row, 8 a
 * coefficient that is not finite. */
uint32_t vayemuku_score_rows(const double coefficients[20], const double *features, size_t features_len, double *scores,
                             size_t scores_len, float *narrowed, size_t narrowed_len);

/* Module 4: posterior errors. An estimator is its least score, its step and its column of bins. sage's builder starts
 * with this many bins, monotonic; the call gives the same number, to languages that cannot read the macro. */
#define VAYEMUKU_BINS 1000
size_t vayemuku_default_bins(void);

/* Step one: *min_score and *score_step get the least score and the step, and bin_scores the score of every bin, at
 * which the host takes its two densities. Refusals: 1 more than 16,777,215 scores, 2 bin_scores not `bin_count` long,
 * 3 not 1 to 65,536 bins; then both numbers are NaN. */
uint32_t vayemuku_bin_scores(size_t bin_count, const double *scores, size_t scores_len, double *bin_scores,
                             size_t bin_scores_len, double *min_score, double *score_step);

/* Step two: the bins of the estimator, from the host's densities; any `monotonic` but 0 asks for bins that never rise
 * with the score. Refusals: 1, 2 a column not `bin_count` long, 3. */
uint32_t vayemuku_posterior_bins(uint32_t monotonic, size_t bin_count, const int32_t *labels, size_t labels_len,
                                 const double *decoy_density, size_t decoy_density_len, const double *target_density,
                                 size_t target_density_len, double *bins, size_t bins_len);

/* Step two over a competition's slots: is_decoy is 1 for a decoy and 0 for a target; a slot with any other number takes
 * no part. */
uint32_t vayemuku_slot_posterior_bins(uint32_t monotonic, size_t bin_count, const uint32_t *is_decoy,
                                      size_t is_decoy_len, const double *decoy_density, size_t decoy_density_len,
                                      const double *target_density, size_t target_density_len, double *bins,
                                      size_t bins_len);

/* The posterior error of a score: *error gets it, or NaN. Refusal: 3 not 1 to 65,536 bins. An accepted posterior error
 * can be NaN too. */
uint32_t vayemuku_posterior_error(double min_score, double score_step, const double *bins, size_t bins_len,
                                  double score, double *error);

/* The posterior error of every score. Refusals: 1, 2 errors not as long as the scores, 3. */
uint32_t vayemuku_posterior_errors(double min_score, double score_step, const double *bins, size_t bins_len,
                                   const double *scores, size_t scores_len, double *errors, size_t errors_len);

/* *bin_count gets the bin count for mass errors within a tolerance, or 0; unit 0 is ppm, 1 is Da. Refusals: 4 any other
 * unit, 3 above 65,536. */
uint32_t vayemuku_bin_count(uint32_t unit, float lo, float hi, size_t *bin_count);

/* The host's log10 of a posterior error, narrowed, with -324 for an infinity; for one number, and for a column.
 * Refusals: 1, 2. */
float vayemuku_log_error(double log10);
uint32_t vayemuku_log_errors(const double *log10s, size_t log10s_len, float *errors, size_t errors_len);

/* Module 5: competitions. A table is four columns with one entry per slot: the best forward and reverse score, and a
 * mark for each side, 0 while it is unseen. A slot of 4294967295 marks a row that takes no part. After a refusal tables
 * are unchanged. */
#define VAYEMUKU_NO_PART 4294967295u

/* The table in which no side is seen. Refusals: 1, 2 the columns not equally long. */
uint32_t vayemuku_fresh_table(float *forward, size_t forward_len, float *reverse, size_t reverse_len,
                              uint32_t *forward_seen, size_t forward_seen_len, uint32_t *reverse_seen,
                              size_t reverse_seen_len);

/* Adds a batch of rows: each raises its slot's side (a label of -1 the reverse one) by max and marks it seen.
 * Refusals: 1, 2, 5 a slot past the table. */
uint32_t vayemuku_add_rows(const uint32_t *slots, size_t slots_len, const int32_t *labels, size_t labels_len,
                           const float *scores, size_t scores_len, float *forward, size_t forward_len, float *reverse,
                           size_t reverse_len, uint32_t *forward_seen, size_t forward_seen_len, uint32_t *reverse_seen,
                           size_t reverse_seen_len);

/* Every seen slot's score and whether its decoy wins (1 or 0), from which the host takes its densities; NaN and
 * 4294967295 for an unseen slot. Refusals: 1, 2. */
uint32_t vayemuku_winners(const float *forward, size_t forward_len, const float *reverse, size_t reverse_len,
                          const uint32_t *forward_seen, size_t forward_seen_len, const uint32_t *reverse_seen,
                          size_t reverse_seen_len, float *scores, size_t scores_len, uint32_t *is_decoy,
                          size_t is_decoy_len);

/* Q-values of feature rows by their slots' names; *count gets how many targets among the ranked sides have one of at
 * most 0.01. two_names of 0: both sides of a slot have one name (picked_protein_group); any other: each its own
 * (picked_protein with generated decoys). keys and spare are working columns, two entries per slot. Refusals: 1, 2, 3
 * not 1 to 65,536 bins, 5. */
uint32_t vayemuku_assign_q_value(uint32_t two_names, double min_score, double score_step, const double *bins,
                                 size_t bins_len, const float *forward, size_t forward_len, const float *reverse,
                                 size_t reverse_len, const uint32_t *forward_seen, size_t forward_seen_len,
                                 const uint32_t *reverse_seen, size_t reverse_seen_len, const uint32_t *slots,
                                 size_t slots_len, const int32_t *labels, size_t labels_len, uint64_t *keys,
                                 size_t keys_len, uint64_t *spare, size_t spare_len, float *q, size_t q_len,
                                 size_t *count);

/* Module 6: q-values of a ranked list of spectra; *count gets how many rows, decoys too, have one of at most 0.01. A
 * label of -1 is a decoy. Refusals: 1 more than 16,777,215 labels, 2 q not as long as the labels. */
uint32_t vayemuku_spectrum_q_value(const int32_t *labels, size_t labels_len, float *q, size_t q_len, size_t *count);

/* Module 6: q-values of precursors, at their places in the list; *count gets how many targets have one of at most 0.05.
 * keys and spare are working columns, one entry per precursor. Refusals: 1, 2. */
uint32_t vayemuku_picked_precursor(const int32_t *labels, size_t labels_len, const double *scores, size_t scores_len,
                                   uint64_t *keys, size_t keys_len, uint64_t *spare, size_t spare_len, float *q,
                                   size_t q_len, size_t *count);

/* The place, from 0, of the precursor at each rank: a line of a precursor list counts its rows in this order. keys and
 * spare are working columns, one entry per precursor. Refusals: 1, 2. */
uint32_t vayemuku_precursor_order(const double *scores, size_t scores_len, uint64_t *keys, size_t keys_len,
                                  uint64_t *spare, size_t spare_len, uint32_t *order, size_t order_len);

/* The ranking alone: keys in ascending order; spare is as long and holds 0 afterwards. Refusals: 1, 2; the keys are
 * then as they came. */
uint32_t vayemuku_rank_keys(uint64_t *keys, size_t keys_len, uint64_t *spare, size_t spare_len);

/* Module 7: whether a line of a ranked list is right, at one in 100 and at one in 20. *right gets 1 or 0; *row,
 * *decoys_plus_one and *targets the numbers of the line if it is right, else of the last later row that qualifies or,
 * if none does, of the line. Refusals: 1, 9 a line past the list. */
uint32_t vayemuku_check_line_100(const int32_t *labels, size_t labels_len, size_t line, uint32_t *right, size_t *row,
                                 size_t *decoys_plus_one, size_t *targets);
uint32_t vayemuku_check_line_20(const int32_t *labels, size_t labels_len, size_t line, uint32_t *right, size_t *row,
                                size_t *decoys_plus_one, size_t *targets);

/* Modules 6 and 7 in one call: the q-values of a ranked list of spectra as vayemuku_spectrum_q_value makes them, and
 * the check at one in 100 of the line after the last row that passes, whose *row is the count. Of an accepted list this
 * line is proved to be right: *right is 1. Refusals: 1, 2. */
uint32_t vayemuku_checked_spectra(const int32_t *labels, size_t labels_len, float *q, size_t q_len, uint32_t *right,
                                  size_t *row, size_t *decoys_plus_one, size_t *targets);

/* The same of precursors: q-values at their places as vayemuku_picked_precursor makes them, the place of the precursor
 * at each rank, and the check at one in 20 of the line of the list as ranked, whose *targets is the count. keys, spare
 * and ranked are working columns, one entry per precursor. Refusals: 1, 2. */
uint32_t vayemuku_checked_precursors(const int32_t *labels, size_t labels_len, const double *scores, size_t scores_len,
                                     uint64_t *keys, size_t keys_len, uint64_t *spare, size_t spare_len,
                                     int32_t *ranked, size_t ranked_len, uint32_t *order, size_t order_len, float *q,
                                     size_t q_len, uint32_t *right, size_t *row, size_t *decoys_plus_one,
                                     size_t *targets);

#ifdef __cplusplus
}
#endif

#endif
