/*
 * The C interface of the solver: what the archive of `scripts/archive` exports. Each function is proved to do, for all inputs, what
 * is said here; the definitions are in the crates' specs/, and "document 01" is the specification.
 *
 * What is trusted. That the checker is sound; that the back end compiles what was proved; that the machine runs in the mode below; that the
 * caller keeps to what it owes.
 *
 * What a caller owes.
 *   Mode. A call runs in the caller's floating-point mode, which is to be IEEE 754's: round to nearest, ties to even, subnormal numbers
 *   neither flushed to zero nor read as zero. A program linked with -ffast-math has another mode from its start: there 2^-1074 + 2^-1074
 *   is +0, and nothing said here holds.
 *   Memory. A slice crosses as its address and its length in elements. An address is aligned and not null, also where the length is 0; the
 *   memory of that length is readable, and of what is not const writable. All LEECHGROMMET_BLOCK_NUMBERS numbers of a block are readable,
 *   though no answer depends on those past its entries.
 *   Overlap. What is written (what is not const) lies apart from everything else that is passed to the same call. What is only read may
 *   overlap, and may be the same memory.
 * No address is used after a call. Any numbers and lengths may be given: the calls end and refuse.
 *
 * Functions. A two-time function of N times (points) and n orbitals has 2*N*N*n*n numbers: block (t, t') row by row, in a block entry
 * (a, b) row by row, real part before imaginary. Times are N numbers.
 *
 * Capacity. The transient run, the append and the observables take slices laid out for a capacity of C points: a function has 2*C*C*n*n
 * numbers, row t begins at t*C blocks, and times are C numbers. The first N points are the function's own; what stands beyond them is room, which no
 * question asks and an accepted call leaves. Questions 2 and 3 read C for N; the others are about the N points, and a position is that in the slice
 * as it is passed. With a capacity of N the layout is that of the other calls.
 *
 * Sessions. The transient run and the append, of either form, are calls at a desk of a session, which counts the products of blocks that its accepted
 * calls form, for each of eight desks by itself. Its counters cross as `counters`, a slice of 8, desk 0's first, in and out: before the first call
 * each holds the total that its desk carries over, 0 if none. `desk`, 0 to 7, names the desk of a call. An accepted call adds its count to that desk's
 * counter; no other counter changes, and no other call writes any, so that the count of a call is its desk's counter after it less that before. A run
 * over N points has N(N+1)(2N+1)/6 + N*N*(N+1) - 3N, an append what the run over all points has more: a run and its appends count like the run over
 * all points. From a block g0 a run has 2*N*N more, an append to p points 2*(2*p+1). A caller that does not book passes eight counters of 0 and desk 0
 * to each call.
 *
 * Blocks. A block crosses as its rows, its columns and the address of LEECHGROMMET_BLOCK_NUMBERS numbers, of which the first 2*rows*columns
 * are its entries, row by row, real part before imaginary. A block that is made is the answer's own: it is written as rows and columns to
 * `shape`, a slice of 2, and as LEECHGROMMET_BLOCK_NUMBERS numbers to `out`, a slice of that length, +0 past its entries; beside any refusal
 * too, as 0 by 0 and +0 throughout. If `shape` or `out` has another length, that is 3 and neither is written. Of blocks, questions 1 to 3
 * are: at least one row and column (1), at most 16 (2), shapes that fit (3); of two blocks each question is asked of both before the next.
 *
 * Answers. 0: accepted. Otherwise the number of the first question that was answered no, in the order that each call names:
 *     1   N at least 2, n at least 1                       9   each input retarded within tolerance: operand, first, second, part = residual
 *     2   N at most 256, n at most 16                      10  every block and every trace made during the work finite
 *     3   each slice its exact length                      11  the time index below N
 *     4   all times finite                                 12  a, then b, below n; of a block, row, then column, inside
 *     5   each time above the one before: first            13  hopping and charge factor finite
 *     6   all full weights finite                          14  the imaginary part's size at most the tolerance: part
 *     7   all entries finite: operand, first = position    16  N at most the capacity: asked after 3
 *     8   the tolerance finite and above 0                 17  the desk's counter plus the count at most 2^64 - 1: asked after 9, before any product
 *                                                          18  at most 1,024 queries: asked after 3 and 16
 *                                                          22  the desk at most 7: asked before 1
 * Question 3 is asked, after 1 and 2, by every call that is passed a slice: also of what is passed for a value, residuals, a decision, a block or counters.
 * Operands count from 0 in the order of the parameters, times not counted. After 10 every output and scratch slice, one for a value or
 * residuals too, holds +0 throughout, room included, but for an append's, where the new row and column hold +0 and the rest is as it was; after any
 * other number nothing passed has changed.
 *
 * Places. `places` and `part` are part of the answer: a refusal writes its operand, first and second to `places`, a slice
 * of 3, and its part to `part`, a slice of 1; a place that it does not have is 0. An accepted call leaves both. They are not asked by 3: of
 * another length (0, if a caller does not want them) they are left as they were.
 */
#ifndef LEECHGROMMET_H
#define LEECHGROMMET_H

#include <stddef.h>
#include <stdint.h>

/* The numbers of a block: 16 by 16 entries of two parts. */
#define LEECHGROMMET_BLOCK_NUMBERS 512

/* The answers by name. */
#define LEECHGROMMET_ACCEPTED 0
#define LEECHGROMMET_TOO_FEW 1
#define LEECHGROMMET_TOO_MANY 2
#define LEECHGROMMET_WRONG_LENGTH 3
#define LEECHGROMMET_TIME_NOT_FINITE 4
#define LEECHGROMMET_TIME_NOT_RISING 5
#define LEECHGROMMET_WEIGHT_NOT_FINITE 6
#define LEECHGROMMET_ENTRY_NOT_FINITE 7
#define LEECHGROMMET_NO_TOLERANCE 8
#define LEECHGROMMET_NOT_RETARDED 9
#define LEECHGROMMET_WORK_NOT_FINITE 10
#define LEECHGROMMET_NO_SUCH_TIME 11
#define LEECHGROMMET_NO_SUCH_ORBITAL 12
#define LEECHGROMMET_FACTOR_NOT_FINITE 13
#define LEECHGROMMET_NOT_REAL 14
#define LEECHGROMMET_NO_ROOM 16
#define LEECHGROMMET_COUNTER_FULL 17
#define LEECHGROMMET_TOO_MANY_QUERIES 18
#define LEECHGROMMET_NO_SUCH_DESK 22

#ifdef __cplusplus
extern "C" {
#endif

/* The norm of re + i*im: the nearest binary64, ties to the even significand; +infinity where a part is infinite, else NaN where one is NaN. */
double leechgrommet_norm(double re, double im);

/* The block of these rows and columns; `numbers` are its 2*rows*columns numbers, of another length 3. Asks 1, 2, 3, 7. */
uint8_t leechgrommet_block_from_numbers(
    size_t rows, size_t columns,
    const double *numbers, size_t numbers_len,
    size_t *shape, size_t shape_len, double *out, size_t out_len,
    size_t *places, size_t places_len, double *part, size_t part_len);

/* The 1 by 1 block of real + i*imaginary. Asks 3, 7. */
uint8_t leechgrommet_block_from_scalar(
    double real, double imaginary,
    size_t *shape, size_t shape_len, double *out, size_t out_len,
    size_t *places, size_t places_len, double *part, size_t part_len);

/* The size by size block of +0. Asks 1, 2, 3. */
uint8_t leechgrommet_block_zero(
    size_t size,
    size_t *shape, size_t shape_len, double *out, size_t out_len,
    size_t *places, size_t places_len, double *part, size_t part_len);

/* The identity of that size. Asks 1, 2, 3. */
uint8_t leechgrommet_block_identity(
    size_t size,
    size_t *shape, size_t shape_len, double *out, size_t out_len,
    size_t *places, size_t places_len, double *part, size_t part_len);

/* The conjugate transpose, columns by rows. Asks 1, 2, 3, 7. */
uint8_t leechgrommet_block_adjoint(
    size_t rows, size_t columns, const double *values,
    size_t *shape, size_t shape_len, double *out, size_t out_len,
    size_t *places, size_t places_len, double *part, size_t part_len);

/* Each entry times real + i*imaginary, which may be any numbers. Asks 1, 2, 3, 7, 10. */
uint8_t leechgrommet_block_scale(
    size_t rows, size_t columns, const double *values,
    double real, double imaginary,
    size_t *shape, size_t shape_len, double *out, size_t out_len,
    size_t *places, size_t places_len, double *part, size_t part_len);

/* The matrix product left right, each entry's sum from +0 in index order; 3 unless left has as many columns as right has rows. Asks 1, 2, 3,
 * 7, 10. */
uint8_t leechgrommet_block_multiply(
    size_t left_rows, size_t left_columns, const double *left,
    size_t right_rows, size_t right_columns, const double *right,
    size_t *shape, size_t shape_len, double *out, size_t out_len,
    size_t *places, size_t places_len, double *part, size_t part_len);

/* left + right; 3 unless their shapes are the same. Asks 1, 2, 3, 7, 10. */
uint8_t leechgrommet_block_add(
    size_t left_rows, size_t left_columns, const double *left,
    size_t right_rows, size_t right_columns, const double *right,
    size_t *shape, size_t shape_len, double *out, size_t out_len,
    size_t *places, size_t places_len, double *part, size_t part_len);

/* left - right, alike. */
uint8_t leechgrommet_block_subtract(
    size_t left_rows, size_t left_columns, const double *left,
    size_t right_rows, size_t right_columns, const double *right,
    size_t *shape, size_t shape_len, double *out, size_t out_len,
    size_t *places, size_t places_len, double *part, size_t part_len);

/* The sum of the diagonal, real and imaginary part to `value`, a slice of 2. 3 unless the block is square, 10 unless both parts are finite.
 * Asks 1, 2, 3, 7, 10. */
uint8_t leechgrommet_block_trace(
    size_t rows, size_t columns, const double *values,
    double *value, size_t value_len,
    size_t *places, size_t places_len, double *part, size_t part_len);

/* The entry in a row and a column, alike. Asks 1, 2, 3, 7, 12. */
uint8_t leechgrommet_block_get(
    size_t rows, size_t columns, const double *values,
    size_t row, size_t column,
    double *value, size_t value_len,
    size_t *places, size_t places_len, double *part, size_t part_len);

/* The largest norm of an entry of left - right, written to `value`, a slice of 1; it may be infinite. 3 unless their shapes
 * are the same. Asks 1, 2, 3, 7. */
uint8_t leechgrommet_block_max_difference(
    size_t left_rows, size_t left_columns, const double *left,
    size_t right_rows, size_t right_columns, const double *right,
    double *value, size_t value_len,
    size_t *places, size_t places_len, double *part, size_t part_len);

/* Whether the block is square and no entry on or above the diagonal less the conjugate of its mirror has a part above the tolerance times the
 * block's largest part: 1 or 0 to `decided`, a slice of 1. Asks 1, 2, 3, 7, 8. */
uint8_t leechgrommet_block_is_hermitian(
    size_t rows, size_t columns, const double *values, double tolerance,
    uint8_t *decided, size_t decided_len,
    size_t *places, size_t places_len, double *part, size_t part_len);

/* out(t,t') = the sum over all s of left(t,s) right(s,t') by full trapezoid weights. Asks 1 to 7, 10. */
uint8_t leechgrommet_time_convolution(
    const double *times, size_t times_len,
    const double *left, size_t left_len,
    const double *right, size_t right_len,
    size_t points, size_t orbitals,
    double *out, size_t out_len,
    size_t *places, size_t places_len, double *part, size_t part_len);

/* The same over s from t' to t by the weights of that interval, +0 where t ≤ t'. Asks 1 to 7, 10. */
uint8_t leechgrommet_causal_volterra_convolution(
    const double *times, size_t times_len,
    const double *left, size_t left_len,
    const double *right, size_t right_len,
    size_t points, size_t orbitals,
    double *out, size_t out_len,
    size_t *places, size_t places_len, double *part, size_t part_len);

/* Whether xs is retarded within the tolerance: above the diagonal no block's largest norm, divided by the largest of all entries (at least
 * 2^-1022), exceeds it. Asks 1, 2, 3, 7, 8, 9. */
uint8_t leechgrommet_check_retarded_support(
    const double *xs, size_t xs_len,
    size_t points, size_t orbitals, double tolerance,
    size_t *places, size_t places_len, double *part, size_t part_len);

/* Dyson's equation: retarded = the retarded function G, kernel = K, the causal convolution of free_propagator and self_energy. Asks 1 to 10, 9 of
 * free_propagator before self_energy. */
uint8_t leechgrommet_retarded_dyson_with_tolerance(
    const double *times, size_t times_len,
    const double *free_propagator, size_t free_propagator_len,
    const double *self_energy, size_t self_energy_len,
    size_t points, size_t orbitals, double tolerance,
    double *retarded, size_t retarded_len,
    double *kernel, size_t kernel_len,
    size_t *places, size_t places_len, double *part, size_t part_len);

/* The transient run of a device that starts empty, of its free propagator and the retarded and the lesser self-energy of its leads: retarded = G^R and
 * lesser = G^<; kernel = K and lesser_advanced = X, the lesser self-energy times the advanced function, are scratch. Asks 22, 1, 2, 3, 16, 4 to 9, 17, 10. */
uint8_t leechgrommet_transient_run(
    uint64_t *counters, size_t counters_len, size_t desk,
    const double *times, size_t times_len,
    const double *free_propagator, size_t free_propagator_len,
    const double *self_energy, size_t self_energy_len,
    const double *lesser_self_energy, size_t lesser_self_energy_len,
    size_t points, size_t capacity, size_t orbitals, double tolerance,
    double *retarded, size_t retarded_len,
    double *lesser, size_t lesser_len,
    double *kernel, size_t kernel_len,
    double *lesser_advanced, size_t lesser_advanced_len,
    size_t *places, size_t places_len, double *part, size_t part_len);

/* Appends one time point. `points` are those before the append, one or more, and the new point's index; times and the three inputs have it too. The new
 * row and column of all four are worked out, of what retarded and lesser_advanced hold at old places, whatever that is: an old number of theirs that is
 * read and not finite gives 10. What the four hold at old places stays. After a run and appends, each with the points that the call before it left, the
 * same capacity and inputs that are the same at old points, the four hold what the run over all points leaves. Asks 22, then of points + 1
 * points 1, 2, 3, 16, 4 to 9, 17, 10. */
uint8_t leechgrommet_append_point(
    uint64_t *counters, size_t counters_len, size_t desk,
    const double *times, size_t times_len,
    const double *free_propagator, size_t free_propagator_len,
    const double *self_energy, size_t self_energy_len,
    const double *lesser_self_energy, size_t lesser_self_energy_len,
    size_t points, size_t capacity, size_t orbitals, double tolerance,
    double *retarded, size_t retarded_len,
    double *lesser, size_t lesser_len,
    double *kernel, size_t kernel_len,
    double *lesser_advanced, size_t lesser_advanced_len,
    size_t *places, size_t places_len, double *part, size_t part_len);

/* The transient run of a dot that starts occupied: of g0, passed as an n by n block (of another shape 3; operand 3), G^<(t,t') starts from
 * (G^R(t,0) g0) G^A(0,t') in place of zero; where t is 0 that is all of it. g0 is meant as G^<(0,0), which it is by value where G^R(0,0) is -i times the
 * identity; no question asks that. All else is as in leechgrommet_transient_run; with g0 at +0 its bits are those, but for the count and where 17 is
 * answered. Asks 22, 1, 2, 3, 16, 4 to 9, 17, 10. */
uint8_t leechgrommet_transient_run_occupied(
    uint64_t *counters, size_t counters_len, size_t desk,
    const double *times, size_t times_len,
    const double *free_propagator, size_t free_propagator_len,
    const double *self_energy, size_t self_energy_len,
    const double *lesser_self_energy, size_t lesser_self_energy_len,
    size_t rows, size_t columns, const double *g0,
    size_t points, size_t capacity, size_t orbitals, double tolerance,
    double *retarded, size_t retarded_len,
    double *lesser, size_t lesser_len,
    double *kernel, size_t kernel_len,
    double *lesser_advanced, size_t lesser_advanced_len,
    size_t *places, size_t places_len, double *part, size_t part_len);

/* Appends one time point to a run of leechgrommet_transient_run_occupied and appends after it. All is as in leechgrommet_append_point; that the four hold what
 * the run over all points leaves wants the same g0 in each call, which no question asks. Asks 22, then of points + 1 points 1, 2, 3, 16, 4 to 9, 17, 10. */
uint8_t leechgrommet_append_point_occupied(
    uint64_t *counters, size_t counters_len, size_t desk,
    const double *times, size_t times_len,
    const double *free_propagator, size_t free_propagator_len,
    const double *self_energy, size_t self_energy_len,
    const double *lesser_self_energy, size_t lesser_self_energy_len,
    size_t rows, size_t columns, const double *g0,
    size_t points, size_t capacity, size_t orbitals, double tolerance,
    double *retarded, size_t retarded_len,
    double *lesser, size_t lesser_len,
    double *kernel, size_t kernel_len,
    double *lesser_advanced, size_t lesser_advanced_len,
    size_t *places, size_t places_len, double *part, size_t part_len);

/* The density -i G^<(t,t) at a time, an n by n block. Asks 1, 2, 3, 16, 7, 11. */
uint8_t leechgrommet_density_matrix(
    const double *lesser, size_t lesser_len,
    size_t points, size_t capacity, size_t orbitals, size_t time_index,
    size_t *shape, size_t shape_len, double *out, size_t out_len,
    size_t *places, size_t places_len, double *part, size_t part_len);

/* The trace of the density -i G^<(t,t) at a time, written to `value`, a slice of 1. Asks 1, 2, 3, 16, 7, then 8, 11, 10 (the trace),
 * 14. */
uint8_t leechgrommet_particle_number(
    const double *lesser, size_t lesser_len,
    size_t points, size_t capacity, size_t orbitals, size_t time_index, double tolerance,
    double *value, size_t value_len,
    size_t *places, size_t places_len, double *part, size_t part_len);

/* The trace of the product of a one-body matrix, passed as an n by n block (of another shape 3; operand 1), with the density, written to `value`.
 * Asks 1, 2, 3, 16, 7, then 8, 11, 10 (the product, then the trace), 14. */
uint8_t leechgrommet_one_body_expectation(
    const double *lesser, size_t lesser_len,
    size_t points, size_t capacity, size_t orbitals, size_t time_index,
    size_t rows, size_t columns, const double *values, double tolerance,
    double *value, size_t value_len,
    size_t *places, size_t places_len, double *part, size_t part_len);

/* (2*charge_over_hbar) * Im(hopping_ab * rho_ba), the flow into orbital a from b, written to `value`; it may be infinite or a NaN. Asks 1, 2, 3, 16,
 * 7, then 13, 12, 11. */
uint8_t leechgrommet_bond_flow_into(
    const double *lesser, size_t lesser_len,
    size_t points, size_t capacity, size_t orbitals, size_t time_index, size_t a, size_t b,
    double real, double imaginary, double charge_over_hbar,
    double *value, size_t value_len,
    size_t *places, size_t places_len, double *part, size_t part_len);

/* Many such flows, of as many queries as `times` has: query k is answered as that of times[k], a[k], b[k], the hopping of hoppings[2*k] and
 * hoppings[2*k+1], and charges_over_hbar[k]. Its flow is written to flows[k], +0 if the query is refused, and the number of that refusal, 13, 12 or 11,
 * to numbers[k], 0 if it is not; a refused query does not stop the list. Of the call itself asks 1, 2, 3, 16, 18, 7; a slice that does not fit the
 * queries is 3, and a refused call writes neither. */
uint8_t leechgrommet_bond_flows_into(
    const double *lesser, size_t lesser_len,
    size_t points, size_t capacity, size_t orbitals,
    const size_t *times, size_t times_len, const size_t *a, size_t a_len, const size_t *b, size_t b_len,
    const double *hoppings, size_t hoppings_len, const double *charges_over_hbar, size_t charges_over_hbar_len,
    double *flows, size_t flows_len, uint8_t *numbers, size_t numbers_len,
    size_t *places, size_t places_len, double *part, size_t part_len);

/* The largest norms by which the components violate: retarded support, advanced support, G^A = adjoint of G^R, anti-Hermiticity of G^< and
 * of G^>, G^R - G^A = G^> - G^<, and at equal times G^> - G^< = -i times the identity; in that order to `residuals`, a slice of 7. Asks 1, 2,
 * 3, 7, 10. */
uint8_t leechgrommet_consistency_report(
    const double *retarded, size_t retarded_len,
    const double *advanced, size_t advanced_len,
    const double *lesser, size_t lesser_len,
    const double *greater, size_t greater_len,
    size_t points, size_t orbitals,
    double *residuals, size_t residuals_len,
    size_t *places, size_t places_len, double *part, size_t part_len);

/* Whether all seven residuals, a slice of 7 in the report's order, are at most the tolerance: 1 or 0 to `decided`, a slice of 1. A NaN is not.
 * Asks 3, 8. */
uint8_t leechgrommet_is_consistent(
    const double *residuals, size_t residuals_len, double tolerance,
    uint8_t *decided, size_t decided_len,
    size_t *places, size_t places_len, double *part, size_t part_len);

/* The Langreth product: retarded = A^R B^R causal, advanced = A^A B^A from t to t', lesser = A^R B^< + A^< B^A by full weights, greater alike.
 * Operands: the left four, then the right four. Asks 1 to 7, 10. */
uint8_t leechgrommet_langreth_product(
    const double *times, size_t times_len,
    const double *left_retarded, size_t left_retarded_len,
    const double *left_advanced, size_t left_advanced_len,
    const double *left_lesser, size_t left_lesser_len,
    const double *left_greater, size_t left_greater_len,
    const double *right_retarded, size_t right_retarded_len,
    const double *right_advanced, size_t right_advanced_len,
    const double *right_lesser, size_t right_lesser_len,
    const double *right_greater, size_t right_greater_len,
    size_t points, size_t orbitals,
    double *retarded, size_t retarded_len,
    double *advanced, size_t advanced_len,
    double *lesser, size_t lesser_len,
    double *greater, size_t greater_len,
    size_t *places, size_t places_len, double *part, size_t part_len);

#ifdef __cplusplus
}
#endif

#endif
