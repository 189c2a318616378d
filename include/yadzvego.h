/* Least squares under constraints over interval ends: the calls of a run by question and reply, sheets that are settled
 * or spelled by one call, the interval arithmetic, and lists and small matrices of intervals, in libyadzvego.a
 * (`./bundle` writes it).
 *
 * An interval is two numbers, lo then hi. A slice is a pointer to that many numbers, and none that is written overlaps
 * another. Every function takes every number and every length, and ends; what it cannot do is refused by a number:
 *   1 a count above its limit,
 *   2 a wrong length,
 *   3 an end outside the domain,
 *   4 no open question, or a run that no call leaves,
 *   5 a root of a negative interval,
 *   6 a division by an interval that holds 0,
 * and a text that is no sheet
 *   7 for a line missing, surplus or malformed, or a text of more than 4,096 bytes,
 *   8 for a number outside its range,
 *   9 for a rule with equal points or one not present. */
#ifndef YADZVEGO_H
#define YADZVEGO_H

#include <stdbool.h>
#include <stddef.h>
#include <stdint.h>

#ifdef __cplusplus
extern "C" {
#endif

typedef struct {
    double lo;
    double hi;
} YadzvegoScalar;

/* Runs.
 *
 * The caller keeps the run and the area from call to call, and alters neither. A call returns the run afterwards, with
 * an event: a question, the finish or a refusal. A question asks for the rows of the point that stands in the area at
 * yadzvego_point_place, yadzvego_point_length numbers long; with no question open it is the point that stands.
 *
 * Each reply has an m of its own, the number of constraints at the asked point: a drawer's stop is one only while the
 * parts meet. Rows of n variables, m constraints and s sum rows are 2 (m + s) (n + 1) numbers: the constraints' values,
 * their slopes row by row, the sum rows' values, their slopes row by row. Limits: n and m to 12, s to 24, `limit` (the
 * most iterations) to 200; every end in `start` and `rows` is finite with magnitude at most 2^400, and lo <= hi; so is
 * max_step, with lo > 0. `start` has 2 n numbers, `area` has YADZVEGO_AREA. `start` and `rows` are only read.
 *
 * A begin is refused by the first that applies of 1, 2 and 3; it leaves the area as it was and returns a run that is
 * over. A reply is refused by the first that applies of 4, 1 (its m), 2 (the area, or rows that are not as many as its
 * m asks for) and 3; it returns the run that it was given, with every field as it was, and leaves the area as it was
 * and an open question open, for a reply with this m or another. 5 and 6 end the run. */

/* How many numbers an area has. */
#define YADZVEGO_AREA 8000

/* phase */
enum { YADZVEGO_START_OPEN = 0, YADZVEGO_TRIAL_OPEN = 1, YADZVEGO_CORRECTION_OPEN = 2, YADZVEGO_OVER = 3 };

/* rejected: why the last step was turned down */
enum {
    YADZVEGO_NONE_YET = 0,
    YADZVEGO_NOT_POSITIVE = 1,
    YADZVEGO_REJECTED_INFEASIBLE = 2,
    YADZVEGO_UNRESOLVED = 3,
    YADZVEGO_NOT_LOWER = 4
};

/* A run. A phase above 3, a rejected above 4, a last above 1, a standing_m or a landed_m above 12 is refused by
 * number 4. */
typedef struct {
    size_t n;
    size_t s;
    size_t limit;
    size_t iterations;
    size_t question;
    size_t standing;
    size_t landed;
    size_t corrections;
    size_t standing_m; /* of the answer for the standing point while a trial or a correction is open, else 0 */
    size_t landed_m;   /* of the answer for the landed point while a correction is open, else 0 */
    size_t turned_down;
    YadzvegoScalar mu;
    YadzvegoScalar radius;
    YadzvegoScalar predicted;
    YadzvegoScalar tried;
    YadzvegoScalar max_step;
    YadzvegoScalar last_length; /* of the last step taken; where last is 0, not read, and 0 after an accepted call */
    uint8_t phase;
    uint8_t rejected;
    uint8_t last; /* 0 none taken yet, 1 taken */
    bool first;
    bool plain;
    bool moving[12];
} YadzvegoRun;

/* which */
enum { YADZVEGO_QUESTION = 0, YADZVEGO_FINISH = 1, YADZVEGO_REFUSED = 2 };

/* kind of a question */
enum { YADZVEGO_START = 0, YADZVEGO_TRIAL = 1, YADZVEGO_CORRECTION = 2 };

/* stop */
enum {
    YADZVEGO_INFEASIBLE = 0,
    YADZVEGO_NO_CHANGE = 1,
    YADZVEGO_UNDECIDED = 2,
    YADZVEGO_FLAT = 3,
    YADZVEGO_DAMPED = 4,
    YADZVEGO_BUDGET = 5
};

/* A question, the finish or a refusal; what it does not tell is 0. */
typedef struct {
    uint8_t which;
    uint8_t kind;       /* question */
    uint8_t stop;       /* finish */
    uint8_t rejected;   /* finish by no change or damped */
    size_t number;      /* of the question; or of the refusal */
    size_t standing;    /* question, finish: the number of the question whose point stands */
    size_t independent; /* finish by flat: how many constraints are independent */
    size_t constraints; /* finish by flat: of how many, the m of the answer for the standing point */
    size_t iterations;  /* finish */
    size_t turned_down; /* finish */
} YadzvegoEvent;

/* What a call returns. */
typedef struct {
    YadzvegoRun run;
    YadzvegoEvent event;
} YadzvegoReturned;

/* Begins a run: its first question asks for the rows of `start`. */
YadzvegoReturned yadzvego_begin(size_t n, size_t s, size_t limit, const double *start, size_t start_len,
                                YadzvegoScalar max_step, double *area, size_t area_len);

/* Answers the open question with rows, m constraints and then the sum rows. */
YadzvegoReturned yadzvego_reply(YadzvegoRun run, double *area, size_t area_len, size_t m, const double *rows,
                                size_t rows_len);

/* Answers the open question with none: the point cannot be evaluated. */
YadzvegoReturned yadzvego_reply_none(YadzvegoRun run, double *area, size_t area_len);

/* Where in an area of that length the point begins, and how many numbers it has: 0 for a run that number 4 refuses as
 * altered and for an area of another length. */
size_t yadzvego_point_place(YadzvegoRun run, size_t area_len);
size_t yadzvego_point_length(YadzvegoRun run, size_t area_len);

/* Sheets.
 *
 * A sheet is a text that describes points and the rules between them, in lines of a fixed order (docs/PROTOCOL.md,
 * Sheets). One call reads and settles it, and writes into the slot the lines that the program settle prints: the stop,
 * the two counts and the bits of each point's coordinates; or the one line error= and its number, which is 5 or 6 for
 * an arithmetic refusal, and 7, 8 or 9 for a text that is no sheet. Another call writes the one spelling of a sheet, so
 * that texts which say the same are the same bytes. */

/* How many bytes a slot has. No sheet prints as many: zeros follow, so that a slot is a string of C. */
#define YADZVEGO_SLOT 320

/* Settles a text. Whatever slot and area held before, the slot has what is printed and then zeros, and the area is +0;
 * it returns 0. An area of another length than YADZVEGO_AREA or a slot of another than YADZVEGO_SLOT is refused by 2,
 * before the text is read and with nothing written. */
size_t yadzvego_settle_text(const char *text, size_t text_len, double *area, size_t area_len, char *slot,
                            size_t slot_len);

/* How many bytes a sheet has at most, and how many are lent for its one spelling, which has far fewer: zeros follow, so
 * that they are a string of C. */
#define YADZVEGO_SHEET 4096

/* Number 0 and how many bytes were written, or the number of the refusal and 0. */
typedef struct {
    size_t number;
    size_t length;
} YadzvegoSpellResult;

/* Writes the one spelling of a sheet's text: its numbers without plus signs, leading zeros or minus zero, then zeros.
 * Two sheets get the same bytes just where their numbers and rules are equal, and what is written is spelled as it is.
 * Bytes of another length than YADZVEGO_SHEET are refused by 2, then a text that is no sheet by 7, 8 or 9, both with
 * nothing written. */
YadzvegoSpellResult yadzvego_spell_text(const char *text, size_t text_len, char *out, size_t out_len);

/* The interval arithmetic: every operation is rounded outward, and takes NaN, infinities and inverted ends too. */

/* Number 0 and the value, or the number of the refusal and zero. */
typedef struct {
    uint64_t number;
    YadzvegoScalar value;
} YadzvegoScalarResult;

YadzvegoScalar yadzvego_interval_zero(void);
YadzvegoScalar yadzvego_interval_one(void);
YadzvegoScalar yadzvego_interval_two(void);
double yadzvego_interval_next_up(double x);
double yadzvego_interval_next_down(double x);
YadzvegoScalar yadzvego_interval_degenerate(double v);
YadzvegoScalar yadzvego_interval_from_i64(int64_t v);
YadzvegoScalarResult yadzvego_interval_from_ratio(int64_t num, int64_t den); /* 6 over 0 */
YadzvegoScalar yadzvego_interval_add(YadzvegoScalar x, YadzvegoScalar y);
YadzvegoScalar yadzvego_interval_sub(YadzvegoScalar x, YadzvegoScalar y);
YadzvegoScalar yadzvego_interval_mul(YadzvegoScalar x, YadzvegoScalar y);
YadzvegoScalar yadzvego_interval_neg(YadzvegoScalar x);
YadzvegoScalarResult yadzvego_interval_div(YadzvegoScalar x, YadzvegoScalar y); /* 6 */
YadzvegoScalar yadzvego_interval_abs(YadzvegoScalar x);
YadzvegoScalarResult yadzvego_interval_sqrt(YadzvegoScalar x); /* 5 */
bool yadzvego_interval_could_be_equal(YadzvegoScalar x, YadzvegoScalar y);
bool yadzvego_interval_definitely_not_equal(YadzvegoScalar x, YadzvegoScalar y);
bool yadzvego_interval_could_be_greater(YadzvegoScalar x, YadzvegoScalar y);
bool yadzvego_interval_definitely_greater(YadzvegoScalar x, YadzvegoScalar y);
bool yadzvego_interval_could_be_less(YadzvegoScalar x, YadzvegoScalar y);
bool yadzvego_interval_definitely_less(YadzvegoScalar x, YadzvegoScalar y);
bool yadzvego_interval_is_zero(YadzvegoScalar x);
bool yadzvego_interval_is_finite(YadzvegoScalar x);
YadzvegoScalar yadzvego_interval_midpoint(YadzvegoScalar x);
bool yadzvego_interval_is_sharp(YadzvegoScalar x);
YadzvegoScalar yadzvego_interval_lower(YadzvegoScalar x);
YadzvegoScalar yadzvego_interval_upper(YadzvegoScalar x);
YadzvegoScalar yadzvego_interval_sharpen(YadzvegoScalar x);
YadzvegoScalar yadzvego_interval_max(YadzvegoScalar x, YadzvegoScalar y);

/* Lists and small matrices: a list of n intervals has 2 n numbers, a matrix stands row by row. Counts are at most 24
 * (1), and every slice has just the length named here (2). A function that writes returns 0, or the number of the
 * refusal: 1 and 2 write nothing, 5 and 6 write +0 and marks that are false. */

/* The sum of products of two lists of n. */
YadzvegoScalarResult yadzvego_linear_dot(size_t n, const double *a, size_t a_len, const double *b, size_t b_len);

/* The root of the sum of squares of a list of n. */
YadzvegoScalarResult yadzvego_linear_norm(size_t n, const double *v, size_t v_len);

/* 0 where it could be zero, else the middle; yadzvego_linear_sharp of each of a list of n. */
YadzvegoScalar yadzvego_linear_choose(YadzvegoScalar v);
uint64_t yadzvego_linear_sharp(size_t n, const double *v, size_t v_len, double *out, size_t out_len);

/* The factor l of a matrix of n rows and columns, of which the lower triangle is read, with a mark for each pivot that
 * is left out: l has 2 n n numbers, left_out n marks. */
uint64_t yadzvego_linear_cholesky(size_t n, const double *a, size_t a_len, double *l, size_t l_len, bool *left_out,
                                  size_t left_out_len);

/* The solution x of l l' x = b, both lists of n. */
uint64_t yadzvego_linear_solve_cholesky(size_t n, const double *l, size_t l_len, const bool *left_out,
                                        size_t left_out_len, const double *b, size_t b_len, double *x, size_t x_len);

/* The list y of r with |rows y - rhs| least, for m rows of r and a list rhs of m. */
uint64_t yadzvego_linear_least_squares(size_t m, size_t r, const double *rows, size_t rows_len, const double *rhs,
                                       size_t rhs_len, double *y, size_t y_len);

/* from - jc' k with jc jc' k = rhs, for m rows jc of n, a list rhs of m, and lists from and out of n. */
uint64_t yadzvego_linear_minus_solved(size_t m, size_t n, const double *jc, size_t jc_len, const double *rhs,
                                      size_t rhs_len, const double *from, size_t from_len, double *out,
                                      size_t out_len);

#ifdef __cplusplus
}
#endif

#endif
