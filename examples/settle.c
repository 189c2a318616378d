/* Settles a small drawing by question and reply: a hinge at (3, 4) goes to where a strut of 10 from the origin reaches
 * it, as near to where it was as can be. */
#include "yadzvego.h"
#include <stdio.h>

static const char *const stops[] = {"infeasible", "nochange", "undecided", "flat", "damped", "budget"};

/* The constraint x x + y y - 100 with its slopes, then the sum rows x - 3 and y - 4 with theirs. */
static void rows_at(const double *point, YadzvegoScalar rows[9])
{
    YadzvegoScalar x = {point[0], point[1]}, y = {point[2], point[3]};
    YadzvegoScalar squares = yadzvego_interval_add(yadzvego_interval_mul(x, x), yadzvego_interval_mul(y, y));
    rows[0] = yadzvego_interval_sub(squares, yadzvego_interval_from_i64(100));
    rows[1] = yadzvego_interval_mul(yadzvego_interval_two(), x);
    rows[2] = yadzvego_interval_mul(yadzvego_interval_two(), y);
    rows[3] = yadzvego_interval_sub(x, yadzvego_interval_from_i64(3));
    rows[4] = yadzvego_interval_sub(y, yadzvego_interval_from_i64(4));
    rows[5] = rows[8] = yadzvego_interval_one();
    rows[6] = rows[7] = yadzvego_interval_zero();
}

static double middle(const double *ends)
{
    YadzvegoScalar v = {ends[0], ends[1]};
    return yadzvego_interval_sharpen(v).lo;
}

int main(void)
{
    static double area[YADZVEGO_AREA];
    const double start[4] = {3, 3, 4, 4};
    YadzvegoScalar rows[9];
    YadzvegoReturned now = yadzvego_begin(2, 2, 50, start, 4, yadzvego_interval_from_i64(5), area, YADZVEGO_AREA);
    while (now.event.which == YADZVEGO_QUESTION) {
        rows_at(area + yadzvego_point_place(now.run, YADZVEGO_AREA), rows);
        now = yadzvego_reply(now.run, area, YADZVEGO_AREA, 1, &rows[0].lo, 18);
    }
    if (now.event.which == YADZVEGO_REFUSED) {
        printf("refusal=%zu\n", now.event.number);
        return 1;
    }
    const double *point = area + yadzvego_point_place(now.run, YADZVEGO_AREA);
    printf("stop=%s\n", stops[now.event.stop]);
    printf("iterations=%zu\nturned=%zu\n", now.event.iterations, now.event.turned_down);
    printf("at=%.16f,%.16f\n", middle(point), middle(point + 2));
    return 0;
}
