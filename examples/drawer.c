/* A drawer with a stop: its front at x is pulled along the runner towards 500, and a buffer of 600 before a wall at
 * 1000 stops it at 400. The buffer is a constraint only where front and buffer meet, with less than 1 between them, so
 * each reply has an m of its own. */
#include "yadzvego.h"
#include <stdio.h>

static const char *const kinds[] = {"start", "trial", "correction"};
static const char *const stops[] = {"infeasible", "nochange", "undecided", "flat", "damped", "budget"};

/* Where they meet, the constraint room room - 600 600 with its slope, for the room 1000 - x before the wall; then the
 * sum row x - 500 with its slope. Returns how many constraints there are. */
static size_t rows_at(const double *point, YadzvegoScalar rows[4])
{
    YadzvegoScalar x = {point[0], point[1]};
    YadzvegoScalar room = yadzvego_interval_sub(yadzvego_interval_from_i64(1000), x);
    size_t m = yadzvego_interval_definitely_less(room, yadzvego_interval_from_i64(601)) ? 1 : 0;
    if (m == 1) {
        rows[0] = yadzvego_interval_sub(yadzvego_interval_mul(room, room), yadzvego_interval_from_i64(600 * 600));
        rows[1] = yadzvego_interval_mul(yadzvego_interval_from_i64(-2), room);
    }
    rows[2 * m] = yadzvego_interval_sub(x, yadzvego_interval_from_i64(500));
    rows[2 * m + 1] = yadzvego_interval_one();
    return m;
}

int main(void)
{
    static double area[YADZVEGO_AREA];
    const double start[2] = {0, 0};
    YadzvegoScalar rows[4];
    YadzvegoReturned now = yadzvego_begin(1, 1, 50, start, 2, yadzvego_interval_from_i64(150), area, YADZVEGO_AREA);
    while (now.event.which == YADZVEGO_QUESTION) {
        const double *point = area + yadzvego_point_place(now.run, YADZVEGO_AREA);
        size_t m = rows_at(point, rows);
        printf("%s at=%.4f m=%zu\n", kinds[now.event.kind], point[0], m);
        now = yadzvego_reply(now.run, area, YADZVEGO_AREA, m, &rows[0].lo, 4 * (m + 1));
    }
    if (now.event.which == YADZVEGO_REFUSED) {
        printf("refusal=%zu\n", now.event.number);
        return 1;
    }
    printf("stop=%s\n", stops[now.event.stop]);
    printf("independent=%zu\nconstraints=%zu\n", now.event.independent, now.event.constraints);
    printf("iterations=%zu\nturned=%zu\n", now.event.iterations, now.event.turned_down);
    printf("at=%.16f\n", area[yadzvego_point_place(now.run, YADZVEGO_AREA)]);
    return 0;
}
