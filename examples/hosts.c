/* The header against the archive. Hosts that do not keep to the calls get the number of a refusal, with run and area as
 * they were. That a field stands where the header says is seen by what it holds after a begin and two replies, or by
 * altering it; that a list or a text is passed as the header says, by what comes out. Prints what is otherwise. */
#include "yadzvego.h"
#include <stdio.h>
#include <string.h>

static double area[YADZVEGO_AREA];
static int failures;

static void expect(const char *what, size_t got, size_t wanted)
{
    if (got != wanted) {
        printf("%s: %zu, not %zu\n", what, got, wanted);
        failures++;
    }
}

/* Two variables, of which the first moves: the constraint x with slope 1, and the sum rows x - 1 and 0 with slopes 1
 * and 0. At the next point the constraint stands twice, and further on both are further off. */
static const double rows[18] = {3, 3, 1, 1, 0, 0, 2, 2, 0, 0, 1, 1, 0, 0, 0, 0, 0, 0};
static const double next[24] = {0, 0, 0, 0, 1, 1, 0, 0, 1, 1, 0, 0, -1, -1, 0, 0, 1, 1, 0, 0, 0, 0, 0, 0};
static const double further[24] = {9, 9, 9, 9, 1, 1, 0, 0, 1, 1, 0, 0, 8, 8, 0, 0, 1, 1, 0, 0, 0, 0, 0, 0};

static void expect_refused(const char *what, YadzvegoRun run, size_t area_len, size_t m, size_t rows_len,
                           size_t number)
{
    static double before[YADZVEGO_AREA];
    memcpy(before, area, sizeof area);
    YadzvegoReturned r = yadzvego_reply(run, area, area_len, m, rows, rows_len);
    expect(what, r.event.which, YADZVEGO_REFUSED);
    expect(what, r.event.number, number);
    expect(what, (size_t)memcmp(&r.run, &run, offsetof(YadzvegoRun, moving) + sizeof run.moving), 0);
    expect(what, (size_t)memcmp(before, area, sizeof area), 0);
}

#define EXPECT_ALTERED(field, value)                                   \
    do {                                                               \
        YadzvegoRun altered = run;                                     \
        altered.field = value;                                         \
        expect_refused(#field " altered", altered, YADZVEGO_AREA, 1, 18, 4); \
        expect(#field " altered", yadzvego_point_length(altered, YADZVEGO_AREA), 0); \
    } while (0)

static void expect_altered(YadzvegoRun run)
{
    EXPECT_ALTERED(n, 13);
    EXPECT_ALTERED(s, 25);
    EXPECT_ALTERED(limit, 201);
    EXPECT_ALTERED(iterations, 8);
    EXPECT_ALTERED(question, 5500 * 7 + 1);
    EXPECT_ALTERED(corrections, 5);
    EXPECT_ALTERED(standing_m, 13);
    EXPECT_ALTERED(landed_m, (size_t)-1);
    EXPECT_ALTERED(turned_down, 1101);
    EXPECT_ALTERED(mu.lo, 0);
    EXPECT_ALTERED(phase, 4);
    EXPECT_ALTERED(rejected, 5);
    EXPECT_ALTERED(last, 2);
}

/* Each reply has its own m: 4 comes before it, then 1, then 2 for lengths by it. */
static void expect_counts(YadzvegoRun run)
{
    YadzvegoRun over = run;
    over.phase = YADZVEGO_OVER;
    expect_refused("over, and m above 12", over, YADZVEGO_AREA, 13, 18, 4);
    expect_refused("m above 12", run, YADZVEGO_AREA, 13, 18, 1);
    expect_refused("m above 12, and all else wrong", run, YADZVEGO_AREA - 1, (size_t)-1, 17, 1);
    expect_refused("rows short", run, YADZVEGO_AREA, 1, 17, 2);
    expect_refused("rows of m 1 for 0", run, YADZVEGO_AREA, 0, 18, 2);
    expect_refused("rows of m 1 for 2", run, YADZVEGO_AREA, 2, 18, 2);
    expect_refused("area short", run, YADZVEGO_AREA - 1, 1, 18, 2);
}

/* The trial's answer is further off the constraints than the standing one: a correction is asked, and the run has the m
 * of both. The area is as before afterwards. */
static void expect_landed(YadzvegoRun run)
{
    static double before[YADZVEGO_AREA];
    memcpy(before, area, sizeof area);
    YadzvegoRun landed = yadzvego_reply(run, area, YADZVEGO_AREA, 2, further, 24).run;
    expect("correction", landed.phase == YADZVEGO_CORRECTION_OPEN && landed.landed == 1, 1);
    expect("m of both", landed.standing_m == 1 && landed.landed_m == 2, 1);
    memcpy(area, before, sizeof area);
}

static void expect_near(const char *what, const double *got, double wanted)
{
    expect(what, got[0] > wanted - 1e-9 && got[1] < wanted + 1e-9, 1);
}

static void expect_lists(void)
{
    const double line[4] = {3, 3, 4, 4}, twice[4] = {6, 6, 8, 8}, length[2] = {25, 25};
    const double squares[8] = {4, 4, 0, 0, 0, 0, 9, 9};
    double l[8], out[4];
    bool left_out[2];
    YadzvegoScalarResult norm = yadzvego_linear_norm(2, line, 4);
    YadzvegoScalarResult dot = yadzvego_linear_dot(2, line, 4, twice, 4);
    expect_near("norm", &norm.value.lo, 5);
    expect_near("dot", &dot.value.lo, 50);
    expect("sharp", yadzvego_linear_sharp(2, line, 4, out, 4), 0);
    expect_near("sharp", out + 2, yadzvego_linear_choose(norm.value).lo - 1);
    expect("cholesky", yadzvego_linear_cholesky(2, squares, 8, l, 8, left_out, 2) + left_out[0] + left_out[1], 0);
    expect("solved", yadzvego_linear_solve_cholesky(2, l, 8, left_out, 2, line, 4, out, 4), 0);
    expect_near("solved", out, 0.75);
    expect("least squares", yadzvego_linear_least_squares(2, 1, line, 4, twice, 4, out, 2), 0);
    expect_near("least squares", out, 2);
    expect("minus solved", yadzvego_linear_minus_solved(1, 2, line, 4, length, 2, twice, 4, out, 4), 0);
    expect_near("minus solved", out + 2, 4);
    expect("25 of a list", yadzvego_linear_norm(25, line, 4).number, 1);
    expect("a list short", yadzvego_linear_sharp(2, line, 3, out, 4), 2);
}

static void expect_slot(const char *what, const char *text, const char *printed)
{
    char slot[YADZVEGO_SLOT], wanted[YADZVEGO_SLOT] = {0};
    static const double clear[YADZVEGO_AREA];
    memset(slot, 'x', sizeof slot);
    area[7] = -1;
    strcpy(wanted, printed);
    expect(what, yadzvego_settle_text(text, strlen(text), area, YADZVEGO_AREA, slot, YADZVEGO_SLOT), 0);
    expect(what, (size_t)memcmp(slot, wanted, sizeof slot), 0);
    expect(what, (size_t)memcmp(area, clear, sizeof area), 0);
}

static void expect_sheets(void)
{
    const char *text = "points=1\nat=3,4\nlimit=0\nreach=1\nrules=0\n";
    char slot[YADZVEGO_SLOT + 1] = "as it was";
    expect_slot("a sheet", text, "stop=budget\niterations=0\nturned=0\nat=4008000000000000,4010000000000000\n");
    expect_slot("no text", "", "error=7\n");
    area[7] = -1;
    expect("slot short", yadzvego_settle_text(text, strlen(text), area, YADZVEGO_AREA, slot, YADZVEGO_SLOT - 1), 2);
    expect("slot long", yadzvego_settle_text(text, strlen(text), area, YADZVEGO_AREA, slot, YADZVEGO_SLOT + 1), 2);
    expect("area short", yadzvego_settle_text(text, strlen(text), area, YADZVEGO_AREA - 1, slot, YADZVEGO_SLOT), 2);
    expect("nothing written", strcmp(slot, "as it was") == 0 && area[7] == -1, 1);
}

static void expect_spellings(void)
{
    const char *text = "points=+1\nat=-0,004\nlimit=0\nreach=1\nrules=00\n";
    const char *spelling = "points=1\nat=0,4\nlimit=0\nreach=1\nrules=0\n";
    char out[YADZVEGO_SHEET + 1], wanted[YADZVEGO_SHEET + 1] = {0};
    memset(out, 'x', sizeof out);
    memcpy(wanted, out, sizeof out);
    expect("bytes short", yadzvego_spell_text(text, strlen(text), out, YADZVEGO_SHEET - 1).number, 2);
    expect("bytes long", yadzvego_spell_text("", 0, out, YADZVEGO_SHEET + 1).number, 2);
    expect("no text", yadzvego_spell_text("", 0, out, YADZVEGO_SHEET).number, 7);
    expect("no bytes", yadzvego_spell_text("", 0, out, YADZVEGO_SHEET).length, 0);
    expect("nothing written", (size_t)memcmp(out, wanted, sizeof out), 0);
    memset(wanted, 0, YADZVEGO_SHEET);
    strcpy(wanted, spelling);
    YadzvegoSpellResult result = yadzvego_spell_text(text, strlen(text), out, YADZVEGO_SHEET);
    expect("spelled", result.number == 0 && result.length == strlen(spelling), 1);
    expect("spelling", (size_t)memcmp(out, wanted, sizeof out), 0);
}

int main(void)
{
    const double start[4] = {3, 3, 1, 2};
    const YadzvegoScalar reach = {5, 6};
    YadzvegoRun run = yadzvego_begin(2, 2, 7, start, 4, reach, area, YADZVEGO_AREA).run;
    expect("sizes", run.n == 2 && run.s == 2 && run.limit == 7 && run.standing_m == 0 && run.landed_m == 0, 1);
    expect("steps", run.radius.hi == 6 && run.max_step.lo == 5 && run.mu.lo < 0.001 && run.mu.hi > 0.001, 1);
    expect("begun", run.phase == YADZVEGO_START_OPEN && run.rejected == YADZVEGO_NONE_YET && run.last == 0, 1);
    expect("point", area[yadzvego_point_place(run, YADZVEGO_AREA) + 3] == 2, 1);
    expect_counts(run);
    YadzvegoRun unread = run;
    unread.last_length.hi = 7;
    expect_refused("a length that is not read", unread, YADZVEGO_AREA, 1, 17, 2);
    expect_altered(run);
    run = yadzvego_reply(run, area, YADZVEGO_AREA, 1, rows, 18).run;
    expect("trial", run.phase == YADZVEGO_TRIAL_OPEN && run.question == 1 && run.first && !run.plain, 1);
    expect("moving", run.moving[0] && !run.moving[1] && run.tried.hi >= 3 && run.predicted.hi < 1, 1);
    expect("m of the start", run.standing_m == 1 && run.landed_m == 0, 1);
    expect_landed(run);
    YadzvegoReturned taken = yadzvego_reply(run, area, YADZVEGO_AREA, 2, next, 24);
    YadzvegoEvent event = taken.event;
    run = taken.run;
    expect("taken", run.iterations == 1 && run.standing == 1 && run.last == 1 && run.last_length.hi >= 3, 1);
    expect("finish", event.which == YADZVEGO_FINISH && event.stop == YADZVEGO_FLAT, 1);
    expect("rows that stand", event.independent == 1 && event.constraints == 2, 1);
    expect("m of none", run.standing_m == 0 && run.landed_m == 0, 1);
    expect_refused("over", run, YADZVEGO_AREA, 1, 18, 4);
    expect_lists();
    expect_sheets();
    expect_spellings();
    return failures != 0;
}
