/* The call on reports: the most points, nearly all of them in the grid. */
#include <string.h>
#include "call.h"

/* The grids that are gone through in turn, and the points of each. */
enum { GRIDS = 32, POINTS = TARNOKLEJ_MOST_POINTS };

/* A message and its points. */
typedef struct {
    uint8_t message[BYTES];
    int64_t north[POINTS], east[POINTS];
} points_of_grid;

static points_of_grid grids[GRIDS];
/* The same messages with nodes that have no value. */
static uint8_t with_nones[GRIDS][BYTES];

/* Makes the message of fields that all have values but for some nodes. */
static void make_message(uint8_t *message, const int64_t *fields, int some_without)
{
    int64_t values[ROW];
    uint8_t present[ROW];
    for (int i = 0; i < ROW; i++) {
        present[i] = !(some_without && i >= 11 && i < 59 && within(0, 9) == 0);
        values[i] = present[i] ? fields[i] : 0;
    }
    if (tarnoklej_write_fields(values, ROW, present, ROW, message, BYTES).refusal != TARNOKLEJ_DONE)
        stop("a row was refused", "reports");
}

/* Makes points in a grid, about one in 32 beside it or past the limits. */
static void make_points(points_of_grid *in, const int64_t *fields)
{
    for (int i = 0; i < POINTS; i++) {
        int64_t *at[2] = {&in->north[i], &in->east[i]};
        int64_t apart = within(0, 31);
        for (int axis = 0; axis < 2; axis++) {
            int64_t reach = fields[6 + axis] * 5000 / 2 * (apart == 0 ? 4 : 3);
            *at[axis] = fields[4 + axis] * 5000 + within(-reach, reach);
        }
        if (apart == 1 && within(0, 7) == 0)
            in->north[i] = 3240000001;
    }
}

void make_reports(void)
{
    for (int i = 0; i < GRIDS; i++) {
        int64_t fields[ROW] = {1023, i, 1, 1, within(-600000, 600000), within(-1200000, 1200000), within(100, 4095),
                               within(100, 4095), within(-127, 127), within(-127, 127), within(-16383, 16383)};
        for (int node = 11; node < 59; node++)
            fields[node] = within(-255, 255);
        make_message(grids[i].message, fields, 0);
        make_message(with_nones[i], fields, 1);
        make_points(&grids[i], fields);
    }
}

/* The report of a message over the points of a turn. */
static tarnoklej_report report_of(const baseline *by, const uint8_t *message, size_t turn, size_t size)
{
    const points_of_grid *at = &grids[turn % GRIDS];
    uint8_t component = (uint8_t)(turn / GRIDS % 3);
    return by->report_points(message, BYTES, component, at->north, size, at->east, size);
}

static uint64_t run_report(const baseline *by, size_t turn, size_t size)
{
    tarnoklej_report report = report_of(by, grids[turn % GRIDS].message, turn, size);
    return report.refusal + report.answered + report.smallest_place + report.greatest_place + (uint64_t)report.sum;
}

/* Whether two reports are the same in all their numbers. */
static int same_numbers(const tarnoklej_report *one, const tarnoklej_report *other)
{
    return one->refusal == other->refusal && one->answered == other->answered &&
           memcmp(one->refused, other->refused, sizeof one->refused) == 0 && one->smallest == other->smallest &&
           one->greatest == other->greatest && one->smallest_place == other->smallest_place &&
           one->greatest_place == other->greatest_place && one->sum == other->sum;
}

/* Whether the report of a message is the library's, and has points that are answered and points that are not. */
static int same_report_of(const baseline *by, const uint8_t *message, size_t turn, size_t size)
{
    tarnoklej_report one = report_of(&LIBRARY, message, turn, size), other = report_of(by, message, turn, size);
    return same_numbers(&one, &other) && one.answered > 0 && one.refused[TARNOKLEJ_OUTSIDE - 1] > 0 &&
           one.refused[TARNOKLEJ_POSITION - 1] > 0;
}

static int same_report(const baseline *by, size_t turn, size_t size)
{
    size_t i = turn % GRIDS;
    return same_report_of(by, grids[i].message, turn, size) && same_report_of(by, with_nones[i], turn, size);
}

const call REPORT_CALLS[REPORT_CALLS_COUNT] = {
    {"report_points, each of 10,000 points", run_report, same_report, POINTS, POINTS, 3 * GRIDS, ON_REPORTS},
};
