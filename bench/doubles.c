/* Reports of a 1023 in doubles: the message is decoded once, and each point is interpolated in the decoded grid. */
#include <math.h>
#include "baseline.h"

/* The steps in one raw unit of origin and spacing, and the first node's field in a row. */
enum { STEPS = 5000, NODE = 11 };

/* One component of a grid in doubles; a node without a value is not a number. */
typedef struct {
    uint8_t refusal;         /* why no point within the limits is answered */
    double south, west;      /* the south-western node in steps */
    double top, right;       /* steps from there to the north-eastern node */
    double in_high, in_wide; /* cells in one step, north and east */
    double nodes[4][4];      /* in counts, rows from the south, each from the west */
    int64_t mean;            /* in counts */
} grid;

/* Tests the fields that refuse every point. */
static uint8_t refusal_of_grid(const int64_t *values, const uint8_t *present, uint8_t component)
{
    if (values[component == 2 ? 3 : 2] == 0)
        return TARNOKLEJ_OFF;
    if (values[component == 2 ? 60 : 59] != 0)
        return TARNOKLEJ_METHOD;
    if (!present[4] || !present[5])
        return TARNOKLEJ_ORIGIN;
    return values[6] == 0 || values[7] == 0 ? TARNOKLEJ_SPACING : TARNOKLEJ_DONE;
}

/* Takes a component of a decoded message; without its mean no node has a value. */
static void take_component(const int64_t *values, const uint8_t *present, uint8_t component, grid *g)
{
    double high = (double)values[6] * STEPS, wide = (double)values[7] * STEPS;
    g->refusal = refusal_of_grid(values, present, component);
    g->south = (double)values[4] * STEPS - 1.5 * high;
    g->west = (double)values[5] * STEPS - 1.5 * wide;
    g->top = 3 * high;
    g->right = 3 * wide;
    g->in_high = 1 / high;
    g->in_wide = 1 / wide;
    g->mean = values[8 + component] * 100;
    for (int row = 0; row < 4; row++)
        for (int column = 0; column < 4; column++) {
            int field = NODE + 3 * ((3 - row) * 4 + column) + component;
            int there = present[field] && present[8 + component];
            g->nodes[row][column] = there ? (double)values[field] * (component == 2 ? 10 : 3) : NAN;
        }
}

/* The count at a point, or why there is none. */
static inline uint8_t count_at(const grid *g, int64_t north, int64_t east, int64_t *count)
{
    if (north < -3240000000 || north > 3240000000 || east < -6480000000 || east > 6480000000)
        return TARNOKLEJ_POSITION;
    if (g->refusal != TARNOKLEJ_DONE)
        return g->refusal;
    double y = (double)north - g->south, x = (double)east - g->west;
    if (y < 0 || y > g->top || x < 0 || x > g->right)
        return TARNOKLEJ_OUTSIDE;
    double v = y * g->in_high, u = x * g->in_wide;
    int row = v < 3 ? (int)v : 2, column = u < 3 ? (int)u : 2;
    const double *southern = &g->nodes[row][column], *northern = &g->nodes[row + 1][column];
    v -= row;
    u -= column;
    double along_south = southern[0] + u * (southern[1] - southern[0]);
    double along_north = northern[0] + u * (northern[1] - northern[0]);
    double mean = along_south + v * (along_north - along_south);
    if (isnan(mean))
        return TARNOKLEJ_ABSENT;
    *count = g->mean + llround(mean);
    return TARNOKLEJ_DONE;
}

/* Counts an answered point at a place, from 1. */
static inline void add_count(tarnoklej_report *report, int64_t count, uint64_t place)
{
    if (report->answered == 0 || count < report->smallest) {
        report->smallest = count;
        report->smallest_place = place;
    }
    if (report->answered == 0 || count > report->greatest) {
        report->greatest = count;
        report->greatest_place = place;
    }
    report->answered++;
    report->sum += count;
}

/* The report over a list of points. */
static tarnoklej_report report_points(const uint8_t *message, size_t length, uint8_t component, const int64_t *north,
                                      size_t north_count, const int64_t *east, size_t east_count)
{
    tarnoklej_report report = {0};
    if (component > 2)
        report.refusal = TARNOKLEJ_COMPONENT;
    else if (north_count != east_count || north_count > TARNOKLEJ_MOST_POINTS)
        report.refusal = TARNOKLEJ_LENGTH;
    if (report.refusal != TARNOKLEJ_DONE)
        return report;
    int64_t values[ROW], count;
    uint8_t present[ROW], refusal = ONE_LOAD.read_fields(message, length, values, ROW, present, ROW);
    if (refusal != TARNOKLEJ_DONE) {
        report.refused[refusal - 1] = north_count;
        return report;
    }
    grid g;
    take_component(values, present, component, &g);
    for (size_t i = 0; i < north_count; i++) {
        refusal = count_at(&g, north[i], east[i], &count);
        if (refusal == TARNOKLEJ_DONE)
            add_count(&report, count, i + 1);
        else
            report.refused[refusal - 1]++;
    }
    return report;
}

const baseline DOUBLES = {.name = "doubles, decoded once", .report_points = report_points};
