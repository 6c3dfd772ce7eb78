/* Rows of shifts of a 1023 by additions and comparisons, with a division only where a cell begins. */
#include "baseline.h"

/* The steps in one raw unit of origin and spacing. */
enum { STEPS = 5000 };

/* A grid and a component of it in steps and counts. */
typedef struct {
    int64_t high, wide;
    const int64_t *nodes;   /* the component's nodes, three fields apart */
    const uint8_t *present; /* whether each has a value */
    int64_t mean, factor;
} grid;

/* A whole number of areas and what is left, from 0 to less than an area. */
typedef struct {
    int64_t whole, rest;
} cut;

/* Cuts a number by an area. */
static cut cut_by(int64_t number, int64_t area)
{
    cut by = {number / area, number % area};
    if (by.rest < 0) {
        by.rest += area;
        by.whole--;
    }
    return by;
}

/* Whether a number is within plus and minus a limit. */
static int within_limit(int64_t value, int64_t most)
{
    return -most <= value && value <= most;
}

/* Tests what comes before the grid: component, length, step and places. */
static uint8_t refusal_of_row(uint8_t component, int64_t north, int64_t east, int64_t step, size_t count)
{
    const int64_t farthest = 6480000000;
    if (component > 2)
        return TARNOKLEJ_COMPONENT;
    if (count < 1 || count > TARNOKLEJ_MOST_PLACES || step < 0 || !within_limit(north, 3240000000) ||
        !within_limit(east, farthest) || (count > 1 && step > (farthest - east) / ((int64_t)count - 1)))
        return TARNOKLEJ_POSITION;
    return TARNOKLEJ_DONE;
}

/* Tests the fields of the grid. */
static uint8_t refusal_of_grid(const int64_t *values, const uint8_t *present, uint8_t component)
{
    if (values[component == 2 ? 3 : 2] == 0)
        return TARNOKLEJ_OFF;
    if (values[component == 2 ? 60 : 59] != 0)
        return TARNOKLEJ_METHOD;
    if (!present[4] || !present[5])
        return TARNOKLEJ_ORIGIN;
    return values[6] == 0 || values[7] == 0 ? TARNOKLEJ_SPACING : TARNOKLEJ_DONE;
}

/* Fills places of one cell, the first of which stands x steps east of its western edge and y north of its southern. */
static void fill_cell(const grid *g, const int64_t *south_west, int64_t y, int64_t x, int64_t step, int64_t *row,
                      size_t count)
{
    const int64_t *north_west = south_west - 12;
    int64_t west = ((g->high - y) * south_west[0] + y * north_west[0]) * g->factor;
    int64_t east = ((g->high - y) * south_west[3] + y * north_west[3]) * g->factor;
    int64_t area = g->high * g->wide;
    cut at = cut_by((g->wide - x) * west + x * east, area), growth = cut_by(step * (east - west), area);
    for (size_t i = 0; i < count; i++) {
        row[i] = g->mean + at.whole + (2 * at.rest + (at.whole >= 0) > area);
        at.whole += growth.whole;
        at.rest += growth.rest;
        if (at.rest >= area) {
            at.rest -= area;
            at.whole++;
        }
    }
}

/* Fills a row whose first place stands x steps east of the grid's western edge and y north of its southern edge. */
static uint8_t fill_row(const grid *g, int64_t y, int64_t x, int64_t step, size_t count, int64_t *row)
{
    if (y < 0 || y > 3 * g->high || x < 0 || x > 3 * g->wide)
        return TARNOKLEJ_OUTSIDE;
    int64_t from_south = y / g->high > 2 ? 2 : y / g->high;
    for (size_t done = 0; done < count;) {
        if (x > 3 * g->wide)
            return TARNOKLEJ_OUTSIDE;
        int64_t from_west = x / g->wide > 2 ? 2 : x / g->wide, inside = x - from_west * g->wide;
        int64_t corner = 3 * ((3 - from_south) * 4 + from_west);
        if (!g->present[corner] || !g->present[corner + 3] || !g->present[corner - 12] || !g->present[corner - 9])
            return TARNOKLEJ_ABSENT;
        size_t places = step == 0 ? count - done : (size_t)((g->wide - inside) / step + 1);
        if (places > count - done)
            places = count - done;
        fill_cell(g, g->nodes + corner, y - from_south * g->high, inside, step, row + done, places);
        done += places;
        x += step * (int64_t)places;
    }
    return TARNOKLEJ_DONE;
}

/* Fills a row by way of a copy, as a row that is refused keeps its numbers. */
static uint8_t shift_row(const uint8_t *message, size_t length, uint8_t component, int64_t north, int64_t east,
                         int64_t step, size_t count, int64_t *row, size_t room)
{
    int64_t values[ROW], filled[TARNOKLEJ_MOST_PLACES];
    uint8_t present[ROW];
    uint8_t refusal = ONE_LOAD.read_fields(message, length, values, ROW, present, ROW);
    if (refusal == TARNOKLEJ_DONE)
        refusal = refusal_of_row(component, north, east, step, count);
    if (refusal == TARNOKLEJ_DONE)
        refusal = refusal_of_grid(values, present, component);
    if (refusal != TARNOKLEJ_DONE)
        return refusal;
    grid g = {values[6] * STEPS,      values[7] * STEPS,       values + 11 + component,
              present + 11 + component, values[8 + component] * 100, component == 2 ? 10 : 3};
    int64_t y = north - values[4] * STEPS + 3 * g.high / 2, x = east - values[5] * STEPS + 3 * g.wide / 2;
    refusal = fill_row(&g, y, x, step, count, filled);
    if (refusal == TARNOKLEJ_DONE && !present[8 + component])
        refusal = TARNOKLEJ_ABSENT;
    if (refusal == TARNOKLEJ_DONE && room < count)
        refusal = TARNOKLEJ_ROOM;
    for (size_t i = 0; refusal == TARNOKLEJ_DONE && i < count; i++)
        row[i] = filled[i];
    return refusal;
}

const baseline ADDITIONS = {.name = "additions", .shift_row = shift_row};
