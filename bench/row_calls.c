/* The call on rows of shifts: the most places, from the western to the eastern edge of a grid. */
#include <string.h>
#include "call.h"

/* The grids that are gone through in turn, and the places behind a row, which keep their numbers. */
enum { GRIDS = 32, PLACES = TARNOKLEJ_MOST_PLACES, BEHIND = 4 };

/* A message and where its row begins. */
typedef struct {
    uint8_t message[BYTES];
    int64_t north, east, step;
} grid_row;

/* The rows that are timed, whose nodes all have values, and the same with nodes that have none. */
static grid_row rows[GRIDS], with_nones[GRIDS];

/* Makes the message of fields that all have values but for some nodes. */
static void make_message(uint8_t *message, const int64_t *fields, int some_without)
{
    int64_t values[ROW];
    uint8_t present[ROW];
    for (int i = 0; i < ROW; i++) {
        present[i] = !(some_without && i >= 11 && i < 59 && within(0, 40) == 0);
        values[i] = present[i] ? fields[i] : 0;
    }
    if (tarnoklej_write_fields(values, ROW, present, ROW, message, BYTES).refusal != TARNOKLEJ_DONE)
        stop("a row was refused", "rows");
}

void make_rows(void)
{
    for (int i = 0; i < GRIDS; i++) {
        int64_t fields[ROW] = {1023, i, 1, 1, within(-600000, 600000), within(-1200000, 1200000), within(100, 4095),
                               within(100, 4095), within(-127, 127), within(-127, 127), within(-16383, 16383)};
        for (int node = 11; node < 59; node++)
            fields[node] = within(-255, 255);
        make_message(rows[i].message, fields, 0);
        int64_t high = fields[6] * 5000, wide = fields[7] * 5000;
        rows[i].north = fields[4] * 5000 + within(-3 * high / 2, 3 * high / 2);
        rows[i].east = fields[5] * 5000 - 3 * wide / 2;
        rows[i].step = 3 * wide / (PLACES - 1);
        with_nones[i] = rows[i];
        make_message(with_nones[i].message, fields, 1);
    }
}

/* The row of a turn in a buffer. */
static uint8_t row_of(const baseline *by, const grid_row *from, size_t turn, size_t size, int64_t *row)
{
    uint8_t component = (uint8_t)(turn / GRIDS % 3);
    return by->shift_row(from->message, BYTES, component, from->north, from->east, from->step, size, row, PLACES);
}

static uint64_t run_row(const baseline *by, size_t turn, size_t size)
{
    int64_t row[PLACES];
    uint8_t refusal = row_of(by, &rows[turn % GRIDS], turn, size, row);
    return refusal + (uint64_t)row[turn % PLACES];
}

/* Whether the whole buffer after the row of a turn is the library's, and the refusal. */
static int same_buffer(const baseline *by, const grid_row *from, size_t turn, size_t size, int answered)
{
    static int64_t one[PLACES + BEHIND], other[PLACES + BEHIND];
    for (int i = 0; i < PLACES + BEHIND; i++)
        one[i] = other[i] = -7777777;
    uint8_t refusal = row_of(&LIBRARY, from, turn, size, one);
    return refusal == row_of(by, from, turn, size, other) && memcmp(one, other, sizeof one) == 0 &&
           (!answered || refusal == TARNOKLEJ_DONE);
}

static int same_row(const baseline *by, size_t turn, size_t size)
{
    size_t i = turn % GRIDS;
    return same_buffer(by, &rows[i], turn, size, 1) && same_buffer(by, &with_nones[i], turn, size, 0);
}

const call ROW_CALLS[ROW_CALLS_COUNT] = {
    {"shift_row, each of 4,096 places", run_row, same_row, PLACES, PLACES, 3 * GRIDS, ON_ROWS},
};

/* The refusal and the count of one part of the library's shifts. */
static uint8_t part_at(const uint8_t *message, size_t length, uint8_t component, int64_t north, int64_t east,
                       int64_t *count)
{
    tarnoklej_shifts at = tarnoklej_shifts_at(message, length, north, east);
    *count = component == 0 ? at.north_count : component == 1 ? at.east_count : at.height_count;
    return component == 0 ? at.north_refusal : component == 1 ? at.east_refusal : at.height_refusal;
}

/* The row by the library's call at each place. */
static uint8_t row_by_calls(const uint8_t *message, size_t length, uint8_t component, int64_t north, int64_t east,
                            int64_t step, size_t count, int64_t *row, size_t room)
{
    int64_t filled[PLACES];
    if (count < 1 || count > PLACES || component > 2)
        stop("no such row", "rows");
    for (size_t i = 0; i < count; i++) {
        uint8_t refusal = part_at(message, length, component, north, east + step * (int64_t)i, &filled[i]);
        if (refusal != TARNOKLEJ_DONE)
            return refusal;
    }
    if (room < count)
        return TARNOKLEJ_ROOM;
    memcpy(row, filled, count * sizeof *row);
    return TARNOKLEJ_DONE;
}

const baseline CALL_AT_EACH_PLACE = {.name = "shifts_at", .shift_row = row_by_calls};
