/* The calls that answer shifts of a grid. */
#include "calls.h"
#include "grids.h"

void replay_shifts_at(void)
{
    size_t length = make_grid_message();
    int64_t n, e;
    make_position(&n, &e);
    add_shifts(tarnoklej_shifts_at(message, length, n, e));
    add_bytes(message, length);
}

/* Makes a row that mostly starts within the grid and ends there. */
static void make_places(size_t count, int64_t *n, int64_t *e, int64_t *step)
{
    int64_t half = values[7] * grid_unit() / 2 * 3;
    *step = 0;
    make_position(n, e);
    if (!one_in(4)) {
        int64_t start = make_offset(values[7] * grid_unit());
        *e = short_way(values[5] * grid_unit() + start);
        *step = count > 1 ? (int64_t)below((uint64_t)(half - start) / (count - 1) + 1) : 0;
    }
    if (one_in(8))
        *step = one_in(2) ? within(-3, 1000000) : make_far(12960000000);
}

void replay_shift_row(void)
{
    size_t length = make_grid_message();
    uint8_t component = make_component();
    size_t count = one_in(40) ? TARNOKLEJ_MOST_PLACES + below(2) : one_in(30) ? (size_t)bits() : one_in(20) ? 0 : 1 + below(40);
    size_t room = make_room(count < PLACES_ROOM ? count : PLACES_ROOM, count < 41 ? 60 : PLACES_ROOM);
    int64_t n, e, step;
    make_places(count, &n, &e, &step);
    fill_words(places, room);
    add_refusal(tarnoklej_shift_row(message, length, component, n, e, step, count, places, room));
    add_bytes(message, length), add_words(places, room);
}

void replay_report_points(void)
{
    size_t length = make_grid_message();
    uint8_t component = make_component();
    size_t count = one_in(500) ? TARNOKLEJ_MOST_POINTS + below(3) : one_in(20) ? 0 : 1 + below(30);
    size_t north_count = count, east_count = count;
    if (one_in(10))
        north_count = make_room(count, POINTS_ROOM);
    else if (one_in(10))
        east_count = make_room(count, POINTS_ROOM);
    for (size_t i = 0; i < north_count || i < east_count; i++)
        make_position(&north[i], &east[i]);
    add_report(tarnoklej_report_points(message, length, component, north, north_count, east, east_count));
    add_bytes(message, length), add_words(north, north_count), add_words(east, east_count);
}
