#include "grids.h"

void make_sound_grid(int number)
{
    make_row(number);
    set_value(2, 1), set_value(3, 1), set_value(59, 0), set_value(60, 0);
    for (size_t i = 4; i < 59; i++)
        if (!present[i])
            set_value(i, any_signed(row_fields[i]));
    for (size_t i = 6; i < 8; i++)
        if (values[i] == 0 || one_in(4))
            set_value(i, within(1, one_in(2) ? 4095 : 3));
}

void spoil_grid(void)
{
    size_t at;
    switch (below(6)) {
    case 0: set_value(2 + below(2), 0); break;
    case 1: at = 59 + below(2), set_value(at, within(1, 3)); break;
    case 2: set_none(values[0] == 1023 ? 4 + below(2) : 4); break;
    case 3: set_value(6 + below(2), 0); break;
    case 4: set_none(8 + below(3)); break;
    default: set_none(11 + below(48));
    }
}

/* Makes the row of a grid, sound half of the times. */
static void make_grid(void)
{
    make_sound_grid(1023 + (int)below(2));
    if (one_in(2))
        spoil_grid();
    if (one_in(8))
        spoil_grid();
}

size_t make_grid_message(void)
{
    make_grid();
    size_t length = write_row();
    if (one_in(8))
        return damage_message(length);
    if (one_in(8)) {
        length = make_message();
        make_grid();
    }
    return length;
}

size_t make_sound_message(void)
{
    make_sound_grid(1023 + (int)below(2));
    return write_row();
}

int64_t grid_unit(void) { return values[0] == 1023 ? 5000 : 10000; }

int64_t make_offset(int64_t spacing)
{
    int64_t end = spacing / 2 * 3, offset = spacing / 2 * (2 * within(-2, 1) + 1);
    switch (below(6)) {
    case 0: break;
    case 1: offset += within(-1, 1); break;
    case 2: offset += spacing * within(0, 20) / 20; break;
    case 3: offset = end * within(-1, 1); break;
    default: offset = within(-end, end);
    }
    return offset > end ? end : offset < -end ? -end : offset;
}

int64_t short_way(int64_t longitude)
{
    if (values[0] != 1023 || (longitude <= 6480000000 && longitude >= -6480000000))
        return longitude;
    return longitude > 0 ? longitude - 12960000000 : longitude + 12960000000;
}

void make_inside(int64_t *n, int64_t *e)
{
    int64_t limit = values[0] == 1023 ? 3240000000 : 1000000000000;
    *n = values[4] * grid_unit() + make_offset(values[6] * grid_unit());
    *n = *n > limit ? limit : *n < -limit ? -limit : *n;
    *e = short_way(values[5] * grid_unit() + make_offset(values[7] * grid_unit()));
}

int64_t make_far(int64_t limit)
{
    switch (below(6)) {
    case 0: return INT64_MIN;
    case 1: return INT64_MAX;
    case 2: return (int64_t)bits();
    case 3: return limit + within(-1, 1);
    default: return -limit + within(-1, 1);
    }
}

void make_position(int64_t *n, int64_t *e)
{
    make_inside(n, e);
    switch (below(12)) {
    case 0: *n = make_far(values[0] == 1023 ? 3240000000 : 1000000000000); break;
    case 1: *e = make_far(values[0] == 1023 ? 6480000000 : 1000000000000); break;
    case 2: *n += within(-4095, 4095) * grid_unit(); break;
    case 3: *e += within(-4095, 4095) * grid_unit(); break;
    case 4: *n += within(-1, 1); break;
    case 5: *e += within(-1, 1); break;
    }
}

uint8_t make_component(void) { return (uint8_t)(one_in(10) ? 3 + below(253) : below(3)); }
