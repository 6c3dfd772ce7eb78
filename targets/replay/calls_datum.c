/* The datum step of a message 1021. */
#include "calls.h"
#include "grids.h"

static int64_t make_coordinate(void)
{
    switch (below(16)) {
    case 0: return make_far(100000000000);
    case 1: return within(-3, 3);
    case 2: return within(-100000000000, 100000000000);
    default: return within(-64000000000, 64000000000);
    }
}

/* Makes a message 1021, mostly one that has a datum step, and gives its length. */
static size_t make_datum_message(void)
{
    make_row(1021);
    size_t first = row_count - fields_of(1021).count;
    if (!one_in(8))
        set_value(first + 3, 0);
    for (size_t i = first + 9; i < first + 16; i++)
        if (!present[i] && !one_in(8))
            set_value(i, any_signed(row_fields[i]));
    size_t length = write_row();
    return one_in(8) ? damage_message(length) : length;
}

void replay_datum_step(void)
{
    size_t length = one_in(8) ? make_message() : make_datum_message();
    int64_t x = make_coordinate();
    int64_t y = make_coordinate();
    int64_t z = make_coordinate();
    add_position(tarnoklej_datum_step(message, length, x, y, z));
    add_bytes(message, length);
}
