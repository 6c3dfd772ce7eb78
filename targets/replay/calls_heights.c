/* The call that makes a height grid. */
#include "calls.h"
#include "grids.h"

static const int64_t ends[] = { INT64_MIN, INT64_MAX, -163831, 163831, 164085, -164085, 164086, -164086 };

/* Makes wanted heights about any mean, at the ends of means, and once in a while one far away. */
static void make_heights(size_t count)
{
    int64_t middle = one_in(4) ? ends[2 + below(6)] : within(-163830, 163830), spread = one_in(4) ? 300 : 250;
    for (size_t i = 0; i < count; i++)
        wanted[i] = middle + within(-spread, spread);
    if (one_in(8)) {
        size_t at = below(count + 1);
        if (at < WANTED_ROOM)
            wanted[at] = ends[below(8)];
    }
}

void replay_write_heights(void)
{
    make_sound_grid(1023);
    size_t values_count = row_count, present_count = row_count, wanted_count = 16, room = make_room(row_bytes(), MESSAGE_ROOM);
    if (one_in(4))
        spoil_grid();
    if (one_in(8))
        damage_row(&values_count, &present_count);
    if (one_in(16))
        wanted_count = make_room(16, WANTED_ROOM);
    make_heights(wanted_count);
    fill(out, room);
    add_written(tarnoklej_write_heights(values, values_count, present, present_count, wanted, wanted_count, out, room));
    add_words(values, values_count), add_bytes(present, present_count), add_words(wanted, wanted_count), add_bytes(out, room);
}
