/* The calls on a message and its row. */
#include "calls.h"
#include "rows.h"

void replay_read(void)
{
    size_t length = make_message();
    add_header(tarnoklej_read(message, length));
    add_bytes(message, length);
}

void replay_read_fields(void)
{
    size_t length = make_message();
    size_t values_room = make_room(row_count, ROW_ROOM);
    size_t present_room = one_in(2) ? values_room : make_room(row_count, ROW_ROOM);
    fill_words(values_read, values_room);
    fill(present_read, present_room);
    add_refusal(tarnoklej_read_fields(message, length, values_read, values_room, present_read, present_room));
    add_bytes(message, length), add_words(values_read, values_room), add_bytes(present_read, present_room);
}

void replay_write_fields(void)
{
    make_any_row();
    size_t values_count = row_count, present_count = row_count, room = make_room(row_bytes(), MESSAGE_ROOM);
    if (one_in(2))
        damage_row(&values_count, &present_count);
    fill(out, room);
    add_written(tarnoklej_write_fields(values, values_count, present, present_count, out, room));
    add_words(values, values_count), add_bytes(present, present_count), add_bytes(out, room);
}
