/* The calls on files of sample answers. */
#include "calls.h"
#include "grids.h"

enum { POINT_SIZE = TARNOKLEJ_SAMPLE_SIZE - 3 /* the contents of a point's field */ };

/* Points for a file of sample answers, mostly all inside; gives how many. */
static size_t make_points(void)
{
    size_t count = one_in(100) ? TARNOKLEJ_MOST_SAMPLES + below(2) : below(12);
    int sound = !one_in(4);
    for (size_t i = 0; i < count; i++) {
        components[i] = sound ? (uint8_t)below(3) : make_component();
        if (sound)
            make_inside(&north[i], &east[i]);
        else
            make_position(&north[i], &east[i]);
    }
    return count;
}

void replay_write_samples(void)
{
    size_t length = one_in(2) ? make_grid_message() : make_sound_message();
    size_t count = make_points(), components_count = count, north_count = count, east_count = count;
    switch (below(40)) {
    case 0: components_count = make_room(count, count + 3); break;
    case 1: north_count = make_room(count, count + 3); break;
    case 2: east_count = make_room(count, count + 3); break;
    }
    size_t room = make_room(TARNOKLEJ_SAMPLES_HEAD + length + TARNOKLEJ_SAMPLE_SIZE * count, FILE_ROOM);
    fill(file, room);
    add_written(tarnoklej_write_samples(message, length, components, components_count, north, north_count, east, east_count, file, room));
    add_bytes(message, length), add_bytes(components, components_count), add_words(north, north_count), add_words(east, east_count);
    add_bytes(file, room);
}

/* Appends a tagged field to the file. */
static void append_field(size_t *size, uint8_t tag, const uint8_t *contents, size_t length)
{
    file[*size] = tag, file[*size + 1] = (uint8_t)(length >> 8), file[*size + 2] = (uint8_t)length;
    copy(file + *size + 3, contents, length);
    *size += 3 + length;
}

/* Makes a file of any message in the right shape, and points of any contents; gives its size. */
static size_t make_any_file(size_t *length)
{
    size_t size = 0;
    *length = make_message();
    append_field(&size, 1, message, *length);
    for (size_t count = below(4); count > 0; count--) {
        fill(out, POINT_SIZE);
        append_field(&size, 2, out, POINT_SIZE);
    }
    return size;
}

/* Makes a file that is right, or has one point too many; gives its size. */
static size_t make_file(size_t *length)
{
    *length = make_sound_message();
    size_t count = make_points(), written = count > TARNOKLEJ_MOST_SAMPLES ? TARNOKLEJ_MOST_SAMPLES : count;
    tarnoklej_written w =
        tarnoklej_write_samples(message, *length, components, written, north, written, east, written, file, FILE_ROOM);
    size_t size = w.length;
    if (w.refusal == TARNOKLEJ_DONE && count > written) {
        copy(out, file + size - POINT_SIZE, POINT_SIZE);
        append_field(&size, 2, out, POINT_SIZE);
    }
    return size;
}

/* Damages a file, in six of ten times, and gives its size. */
static size_t damage_file(size_t size, size_t length)
{
    size_t head = TARNOKLEJ_SAMPLES_HEAD + length, points = size > head ? (size - head) / TARNOKLEJ_SAMPLE_SIZE : 0, at;
    switch (size > 0 ? below(10) : 9) {
    case 0:
        at = below(size), file[at] ^= (uint8_t)(1 << below(8));
        break;
    case 1:
        return below(size + 1);
    case 2:
        if (size < FILE_ROOM)
            file[size++] = (uint8_t)below(3);
        break;
    case 3: /* a tag or a length */
        at = points > 0 ? head + TARNOKLEJ_SAMPLE_SIZE * below(points) : 0;
        at += below(3);
        file[at] ^= (uint8_t)(1 << below(3));
        break;
    case 4: /* a count */
        if (points > 0)
            at = head + TARNOKLEJ_SAMPLE_SIZE * below(points), file[at + 27] ^= (uint8_t)(1 << below(3));
        break;
    case 5: /* a component */
        if (points > 0)
            at = head + TARNOKLEJ_SAMPLE_SIZE * below(points), file[at + 3] = (uint8_t)bits();
        break;
    }
    return size;
}

void replay_check_samples(void)
{
    size_t length, size = one_in(4) ? make_any_file(&length) : make_file(&length);
    size = damage_file(size, length);
    add_checked(tarnoklej_check_samples(file, size));
    add_bytes(file, size);
}
