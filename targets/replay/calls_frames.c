/* The calls on frames. */
#include "calls.h"
#include "rows.h"

void replay_write_frame(void)
{
    size_t length = one_in(4) ? below(MESSAGE_ROOM - 300) : one_in(4) ? 1020 + below(6) : make_message();
    if (length > 450)
        fill(message, length);
    size_t room = make_room(length + TARNOKLEJ_FRAME_HEAD + TARNOKLEJ_FRAME_TAIL, MESSAGE_ROOM);
    fill(out, room);
    add_written(tarnoklej_write_frame(message, length, out, room));
    add_bytes(message, length), add_bytes(out, room);
}

/* Appends a frame to the stream, damaged once in four times, and gives the stream's size. */
static size_t append_frame(size_t size)
{
    size_t start = size, length = one_in(8) ? below(500) : make_message();
    size += tarnoklej_write_frame(message, length > 500 ? 500 : length, stream + size, STREAM_ROOM - size).length;
    if (one_in(4)) {
        size_t at = start + below(size - start);
        stream[at] ^= (uint8_t)(1 << below(8));
    }
    return size;
}

/* Makes a stream of frames and noise, cut anywhere once in three times; gives its size. */
static size_t make_stream(void)
{
    size_t size = 0;
    for (uint64_t parts = below(6); parts > 0; parts--) {
        size_t noise = below(20);
        switch (below(5)) {
        case 0:
            fill(stream + size, noise);
            size += noise;
            break;
        case 1:
            for (; noise > 0; noise--)
                stream[size++] = (uint8_t)(one_in(2) ? 0xD3 : below(4));
            break;
        default:
            size = append_frame(size);
        }
    }
    return one_in(3) ? below(size + 1) : size;
}

void replay_find_frame(void)
{
    size_t size = make_stream();
    size_t from = one_in(8) ? size + below(3) : one_in(50) ? (size_t)bits() : one_in(2) ? 0 : below(size + 1);
    add_frame(tarnoklej_find_frame(stream, size, from));
    add_bytes(stream, size);
}
