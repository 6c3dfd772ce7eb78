/* The buffers that calls are made with, each between its guards; those of bytes begin at any address. */
#ifndef REPLAY_BUFFERS_H
#define REPLAY_BUFFERS_H
#include "tarnoklej.h"
#include "random.h"
#include "sums.h"

enum {
    MESSAGE_ROOM = 1400,
    STREAM_ROOM = 4000,
    ROW_ROOM = TARNOKLEJ_MOST_FIELDS + 14,
    WANTED_ROOM = 20,
    PLACES_ROOM = TARNOKLEJ_MOST_PLACES + 8,
    POINTS_ROOM = TARNOKLEJ_MOST_POINTS + 8,
    FILE_ROOM = TARNOKLEJ_SAMPLES_HEAD + TARNOKLEJ_MOST_BYTES + TARNOKLEJ_SAMPLE_SIZE * (TARNOKLEJ_MOST_SAMPLES + 2)
};

/* Every buffer, with its room; those of bytes, then those of words. */
#define BYTE_BUFFERS(BUFFER) \
    BUFFER(message, MESSAGE_ROOM) \
    BUFFER(out, MESSAGE_ROOM) \
    BUFFER(stream, STREAM_ROOM) \
    BUFFER(file, FILE_ROOM) \
    BUFFER(table, TARNOKLEJ_TABLE_SIZE) \
    BUFFER(table_index, TARNOKLEJ_INDEX_SIZE) \
    BUFFER(present, ROW_ROOM) \
    BUFFER(present_read, ROW_ROOM) \
    BUFFER(components, POINTS_ROOM)
#define WORD_BUFFERS(BUFFER) \
    BUFFER(values, ROW_ROOM) \
    BUFFER(values_read, ROW_ROOM) \
    BUFFER(wanted, WANTED_ROOM) \
    BUFFER(places, PLACES_ROOM) \
    BUFFER(north, POINTS_ROOM) \
    BUFFER(east, POINTS_ROOM)

#define DECLARE_BYTES(name, room) extern uint8_t *name;
#define DECLARE_WORDS(name, room) extern int64_t *const name;
BYTE_BUFFERS(DECLARE_BYTES)
WORD_BUFFERS(DECLARE_WORDS)

/* Fills all buffers and guards. */
void fill_buffers(void);

/* Moves the buffers of bytes, so that none is aligned for long. */
void move_buffers(void);

/* A room or count that is mostly enough, otherwise one too few, one too many, or any. */
size_t make_room(size_t needed, size_t most);
#endif
