#include "buffers.h"

enum { MOST_MOVED = 7 };

#define DEFINE_BYTES(name, room) \
    static uint8_t name##_memory[GUARD + MOST_MOVED + (room) + GUARD]; \
    uint8_t *name = name##_memory + GUARD;
#define DEFINE_WORDS(name, room) \
    static int64_t name##_memory[GUARD / 8 + (room) + GUARD / 8]; \
    int64_t *const name = name##_memory + GUARD / 8;
BYTE_BUFFERS(DEFINE_BYTES)
WORD_BUFFERS(DEFINE_WORDS)

void fill_buffers(void)
{
#define FILL_BYTES(name, room) fill(name##_memory, sizeof name##_memory);
#define FILL_WORDS(name, room) fill_words(name##_memory, sizeof name##_memory / sizeof name##_memory[0]);
    BYTE_BUFFERS(FILL_BYTES)
    WORD_BUFFERS(FILL_WORDS)
}

void move_buffers(void)
{
    uint64_t by = bits();
#define MOVE(name, room) name = name##_memory + GUARD + by % (MOST_MOVED + 1), by /= MOST_MOVED + 1;
    BYTE_BUFFERS(MOVE)
}

size_t make_room(size_t needed, size_t most)
{
    size_t room = needed;
    switch (below(8)) {
    case 0: room = needed > 0 ? needed - 1 : 0; break;
    case 1: room = needed + 1; break;
    case 2: room = below(most + 1); break;
    }
    return room < most ? room : most;
}
