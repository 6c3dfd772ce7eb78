/* Fields by one load of 64 bits each, and one store for every 64 bits written. */
#include <stddef.h>
#include <stdint.h>
#include <string.h>

/* Loads eight bytes, the first one being the most significant. */
static uint64_t load(const uint8_t *bytes)
{
    uint64_t word;
    memcpy(&word, bytes, sizeof word);
    return __builtin_bswap64(word);
}

/* Reads an unsigned field of at most 57 bits. */
static uint64_t get_unsigned(const uint8_t *bytes, size_t at, unsigned width)
{
    return load(bytes + at / 8) << at % 8 >> (64 - width);
}

/* Where the next word goes, and the bits that wait for it in the word's high end. */
typedef struct {
    uint8_t *bytes;
    size_t waiting;
    uint64_t word;
} writer;

/* Stores a word and goes behind it. */
static void store_word(writer *to)
{
    uint64_t word = __builtin_bswap64(to->word);
    memcpy(to->bytes, &word, sizeof word);
    to->bytes += sizeof word;
}

/* Writes the low bits of a number of at most 57 bits, with one store for each full word. */
static void put(writer *to, unsigned width, uint64_t value)
{
    uint64_t high = value << (64 - width);
    to->word |= high >> to->waiting;
    if (to->waiting + width < 64) {
        to->waiting += width;
        return;
    }
    store_word(to);
    unsigned stored = (unsigned)(64 - to->waiting);
    to->word = stored == width ? 0 : high << stored;
    to->waiting = width - stored;
}

/* Stores the bits that still wait. */
static void finish(writer *to)
{
    store_word(to);
}

/* The bytes that may be touched behind a message. */
enum { BEHIND = 7 };

#define BASELINE ONE_LOAD
#define BASELINE_NAME "one load"
#include "baseline.inc"
