/* Fields bit by bit, as GNSS decoders take them. */
#include <stddef.h>
#include <stdint.h>

/* Reads an unsigned field. */
static uint64_t get_unsigned(const uint8_t *bytes, size_t at, unsigned width)
{
    uint64_t bits = 0;
    for (size_t i = at; i < at + width; i++)
        bits = (bits << 1) + ((bytes[i / 8] >> (7 - i % 8)) & 1u);
    return bits;
}

/* Where the next field goes. */
typedef struct {
    uint8_t *bytes;
    size_t at;
    uint64_t unused;
} writer;

/* Writes the low bits of a number. */
static void put(writer *to, unsigned width, uint64_t value)
{
    for (unsigned i = width; i > 0; i--, to->at++) {
        uint8_t bit = (uint8_t)(1u << (7 - to->at % 8));
        if (value >> (i - 1) & 1)
            to->bytes[to->at / 8] |= bit;
        else
            to->bytes[to->at / 8] &= (uint8_t)~bit;
    }
}

/* Nothing is left to be written. */
static void finish(writer *to)
{
    (void)to;
}

/* The bytes that may be touched behind a message. */
enum { BEHIND = 0 };

#define BASELINE BIT_BY_BIT
#define BASELINE_NAME "bit by bit"
#include "baseline.inc"
