#include "random.h"

static uint64_t state;

void start_random(uint64_t seed) { state = seed; }

uint64_t bits(void)
{
    uint64_t z = state += 0x9E3779B97F4A7C15u;
    z = (z ^ (z >> 30)) * 0xBF58476D1CE4E5B9u;
    z = (z ^ (z >> 27)) * 0x94D049BB133111EBu;
    return z ^ (z >> 31);
}

uint64_t below(uint64_t end) { return end > 0 ? bits() % end : 0; }

int64_t within(int64_t least, int64_t greatest)
{
    return (int64_t)((uint64_t)least + below((uint64_t)greatest - (uint64_t)least + 1));
}

int one_in(uint64_t many) { return below(many) == 0; }

void fill(uint8_t *bytes, size_t length)
{
    for (size_t i = 0; i < length; i++)
        bytes[i] = (uint8_t)bits();
}

void fill_words(int64_t *words, size_t count)
{
    for (size_t i = 0; i < count; i++)
        words[i] = (int64_t)bits();
}

void copy(uint8_t *to, const uint8_t *from, size_t length)
{
    for (size_t i = 0; i < length; i++)
        to[i] = from[i];
}
