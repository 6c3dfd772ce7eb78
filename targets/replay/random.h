/* Random numbers that are the same on every machine: SplitMix64.
 * No two are taken in one expression without an order, since C leaves that order to the compiler.
 */
#ifndef REPLAY_RANDOM_H
#define REPLAY_RANDOM_H
#include <stddef.h>
#include <stdint.h>

void start_random(uint64_t seed);
uint64_t bits(void);

/* A number below end, or 0 where end is 0. */
uint64_t below(uint64_t end);

/* A number from least to greatest. */
int64_t within(int64_t least, int64_t greatest);

/* True once in so many times. */
int one_in(uint64_t many);

void fill(uint8_t *bytes, size_t length);
void fill_words(int64_t *words, size_t count);

void copy(uint8_t *to, const uint8_t *from, size_t length);
#endif
