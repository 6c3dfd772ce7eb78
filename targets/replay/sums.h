/* The sum of 64 bits over all answers of a call and all buffers after it, and how often each refusal number was met. */
#ifndef REPLAY_SUMS_H
#define REPLAY_SUMS_H
#include <stddef.h>
#include <stdint.h>

enum { GUARD = 16 /* bytes watched before and behind each buffer */ };

void start_sums(void);
uint64_t current_sum(void);
uint64_t times_met(unsigned refusal);

/* Whether an answer came that cannot be, and the note that one did. */
int is_impossible(void);
void note_impossible(void);

void add(uint64_t word);
void add_double(double number);

/* Adds a refusal number, and counts it. */
void add_refusal(uint8_t refusal);

/* Adds what a buffer holds, and the guards on both sides. */
void add_bytes(const uint8_t *bytes, size_t length);
void add_words(const int64_t *words, size_t count);
#endif
