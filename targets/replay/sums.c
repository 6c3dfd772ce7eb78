#include "sums.h"

static uint64_t sum;
static uint64_t met[256];
static int impossible;

void start_sums(void)
{
    sum = 0;
    impossible = 0;
    for (size_t n = 0; n < sizeof met / sizeof met[0]; n++)
        met[n] = 0;
}

uint64_t current_sum(void) { return sum; }
uint64_t times_met(unsigned refusal) { return met[refusal]; }
int is_impossible(void) { return impossible; }
void note_impossible(void) { impossible = 1; }

/* Each step is one to one for a given word, so that no later word hides an earlier difference by itself. */
void add(uint64_t word)
{
    sum = (sum ^ word) * 0x9E3779B97F4A7C15u;
    sum ^= sum >> 29;
}

void add_double(double number)
{
    union { double number; uint64_t word; } u = { number };
    add(u.word);
}

void add_refusal(uint8_t refusal)
{
    met[refusal]++;
    add(refusal);
}

/* Words of bytes are taken low byte first, whatever the machine does. */
void add_bytes(const uint8_t *bytes, size_t length)
{
    const uint8_t *at = bytes - GUARD;
    size_t left = length + 2 * GUARD;
    add(length);
    for (; left >= 8; at += 8, left -= 8) {
        uint64_t word = 0;
        for (int i = 7; i >= 0; i--)
            word = word << 8 | at[i];
        add(word);
    }
    for (; left > 0; at++, left--)
        add(*at);
}

void add_words(const int64_t *words, size_t count)
{
    const int64_t *at = words - GUARD / 8;
    add(count);
    for (size_t i = 0; i < count + 2 * (GUARD / 8); i++)
        add((uint64_t)at[i]);
}
