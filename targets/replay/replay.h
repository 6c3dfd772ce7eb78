/* The replay: all calls over the same inputs on every machine. */
#ifndef REPLAY_H
#define REPLAY_H
#include <stddef.h>
#include <stdint.h>

enum {
    ENOUGH = 5000 /* inputs for each call from which on every refusal that the header lists there must be met */
};

/* Makes count inputs for each call and prints a line for each: its name, the inputs, how often each refusal number was met (0 where
 * done), and the sum; then a line for null pointers. Gives 0 where all is right: no refusal was met that the header does not list at
 * the call, each that it lists was met, and a null pointer of length 0 gave the same as an empty buffer.
 */
int replay_all(uint64_t seed, uint64_t count);

/* Prints a line: the machine's part. */
void print_line(const char *text, size_t length);
#endif
