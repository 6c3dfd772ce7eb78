/* The calls of tarnoklej.h: for each, replay_NAME makes one input, calls, and adds answer and buffers to the sum. */
#ifndef REPLAY_CALLS_H
#define REPLAY_CALLS_H
#include "tarnoklej.h"
#include "sums.h"
#include "interface.h" /* made from tarnoklej.h by interface.awk */

#define DECLARE_CALL(name, refusals) void replay_##name(void);
CALLS(DECLARE_CALL)

/* Begins the history of a table. */
void start_table(void);

/* Calls every function with each choice of its buffers empty, once in memory and once as null pointers: how many choices there were,
 * for how many the answers or the other buffers differ, and a sum of all with null pointers.
 */
typedef struct {
    uint64_t calls, different, sum;
} empty_result;
empty_result replay_empty(void);
#endif
