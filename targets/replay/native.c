/* replay [SEED [COUNT]]: the replay on a machine with a C library. */
#include "replay.h"
#include <stdio.h>
#include <stdlib.h>

enum { DEFAULT_SEED = 1, DEFAULT_COUNT = 5000 };

void print_line(const char *text, size_t length)
{
    fwrite(text, 1, length, stdout);
    putchar('\n');
}

/* Gives whether a text is a number, and the number. */
static int parse(const char *text, uint64_t *number)
{
    char *end;
    *number = strtoull(text, &end, 10);
    return *text >= '0' && *text <= '9' && *end == '\0';
}

int main(int argc, char **argv)
{
    uint64_t seed = DEFAULT_SEED, count = DEFAULT_COUNT;
    if (argc > 3 || (argc > 1 && !parse(argv[1], &seed)) || (argc > 2 && !parse(argv[2], &count))) {
        fprintf(stderr, "usage: replay [SEED [COUNT]]: makes COUNT inputs for every call of tarnoklej.h and prints sums of the answers\n");
        return 2;
    }
    return replay_all(seed, count);
}
