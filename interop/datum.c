/* Gives the datum step of a message at positions for interop/check, by the static library.
 *
 * datum   takes the lines of `second datum` and prints for each position its three coordinates in units of 0.1 mm
 */
#include <stdio.h>
#include <stdlib.h>
#include <string.h>
#include "tarnoklej.h"

/* The bytes of the longest line. */
enum { MOST_LINE = 4096 };

static uint8_t message[TARNOKLEJ_MOST_BYTES];
static size_t length;

/* Stops with a line on what went wrong. */
static void stop(const char *what)
{
    fprintf(stderr, "datum: %s\n", what);
    exit(1);
}

/* Takes the message from a line of a set, where it stands in hexadecimal. */
static void take_message(const char *line)
{
    char digits[MOST_LINE];
    unsigned byte;
    if (sscanf(line, "set %s", digits) != 1)
        stop("a set has no message");
    for (length = 0; length < sizeof message && sscanf(digits + 2 * length, "%2x", &byte) == 1; length++)
        message[length] = (uint8_t)byte;
}

/* Prints the coordinates of the position in a line. */
static void print_step(const char *line)
{
    long long x, y, z;
    if (sscanf(line, "%lld %lld %lld", &x, &y, &z) != 3)
        stop("a line is no position");
    tarnoklej_position target = tarnoklej_datum_step(message, length, x, y, z);
    if (target.refusal != TARNOKLEJ_DONE)
        stop("a step was refused");
    printf("%lld %lld %lld\n", (long long)target.x, (long long)target.y, (long long)target.z);
}

int main(void)
{
    char line[MOST_LINE];
    while (fgets(line, sizeof line, stdin) != NULL) {
        if (strncmp(line, "set ", 4) == 0)
            take_message(line);
        else
            print_step(line);
    }
    return 0;
}
