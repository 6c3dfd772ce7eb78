/* heights FILE SIN NORTH EAST SPACING: prints the frame of a height grid (1023) in hexadecimal.
 * FILE is a CSV of sixteen heights in metres: four lines of four, from west to east, the northern line first.
 * NORTH and EAST are the middle of the grid in degrees, SPACING is that of its nodes in arc seconds.
 * Where no message holds the grid, the line is `refused` and the refusal's name.
 */
#include <math.h>
#include <stdio.h>
#include <stdlib.h>
#include "tarnoklej.h"

/* The nodes of a grid, the fields of a 1023's row, its bytes, and the bytes of its frame. */
enum { NODES = 16, FIELDS = 64, BYTES = 73, FRAME = TARNOKLEJ_FRAME_HEAD + BYTES + TARNOKLEJ_FRAME_TAIL };

/* Gives the whole steps nearest to a number, and whether the text is such a number. */
static int parse_steps(const char *text, char **end, double steps_in_one, int64_t *steps)
{
    double value = strtod(text, end) * steps_in_one;
    if (*end == text || !(fabs(value) < 9e18))
        return 0;
    *steps = llround(value);
    return 1;
}

/* The same of a whole argument. */
static int parse_argument(const char *text, double steps_in_one, int64_t *steps)
{
    char *end;
    return parse_steps(text, &end, steps_in_one, steps) && *end == '\0';
}

/* Reads sixteen heights in metres as millimetres. */
static int read_heights(const char *name, int64_t *wanted)
{
    char text[4096], *at = text;
    FILE *file = fopen(name, "r");
    if (file == NULL)
        return 0;
    text[fread(text, 1, sizeof text - 1, file)] = '\0';
    fclose(file);
    for (int node = 0; node < NODES; node++, at++) {
        char behind = node % 4 == 3 ? '\n' : ',';
        if (!parse_steps(at, &at, 1000.0, &wanted[node]) || *at != behind)
            return 0;
    }
    return *at == '\0';
}

/* Makes the row of a grid of heights alone: the horizontal means (DF196, DF197) and nodes have no value. */
static void make_row(int64_t sin, int64_t north, int64_t east, int64_t spacing, int64_t *values, uint8_t *present)
{
    const int64_t first[8] = {1023, sin, 0, 1, north, east, spacing, spacing};
    for (int field = 0; field < FIELDS; field++) {
        values[field] = field < 8 ? first[field] : 0;
        present[field] = field < 8 || field >= 59;
    }
}

/* Prints the frame of a message. */
static void print_frame(const uint8_t *message)
{
    uint8_t frame[FRAME];
    tarnoklej_write_frame(message, BYTES, frame, sizeof frame);
    for (int i = 0; i < FRAME; i++)
        printf("%02x", frame[i]);
    printf("\n");
}

int main(int argc, char **argv)
{
    int64_t wanted[NODES], values[FIELDS], sin, north, east, spacing;
    uint8_t present[FIELDS], message[BYTES];
    if (argc != 6) {
        fprintf(stderr, "usage: heights FILE SIN NORTH EAST SPACING (degrees, and arc seconds)\n");
        return 2;
    }
    if (!read_heights(argv[1], wanted)) {
        fprintf(stderr, "heights: not sixteen heights: %s\n", argv[1]);
        return 2;
    }
    /* Origin and spacing stand in steps of half an arc second. */
    if (!parse_argument(argv[2], 1.0, &sin) || !parse_argument(argv[3], 7200.0, &north) ||
        !parse_argument(argv[4], 7200.0, &east) || !parse_argument(argv[5], 2.0, &spacing)) {
        fprintf(stderr, "heights: not a number: %s %s %s %s\n", argv[2], argv[3], argv[4], argv[5]);
        return 2;
    }
    make_row(sin, north, east, spacing, values, present);
    tarnoklej_written written =
        tarnoklej_write_heights(values, FIELDS, present, FIELDS, wanted, NODES, message, sizeof message);
    if (written.refusal != TARNOKLEJ_DONE)
        printf("refused %s\n", tarnoklej_refusal_name(written.refusal));
    else
        print_frame(message);
    return 0;
}
