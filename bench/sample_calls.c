/* The check of a file of sample answers of the most points. */
#include <string.h>
#include "call.h"

/* The files that are gone through in turn, their points, and their bytes. */
enum { FILES = 32, POINTS = TARNOKLEJ_MOST_SAMPLES, SIZE = TARNOKLEJ_SAMPLES_HEAD + BYTES + TARNOKLEJ_SAMPLE_SIZE * POINTS };

/* The files that are timed, all of whose points are right, and the same with one byte that is another. */
static uint8_t files[FILES][SIZE], changed[FILES][SIZE];

/* Makes the file of a grid whose fields all have values, at positions anywhere in it. */
static void make_file(uint8_t *file, int sin)
{
    int64_t fields[ROW] = {1023, sin, 1, 1, within(-600000, 600000), within(-1200000, 1200000), within(100, 4095),
                           within(100, 4095), within(-127, 127), within(-127, 127), within(-16383, 16383)};
    uint8_t present[ROW], message[BYTES], components[POINTS];
    int64_t north[POINTS], east[POINTS];
    memset(present, 1, sizeof present);
    for (int node = 11; node < 59; node++)
        fields[node] = within(-255, 255);
    for (int i = 0; i < POINTS; i++) {
        int64_t high = fields[6] * 5000, wide = fields[7] * 5000;
        components[i] = (uint8_t)within(0, 2);
        north[i] = fields[4] * 5000 + within(-3 * high / 2, 3 * high / 2);
        east[i] = fields[5] * 5000 + within(-3 * wide / 2, 3 * wide / 2);
    }
    if (tarnoklej_write_fields(fields, ROW, present, ROW, message, BYTES).length != BYTES ||
        tarnoklej_write_samples(message, BYTES, components, POINTS, north, POINTS, east, POINTS, file, SIZE).length != SIZE)
        stop("a row or a file was refused", "samples");
}

void make_samples(void)
{
    for (int i = 0; i < FILES; i++) {
        make_file(files[i], i);
        memcpy(changed[i], files[i], SIZE);
        /* The last byte of a claimed count, or a tag or a length of a point. */
        size_t point = (size_t)(TARNOKLEJ_SAMPLES_HEAD + BYTES + TARNOKLEJ_SAMPLE_SIZE * within(0, POINTS - 1));
        changed[i][point + (i % 4 == 0 ? (size_t)within(0, 2) : 27)] ^= 1;
    }
}

static uint64_t run_check(const baseline *by, size_t turn, size_t size)
{
    (void)size;
    tarnoklej_checked checked = by->check_samples(files[turn % FILES], SIZE);
    return checked.refusal + checked.place;
}

/* Whether the check of a file is the library's. */
static int same_check_of(const baseline *by, const uint8_t *file, int right)
{
    tarnoklej_checked one = LIBRARY.check_samples(file, SIZE), other = by->check_samples(file, SIZE);
    return one.refusal == other.refusal && one.place == other.place && (one.refusal == TARNOKLEJ_DONE) == right;
}

static int same_check(const baseline *by, size_t turn, size_t size)
{
    (void)size;
    size_t i = turn % FILES;
    return same_check_of(by, files[i], 1) && same_check_of(by, changed[i], 0);
}

const call SAMPLE_CALLS[SAMPLE_CALLS_COUNT] = {
    {"check_samples, each of 1,000 points", run_check, same_check, POINTS, POINTS, FILES, ON_SAMPLES},
};
