/* The calls that are timed. */
#ifndef CALL_H
#define CALL_H
#include "baseline.h"

/* What a call is made on. */
typedef enum { ON_MESSAGE, ON_ROWS, ON_TABLE, ON_CHECKED_TABLE, ON_FRAMES, ON_DATUM, ON_REPORTS, ON_SAMPLES,
               SUBJECTS } subject;

/* A call to time: makes the call of a turn and gives something of its answer, or whether the whole is the library's. */
typedef struct {
    const char *name;
    uint64_t (*run)(const baseline *by, size_t turn, size_t size);
    int (*same)(const baseline *by, size_t turn, size_t size);
    size_t size;    /* positions for each message, places of a row, slots in use, bytes of a message, or points */
    size_t answers; /* answers of one call */
    size_t checked; /* turns whose answers are compared */
    subject on;
} call;

/* The calls on frames, for which make_frames must have been called. */
enum { FRAME_CALLS_COUNT = 5 };
extern const call FRAME_CALLS[FRAME_CALLS_COUNT];
void make_frames(void);

/* The calls on rows of shifts, for which make_rows must have been called. */
enum { ROW_CALLS_COUNT = 1 };
extern const call ROW_CALLS[ROW_CALLS_COUNT];
void make_rows(void);

/* The calls of the datum step, for which make_datum must have been called. */
enum { DATUM_CALLS_COUNT = 1 };
extern const call DATUM_CALLS[DATUM_CALLS_COUNT];
void make_datum(void);

/* The calls on reports, for which make_reports must have been called. */
enum { REPORT_CALLS_COUNT = 1 };
extern const call REPORT_CALLS[REPORT_CALLS_COUNT];
void make_reports(void);

/* The calls on sample answers, for which make_samples must have been called. */
enum { SAMPLE_CALLS_COUNT = 1 };
extern const call SAMPLE_CALLS[SAMPLE_CALLS_COUNT];
void make_samples(void);

/* The library's calls. */
extern const baseline LIBRARY;

/* The next random number from the least to the greatest given. */
int64_t within(int64_t least, int64_t greatest);

/* Stops with a line on what went wrong. */
void stop(const char *what, const char *name);
#endif
