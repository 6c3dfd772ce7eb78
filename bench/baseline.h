/* Plain C baselines for message 1023, for rows of its shifts, for reports, for sample answers, for a table of such messages,
 * for frames and for the datum step of a 1021, with the answers of include/tarnoklej.h but for these:
 * a message, a row or a table's slot of any other number is refused (NUMBER, RANGE, TABLE);
 * a node of the cell that has no value is refused (ABSENT) also where it has no weight;
 * the weighted mean is a double before it is rounded, so that a count at or near a half can be another, but not in a row;
 * a grid is not looked for across 180 degrees;
 * a datum step is made in doubles, so that a coordinate can be another within one unit.
 */
#ifndef BASELINE_H
#define BASELINE_H
#include "tarnoklej.h"

/* The fields of a row of 1023 and the bytes of its message. */
enum { ROW = 64, BYTES = 73 };

/* The shift of one component. */
typedef struct {
    uint8_t refusal;
    int64_t count;
} shift;

/* A find by a table and its index. */
typedef tarnoklej_found find_call(const uint8_t *table, size_t size, const uint8_t *index, size_t index_size,
                                  uint8_t owner, uint8_t sin, uint8_t group);

/* One way to do the work; a call that it does not have is null. */
typedef struct {
    const char *name;
    tarnoklej_header (*read)(const uint8_t *message, size_t length);
    uint8_t (*read_fields)(const uint8_t *message, size_t length, int64_t *values, size_t values_room, uint8_t *present,
                           size_t present_room);
    tarnoklej_written (*write_fields)(const int64_t *values, size_t values_count, const uint8_t *present,
                                      size_t present_count, uint8_t *out, size_t room);
    tarnoklej_shifts (*shifts_at)(const uint8_t *message, size_t length, int64_t north, int64_t east);
    /* The shifts at many positions of a message. */
    void (*many_shifts)(const uint8_t *message, size_t length, const int64_t (*positions)[2], size_t count,
                        tarnoklej_shifts *shifts);
    /* The shift of one component: in plain C without the others, of the library that part of the three. */
    shift (*one_shift)(const uint8_t *message, size_t length, uint8_t component, int64_t north, int64_t east);
    uint8_t (*shift_row)(const uint8_t *message, size_t length, uint8_t component, int64_t north, int64_t east,
                         int64_t step, size_t count, int64_t *row, size_t room);
    uint8_t (*store)(uint8_t *table, size_t size, uint8_t *index, size_t index_size, uint8_t owner,
                     const uint8_t *message, size_t length);
    find_call *find;
    tarnoklej_frame (*find_frame)(const uint8_t *bytes, size_t size, size_t from);
    tarnoklej_written (*write_frame)(const uint8_t *message, size_t length, uint8_t *out, size_t room);
    /* Finds of plain C that do less or more, of the library the same as find: one reads two fields of the one message,
     * the other walks over all slots without the index.
     */
    find_call *find_two_fields, *find_by_walk;
    tarnoklej_position (*datum_step)(const uint8_t *message, size_t length, int64_t x, int64_t y, int64_t z);
    tarnoklej_report (*report_points)(const uint8_t *message, size_t length, uint8_t component, const int64_t *north,
                                      size_t north_count, const int64_t *east, size_t east_count);
    tarnoklej_checked (*check_samples)(const uint8_t *file, size_t size);
} baseline;

/* Fields bit by bit, as GNSS decoders take them. */
extern const baseline BIT_BY_BIT;
/* Fields by one load of 64 bits each. */
extern const baseline ONE_LOAD;

/* A table in which slots are looked up in the index alone, without a check that they are well formed. */
extern const baseline UNCHECKED;

/* Rows of shifts by the library's call of the three shifts at each place. */
extern const baseline CALL_AT_EACH_PLACE;

/* Rows of shifts by additions and comparisons of whole numbers, with a division only where a cell begins. */
extern const baseline ADDITIONS;

/* Frames with a CRC by a table of 256 entries. */
extern const baseline TABLE_OF_256;

/* Reports over a message that is decoded once, with each point interpolated in doubles. */
extern const baseline DOUBLES;
#endif
