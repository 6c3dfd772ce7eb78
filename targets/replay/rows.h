/* Rows and their messages, sound and damaged. The row last made stands in the buffers values and present. */
#ifndef REPLAY_ROWS_H
#define REPLAY_ROWS_H
#include "buffers.h"
#include "fields.h"

extern const field *row_fields[ROW_ROOM];
extern size_t row_count; /* fields of the row last made */

/* Makes a row of a message, or of any, with values of the fields' ranges. */
void make_row(int number);
void make_any_row(void);

void set_value(size_t at, int64_t value);
void set_none(size_t at);

/* Any value of a field that can have none. */
int64_t any_signed(const field *f);

/* The bytes that the message of the row last made has. */
size_t row_bytes(void);

/* Writes the message of the row last made, which is sound, and gives its length. */
size_t write_row(void);

/* Spoils the row last made, or the counts that are given with it, in one of ten ways. */
void damage_row(size_t *values_count, size_t *present_count);

/* Damages the message of the row last made in one of twelve ways, and gives its length. */
size_t damage_message(size_t length);

/* Makes a message, sound once in three times, and gives its length. */
size_t make_message(void);
#endif
