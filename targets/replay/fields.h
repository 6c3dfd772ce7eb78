/* The fields of each message, behind DF002 and the names, from the list at the end of tarnoklej.h. */
#ifndef REPLAY_FIELDS_H
#define REPLAY_FIELDS_H
#include <stddef.h>
#include <stdint.h>

typedef struct {
    uint8_t width, is_signed;
    int64_t greatest; /* the least is its negative where signed, otherwise 0 */
} field;

typedef struct {
    const field *fields;
    size_t count;
} field_list;

extern const field number_field, counter_field, character_field;

/* The fields of a message 1021 to 1027. */
field_list fields_of(int64_t number);
#endif
