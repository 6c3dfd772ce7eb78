/* The calls of the datum step. */
#include "call.h"

/* The messages and positions that are gone through in turn. */
enum { MESSAGES = 32, POSITIONS = 100 };
/* The fields of a row whose names have 4 and 5 characters, as EPSG codes have, and the bytes of its message. */
enum { SOURCE = 4, TARGET = 5, FIELDS = 25 + SOURCE + TARGET, LENGTH = 61 };
/* The place of the first of the seven parameters (DF156) in such a row. */
enum { DF156 = 12 + SOURCE + TARGET };

static uint8_t messages[MESSAGES][LENGTH];
static int64_t positions[POSITIONS][3];

/* Makes a message with parameters as a national datum has them. */
static void make_message(uint8_t *message)
{
    int64_t values[FIELDS] = {1021, SOURCE, '4', '9', '3', '6', TARGET, '3', '1', '4', '6', '8', within(0, 255)};
    uint8_t present[FIELDS];
    for (int field = 0; field < FIELDS; field++)
        present[field] = 1;
    for (int parameter = 0; parameter < 7; parameter++)
        values[DF156 + parameter] = within(-1000000, 1000000);
    if (tarnoklej_write_fields(values, FIELDS, present, FIELDS, message, LENGTH).length != LENGTH)
        stop("a row was refused", "datum");
}

void make_datum(void)
{
    for (int i = 0; i < MESSAGES; i++)
        make_message(messages[i]);
    for (int i = 0; i < POSITIONS; i++)
        for (int axis = 0; axis < 3; axis++)
            positions[i][axis] = within(-64000000000, 64000000000);
}

/* The datum step of a turn. */
static tarnoklej_position step(const baseline *by, size_t turn)
{
    const int64_t *at = positions[turn % POSITIONS];
    return by->datum_step(messages[turn % MESSAGES], LENGTH, at[0], at[1], at[2]);
}

static uint64_t run_step(const baseline *by, size_t turn, size_t size)
{
    (void)size;
    tarnoklej_position target = step(by, turn);
    return target.refusal + (uint64_t)target.x + (uint64_t)target.y + (uint64_t)target.z;
}

/* Whether two coordinates are at most one unit apart, as one answer is within a unit and the other is the nearest. */
static int near(int64_t one, int64_t other)
{
    return one - other <= 1 && other - one <= 1;
}

static int same_step(const baseline *by, size_t turn, size_t size)
{
    (void)size;
    tarnoklej_position one = step(&LIBRARY, turn), other = step(by, turn);
    return one.refusal == TARNOKLEJ_DONE && other.refusal == TARNOKLEJ_DONE && near(one.x, other.x) &&
           near(one.y, other.y) && near(one.z, other.z);
}

const call DATUM_CALLS[DATUM_CALLS_COUNT] = {
    {"datum_step, a position and its 1021", run_step, same_step, 1, 1, MESSAGES * POSITIONS, ON_DATUM},
};
