#include "fields.h"

#define U(width) { width, 0, ((int64_t)1 << (width)) - 1 }
#define S(width) { width, 1, ((int64_t)1 << ((width) - 1)) - 1 }
#define NODE S(9), S(9), S(9)
#define NODES NODE, NODE, NODE, NODE, NODE, NODE, NODE, NODE, NODE, NODE, NODE, NODE, NODE, NODE, NODE, NODE
#define LATITUDE { 34, 1, 8181818181 }
#define LONGITUDE { 35, 1, 16363636363 }
#define DATUM \
    U(8), U(10), U(5), U(4), U(2), { 19, 1, 162000 }, { 20, 1, 324000 }, U(14), U(14), S(23), S(23), S(23), S(32), S(32), S(32), S(25)
#define ELLIPSOIDS U(24), U(25), U(24), U(25), U(3), U(3)

static const field fields_1021[] = { DATUM, ELLIPSOIDS };
static const field fields_1022[] = { DATUM, S(35), S(35), S(35), ELLIPSOIDS };
static const field fields_1023[] = { U(8), U(1), U(1), { 21, 1, 648000 }, { 22, 1, 1296000 }, U(12), U(12), S(8), S(8), S(15), NODES,
                                     U(2), U(2), U(3), U(3), U(16) };
static const field fields_1024[] = { U(8), U(1), U(1), S(25), U(26), U(12), U(12), S(10), S(10), S(15), NODES,
                                     U(2), U(2), U(3), U(3), U(16) };
static const field fields_1025[] = { U(8), U(6), LATITUDE, LONGITUDE, U(30), U(36), S(35) };
static const field fields_1026[] = { U(8), U(6), LATITUDE, LONGITUDE, LATITUDE, LATITUDE, U(36), S(35) };
static const field fields_1027[] = { U(8), U(6), U(1), LATITUDE, LONGITUDE, { 35, 0, 32727272727 }, S(26), U(30), U(36), S(35) };
const field number_field = U(12), counter_field = U(5), character_field = U(8);

static const field_list lists[] = {
#define LIST(name) { name, sizeof name / sizeof name[0] }
    LIST(fields_1021), LIST(fields_1022), LIST(fields_1023), LIST(fields_1024), LIST(fields_1025), LIST(fields_1026), LIST(fields_1027)
};

field_list fields_of(int64_t number) { return lists[number - 1021]; }
