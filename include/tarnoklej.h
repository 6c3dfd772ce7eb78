/* Tarnoklej: RTCM messages 1021 to 1027, and the transport frames of RTCM messages of any number.
 *
 * The functions are in libtarnoklej, which `targets/build` makes from one proved module for each machine (docs/TARGETS.md);
 * for x86-64 Linux it is the archive that the Rattle kit builds of the crate capi, byte for byte.
 * Every call ends with an answer for every input, keeps nothing between calls and allocates nothing.
 * A refusal number says why a call was refused; refusals are tested in the order given at each call.
 * No buffer that a call writes may overlap another. Every buffer must be memory of at least the length given with it, and
 * one of int64_t must be aligned as an int64_t is. A pointer may be null only where its length is 0: it then works as an
 * empty buffer, as an empty vector of C++ hands over. That is run for every call on every target (targets/check), and is
 * not proved.
 *
 * A row holds the fields of a message in wire order, DF002 first, in two buffers side by side: values and present.
 * Where a field has a value, present is 1; where it has none, that is where it is not available, present is 0 and its
 * value is 0. Only fields of type intN can have none. The pattern by which a message says so on the wire is never given
 * or taken as a value. A name is its counter and then its characters, one field each.
 */
#ifndef TARNOKLEJ_H
#define TARNOKLEJ_H
#include <stddef.h>
#include <stdint.h>
#ifdef __cplusplus
extern "C" {
#endif

/* The version, as the file VERSION has it. MAJOR goes up where a caller must be changed or compiled anew, and the shared
 * object is named by it; MINOR where something is added; PATCH otherwise.
 */
#define TARNOKLEJ_VERSION_MAJOR 1
#define TARNOKLEJ_VERSION_MINOR 0
#define TARNOKLEJ_VERSION_PATCH 0
#define TARNOKLEJ_VERSION "1.0.0"

/* The refusal numbers. tarnoklej_refusal_name and tarnoklej_refusal_words give their names and these words. */
enum {
    TARNOKLEJ_DONE = 0,       /* not refused */
    TARNOKLEJ_SHORT = 1,      /* a message of under 2 bytes */
    TARNOKLEJ_NUMBER = 2,     /* a message number that is not 1021 to 1027 */
    TARNOKLEJ_LENGTH = 3,     /* not the length called for, a name counter that cannot be read, or too long for a
                                 frame; points of a report or of sample answers that are too many, or whose counts
                                 differ */
    TARNOKLEJ_FILL = 4,       /* a fill bit is set */
    TARNOKLEJ_RANGE = 5,      /* a field outside its range or width, or buffers that are no row of a message */
    TARNOKLEJ_ROOM = 6,       /* an output shorter than the message, its row or its frame, than a row of shifts, or
                                 than a file of sample answers */
    TARNOKLEJ_KIND = 7,       /* a grid call on a message other than 1023 or 1024, a datum step on another than 1021 */
    TARNOKLEJ_COMPONENT = 8,  /* a component that is not 0 to 2 */
    TARNOKLEJ_POSITION = 9,   /* 1023: a position beyond +-3,240,000,000 or +-6,480,000,000; 1024: either beyond
                                 +-10^12; a row of shifts of no place or too many, or with a negative step; datum
                                 step: one of three beyond +-10^11 */
    TARNOKLEJ_OFF = 10,       /* DF190 is 0 (components 0, 1) or DF191 is 0 (component 2) */
    TARNOKLEJ_METHOD = 11,    /* DF212 (components 0, 1) or DF213 (component 2) is not 0; datum step: DF150 is not 0 */
    TARNOKLEJ_ORIGIN = 12,    /* an origin field has no value */
    TARNOKLEJ_SPACING = 13,   /* a spacing is 0 */
    TARNOKLEJ_OUTSIDE = 14,   /* the position is not on or within the grid's outer rectangle */
    TARNOKLEJ_ABSENT = 15,    /* the mean, or a node of non-zero weight, or one of DF156 to DF162 has no value */
    TARNOKLEJ_FULL = 16,      /* the key is new to the owner, who holds 20 slots or finds no slot free */
    TARNOKLEJ_NONE = 17,      /* no such key of the owner, or group not 0 to 2 */
    TARNOKLEJ_TABLE = 18,     /* the table has a wrong size or is not well formed, see tarnoklej_index_agrees */
    TARNOKLEJ_NEED = 19,      /* an unfinished frame calls for bytes that have not arrived */
    TARNOKLEJ_NOFRAME = 20,   /* neither a frame nor an unfinished one, or a start past the end */
    TARNOKLEJ_OWNER = 21,     /* an owner other than 1 or 2 */
    TARNOKLEJ_INDEX = 22,     /* the index has a wrong size or does not agree with the table */
    TARNOKLEJ_NOMEAN = 23,    /* no mean from which every wanted height is at most 255 mm away */
    TARNOKLEJ_LAYOUT = 24,    /* a file of sample answers of another shape */
    TARNOKLEJ_CLAIM = 25      /* a point of a file of sample answers that is refused, or has another count */
};

/* Sizes. */
enum {
    TARNOKLEJ_TABLE_SIZE = 4224,  /* bytes of a table; 4,224 zeros are an empty table */
    TARNOKLEJ_SLOTS = 32,         /* messages that a table holds */
    TARNOKLEJ_OWNER_SLOTS = 20,   /* slots that an owner holds at most, so that 12 are always there for the other */
    TARNOKLEJ_SLOT_SIZE = 132,    /* bytes of a slot: owner, length, 127 message bytes, three zeros */
    TARNOKLEJ_INDEX_SIZE = 128,   /* bytes of an index; 128 zeros are the index of an empty table */
    TARNOKLEJ_MOST_PROBES = 6,    /* entries of an index that a find looks at, at most */
    TARNOKLEJ_MOST_BYTES = 127,   /* bytes of the longest message, a 1022 of two names of 31 characters */
    TARNOKLEJ_MOST_FIELDS = 90,   /* fields of the longest row, of the same message */
    TARNOKLEJ_FRAME_HEAD = 3,     /* bytes of a frame before its message: D3, six zero bits, a ten-bit length */
    TARNOKLEJ_FRAME_TAIL = 3,     /* bytes of a frame behind its message: the CRC-24Q of all before */
    TARNOKLEJ_MOST_FRAMED = 1023, /* bytes of the longest message that a frame holds */
    TARNOKLEJ_MOST_POINTS = 10000, /* points of the longest report */
    TARNOKLEJ_MOST_PLACES = 4096, /* places of the longest row of shifts */
    TARNOKLEJ_SAMPLES_HEAD = 3,   /* bytes of a file of sample answers before its message */
    TARNOKLEJ_SAMPLE_SIZE = 28,   /* bytes of a point in such a file */
    TARNOKLEJ_MOST_SAMPLES = 1000 /* points of such a file */
};

/* The components of a shift. */
enum {
    TARNOKLEJ_NORTH_SOUTH = 0, /* counts of 0.00001 arc second (1023) or 0.1 mm (1024) */
    TARNOKLEJ_EAST_WEST = 1,   /* counts of 0.00001 arc second (1023) or 0.1 mm (1024) */
    TARNOKLEJ_HEIGHT = 2       /* counts of 0.1 mm */
};

/* The groups of a table's keys. */
enum {
    TARNOKLEJ_TRANSFORMATION = 0, /* 1021 and 1022 */
    TARNOKLEJ_GRID = 1,           /* 1023 and 1024 */
    TARNOKLEJ_PROJECTION = 2      /* 1025, 1026 and 1027 */
};

/* With a refusal all other members of these are 0, but for the place that NEED and CLAIM carry. */
typedef struct { uint8_t refusal; uint16_t number; uint8_t sin; size_t length; } tarnoklej_header;
typedef struct { uint8_t refusal; size_t length; } tarnoklej_written;
typedef struct { uint8_t refusal; size_t at; size_t length; uint8_t probes; } tarnoklej_found;
typedef struct { uint8_t refusal; size_t at; size_t length; } tarnoklej_frame; /* at: the place of D3, with NEED too */
typedef struct { uint8_t refusal; int64_t x, y, z; } tarnoklej_position;
typedef struct {
    uint8_t refusal;
    uint64_t answered;                       /* points answered */
    uint64_t refused[15];                    /* points refused under each number, that of number n at n - 1 */
    int64_t smallest, greatest;              /* the smallest and the greatest count, 0 where no point is answered */
    uint64_t smallest_place, greatest_place; /* their first places, from 1, 0 where no point is answered */
    int64_t sum;                             /* the sum of the counts */
} tarnoklej_report;
typedef struct { uint8_t refusal; size_t place; } tarnoklej_checked; /* place: of the first bad point, with CLAIM */

/* The unit of a shift. */
enum {
    TARNOKLEJ_NO_UNIT = 0,     /* a refused part */
    TARNOKLEJ_ARC_SECONDS = 1, /* components 0 and 1 of a 1023 */
    TARNOKLEJ_METRES = 2       /* component 2, and all three of a 1024 */
};

/* The shifts at a position: three parts, each a shift in arc seconds or metres, its count, its refusal number and its unit.
 * A refused part reads 0.0, count 0 and unit 0.
 */
typedef struct {
    double north, east, height;
    int64_t north_count, east_count, height_count;
    uint8_t north_refusal, east_refusal, height_refusal;
    uint8_t north_unit, east_unit, height_unit;
} tarnoklej_shifts;

/* Gives the number (DF002), the length in bytes and the system identification number (DF147) of a message
 * after all of its fields are checked.
 * Refusals in order: SHORT, NUMBER, LENGTH, FILL, RANGE.
 * Buffers: message is only read.
 */
tarnoklej_header tarnoklej_read(const uint8_t *message, size_t message_length);

/* Gives the row of a message: each field at the position that is listed for it at the end of this file.
 * Refusals in order: SHORT, NUMBER, LENGTH, FILL, RANGE, ROOM where values_room or present_room is less than the
 * message's fields.
 * Buffers: message is only read; the first places of values and of present hold the row and the rest keep theirs;
 * with a refusal all of both keep theirs.
 */
uint8_t tarnoklej_read_fields(const uint8_t *message, size_t message_length, int64_t *values, size_t values_room,
                              uint8_t *present, size_t present_room);

/* Writes the message of a row, as tarnoklej_read_fields gives it, and gives its length in bytes.
 * The fill bits are zero.
 * Refusals in order: RANGE, ROOM where room is less than the message's bytes.
 * RANGE is given for an unknown number, for counts that differ or are not the message's count of fields, for a present
 * other than 0 or 1, for a none whose value is not 0, for a none in a field that is not of type intN, and for a value
 * outside its field's range or width, the pattern that says none on the wire included.
 * Buffers: values and present are only read; the first bytes of out hold the message and the rest keep theirs;
 * with a refusal all of out keeps its bytes.
 */
tarnoklej_written tarnoklej_write_fields(const int64_t *values, size_t values_count, const uint8_t *present,
                                         size_t present_count, uint8_t *out, size_t room);

/* Gives the shifts north-south, east-west and of the height at a position from a message 1023 or 1024, by bilinear
 * interpolation: a count is the mean and the whole number nearest to the exact weighted mean of the cell's nodes, halves
 * away from zero. The shift is that count divided once, by 100,000 for arc seconds or by 10,000 for metres: north and
 * east are arc seconds of a 1023 and metres of a 1024, height is metres (see the components above).
 * Each part has its own refusal number, and a refused part reads 0.0, count 0 and unit 0.
 * A position is in steps of 0.0001 arc second (1023) or 1 mm (1024), north and east positive. It is given in the system
 * of the grid: for a 1023 after the transformation of 1021 or 1022, for a 1024 after the projection (D13 of
 * docs/DECISIONS.md). The call can't tell in which system a position was given.
 * For 1023 the difference of longitudes to the grid's origin is taken the short way round, so a grid may lie across
 * 180 degrees, and -180 and +180 degrees get the same answer.
 * A height is corrected by subtracting the shift (source document 003, formula 3b); that is the caller's work.
 * Refusals in order, for each part: SHORT, NUMBER, LENGTH, FILL, RANGE, KIND, POSITION, OFF, METHOD, ORIGIN, SPACING,
 * OUTSIDE, ABSENT.
 * Buffers: message is only read.
 */
tarnoklej_shifts tarnoklej_shifts_at(const uint8_t *message, size_t message_length, int64_t north, int64_t east);

/* Fills a row with the counts of one component at count places: the first at the position given, each next one step
 * further east. Each number is that component's count of tarnoklej_shifts_at at its place; positions, systems and counts
 * are those of that call. A map is drawn by such rows.
 * A row has 1 to TARNOKLEJ_MOST_PLACES places and a step of 0 or more. For 1023 a step of a whole turn, from -180 to
 * +180 degrees, is allowed and gives the same count twice.
 * Refusals in order: SHORT, NUMBER, LENGTH, FILL, RANGE, KIND, COMPONENT; POSITION where count is 0 or above
 * TARNOKLEJ_MOST_PLACES, where step is negative, or where any place is past the limits; then OFF, METHOD, ORIGIN,
 * SPACING, OUTSIDE, ABSENT, that of the first place refused; ROOM where room is less than count.
 * Buffers: message is only read; the first count places of row hold the counts and the rest keep theirs; with a refusal
 * all of row keeps its numbers.
 */
uint8_t tarnoklej_shift_row(const uint8_t *message, size_t message_length, uint8_t component, int64_t north, int64_t east,
                            int64_t step, size_t count, int64_t *row, size_t room);

/* Gives the first frame at or after a place: at is the place of its D3, length the bytes of its message.
 * A frame is D3, six zero bits, a ten-bit length, the message, and the CRC-24Q of all these in 24 bits.
 * The message begins at at + TARNOKLEJ_FRAME_HEAD, and the next search goes from TARNOKLEJ_FRAME_TAIL behind its end.
 * Refusals: NEED where an unfinished frame comes before the first whole one, or where there is no whole one; NOFRAME
 * where there is neither, or where from is past the end.
 * Unfinished is a D3 that is the last byte, or a D3 with six zero bits whose length, message or CRC is past the end.
 * With NEED, at is the place of its D3: the bytes from there on are kept until more have arrived. Where no more arrive,
 * the next search goes from at + 1.
 * Buffers: bytes are only read.
 */
tarnoklej_frame tarnoklej_find_frame(const uint8_t *bytes, size_t size, size_t from);

/* Writes the frame of a message of any number, which is not looked at, and gives the frame's length in bytes.
 * Refusals in order: LENGTH where the message has more than 1,023 bytes, ROOM where room is less than the frame's
 * bytes.
 * Buffers: message is only read; the first bytes of out hold the frame and the rest keep theirs; with a refusal all of
 * out keeps its bytes.
 */
tarnoklej_written tarnoklej_write_frame(const uint8_t *message, size_t message_length, uint8_t *out, size_t room);

/* Says whether a table and an index agree.
 * Beside a table stands its index: 32 entries of four bytes, owner, system identification number, group, slot, slots being
 * counted from 0. They are sorted by the first three, rising; entries that are not in use are zero and at the end. The two
 * agree where the index is so formed and has one entry that is true to each used slot, and no more.
 * A slot is free where all of its bytes are zero. A used one is an owner byte, 1 or 2, a length byte, an accepted
 * message of that length, and zeros. A table is well formed where every slot is free or used so, no key stands twice,
 * and no owner holds more than 20 slots.
 * Refusals in order: TABLE, INDEX.
 * Buffers: table and index are only read.
 */
uint8_t tarnoklej_index_agrees(const uint8_t *table, size_t size, const uint8_t *index, size_t index_size);

/* Writes the index of any well-formed table anew, so that the two agree.
 * Refusals in order: TABLE, INDEX where index_size is not 128.
 * Buffers: table is only read; all of index is written, whatever it held; with a refusal it keeps its bytes.
 */
uint8_t tarnoklej_index_write(const uint8_t *table, size_t size, uint8_t *index, size_t index_size);

/* Stores a message for owner 1 or 2 under its key, that is owner, system identification number and group: in the slot
 * of that key, otherwise in the first free slot.
 * Two owners share a table, and the same system identification number and group may stand once for each. No call by one
 * owner shows, replaces or removes a message of the other. Whatever the other owner does, a key is refused with FULL
 * only where its owner holds 12 keys or more.
 * Refusals in order: TABLE, INDEX where table and index do not agree, OWNER, SHORT, NUMBER, LENGTH, FILL, RANGE, FULL.
 * Buffers: message is only read and must lie in neither of the others; the slot holds owner, length, message and zeros
 * behind it, the other slots keep their bytes, and the index agrees with the table; with a refusal all of both keep
 * their bytes.
 */
uint8_t tarnoklej_store(uint8_t *table, size_t size, uint8_t *index, size_t index_size, uint8_t owner,
                        const uint8_t *message, size_t message_length);

/* Gives where the message of an owner's key stands in the table: at is the place of its first byte, length its bytes,
 * probes the number of entries of the index that were looked at, 1 to 6.
 * Only these entries and one slot are read, by a binary search: of entries 0 to 31 the one at half the sum of both ends,
 * rounded down, then so among those before or behind it. Owner 0 is above every key. Whether table and index agree is
 * not asked; where they do, the message of the key is found if there is one.
 * Refusals in order: TABLE where size is not 4,224, INDEX where index_size is not 128, OWNER, NONE, INDEX where the
 * entry's slot is above 31 or is no used slot of the key.
 * Buffers: table and index are only read.
 */
tarnoklej_found tarnoklej_find(const uint8_t *table, size_t size, const uint8_t *index, size_t index_size,
                               uint8_t owner, uint8_t sin, uint8_t group);

/* Removes the message of an owner's key.
 * Refusals in order: TABLE, INDEX where table and index do not agree, OWNER, NONE.
 * Buffers: the slot of the key is all zero, the other slots keep their bytes, and the index agrees with the table; with
 * a refusal all of both keep their bytes.
 */
uint8_t tarnoklej_remove(uint8_t *table, size_t size, uint8_t *index, size_t index_size, uint8_t owner, uint8_t sin,
                         uint8_t group);

/* Gives the position in the target datum of a message 1021 by its linear seven-parameter step, that of computation
 * indicator (DF150) 0. Positions are geocentric, x, y and z in units of 0.1 mm.
 * The signs are those of the standard's formula 3.5-1 (coordinate frame rotation, EPSG method 9607), where the scale
 * multiplies the rotated position:
 *   x' = M (      x + RZ y - RY z) + dX
 *   y' = M (-RZ x +      y + RX z) + dY
 *   z' = M ( RY x - RX y +      z) + dZ
 * RX, RY, RZ are DF159 to DF161 in steps of 96,962,736,221,907 over 10^24 radian, and M is 1 and DF162 in steps of
 * 1 over 10^11. Each coordinate answered lies within one unit of the exact one; which whole number within that unit is
 * answered is left free.
 * Refusals in order: SHORT, NUMBER, LENGTH, FILL, RANGE, KIND where the message is not 1021, POSITION where x, y or z
 * is beyond +-10^11, METHOD where DF150 is not 0, ABSENT where one of DF156 to DF162 has no value.
 * Buffers: message is only read.
 */
tarnoklej_position tarnoklej_datum_step(const uint8_t *message, size_t message_length, int64_t x, int64_t y, int64_t z);

/* Writes the message 1023 of sixteen wanted heights, and gives its length in bytes.
 * Heights are in whole millimetres, any number of 64 bits, node 1 first (rows from the north, each from west to east).
 * The rest is a row of a 1023, as tarnoklej_read_fields gives it, whose height fields (DF198, DF201) are not looked at.
 * The mean (DF198) is the smallest from -16,383 to 16,383 for which every height less the mean lies within +-255 mm;
 * the nodes (DF201) are these differences. So at each node the message's shift is the wanted height exactly.
 * Refusals in order: RANGE where the counts are not 64, 64 and 16, OFF where DF191 is 0, METHOD where DF213 is not 0,
 * ORIGIN where DF192 or DF193 has no value, SPACING where DF194 or DF195 is 0, NOMEAN where there is no such mean,
 * RANGE for a number other than 1023 and for all else that tarnoklej_write_fields refuses so, ROOM where room is less
 * than the message's 73 bytes.
 * Buffers: values, present and wanted are only read; the first bytes of out hold the message and the rest keep theirs;
 * with a refusal all of out keeps its bytes.
 */
tarnoklej_written tarnoklej_write_heights(const int64_t *values, size_t values_count, const uint8_t *present,
                                          size_t present_count, const int64_t *wanted, size_t wanted_count,
                                          uint8_t *out, size_t room);

/* Gives the numbers of one component over many points: how many are answered, how many refused under each number from 1
 * to 15, the smallest and the greatest count with their first places, and the sum of the counts.
 * Point i stands at north[i], east[i], and its place is i + 1. It is answered or refused as that component's part of
 * tarnoklej_shifts_at there; positions, systems and counts are those of that call. A message that is refused is counted
 * at each point. Answered and refused together are the points given.
 * Refusals in order: COMPONENT, LENGTH where north_count and east_count differ or are above TARNOKLEJ_MOST_POINTS.
 * Buffers: message, north and east are only read.
 */
tarnoklej_report tarnoklej_report_points(const uint8_t *message, size_t message_length, uint8_t component,
                                         const int64_t *north, size_t north_count, const int64_t *east,
                                         size_t east_count);

/* Writes a file of sample answers, as a vendor sends it with an add-on, and gives its length in bytes.
 * The file is tagged fields: one byte tag, two bytes length, high byte first, and the contents. First comes tag 1, the
 * grid message; then for each point tag 2 with 25 bytes: its component, its position north and east, and its count, the
 * last three in 8 bytes two's complement, high byte first. docs/SAMPLES.md has a file byte by byte.
 * Points are three buffers side by side, each at most 1,000: components, north and east. A count is that component's
 * count of tarnoklej_shifts_at at the position; components, positions and systems are those of that call. The file has
 * TARNOKLEJ_SAMPLES_HEAD + message_length bytes and TARNOKLEJ_SAMPLE_SIZE for each point, and tarnoklej_check_samples
 * accepts it.
 * Refusals in order: SHORT, NUMBER, LENGTH, FILL, RANGE, KIND of the message; LENGTH where the three counts differ; of the
 * first refused point COMPONENT where its component is not 0 to 2, POSITION, OFF, METHOD, ORIGIN, SPACING, OUTSIDE,
 * ABSENT; LENGTH where there are more than 1,000 points; ROOM where room is less than the file's bytes.
 * Buffers: message, components, north and east are only read; the first bytes of out hold the file and the rest keep
 * theirs; with a refusal all of out keeps its bytes.
 */
tarnoklej_written tarnoklej_write_samples(const uint8_t *message, size_t message_length, const uint8_t *components,
                                          size_t components_count, const int64_t *north, size_t north_count,
                                          const int64_t *east, size_t east_count, uint8_t *out, size_t room);

/* Checks a file of sample answers: it is accepted where its shape and its grid message are right and every point is
 * answered with the count that it claims.
 * Refusals in order: LAYOUT where the file is anything but one field of tag 1 and at most 1,000 of tag 2 with 25 bytes
 * behind it; SHORT, NUMBER, LENGTH, FILL, RANGE, KIND of the message; CLAIM where a point is refused or has another
 * count. With CLAIM, place is that of the first such point, counted from 1.
 * Buffers: file is only read.
 */
tarnoklej_checked tarnoklej_check_samples(const uint8_t *file, size_t size);

/* Gives the name of a refusal number, as it stands above without TARNOKLEJ_; UNKNOWN for a number that no call gives. */
static inline const char *tarnoklej_refusal_name(uint8_t refusal)
{
    switch (refusal) {
    case TARNOKLEJ_DONE: return "DONE";
    case TARNOKLEJ_SHORT: return "SHORT";
    case TARNOKLEJ_NUMBER: return "NUMBER";
    case TARNOKLEJ_LENGTH: return "LENGTH";
    case TARNOKLEJ_FILL: return "FILL";
    case TARNOKLEJ_RANGE: return "RANGE";
    case TARNOKLEJ_ROOM: return "ROOM";
    case TARNOKLEJ_KIND: return "KIND";
    case TARNOKLEJ_COMPONENT: return "COMPONENT";
    case TARNOKLEJ_POSITION: return "POSITION";
    case TARNOKLEJ_OFF: return "OFF";
    case TARNOKLEJ_METHOD: return "METHOD";
    case TARNOKLEJ_ORIGIN: return "ORIGIN";
    case TARNOKLEJ_SPACING: return "SPACING";
    case TARNOKLEJ_OUTSIDE: return "OUTSIDE";
    case TARNOKLEJ_ABSENT: return "ABSENT";
    case TARNOKLEJ_FULL: return "FULL";
    case TARNOKLEJ_NONE: return "NONE";
    case TARNOKLEJ_TABLE: return "TABLE";
    case TARNOKLEJ_NEED: return "NEED";
    case TARNOKLEJ_NOFRAME: return "NOFRAME";
    case TARNOKLEJ_OWNER: return "OWNER";
    case TARNOKLEJ_INDEX: return "INDEX";
    case TARNOKLEJ_NOMEAN: return "NOMEAN";
    case TARNOKLEJ_LAYOUT: return "LAYOUT";
    case TARNOKLEJ_CLAIM: return "CLAIM";
    default: return "UNKNOWN";
    }
}

/* Gives the words of what a refusal number means, those of the comment beside it. */
static inline const char *tarnoklej_refusal_words(uint8_t refusal)
{
    switch (refusal) {
    case TARNOKLEJ_DONE: return "not refused";
    case TARNOKLEJ_SHORT: return "a message of under 2 bytes";
    case TARNOKLEJ_NUMBER: return "a message number that is not 1021 to 1027";
    case TARNOKLEJ_LENGTH:
        return "not the length called for, a name counter that cannot be read, or too long for a frame; points of a "
               "report or of sample answers that are too many, or whose counts differ";
    case TARNOKLEJ_FILL: return "a fill bit is set";
    case TARNOKLEJ_RANGE: return "a field outside its range or width, or buffers that are no row of a message";
    case TARNOKLEJ_ROOM:
        return "an output shorter than the message, its row or its frame, than a row of shifts, or than a file of "
               "sample answers";
    case TARNOKLEJ_KIND: return "a grid call on a message other than 1023 or 1024, a datum step on another than 1021";
    case TARNOKLEJ_COMPONENT: return "a component that is not 0 to 2";
    case TARNOKLEJ_POSITION:
        return "1023: a position beyond +-3,240,000,000 or +-6,480,000,000; 1024: either beyond +-10^12; a row of "
               "shifts of no place or too many, or with a negative step; datum step: one of three beyond +-10^11";
    case TARNOKLEJ_OFF: return "DF190 is 0 (components 0, 1) or DF191 is 0 (component 2)";
    case TARNOKLEJ_METHOD: return "DF212 (components 0, 1) or DF213 (component 2) is not 0; datum step: DF150 is not 0";
    case TARNOKLEJ_ORIGIN: return "an origin field has no value";
    case TARNOKLEJ_SPACING: return "a spacing is 0";
    case TARNOKLEJ_OUTSIDE: return "the position is not on or within the grid's outer rectangle";
    case TARNOKLEJ_ABSENT: return "the mean, or a node of non-zero weight, or one of DF156 to DF162 has no value";
    case TARNOKLEJ_FULL: return "the key is new to the owner, who holds 20 slots or finds no slot free";
    case TARNOKLEJ_NONE: return "no such key of the owner, or group not 0 to 2";
    case TARNOKLEJ_TABLE: return "the table has a wrong size or is not well formed, see tarnoklej_index_agrees";
    case TARNOKLEJ_NEED: return "an unfinished frame calls for bytes that have not arrived";
    case TARNOKLEJ_NOFRAME: return "neither a frame nor an unfinished one, or a start past the end";
    case TARNOKLEJ_OWNER: return "an owner other than 1 or 2";
    case TARNOKLEJ_INDEX: return "the index has a wrong size or does not agree with the table";
    case TARNOKLEJ_NOMEAN: return "no mean from which every wanted height is at most 255 mm away";
    case TARNOKLEJ_LAYOUT: return "a file of sample answers of another shape";
    case TARNOKLEJ_CLAIM: return "a point of a file of sample answers that is refused, or has another count";
    default: return "a number that no call gives";
    }
}

/* Positions in a row by DF number: position, field, type, resolution, name.
 * N is the value at position 1, M the value at position 2+N; i is 0 to 15 for nodes 1 to 16.
 * A field of type intN can have no value (present 0), all others always have one; docs/FIELDS.md has the ranges.
 *
 * 1021, 25+N+M fields:
 *   0            DF002  uint12   1                   Message Number
 *   1            DF143  uint5    1                   Source-Name Counter
 *   2..1+N       DF144  char8    1                   Source-Name
 *   2+N          DF145  uint5    1                   Target-Name Counter
 *   3+N..2+N+M   DF146  char8    1                   Target-Name
 *   3+N+M        DF147  uint8    1                   System Identification Number
 *   4+N+M        DF148  bit(10)  1                   Utilized Transformation Message Indicator
 *   5+N+M        DF149  uint5    1                   Plate Number
 *   6+N+M        DF150  uint4    1                   Computation Indicator
 *   7+N+M        DF151  uint2    1                   Height Indicator
 *   8+N+M        DF152  int19    2 arc seconds       Latitude of Origin, Area of Validity
 *   9+N+M        DF153  int20    2 arc seconds       Longitude of Origin, Area of Validity
 *   10+N+M       DF154  uint14   2 arc seconds       N/S Extension, Area of Validity
 *   11+N+M       DF155  uint14   2 arc seconds       E/W Extension, Area of Validity
 *   12+N+M       DF156  int23    0.001 m             Translation in X-direction
 *   13+N+M       DF157  int23    0.001 m             Translation in Y-direction
 *   14+N+M       DF158  int23    0.001 m             Translation in Z-direction
 *   15+N+M       DF159  int32    0.00002 arc second  Rotation Around the X-axis
 *   16+N+M       DF160  int32    0.00002 arc second  Rotation Around the Y-axis
 *   17+N+M       DF161  int32    0.00002 arc second  Rotation Around the Z-axis
 *   18+N+M       DF162  int25    0.00001 ppm         Scale Correction
 *   19+N+M       DF166  uint24   0.001 m             Semi-major Axis of Source System Ellipsoid
 *   20+N+M       DF167  uint25   0.001 m             Semi-minor Axis of Source System Ellipsoid
 *   21+N+M       DF168  uint24   0.001 m             Semi-major Axis of Target System Ellipsoid
 *   22+N+M       DF169  uint25   0.001 m             Semi-minor Axis of Target System Ellipsoid
 *   23+N+M       DF214  uint3    1                   Horizontal Helmert/Molodenski Quality Indicator
 *   24+N+M       DF215  uint3    1                   Vertical Helmert/Molodenski Quality Indicator
 *
 * 1022, 28+N+M fields:
 *   0            DF002  uint12   1                   Message Number
 *   1            DF143  uint5    1                   Source-Name Counter
 *   2..1+N       DF144  char8    1                   Source-Name
 *   2+N          DF145  uint5    1                   Target-Name Counter
 *   3+N..2+N+M   DF146  char8    1                   Target-Name
 *   3+N+M        DF147  uint8    1                   System Identification Number
 *   4+N+M        DF148  bit(10)  1                   Utilized Transformation Message Indicator
 *   5+N+M        DF149  uint5    1                   Plate Number
 *   6+N+M        DF150  uint4    1                   Computation Indicator
 *   7+N+M        DF151  uint2    1                   Height Indicator
 *   8+N+M        DF152  int19    2 arc seconds       Latitude of Origin, Area of Validity
 *   9+N+M        DF153  int20    2 arc seconds       Longitude of Origin, Area of Validity
 *   10+N+M       DF154  uint14   2 arc seconds       N/S Extension, Area of Validity
 *   11+N+M       DF155  uint14   2 arc seconds       E/W Extension, Area of Validity
 *   12+N+M       DF156  int23    0.001 m             Translation in X-direction
 *   13+N+M       DF157  int23    0.001 m             Translation in Y-direction
 *   14+N+M       DF158  int23    0.001 m             Translation in Z-direction
 *   15+N+M       DF159  int32    0.00002 arc second  Rotation Around the X-axis
 *   16+N+M       DF160  int32    0.00002 arc second  Rotation Around the Y-axis
 *   17+N+M       DF161  int32    0.00002 arc second  Rotation Around the Z-axis
 *   18+N+M       DF162  int25    0.00001 ppm         Scale Correction
 *   19+N+M       DF163  int35    0.001 m             X Coordinate for M-B Rotation Point
 *   20+N+M       DF164  int35    0.001 m             Y Coordinate for M-B Rotation Point
 *   21+N+M       DF165  int35    0.001 m             Z Coordinate for M-B Rotation Point
 *   22+N+M       DF166  uint24   0.001 m             Semi-major Axis of Source System Ellipsoid
 *   23+N+M       DF167  uint25   0.001 m             Semi-minor Axis of Source System Ellipsoid
 *   24+N+M       DF168  uint24   0.001 m             Semi-major Axis of Target System Ellipsoid
 *   25+N+M       DF169  uint25   0.001 m             Semi-minor Axis of Target System Ellipsoid
 *   26+N+M       DF214  uint3    1                   Horizontal Helmert/Molodenski Quality Indicator
 *   27+N+M       DF215  uint3    1                   Vertical Helmert/Molodenski Quality Indicator
 *
 * 1023, 64 fields:
 *   0            DF002  uint12   1                   Message Number
 *   1            DF147  uint8    1                   System Identification Number
 *   2            DF190  bit(1)   1                   Horizontal Shift Indicator
 *   3            DF191  bit(1)   1                   Vertical Shift Indicator
 *   4            DF192  int21    0.5 arc second      Latitude of Origin of Grids
 *   5            DF193  int22    0.5 arc second      Longitude of Origin of Grids
 *   6            DF194  uint12   0.5 arc second      N/S Grid Area Extension
 *   7            DF195  uint12   0.5 arc second      E/W Grid Area Extension
 *   8            DF196  int8     0.001 arc second    Mean Latitude Offset
 *   9            DF197  int8     0.001 arc second    Mean Longitude Offset
 *   10           DF198  int15    0.01 m              Mean Height Offset
 *   11+3i        DF199  int9     0.00003 arc second  Latitude Residual
 *   12+3i        DF200  int9     0.00003 arc second  Longitude Residual
 *   13+3i        DF201  int9     0.001 m             Height Residual
 *   59           DF212  uint2    1                   Horizontal Interpolation Method Indicator
 *   60           DF213  uint2    1                   Vertical Interpolation Method Indicator
 *   61           DF216  uint3    1                   Horizontal Grid Quality Indicator
 *   62           DF217  uint3    1                   Vertical Grid Quality Indicator
 *   63           DF051  uint16   1                   Modified Julian Day (MJD) Number
 *
 * 1024, 64 fields:
 *   0            DF002  uint12   1                   Message Number
 *   1            DF147  uint8    1                   System Identification Number
 *   2            DF190  bit(1)   1                   Horizontal Shift Indicator
 *   3            DF191  bit(1)   1                   Vertical Shift Indicator
 *   4            DF202  int25    10 m                Northing of Origin
 *   5            DF203  uint26   10 m                Easting of Origin
 *   6            DF204  uint12   10 m                N/S Grid Area Extension
 *   7            DF205  uint12   10 m                E/W Grid Area Extension
 *   8            DF206  int10    0.01 m              Mean Local Northing Offset
 *   9            DF207  int10    0.01 m              Mean Local Easting Offset
 *   10           DF208  int15    0.01 m              Mean Local Height Offset
 *   11+3i        DF209  int9     0.001 m             Residual in Local Northing
 *   12+3i        DF210  int9     0.001 m             Residual in Local Easting
 *   13+3i        DF211  int9     0.001 m             Residual in Local Height
 *   59           DF212  uint2    1                   Horizontal Interpolation Method Indicator
 *   60           DF213  uint2    1                   Vertical Interpolation Method Indicator
 *   61           DF216  uint3    1                   Horizontal Grid Quality Indicator
 *   62           DF217  uint3    1                   Vertical Grid Quality Indicator
 *   63           DF051  uint16   1                   Modified Julian Day (MJD) Number
 *
 * 1025, 8 fields:
 *   0            DF002  uint12   1                   Message Number
 *   1            DF147  uint8    1                   System Identification Number
 *   2            DF170  uint6    1                   Projection Type
 *   3            DF171  int34    0.000000011 degree  Latitude of Natural Origin
 *   4            DF172  int35    0.000000011 degree  Longitude of Natural Origin
 *   5            DF173  uint30   0.00001 ppm         Scale Factor at Natural Origin
 *   6            DF174  uint36   0.001 m             False Easting
 *   7            DF175  int35    0.001 m             False Northing
 *
 * 1026, 9 fields:
 *   0            DF002  uint12   1                   Message Number
 *   1            DF147  uint8    1                   System Identification Number
 *   2            DF170  uint6    1                   Projection Type
 *   3            DF176  int34    0.000000011 degree  Latitude of False Origin
 *   4            DF177  int35    0.000000011 degree  Longitude of False Origin
 *   5            DF178  int34    0.000000011 degree  Latitude of Standard Parallel No. 1
 *   6            DF179  int34    0.000000011 degree  Latitude of Standard Parallel No. 2
 *   7            DF180  uint36   0.001 m             Easting of False Origin
 *   8            DF181  int35    0.001 m             Northing of False Origin
 *
 * 1027, 11 fields:
 *   0            DF002  uint12   1                   Message Number
 *   1            DF147  uint8    1                   System Identification Number
 *   2            DF170  uint6    1                   Projection Type
 *   3            DF182  bit(1)   1                   Rectification Flag
 *   4            DF183  int34    0.000000011 degree  Latitude of Projection Center
 *   5            DF184  int35    0.000000011 degree  Longitude of Projection Center
 *   6            DF185  uint35   0.000000011 degree  Azimuth of Initial Line
 *   7            DF186  int26    0.000000011 degree  Difference, Angle from Rectified to Skew Grid
 *   8            DF187  uint30   0.00001 ppm         Scale factor on Initial Line
 *   9            DF188  uint36   0.001 m             Easting at Projection Center
 *   10           DF189  int35    0.001 m             Northing at Projection Center
 */

#ifdef __cplusplus
}
#endif
#endif
