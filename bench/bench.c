/* Prints how long the library takes for each call beside plain C, as Markdown tables.
 * Before a call is timed, its whole answer is compared in all of them.
 */
#include <math.h>
#include <stdio.h>
#include <stdlib.h>
#include <string.h>
#include <time.h>
#include "call.h"

/* The messages that are gone through in turn, and the positions for each. */
enum { MESSAGES = 32, POSITIONS = 100 };
/* The turns whose answers are compared: every message with every component and position. */
enum { TURNS_CHECKED = MESSAGES * POSITIONS * 3 };
/* The passes over all calls, the rounds of a pass, of all of which the fastest counts, and the shortest round in seconds. */
enum { PASSES = 5, ROUNDS = 3 };
static const double SHORTEST_ROUND = 0.006;

/* A row and its message. */
typedef struct {
    int64_t values[ROW];
    uint8_t present[ROW];
    uint8_t message[BYTES];
} input;

/* The inputs that are timed, all of whose fields have values, and the same with fields that have none. */
static input inputs[MESSAGES], with_nones[MESSAGES];
/* The same messages with another day (DF051). */
static uint8_t of_other_day[MESSAGES][BYTES];
static int64_t positions[MESSAGES][POSITIONS][2];
static uint8_t table[TARNOKLEJ_TABLE_SIZE], entries[TARNOKLEJ_INDEX_SIZE];

/* The library's shifts at many positions, one call each. */
static void library_many_shifts(const uint8_t *message, size_t length, const int64_t (*at)[2], size_t count,
                                tarnoklej_shifts *shifts)
{
    for (size_t i = 0; i < count; i++)
        shifts[i] = tarnoklej_shifts_at(message, length, at[i][0], at[i][1]);
}

/* One part of the library's shifts. */
static shift library_one_shift(const uint8_t *message, size_t length, uint8_t component, int64_t north, int64_t east)
{
    tarnoklej_shifts at = tarnoklej_shifts_at(message, length, north, east);
    shift parts[] = {{at.north_refusal, at.north_count}, {at.east_refusal, at.east_count}, {at.height_refusal, at.height_count}};
    return parts[component];
}

const baseline LIBRARY = {.name = "library",
                          .read = tarnoklej_read,
                          .read_fields = tarnoklej_read_fields,
                          .write_fields = tarnoklej_write_fields,
                          .shifts_at = tarnoklej_shifts_at,
                          .many_shifts = library_many_shifts,
                          .one_shift = library_one_shift,
                          .shift_row = tarnoklej_shift_row,
                          .store = tarnoklej_store,
                          .find = tarnoklej_find,
                          .find_frame = tarnoklej_find_frame,
                          .write_frame = tarnoklej_write_frame,
                          .find_two_fields = tarnoklej_find,
                          .find_by_walk = tarnoklej_find,
                          .datum_step = tarnoklej_datum_step,
                          .report_points = tarnoklej_report_points,
                          .check_samples = tarnoklej_check_samples};

/* All that are timed, the library first. */
enum { TIMED = 8 };
static const baseline *const ALL[TIMED] = {&LIBRARY,   &BIT_BY_BIT, &ONE_LOAD,     &CALL_AT_EACH_PLACE,
                                           &ADDITIONS, &UNCHECKED,  &TABLE_OF_256, &DOUBLES};

static uint64_t run_read(const baseline *by, size_t turn, size_t size)
{
    (void)size;
    tarnoklej_header header = by->read(inputs[turn % MESSAGES].message, BYTES);
    return header.refusal + header.sin + header.length;
}

static int same_read(const baseline *by, size_t turn, size_t size)
{
    (void)size;
    tarnoklej_header one = LIBRARY.read(inputs[turn % MESSAGES].message, BYTES);
    tarnoklej_header other = by->read(inputs[turn % MESSAGES].message, BYTES);
    return one.refusal == other.refusal && one.number == other.number && one.sin == other.sin &&
           one.length == other.length;
}

static uint64_t run_row(const baseline *by, size_t turn, size_t size)
{
    (void)size;
    int64_t values[ROW];
    uint8_t present[ROW];
    uint8_t refusal = by->read_fields(inputs[turn % MESSAGES].message, BYTES, values, ROW, present, ROW);
    return refusal + (uint64_t)values[turn % ROW] + present[turn % ROW];
}

/* Whether the row of a message is the library's. */
static int same_row_of(const baseline *by, const uint8_t *message)
{
    int64_t values[2][ROW] = {{0}};
    uint8_t present[2][ROW] = {{0}};
    uint8_t refusal = LIBRARY.read_fields(message, BYTES, values[0], ROW, present[0], ROW);
    return refusal == by->read_fields(message, BYTES, values[1], ROW, present[1], ROW) &&
           memcmp(values[0], values[1], sizeof values[0]) == 0 && memcmp(present[0], present[1], sizeof present[0]) == 0;
}

static int same_row(const baseline *by, size_t turn, size_t size)
{
    (void)size;
    size_t i = turn % MESSAGES;
    return same_row_of(by, inputs[i].message) && same_row_of(by, with_nones[i].message);
}

static uint64_t run_write(const baseline *by, size_t turn, size_t size)
{
    (void)size;
    const input *in = &inputs[turn % MESSAGES];
    uint8_t out[BYTES];
    tarnoklej_written written = by->write_fields(in->values, ROW, in->present, ROW, out, BYTES);
    return written.refusal + written.length + out[turn % BYTES];
}

/* Whether the message written from a row is the library's. */
static int same_message_of(const baseline *by, const input *in)
{
    uint8_t one[BYTES] = {0}, other[BYTES] = {0};
    tarnoklej_written written = LIBRARY.write_fields(in->values, ROW, in->present, ROW, one, BYTES);
    tarnoklej_written again = by->write_fields(in->values, ROW, in->present, ROW, other, BYTES);
    return written.refusal == again.refusal && written.length == again.length && memcmp(one, other, sizeof one) == 0;
}

static int same_write(const baseline *by, size_t turn, size_t size)
{
    (void)size;
    size_t i = turn % MESSAGES;
    return same_message_of(by, &inputs[i]) && same_message_of(by, &with_nones[i]);
}

static uint64_t run_shifts(const baseline *by, size_t turn, size_t size)
{
    size_t i = turn % MESSAGES;
    if (size == 1) {
        const int64_t *at = positions[i][turn % POSITIONS];
        tarnoklej_shifts shifts = by->shifts_at(inputs[i].message, BYTES, at[0], at[1]);
        return shifts.north_refusal + (uint64_t)(shifts.north_count + shifts.east_count + shifts.height_count);
    }
    tarnoklej_shifts shifts[POSITIONS];
    by->many_shifts(inputs[i].message, BYTES, (const int64_t(*)[2])positions[i], size, shifts);
    return shifts[0].north_refusal + (uint64_t)shifts[turn % size].height_count;
}

/* Whether two answers are the same, floats by their bits. */
static int same_parts(const tarnoklej_shifts *one, const tarnoklej_shifts *other)
{
    return memcmp(&one->north, &other->north, sizeof one->north) == 0 &&
           memcmp(&one->east, &other->east, sizeof one->east) == 0 &&
           memcmp(&one->height, &other->height, sizeof one->height) == 0 && one->north_count == other->north_count &&
           one->east_count == other->east_count && one->height_count == other->height_count &&
           one->north_refusal == other->north_refusal && one->east_refusal == other->east_refusal &&
           one->height_refusal == other->height_refusal && one->north_unit == other->north_unit &&
           one->east_unit == other->east_unit && one->height_unit == other->height_unit;
}

/* Whether the shifts of a message at one position are the library's. */
static int same_shifts_of(const baseline *by, const uint8_t *message, const int64_t *at)
{
    tarnoklej_shifts one = LIBRARY.shifts_at(message, BYTES, at[0], at[1]);
    tarnoklej_shifts other = by->shifts_at(message, BYTES, at[0], at[1]);
    return same_parts(&one, &other);
}

static int same_shifts(const baseline *by, size_t turn, size_t size)
{
    size_t i = turn % MESSAGES;
    const int64_t *at = positions[i][turn % POSITIONS];
    if (size == 1)
        return same_shifts_of(by, inputs[i].message, at) && same_shifts_of(by, with_nones[i].message, at);
    tarnoklej_shifts one[POSITIONS], other[POSITIONS];
    LIBRARY.many_shifts(inputs[i].message, BYTES, (const int64_t(*)[2])positions[i], size, one);
    by->many_shifts(inputs[i].message, BYTES, (const int64_t(*)[2])positions[i], size, other);
    int same = 1;
    for (size_t j = 0; j < size; j++)
        same = same && same_parts(&one[j], &other[j]);
    return same;
}

static uint64_t run_one_shift(const baseline *by, size_t turn, size_t size)
{
    (void)size;
    size_t i = turn % MESSAGES;
    const int64_t *at = positions[i][turn % POSITIONS];
    shift given = by->one_shift(inputs[i].message, BYTES, (uint8_t)(turn % 3), at[0], at[1]);
    return given.refusal + (uint64_t)given.count;
}

static int same_one_shift(const baseline *by, size_t turn, size_t size)
{
    (void)size;
    size_t i = turn % MESSAGES;
    const int64_t *at = positions[i][turn % POSITIONS];
    shift one = LIBRARY.one_shift(inputs[i].message, BYTES, (uint8_t)(turn % 3), at[0], at[1]);
    shift other = by->one_shift(inputs[i].message, BYTES, (uint8_t)(turn % 3), at[0], at[1]);
    return one.refusal == other.refusal && one.count == other.count;
}

/* The owner of the message of a system identification number: by turns 1 and 2. */
static uint8_t owner_of(size_t sin)
{
    return (uint8_t)(1 + sin % 2);
}

/* A find of a turn. */
static tarnoklej_found found_by(find_call *find, size_t turn, size_t size)
{
    size_t sin = turn % size;
    return find(table, sizeof table, entries, sizeof entries, owner_of(sin), (uint8_t)sin, TARNOKLEJ_GRID);
}

/* Something of a whole answer. */
static uint64_t sum_of(tarnoklej_found found)
{
    return found.refusal + found.at + found.length + found.probes;
}

/* Whether two answers show the same part of the table. */
static int same_part(tarnoklej_found one, tarnoklej_found other)
{
    return one.refusal == other.refusal && one.at == other.at && one.length == other.length;
}

static uint64_t run_find(const baseline *by, size_t turn, size_t size)
{
    return sum_of(found_by(by->find, turn, size));
}

static int same_find(const baseline *by, size_t turn, size_t size)
{
    tarnoklej_found one = found_by(LIBRARY.find, turn, size), other = found_by(by->find, turn, size);
    return same_part(one, other) && one.probes == other.probes;
}

static uint64_t run_two_fields(const baseline *by, size_t turn, size_t size)
{
    return sum_of(found_by(by->find_two_fields, turn, size));
}

static int same_two_fields(const baseline *by, size_t turn, size_t size)
{
    tarnoklej_found one = found_by(LIBRARY.find, turn, size), other = found_by(by->find_two_fields, turn, size);
    return same_part(one, other) && one.probes == other.probes;
}

static uint64_t run_walk(const baseline *by, size_t turn, size_t size)
{
    return sum_of(found_by(by->find_by_walk, turn, size));
}

static int same_walk(const baseline *by, size_t turn, size_t size)
{
    return same_part(found_by(LIBRARY.find, turn, size), found_by(by->find_by_walk, turn, size));
}

/* The message that is stored in a turn: of each key in turn, and of another day than the one in the slot. */
static const uint8_t *stored_in(size_t turn, size_t size)
{
    return turn / size % 2 == 0 ? of_other_day[turn % size] : inputs[turn % size].message;
}

static uint64_t run_store(const baseline *by, size_t turn, size_t size)
{
    uint8_t owner = owner_of(turn % size);
    uint8_t refusal = by->store(table, sizeof table, entries, sizeof entries, owner, stored_in(turn, size), BYTES);
    return refusal + table[turn % sizeof table];
}

/* The store must also change the table. */
static int same_store(const baseline *by, size_t turn, size_t size)
{
    uint8_t before[TARNOKLEJ_TABLE_SIZE], other[TARNOKLEJ_TABLE_SIZE], other_entries[TARNOKLEJ_INDEX_SIZE];
    memcpy(before, table, sizeof table);
    memcpy(other, table, sizeof table);
    memcpy(other_entries, entries, sizeof entries);
    uint8_t owner = owner_of(turn % size);
    const uint8_t *message = stored_in(turn, size);
    uint8_t refusal = LIBRARY.store(table, sizeof table, entries, sizeof entries, owner, message, BYTES);
    return refusal == by->store(other, sizeof other, other_entries, sizeof other_entries, owner, message, BYTES) &&
           memcmp(table, other, sizeof table) == 0 && memcmp(entries, other_entries, sizeof entries) == 0 &&
           memcmp(table, before, sizeof table) != 0;
}

/* The calls on messages and on a table. */
static const call CALLS[] = {
    {"read, header of a 1023", run_read, same_read, 0, 1, TURNS_CHECKED, ON_MESSAGE},
    {"read_fields, row of a 1023", run_row, same_row, 0, 1, TURNS_CHECKED, ON_MESSAGE},
    {"write_fields, a 1023", run_write, same_write, 0, 1, TURNS_CHECKED, ON_MESSAGE},
    {"shifts from message bytes", run_shifts, same_shifts, 1, 1, TURNS_CHECKED, ON_MESSAGE},
    {"shifts from message bytes, C of one component", run_one_shift, same_one_shift, 0, 1, TURNS_CHECKED, ON_MESSAGE},
    {"shifts, each of 10 positions of a message", run_shifts, same_shifts, 10, 10, TURNS_CHECKED, ON_MESSAGE},
    {"shifts, each of 100 positions of a message", run_shifts, same_shifts, 100, 100, TURNS_CHECKED, ON_MESSAGE},
    {"find, 1 slot in use", run_find, same_find, 1, 1, TURNS_CHECKED, ON_TABLE},
    {"find, 8 slots in use", run_find, same_find, 8, 1, TURNS_CHECKED, ON_TABLE},
    {"find, 32 slots in use", run_find, same_find, 32, 1, TURNS_CHECKED, ON_TABLE},
    {"find, 32 slots in use, C of two fields", run_two_fields, same_two_fields, 32, 1, TURNS_CHECKED, ON_CHECKED_TABLE},
    {"find, 32 slots in use, C by a walk", run_walk, same_walk, 32, 1, TURNS_CHECKED, ON_CHECKED_TABLE},
    {"store (replaces), 1 slot in use", run_store, same_store, 1, 1, TURNS_CHECKED, ON_TABLE},
    {"store (replaces), 8 slots in use", run_store, same_store, 8, 1, TURNS_CHECKED, ON_TABLE},
    {"store (replaces), 32 slots in use", run_store, same_store, 32, 1, TURNS_CHECKED, ON_TABLE},
};

enum { CALLS_COUNT = sizeof CALLS / sizeof *CALLS, BEFORE_FRAMES = CALLS_COUNT + ROW_CALLS_COUNT };
enum { BEFORE_DATUM = BEFORE_FRAMES + FRAME_CALLS_COUNT, BEFORE_REPORTS = BEFORE_DATUM + DATUM_CALLS_COUNT };
enum { BEFORE_SAMPLES = BEFORE_REPORTS + REPORT_CALLS_COUNT, ALL_CALLS = BEFORE_SAMPLES + SAMPLE_CALLS_COUNT };

/* One of all calls. */
static const call *call_at(size_t i)
{
    if (i < CALLS_COUNT)
        return &CALLS[i];
    if (i < BEFORE_FRAMES)
        return &ROW_CALLS[i - CALLS_COUNT];
    if (i < BEFORE_DATUM)
        return &FRAME_CALLS[i - BEFORE_FRAMES];
    if (i < BEFORE_REPORTS)
        return &DATUM_CALLS[i - BEFORE_DATUM];
    return i < BEFORE_SAMPLES ? &REPORT_CALLS[i - BEFORE_REPORTS] : &SAMPLE_CALLS[i - BEFORE_SAMPLES];
}

/* By splitmix64. */
int64_t within(int64_t least, int64_t greatest)
{
    static uint64_t state = 1;
    uint64_t z = state += 0x9e3779b97f4a7c15u;
    z = (z ^ z >> 30) * 0xbf58476d1ce4e5b9u;
    z = (z ^ z >> 27) * 0x94d049bb133111ebu;
    return least + (int64_t)((z ^ z >> 31) % (uint64_t)(greatest - least + 1));
}

void stop(const char *what, const char *name)
{
    fprintf(stderr, "bench: %s: %s\n", name, what);
    exit(1);
}

/* Makes the row of one grid with all shifts on and all fields present. */
static void make_row(input *in, int sin)
{
    const int64_t first[] = {1023, sin, 1, 1, within(-640000, 640000), within(-1290000, 1290000), within(100, 4095),
                             within(100, 4095), within(-127, 127), within(-127, 127), within(-16383, 16383)};
    memset(in->values, 0, sizeof in->values);
    memset(in->present, 1, sizeof in->present);
    memcpy(in->values, first, sizeof first);
    for (int node = 0; node < 48; node++)
        in->values[11 + node] = within(-255, 255);
    in->values[61] = within(0, 7);
    in->values[62] = within(0, 7);
    in->values[63] = within(0, 65535);
}

/* Takes the value from about one in four of the signed fields, the two of the origin, the means and the nodes. */
static void take_values(input *in)
{
    for (int field = 4; field < 59; field++)
        if (field != 6 && field != 7 && within(0, 3) == 0) {
            in->values[field] = 0;
            in->present[field] = 0;
        }
}

/* Makes the message of a row. */
static void make_message(const input *in, uint8_t *message)
{
    if (tarnoklej_write_fields(in->values, ROW, in->present, ROW, message, BYTES).refusal != TARNOKLEJ_DONE)
        stop("a row was refused", "inputs");
}

/* Makes all messages and positions. */
static void make_inputs(void)
{
    for (int i = 0; i < MESSAGES; i++) {
        make_row(&inputs[i], i);
        make_message(&inputs[i], inputs[i].message);
        input other = inputs[i];
        other.values[63] ^= 1;
        make_message(&other, of_other_day[i]);
        for (int j = 0; j < POSITIONS; j++)
            for (int axis = 0; axis < 2; axis++) {
                int64_t reach = inputs[i].values[6 + axis] * 5000 / 2 * 3;
                positions[i][j][axis] = inputs[i].values[4 + axis] * 5000 + within(-reach, reach);
            }
    }
    for (int i = 0; i < MESSAGES; i++) {
        with_nones[i] = inputs[i];
        take_values(&with_nones[i]);
        make_message(&with_nones[i], with_nones[i].message);
    }
}

/* Fills the first slots of the table and its index, and stops where plain C comes to other bytes. */
static void fill_table(size_t slots)
{
    uint8_t other[TARNOKLEJ_TABLE_SIZE] = {0}, other_entries[TARNOKLEJ_INDEX_SIZE] = {0};
    memset(table, 0, sizeof table);
    memset(entries, 0, sizeof entries);
    for (size_t i = 0; i < slots; i++) {
        const uint8_t *message = inputs[i].message;
        uint8_t owner = owner_of(i);
        if (tarnoklej_store(table, sizeof table, entries, sizeof entries, owner, message, BYTES) != TARNOKLEJ_DONE ||
            ONE_LOAD.store(other, sizeof other, other_entries, sizeof other_entries, owner, message, BYTES) !=
                TARNOKLEJ_DONE)
            stop("a message was refused", "table");
    }
    if (memcmp(table, other, sizeof table) != 0 || memcmp(entries, other_entries, sizeof entries) != 0)
        stop("another table than the library's", "table");
}

/* Whether one of those timed has the calls on a subject. */
static int has(const baseline *by, subject on)
{
    switch (on) {
    case ON_ROWS:
        return by->shift_row != NULL;
    case ON_TABLE:
        return by->find != NULL;
    case ON_CHECKED_TABLE:
        return by->find_by_walk != NULL;
    case ON_FRAMES:
        return by->find_frame != NULL;
    case ON_DATUM:
        return by->datum_step != NULL;
    case ON_REPORTS:
        return by->report_points != NULL;
    case ON_SAMPLES:
        return by->check_samples != NULL;
    default:
        return by->read != NULL;
    }
}

/* Stops where one of those timed answers otherwise than the library, and sets no time yet. */
static void check_answers(const call *c, double *nanoseconds)
{
    for (int k = 0; k < TIMED; k++)
        nanoseconds[k] = HUGE_VAL;
    for (int k = 1; k < TIMED; k++)
        for (size_t turn = 0; has(ALL[k], c->on) && turn < c->checked; turn++)
            if (!c->same(ALL[k], turn, c->size))
                stop("another answer than the library's", c->name);
}

/* Seconds since some moment. */
static double now(void)
{
    struct timespec t;
    clock_gettime(CLOCK_MONOTONIC, &t);
    return (double)t.tv_sec + (double)t.tv_nsec * 1e-9;
}

/* What was summed up, so that no call is left out by the compiler. */
volatile uint64_t summed;

/* The seconds of a number of calls. */
static double seconds_of(const call *c, const baseline *by, size_t calls)
{
    uint64_t sum = 0;
    double start = now();
    for (size_t turn = 0; turn < calls; turn++)
        sum += c->run(by, turn, c->size);
    double seconds = now() - start;
    summed = sum;
    return seconds;
}

/* How many calls last long enough to be timed. */
static size_t calls_for_a_round(const call *c, const baseline *by)
{
    size_t calls = 16;
    while (seconds_of(c, by, calls) < SHORTEST_ROUND)
        calls *= 2;
    return calls;
}

/* Lowers the nanoseconds of one answer for each that is timed, where an interleaved round was faster. */
static void time_call(const call *c, double *nanoseconds)
{
    size_t calls[TIMED];
    for (int k = 0; k < TIMED; k++)
        calls[k] = has(ALL[k], c->on) ? calls_for_a_round(c, ALL[k]) : 0;
    for (int round = 0; round < ROUNDS; round++)
        for (int k = 0; k < TIMED; k++) {
            if (calls[k] == 0)
                continue;
            double each = seconds_of(c, ALL[k], calls[k]) / (double)(calls[k] * c->answers) * 1e9;
            if (each < nanoseconds[k])
                nanoseconds[k] = each;
        }
}

/* Prints the time of a baseline and the ratio, a small one with more places. */
static void print_beside(double nanoseconds, double ratio)
{
    printf(" %.1f | %.*f |", nanoseconds, ratio < 0.1 ? 4 : 2, ratio);
}

/* Prints the line of one call. */
static void print_line(const call *c, const double *nanoseconds)
{
    printf("| %s | %.0f | %.1f |", c->name, 1e9 / nanoseconds[0], nanoseconds[0]);
    for (int k = 1; k < TIMED; k++)
        if (has(ALL[k], c->on))
            print_beside(nanoseconds[k], nanoseconds[0] / nanoseconds[k]);
    printf("\n");
}

/* Prints the table of the calls on a subject, beside those that have them. */
static void print_table(subject on, double (*nanoseconds)[TIMED])
{
    printf("%s| call | library, per second | ns |", on == ON_MESSAGE ? "" : "\n");
    for (int k = 1; k < TIMED; k++)
        if (has(ALL[k], on))
            printf(" %s, ns | ratio |", ALL[k]->name);
    printf("\n|---|---:|---:|");
    for (int k = 1; k < TIMED; k++)
        if (has(ALL[k], on))
            printf("---:|---:|");
    printf("\n");
    for (size_t i = 0; i < ALL_CALLS; i++)
        if (call_at(i)->on == on)
            print_line(call_at(i), nanoseconds[i]);
}

/* Does something for every call, on a table of its slots where it needs one. */
static void for_all_calls(void (*work)(const call *c, double *nanoseconds), double (*nanoseconds)[TIMED])
{
    for (size_t i = 0; i < ALL_CALLS; i++) {
        if (call_at(i)->on == ON_TABLE || call_at(i)->on == ON_CHECKED_TABLE)
            fill_table(call_at(i)->size);
        work(call_at(i), nanoseconds[i]);
    }
}

int main(void)
{
    static double nanoseconds[ALL_CALLS][TIMED];
    make_inputs();
    make_rows();
    make_frames();
    make_datum();
    make_reports();
    make_samples();
    for_all_calls(check_answers, nanoseconds);
    for (int pass = 0; pass < PASSES; pass++)
        for_all_calls(time_call, nanoseconds);
    for (subject on = ON_MESSAGE; on < SUBJECTS; on++)
        print_table(on, nanoseconds);
    return 0;
}
