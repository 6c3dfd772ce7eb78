/* The calls on a table: a history of two owners' stores and removals goes on, and each input is what it came to, damaged once in
 * three times.
 */
#include "calls.h"
#include "rows.h"

static uint8_t kept_table[TARNOKLEJ_TABLE_SIZE], kept_index[TARNOKLEJ_INDEX_SIZE];
static uint64_t steps;

void start_table(void)
{
    steps = 0;
    for (size_t i = 0; i < sizeof kept_table; i++)
        kept_table[i] = 0;
    for (size_t i = 0; i < sizeof kept_index; i++)
        kept_index[i] = 0;
}

static uint8_t make_owner(void) { return (uint8_t)(one_in(30) ? bits() : 1 + below(2)); }
static uint8_t make_sin(void) { return (uint8_t)below(14); }
static uint8_t make_group(void) { return (uint8_t)(one_in(30) ? bits() : below(3)); }

/* Makes a message for a table, mostly sound and of few system identification numbers. */
static size_t make_stored(void)
{
    make_any_row();
    set_value(values[0] <= 1022 ? row_count - fields_of(values[0]).count : 1, make_sin());
    size_t length = write_row();
    return one_in(10) ? damage_message(length) : length;
}

/* One step of the history: for 300 steps mostly stores, then for as many mostly removals. */
static void go_on(void)
{
    steps++;
    int filling = steps / 300 % 2 == 0;
    uint8_t owner = (uint8_t)(one_in(3) ? 1 + below(2) : 1 + steps / 150 % 2);
    if (one_in(8) ? !filling : filling) {
        size_t length = make_stored();
        (void)tarnoklej_store(kept_table, sizeof kept_table, kept_index, sizeof kept_index, owner, message, length);
    } else {
        uint8_t sin = make_sin();
        uint8_t group = make_group();
        (void)tarnoklej_remove(kept_table, sizeof kept_table, kept_index, sizeof kept_index, owner, sin, group);
    }
}

/* Damages the table, the index or the sizes that are given with them, in one of twelve ways. */
static void damage_table(size_t *size, size_t *index_size)
{
    size_t slot = TARNOKLEJ_SLOT_SIZE * below(TARNOKLEJ_SLOTS), other = TARNOKLEJ_SLOT_SIZE * below(TARNOKLEJ_SLOTS);
    size_t entry = 4 * below(TARNOKLEJ_SLOTS), at;
    switch (below(12)) {
    case 0: *size = one_in(2) ? TARNOKLEJ_TABLE_SIZE - 1 - below(3) : below(TARNOKLEJ_TABLE_SIZE); break;
    case 1: *index_size = one_in(2) ? TARNOKLEJ_INDEX_SIZE - 1 - below(3) : below(TARNOKLEJ_INDEX_SIZE); break;
    case 2: at = below(TARNOKLEJ_TABLE_SIZE), table[at] ^= (uint8_t)(1 << below(8)); break;
    case 3: table[slot] = (uint8_t)below(4); break;
    case 4: table[slot + 1] ^= (uint8_t)(1 << below(8)); break;
    case 5: copy(table + slot, table + other, slot == other ? 0 : TARNOKLEJ_SLOT_SIZE); break;
    case 6: table[slot + TARNOKLEJ_SLOT_SIZE - 1 - below(3)] ^= 1; break;
    case 7: at = entry + below(4), table_index[at] ^= (uint8_t)(1 << below(8)); break;
    case 8: table_index[entry + 3] = (uint8_t)below(40); break;
    case 9: fill(table_index, TARNOKLEJ_INDEX_SIZE); break;
    case 10:
        for (at = 0; at < TARNOKLEJ_INDEX_SIZE; at++)
            table_index[at] = 0;
        break;
    default:
        for (at = 0; at < TARNOKLEJ_SLOT_SIZE; at++)
            table[slot + at] = 0;
    }
}

/* Takes the history's table and index as the input, and gives the sizes to be given. */
static void take_table(size_t *size, size_t *index_size)
{
    go_on();
    copy(table, kept_table, TARNOKLEJ_TABLE_SIZE);
    copy(table_index, kept_index, TARNOKLEJ_INDEX_SIZE);
    *size = TARNOKLEJ_TABLE_SIZE, *index_size = TARNOKLEJ_INDEX_SIZE;
    if (one_in(3))
        damage_table(size, index_size);
}

static void add_table(void) { add_bytes(table, TARNOKLEJ_TABLE_SIZE), add_bytes(table_index, TARNOKLEJ_INDEX_SIZE); }

void replay_index_agrees(void)
{
    size_t size, index_size;
    take_table(&size, &index_size);
    add_refusal(tarnoklej_index_agrees(table, size, table_index, index_size));
    add_table();
}

void replay_index_write(void)
{
    size_t size, index_size;
    take_table(&size, &index_size);
    add_refusal(tarnoklej_index_write(table, size, table_index, index_size));
    add_table();
}

void replay_store(void)
{
    size_t size, index_size;
    take_table(&size, &index_size);
    uint8_t owner = make_owner();
    size_t length = make_stored();
    add_refusal(tarnoklej_store(table, size, table_index, index_size, owner, message, length));
    add_table(), add_bytes(message, length);
}

void replay_find(void)
{
    size_t size, index_size;
    take_table(&size, &index_size);
    uint8_t owner = make_owner();
    uint8_t sin = make_sin();
    uint8_t group = make_group();
    add_found(tarnoklej_find(table, size, table_index, index_size, owner, sin, group));
    add_table();
}

void replay_remove(void)
{
    size_t size, index_size;
    take_table(&size, &index_size);
    uint8_t owner = make_owner();
    uint8_t sin = make_sin();
    uint8_t group = make_group();
    add_refusal(tarnoklej_remove(table, size, table_index, index_size, owner, sin, group));
    add_table();
}
