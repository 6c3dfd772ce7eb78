/* A table of messages 1023 and its index, both trusted: a slot is looked up in the index and not read. */
#include "baseline.h"
#include "entries.h"

/* The first free slot, or -1 where there is none or the owner holds the most. */
static int free_slot(const uint8_t *table, uint8_t owner)
{
    int first = -1, held = 0;
    for (int slot = TARNOKLEJ_SLOTS - 1; slot >= 0; slot--) {
        uint8_t holder = table[slot * TARNOKLEJ_SLOT_SIZE];
        held += holder == owner;
        if (holder == 0)
            first = slot;
    }
    return held < TARNOKLEJ_OWNER_SLOTS ? first : -1;
}

/* Stores a message in a table whose index is taken to agree with it. */
static uint8_t store(uint8_t *table, size_t size, uint8_t *index, size_t index_size, uint8_t owner,
                     const uint8_t *message, size_t length)
{
    (void)size;
    (void)index_size;
    int key = key_of(owner, (uint8_t)(message[1] << 4 | message[2] >> 4), TARNOKLEJ_GRID);
    searched at = search(index, key);
    int slot = at.there ? index[at.place * ENTRY_SIZE + 3] : free_slot(table, owner);
    if (slot < 0)
        return TARNOKLEJ_FULL;
    fill_slot(table, slot, owner, message, length);
    if (!at.there)
        insert_entry(index, at.place, key, slot);
    return TARNOKLEJ_DONE;
}

/* Finds a message in a table whose index is taken to agree with it. */
static tarnoklej_found find(const uint8_t *table, size_t size, const uint8_t *index, size_t index_size, uint8_t owner,
                            uint8_t sin, uint8_t group)
{
    (void)size;
    (void)index_size;
    searched at = search(index, key_of(owner, sin, group));
    return at.there ? found_in(table, index[at.place * ENTRY_SIZE + 3], at.probes) : not_found(TARNOKLEJ_NONE);
}

const baseline UNCHECKED = {.name = "unchecked table", .store = store, .find = find};
