/* Checks 3 and 4 of a table, which compare slots in pairs, and its neighbour list, which comes with check 4. */
#ifndef SPEED_CHECKS_H
#define SPEED_CHECKS_H

#include "neighbour_lists.h"

static inline bool stands_in(const uint32_t *ids, size_t count, uint32_t id)
{
    uint32_t found = 0;
    for (size_t earlier = 0; earlier < count; earlier++)
        found |= ids[earlier] == id;
    return found != 0;
}

/* Check 3, of records that are empty or sound: an id of 0 is an empty slot's. The column of ids is asked where an earlier id has
   the same last 13 bits. */
static inline check check_twice(const uint64_t *table, size_t slots)
{
    uint32_t ids[SLOTS_MOST];
    uint64_t seen[128] = {0};
    for (size_t slot = 0; slot < slots; slot++) {
        uint32_t id = id_of(table + slot * WORDS), place = id % 8192;
        ids[slot] = id;
        if ((seen[place / 64] >> place % 64 & 1) == 1 && id != 0 && stands_in(ids, slot, id))
            return fail(TWICE, slot);
        seen[place / 64] |= (uint64_t)1 << place % 64;
    }
    return pass();
}

/* Check 4; where it passes, the table's neighbour list is in the front of the lent one. */
static inline check check_order(const uint64_t *table, size_t slots, bool uncounted, uint16_t *near)
{
    size_t first = fill_near(table, slots, uncounted, near);
    return first < slots ? fail(ORDER, first) : pass();
}

/* Checks 3 and 4, with the list. */
static inline check check_pairs(const uint64_t *table, size_t slots, bool uncounted, uint16_t *near)
{
    check twice = check_twice(table, slots);
    return twice.number != OK ? twice : check_order(table, slots, uncounted, near);
}

/* Checks 1 to 4, with the list. */
static inline check check_listed(const uint64_t *table, size_t words, bool uncounted, uint16_t *near)
{
    check records = check_slots(table, words);
    return records.number != OK ? records : check_pairs(table, words / WORDS, uncounted, near);
}

/* Checks 1 to 4. */
static inline check check_table(const uint64_t *table, size_t words, bool uncounted)
{
    uint16_t near[NEAR_MOST];
    return check_listed(table, words, uncounted, near);
}

#endif
