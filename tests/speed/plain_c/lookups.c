/* Lookup, and the part of the table that is a slot's record, in C: checks 1 and 2, then one pass or one slot.
   The pass asks four records a step, and ends at the first of the four that match. */
#include "table.h"

/* How many records from the first on are passed over, four at a time. */
static size_t unmatched(const uint64_t *table, size_t slots, const uint64_t *key)
{
    size_t slot = 0;
    for (; slot + 3 < slots; slot += 4) {
        const uint64_t *four = table + slot * WORDS;
        if (matches(four, key) || matches(four + WORDS, key) || matches(four + 2 * WORDS, key) || matches(four + 3 * WORDS, key))
            break;
    }
    return slot;
}

uint32_t CALL(lookup)(const uint64_t *table, size_t words, const uint64_t *lent_key, size_t key_words, uint32_t *slot,
                      uint32_t *id, uint32_t *action, uint32_t *spot)
{
    check slots_check = key_words == WIDTH ? check_slots(table, words) : fail(SHAPE, 0);
    if (slots_check.number != OK) {
        *spot = slots_check.spot;
        return slots_check.number;
    }
    uint64_t key[WIDTH];
    memcpy(key, lent_key, sizeof key);
    size_t slots = words / WORDS;
    size_t hit = unmatched(table, slots, key);
    while (hit < slots && !matches(table + hit * WORDS, key))
        hit++;
    bool found = hit < slots;
    *slot = found ? (uint32_t)hit : 0;
    *id = found ? id_of(table + hit * WORDS) : 0;
    *action = found ? (uint32_t)table[hit * WORDS + OWNER] : 0;
    return OK;
}

uint32_t CALL(slot_record)(const uint64_t *table, size_t words, uint32_t slot, uint32_t *first)
{
    if (check_slots(table, words).number != OK || slot >= words / WORDS || is_empty(table + (size_t)slot * WORDS)) {
        *first = 0;
        return 0;
    }
    *first = slot * WORDS;
    return WORDS;
}
