/* One write of a plan in C: checks 1 and 2, the progress, whether the write fits, and the write.
   A step that declines or is finished changes nothing. */
#include "table.h"

typedef struct progress_record {
    uint32_t done;
    uint32_t total;
} progress_record;

static bool stands_elsewhere(const uint64_t *table, size_t slots, size_t slot)
{
    uint32_t id = id_of(table + slot * WORDS);
    for (size_t other = 0; other < slots; other++)
        if (id_of(table + other * WORDS) == id && other != slot)
            return true;
    return false;
}

/* The slot exists, and is empty or its id stands in another slot too. */
static bool is_free(const uint64_t *table, size_t slots, size_t slot)
{
    return slot < slots && (is_empty(table + slot * WORDS) || stands_elsewhere(table, slots, slot));
}

static bool is_occupied(const uint64_t *table, size_t slots, size_t slot)
{
    return slot < slots && !is_empty(table + slot * WORDS);
}

/* The slot exists, and holds a rule of the new one's rank, value and mask. */
static bool is_replaced(const uint64_t *table, size_t slots, size_t slot, const uint64_t *new)
{
    return slot < slots && is_equal(table + slot * WORDS, new);
}

static bool fits(const uint64_t *table, size_t slots, size_t from, size_t to, const uint64_t *new)
{
    if (from == PUT_IN)
        return is_replaced(table, slots, to, new) || is_free(table, slots, to);
    if (from == EMPTYING)
        return is_occupied(table, slots, to);
    return from != to && is_occupied(table, slots, from) && is_free(table, slots, to);
}

static uint64_t refusal(uint32_t number, uint32_t spot)
{
    return (uint64_t)spot << 32 | number;
}

uint64_t CALL(carry_out)(uint64_t *table, size_t words, const uint64_t *rule, size_t rule_words, uint32_t edition,
                         const uint32_t *plan, size_t plan_words, progress_record *progress)
{
    static const uint64_t vacant[WORDS] = {0};
    uint64_t new[WORDS];
    check slots_check = rule_words == WORDS ? check_slots(table, words) : fail(SHAPE, 0);
    if (slots_check.number != OK)
        return refusal(slots_check.number, slots_check.spot);
    if (progress->done > progress->total || progress->total > plan_words)
        return refusal(WRITE, progress->done);
    if (progress->done == progress->total)
        return 0xFFFFFFFF;
    size_t from = plan[progress->done] >> 16, to = plan[progress->done] & 0xFFFF;
    check given = from == PUT_IN ? check_given(rule, edition, new) : pass();
    if (given.number != OK)
        return refusal(given.number, given.spot);
    if (!fits(table, words / WORDS, from, to, new))
        return refusal(WRITE, progress->done);
    const uint64_t *record = from == PUT_IN ? new : from == EMPTYING ? vacant : table + from * WORDS;
    memcpy(table + to * WORDS, record, WORDS * sizeof *record);
    progress->done++;
    return 0;
}
