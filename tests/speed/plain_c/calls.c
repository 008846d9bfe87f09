/* The C version's calls: each chooses the copy at the width given. Another width is refused.
   The other files are compiled once for each width; these are their calls. */
#include <stddef.h>
#include <stdint.h>

typedef struct progress_record progress_record;

enum { SHAPE = 1 };

#define DECLARE_AT(width)                                                                                                      \
    uint32_t width_##width##_lookup(const uint64_t *, size_t, const uint64_t *, size_t, uint32_t *, uint32_t *, uint32_t *,    \
                                    uint32_t *);                                                                               \
    uint32_t width_##width##_slot_record(const uint64_t *, size_t, uint32_t, uint32_t *);                                      \
    uint32_t width_##width##_plan_insert(const uint64_t *, size_t, uint32_t, const uint64_t *, size_t, uint32_t, uint32_t *,   \
                                         size_t, uint32_t *, uint32_t *, uint32_t *);                                          \
    uint32_t width_##width##_plan_delete(const uint64_t *, size_t, uint32_t, uint32_t, uint32_t *, size_t, uint32_t *,         \
                                         uint32_t *);                                                                          \
    uint64_t width_##width##_carry_out(uint64_t *, size_t, const uint64_t *, size_t, uint32_t, const uint32_t *, size_t,       \
                                       progress_record *);                                                                     \
    uint32_t width_##width##_save(const uint64_t *, size_t, uint32_t, uint8_t *, size_t, uint32_t *, uint32_t *);              \
    uint32_t width_##width##_load(const uint8_t *, size_t, uint64_t *, size_t, uint32_t, uint32_t *)

DECLARE_AT(2);
DECLARE_AT(5);

/* The call at the width given, or the answer to another width. */
#define AT_WIDTH(call, otherwise, ...)                                                                                         \
    (width == 2 ? width_2_##call(__VA_ARGS__) : width == 5 ? width_5_##call(__VA_ARGS__) : (otherwise))

static uint32_t refuse_width(uint32_t *spot)
{
    *spot = 0;
    return SHAPE;
}

static uint32_t no_part(uint32_t *first)
{
    *first = 0;
    return 0;
}

uint32_t c_lookup(const uint64_t *table, size_t words, uint32_t width, const uint64_t *key, size_t key_words, uint32_t *slot,
                  uint32_t *id, uint32_t *action, uint32_t *spot)
{
    return AT_WIDTH(lookup, refuse_width(spot), table, words, key, key_words, slot, id, action, spot);
}

uint32_t c_slot_record(const uint64_t *table, size_t words, uint32_t width, uint32_t slot, uint32_t *first)
{
    return AT_WIDTH(slot_record, no_part(first), table, words, slot, first);
}

uint32_t c_plan_insert(const uint64_t *table, size_t words, uint32_t width, uint32_t uncounted, const uint64_t *rule,
                       size_t rule_words, uint32_t edition, uint32_t *plan, size_t plan_words, uint32_t *count,
                       uint32_t *covered, uint32_t *spot)
{
    return AT_WIDTH(plan_insert, refuse_width(spot), table, words, uncounted, rule, rule_words, edition, plan, plan_words, count,
                    covered, spot);
}

uint32_t c_plan_delete(const uint64_t *table, size_t words, uint32_t width, uint32_t uncounted, uint32_t id, uint32_t *plan,
                       size_t plan_words, uint32_t *count, uint32_t *spot)
{
    return AT_WIDTH(plan_delete, refuse_width(spot), table, words, uncounted, id, plan, plan_words, count, spot);
}

uint64_t c_carry_out(uint64_t *table, size_t words, uint32_t width, const uint64_t *rule, size_t rule_words, uint32_t edition,
                     const uint32_t *plan, size_t plan_words, progress_record *progress)
{
    return AT_WIDTH(carry_out, SHAPE, table, words, rule, rule_words, edition, plan, plan_words, progress);
}

uint32_t c_save(const uint64_t *table, size_t words, uint32_t width, uint32_t uncounted, uint8_t *image, size_t image_bytes,
                uint32_t *bytes, uint32_t *spot)
{
    return AT_WIDTH(save, refuse_width(spot), table, words, uncounted, image, image_bytes, bytes, spot);
}

uint32_t c_load(const uint8_t *image, size_t image_bytes, uint64_t *table, size_t words, uint32_t width, uint32_t uncounted,
                uint32_t *spot)
{
    return AT_WIDTH(load, refuse_width(spot), image, image_bytes, table, words, uncounted, spot);
}
