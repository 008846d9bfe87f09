/* The neighbour list of a table, and check 4, in one pass over the pairs of its rules: slot after slot is asked against the
   earlier ones, in blocks of 64 going down, the highest slot of a block first, and noted for the later ones. */
#ifndef SPEED_NEIGHBOUR_LISTS_H
#define SPEED_NEIGHBOUR_LISTS_H

#include "bitmaps.h"

/* Below MAPS_FROM slots no maps are used. */
enum { NONE = 65535, MAPS_FROM = 160, BLOCKS = 16 };

/* near[2 i] is the nearest slot after slot i whose rule depends on its, near[2 i + 1] the nearest before it whose rule precedes
   its; NONE where there is none. */
enum { NEAR_MOST = 2 * SLOTS_MOST };

/* full: the rules before a slot; free: those of them without a dependant yet; low: for each block a number that no rank of its
   rules is below. Beside them whether the table is uncounted. */
typedef struct marks {
    uint64_t full[BLOCKS];
    uint64_t free[BLOCKS];
    uint64_t low[BLOCKS];
    bool uncounted;
} marks;

/* The slots of a block that are to be asked. Once the later slot has its preceding rule, a block of higher ranks has nothing to
   tell but to the rules that have no dependant. */
static inline uint64_t needed(const uint16_t *near, const marks *noted, size_t block, size_t later, uint64_t rank)
{
    return near[2 * later + 1] == NONE || noted->low[block] <= rank ? noted->full[block] : noted->free[block];
}

/* A pair whose first rule precedes the second: each number is kept where there was none. */
static inline void keep_pair(uint16_t *near, marks *noted, size_t slot, size_t later)
{
    if (near[2 * slot] == NONE) {
        near[2 * slot] = (uint16_t)later;
        noted->free[slot / 64] &= ~((uint64_t)1 << slot % 64);
    }
    if (near[2 * later + 1] == NONE)
        near[2 * later + 1] = (uint16_t)slot;
}

/* One pair asked: its numbers are kept, and whether it is out of order is told. */
static inline bool ask_pair(const uint64_t *table, uint16_t *near, marks *noted, size_t slot, size_t later)
{
    const uint64_t *first = table + slot * WORDS, *second = table + later * WORDS;
    if (!rules_overlap(first, second, noted->uncounted))
        return false;
    if (first[RANK] <= second[RANK])
        return true;
    keep_pair(near, noted, slot, later);
    return false;
}

/* Whether a pair need not be asked: both slots have their numbers and the ranks fall, or the patterns do not overlap. */
static inline bool quiet(const uint64_t *table, const uint16_t *near, size_t slot, size_t later)
{
    const uint64_t *first = table + slot * WORDS, *second = table + later * WORDS;
    bool settled = near[2 * later + 1] != NONE && first[RANK] > second[RANK] && near[2 * slot] != NONE;
    return settled || !overlap(first, second);
}

/* The bits of a block left once quiet pairs are dropped, from the highest on, up to the first that is to be asked. */
static inline uint64_t skip_quiet(const uint64_t *table, const uint16_t *near, size_t block, uint64_t some, size_t later)
{
    uint64_t left = some;
    while (left != 0) {
        size_t top = 63 - (size_t)__builtin_clzll(left);
        if (!quiet(table, near, 64 * block + top, later))
            return left;
        left -= (uint64_t)1 << top;
    }
    return 0;
}

/* The slots of a block whose bits are left, asked from the highest on; whether a pair is out of order. */
static inline bool ask_block(const uint64_t *table, uint16_t *near, marks *noted, size_t block, uint64_t some, size_t later)
{
    uint64_t left = some, rank = table[later * WORDS + RANK];
    bool bad = false;
    while (left != 0) {
        size_t top = 63 - (size_t)__builtin_clzll(left);
        bad |= ask_pair(table, near, noted, 64 * block + top, later);
        left = (left - ((uint64_t)1 << top)) & needed(near, noted, block, later, rank);
        left = skip_quiet(table, near, block, left, later);
    }
    return bad;
}

/* A slot against all earlier ones, those not asked that need not be or that the maps tell apart. */
static inline bool ask_row(const uint64_t *table, uint16_t *near, marks *noted, const uint64_t *maps, const size_t *rows,
                           size_t used, size_t later)
{
    bool bad = false;
    for (size_t block = later / 64 + 1; block-- > 0;) {
        uint64_t some = needed(near, noted, block, later, table[later * WORDS + RANK]);
        if (some != 0)
            bad |= ask_block(table, near, noted, block, some & ~apart_in(maps, rows, used, block), later);
    }
    return bad;
}

static inline void note_rule(marks *noted, size_t slot, uint64_t rank)
{
    noted->full[slot / 64] |= (uint64_t)1 << slot % 64;
    noted->free[slot / 64] |= (uint64_t)1 << slot % 64;
    if (rank < noted->low[slot / 64])
        noted->low[slot / 64] = rank;
}

static size_t pass_with(const uint64_t *table, size_t slots, bool uncounted, uint16_t *near, uint64_t *maps, const spread *picked)
{
    marks noted = {{0}, {0}, {0}, uncounted};
    size_t others[PLACES_MOST], own[PLACES_MOST], first = 0;
    for (size_t block = 0; block < BLOCKS; block++)
        noted.low[block] = EXACT_RANK;
    for (size_t slot = 0; slot < slots; slot++) {
        const uint64_t *record = table + slot * WORDS;
        bool bad = false;
        near[2 * slot] = near[2 * slot + 1] = NONE;
        if (id_of(record) != 0) {
            size_t used = fill_rows(record, picked, others, own);
            bad = ask_row(table, near, &noted, maps, others, used, slot);
            note_rows(maps, own, used, slot);
            note_rule(&noted, slot, record[RANK]);
        }
        first += first == slot && !bad;
    }
    return first;
}

static inline size_t pass_screened(const uint64_t *table, size_t slots, bool uncounted, uint16_t *near)
{
    size_t places[PLACES_MOST];
    size_t count = choose_places(table, slots, places);
    spread picked = spread_places(places, count);
    /* large maps cost more to clear than they save where few places are chosen */
    if (count <= PLACES_FEW) {
        uint64_t few[PLACE_WORDS * PLACES_FEW] = {0};
        return pass_with(table, slots, uncounted, near, few, &picked);
    }
    uint64_t maps[PLACE_WORDS * PLACES_MOST] = {0};
    return pass_with(table, slots, uncounted, near, maps, &picked);
}

static inline size_t pass_plain(const uint64_t *table, size_t slots, bool uncounted, uint16_t *near)
{
    static const spread no_places;
    uint64_t maps[BLOCKS] = {0};
    return pass_with(table, slots, uncounted, near, maps, &no_places);
}

/* The neighbour list of a table, into the front of a lent list; the lowest slot that is out of order, or the number of slots. */
static inline size_t fill_near(const uint64_t *table, size_t slots, bool uncounted, uint16_t *near)
{
    return slots < MAPS_FROM ? pass_plain(table, slots, uncounted, near) : pass_screened(table, slots, uncounted, near);
}

#endif
