/* Checks 1 and 2 of a table and the tests of one record or two, for the C version of the library's algorithms.
   Everything is static, so that each file of calls has the loops inlined. After check 2 an id of 0 tells an empty slot.
   The files of calls are compiled once for each width, a constant WIDTH; CALL names a call at that width. */
#ifndef SPEED_TABLE_H
#define SPEED_TABLE_H

#include <stdbool.h>
#include <stddef.h>
#include <stdint.h>
#include <string.h>

#define PASTED(width, name) width_##width##_##name
#define AT(width, name) PASTED(width, name)
#define CALL(name) AT(WIDTH, name)

/* A record is WIDTH words of value and as many of mask, the word of id and action, and the rank; of a rule that is given the last
   word is its priority. */
enum { WORDS = 2 * WIDTH + 2, OWNER = 2 * WIDTH, RANK = 2 * WIDTH + 1 };

enum { SLOTS_MOST = 1024, PRIORITY_MOST = 65535, EXACT_RANK = 65536, PUT_IN = 65535, EMPTYING = 65534, NO_SLOT = 65535 };

enum { EDITION_10 = 10, EDITION_13 = 13 };

enum { OK, SHAPE, RECORD, TWICE, ORDER, RULE, KNOWN, UNKNOWN, TIE, FULL, CROSSED, SHORT, WRITE, LINE, IMAGE, EDITION = 18 };

/* A number, 0 for a pass, and a spot. */
typedef struct check {
    uint32_t number;
    uint32_t spot;
} check;

static inline check pass(void)
{
    return (check){OK, 0};
}

static inline check fail(uint32_t number, size_t spot)
{
    return (check){number, (uint32_t)spot};
}

static inline bool is_empty(const uint64_t *record)
{
    uint64_t some = 0;
    for (size_t word = 0; word < WORDS; word++)
        some |= record[word];
    return some == 0;
}

static inline uint32_t id_of(const uint64_t *record)
{
    return (uint32_t)(record[OWNER] >> 32);
}

static inline bool is_within(const uint64_t *record)
{
    for (size_t word = 0; word < WIDTH; word++)
        if ((record[word] & ~record[WIDTH + word]) != 0)
            return false;
    return true;
}

/* Whether every mask bit is set. */
static inline bool is_exact(const uint64_t *record)
{
    for (size_t word = 0; word < WIDTH; word++)
        if (record[WIDTH + word] != UINT64_MAX)
            return false;
    return true;
}

/* Whether a record's rank and pattern are a rule's: the rank is a priority, or the one above all priorities that only a rule
   without wildcards may have. Of most records the first comparison tells. */
static inline bool rest_is_sound(const uint64_t *record)
{
    if (record[RANK] > PRIORITY_MOST && !(record[RANK] == EXACT_RANK && is_exact(record)))
        return false;
    return is_within(record);
}

static inline bool is_sound(const uint64_t *record)
{
    return id_of(record) != 0 && rest_is_sound(record);
}

static inline bool is_sound_given(const uint64_t *rule)
{
    return id_of(rule) != 0 && rule[RANK] <= PRIORITY_MOST && is_within(rule);
}

/* Whether a record is empty or sound. */
static inline bool is_fit(const uint64_t *record)
{
    return id_of(record) != 0 ? rest_is_sound(record) : is_empty(record);
}

static inline bool word_matches(const uint64_t *record, const uint64_t *key, size_t word)
{
    return ((key[word] ^ record[word]) & record[WIDTH + word]) == 0;
}

/* Of most records the first two words of a key tell, of an empty one its id: the further words are asked last. */
static inline bool matches(const uint64_t *record, const uint64_t *key)
{
    if (!word_matches(record, key, 0) || !word_matches(record, key, 1) || id_of(record) == 0)
        return false;
    for (size_t word = 2; word < WIDTH; word++)
        if (!word_matches(record, key, word))
            return false;
    return true;
}

static inline bool overlap(const uint64_t *first, const uint64_t *second)
{
    for (size_t word = 0; word < WIDTH; word++)
        if (((first[word] ^ second[word]) & first[WIDTH + word] & second[WIDTH + word]) != 0)
            return false;
    return true;
}

static inline bool same_action(const uint64_t *first, const uint64_t *second)
{
    return (uint32_t)first[OWNER] == (uint32_t)second[OWNER];
}

static inline bool distinct(const uint64_t *first, const uint64_t *second, bool uncounted)
{
    bool are_two = id_of(first) != 0 && id_of(second) != 0 && id_of(first) != id_of(second);
    return are_two && !(uncounted && same_action(first, second));
}

/* Whether the records hold two rules of different ids that overlap, in an uncounted table of different actions too; patterns tell
   most pairs apart. */
static inline bool rules_overlap(const uint64_t *first, const uint64_t *second, bool uncounted)
{
    return overlap(first, second) && distinct(first, second, uncounted);
}

static inline bool tied(const uint64_t *first, const uint64_t *second, bool uncounted)
{
    return first[RANK] == second[RANK] && overlap(first, second) && distinct(first, second, uncounted);
}

static inline bool precedes(const uint64_t *first, const uint64_t *second, bool uncounted)
{
    return first[RANK] > second[RANK] && overlap(first, second) && distinct(first, second, uncounted);
}

/* Whether the first's mask has no bit outside the second's. */
static inline bool mask_is_within(const uint64_t *first, const uint64_t *second)
{
    for (size_t word = WIDTH; word < 2 * WIDTH; word++)
        if ((first[word] & ~second[word]) != 0)
            return false;
    return true;
}

/* Whether a record holds a rule of a higher rank that covers the new one: the two overlap, and it cares for no bit but those of
   the new one. The masks are asked first: they tell most rules that overlap. An empty slot's rank is above none. */
static inline bool obscures(const uint64_t *record, const uint64_t *new)
{
    return record[RANK] > new[RANK] && mask_is_within(record, new) && overlap(record, new);
}

/* Whether a record holds a rule of the new one's rank, value and mask; of most records the rank tells. */
static inline bool is_equal(const uint64_t *record, const uint64_t *new)
{
    if (record[RANK] != new[RANK])
        return false;
    for (size_t word = 0; word < 2 * WIDTH; word++)
        if (record[word] != new[word])
            return false;
    return id_of(record) != 0;
}

/* Checks 5 and 18 of a rule that is given; where they pass, its record with its rank is in the lent one. */
static inline check check_given(const uint64_t *rule, uint32_t edition, uint64_t *ranked)
{
    if (!is_sound_given(rule))
        return fail(RULE, 0);
    if (edition != EDITION_10 && edition != EDITION_13)
        return fail(EDITION, 0);
    memcpy(ranked, rule, WORDS * sizeof *ranked);
    if (edition == EDITION_10 && is_exact(rule))
        ranked[RANK] = EXACT_RANK;
    return pass();
}

static inline check check_shape(size_t words)
{
    size_t slots = words / WORDS;
    return words % WORDS == 0 && slots >= 1 && slots <= SLOTS_MOST ? pass() : fail(SHAPE, 0);
}

/* Checks 1 and 2. */
static inline check check_slots(const uint64_t *table, size_t words)
{
    check shape = check_shape(words);
    if (shape.number != OK)
        return shape;
    size_t slots = words / WORDS;
    for (size_t slot = 0; slot < slots; slot++) {
        if (!is_fit(table + slot * WORDS))
            return fail(RECORD, slot);
    }
    return pass();
}

/* The slot of an id that is not 0, in a table whose records are empty or sound; else the number of slots. */
static inline size_t slot_of_id(const uint64_t *table, size_t slots, uint32_t id)
{
    size_t slot = 0;
    while (slot < slots && id_of(table + slot * WORDS) != id)
        slot++;
    return slot;
}

#endif
