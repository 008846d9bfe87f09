/*
 * Looks up keys and reads slot records as firmware would, at each width, and checks every answer: first cases whose answers
 * are written here, then random tables, whose answers come from a reference that goes bit by bit.
 *
 *     lookup_test [seed [tables]]
 */
#define _DEFAULT_SOURCE /* for mmap without a file */
#include "testing.h"

/* ---- The reference: bit by bit, in the words of the rules for tables ---- */

/* What a lookup answers: a refusal's number and spot; or 0 and the data, which is 0 for a miss. */
struct told {
    uint32_t number, spot, slot, id, action;
};

#define HIT(slot, id, action) ((struct told){TCAM_OK, 0, (slot), (id), (action)})
#define MISS ((struct told){TCAM_OK, 0, 0, 0, 0})
#define REFUSED(number, spot) ((struct told){(number), (spot), 0, 0, 0})

/* One of the bits of some words, the highest bit of the first word being bit 0. */
static int bit_of(const uint64_t *some, uint32_t index)
{
    return (int)(some[index / 64] >> (63 - index % 64) & 1);
}

static int ref_matches(const uint64_t *record, const uint64_t *key)
{
    const uint64_t *value = record, *mask = record + width;
    if (is_empty(record))
        return 0;
    for (uint32_t index = 0; index < 64 * width; index++)
        if (bit_of(mask, index) == 1 && bit_of(key, index) != bit_of(value, index))
            return 0;
    return 1;
}

static struct told ref_lookup(const uint64_t *table, size_t words, const uint64_t *key)
{
    uint32_t spot, number = table_fault(table, words, 2, &spot);
    if (number != 0)
        return REFUSED(number, spot);
    for (uint32_t slot = 0; slot < slots_of(words); slot++) {
        const uint64_t *record = table + SLOTS(slot);
        if (ref_matches(record, key))
            return HIT(slot, id_of(record), (uint32_t)(tag_of(record) % 4294967296u));
    }
    return MISS;
}

/* Whether a slot's record is shown. */
static int ref_shown(const uint64_t *table, size_t words, uint32_t slot)
{
    uint32_t spot;
    if (table_fault(table, words, 2, &spot) != 0)
        return 0;
    return slot < slots_of(words) && !is_empty(table + SLOTS(slot));
}

/* ---- Lent cells ---- */

enum { SLOT = 1, ID = 3, ACTION = 5, SPOT = 7, FIRST = 9, CELLS = 11 };

/* ---- One call, with all that it promises ---- */

/* The key is lent at either end of its pages in turn. */
static void call_keyed(const uint64_t *table, size_t words, const uint64_t *key, size_t key_words, struct told want)
{
    static unsigned long calls;
    uint32_t cell[CELLS], before[CELLS];
    struct lent lent_key = lend_in(&key_pages, key, key_words, (int)(calls++ % 2));
    mark_cells(cell, before, CELLS);
    uint32_t number = tcam_lookup(table, words, width, lent_key.table, key_words, &cell[SLOT], &cell[ID], &cell[ACTION],
                                  &cell[SPOT]);
    CHECK(number == want.number);
    if (want.number == TCAM_OK) {
        CHECK(cell[SLOT] == want.slot);
        CHECK(cell[ID] == want.id);
        CHECK(cell[ACTION] == want.action);
        CHECK(cell[SPOT] == before[SPOT]);
    } else {
        CHECK(cell[SLOT] == before[SLOT]);
        CHECK(cell[ID] == before[ID]);
        CHECK(cell[ACTION] == before[ACTION]);
        CHECK(cell[SPOT] == want.spot);
    }
    CHECK(cell[FIRST] == before[FIRST]);
    check_cell_guards(cell, before, CELLS);
    check_lent(&lent_key);
}

static void call_lookup(const uint64_t *table, size_t words, const uint64_t *key, struct told want)
{
    call_keyed(table, words, key, width, want);
}

static void call_slot_record(const uint64_t *table, size_t words, uint32_t slot, int shown)
{
    uint32_t cell[CELLS], before[CELLS];
    mark_cells(cell, before, CELLS);
    uint32_t count = tcam_slot_record(table, words, width, slot, &cell[FIRST]);
    if (shown) {
        CHECK(count == 2 * width + 2);
        CHECK(cell[FIRST] == SLOTS(slot));
        CHECK(tcam_slot_words(table, words, width, slot) == table + SLOTS(slot));
    } else {
        CHECK(count == 0);
        CHECK(cell[FIRST] == 0);
        CHECK(tcam_slot_words(table, words, width, slot) == NULL);
    }
    for (int index = 0; index < FIRST; index++)
        CHECK(cell[index] == before[index]);
    check_cell_guards(cell, before, CELLS);
}

/* A case: the table at both ends of the pages, which are read-only during the call. */
static void lookup_lent(const uint64_t *table, size_t words, const uint64_t *key, size_t key_words, struct told want)
{
    for (int at_end = 0; at_end < 2; at_end++) {
        struct lent lent = lend(table, words, at_end);
        protect_table(0);
        call_keyed(lent.table, words, key, key_words, want);
        check_lent(&lent);
        protect_table(1);
    }
}

/* The reference must agree. */
static void lookup_case(int line, const uint64_t *table, size_t words, const uint64_t *key, struct told want)
{
    case_line = line;
    struct told ref = ref_lookup(table, words, key);
    CHECK(ref.number == want.number && ref.spot == want.spot);
    CHECK(ref.slot == want.slot && ref.id == want.id && ref.action == want.action);
    lookup_lent(table, words, key, width, want);
}

static void record_case(int line, const uint64_t *table, size_t words, uint32_t slot, int shown)
{
    case_line = line;
    CHECK(ref_shown(table, words, slot) == shown);
    for (int at_end = 0; at_end < 2; at_end++) {
        struct lent lent = lend(table, words, at_end);
        protect_table(0);
        call_slot_record(lent.table, words, slot, shown);
        check_lent(&lent);
        protect_table(1);
    }
}

/* Keys, values and masks of a first word and a last, with zeros between; and of one word alone. */
struct pattern {
    pattern_words word;
};

static struct pattern ends(uint64_t first, uint64_t last)
{
    struct pattern made = {{first}};
    made.word[width - 1] = last;
    return made;
}

static struct pattern only(uint32_t word, uint64_t bits)
{
    struct pattern made = {{0}};
    made.word[word] = bits;
    return made;
}

/* All words the same, but for some bits of one of them. */
static struct pattern all_but(uint64_t every, uint32_t word, uint64_t flipped)
{
    struct pattern made;
    for (uint32_t index = 0; index < MOST_WIDTH; index++)
        made.word[index] = every ^ (index == word ? flipped : 0);
    return made;
}

static struct pattern every(uint64_t word)
{
    return all_but(word, 0, 0);
}

static void pattern_case(int line, const uint64_t *table, size_t words, struct pattern key, struct told want)
{
    lookup_case(line, table, words, key.word, want);
}

#define LOOKUP(table, words, key, want) pattern_case(__LINE__, table, words, key, want)
#define SHOWN(table, words, slot) record_case(__LINE__, table, words, slot, 1)
#define HIDDEN(table, words, slot) record_case(__LINE__, table, words, slot, 0)

/* ---- Cases ---- */

static uint64_t table[ROOM(MOST_SLOTS)];

static void clear(void)
{
    memset(table, 0, sizeof table);
}

static void put(uint32_t slot, struct pattern value, struct pattern mask, uint32_t id, uint32_t action, uint64_t priority)
{
    struct rule rule = {id, priority, {0}, {0}, action};
    memcpy(rule.value, value.word, sizeof rule.value);
    memcpy(rule.mask, mask.word, sizeof rule.mask);
    set_record(table + SLOTS(slot), &rule);
}

/* A rule that matches every key. */
static void put_any(uint32_t slot, uint32_t id, uint32_t action, uint64_t priority)
{
    put(slot, every(0), every(0), id, action, priority);
}

static void names(void)
{
    static const char *const name[] = {"OK", "SHAPE", "RECORD", "TWICE", "ORDER", "RULE", "KNOWN", "UNKNOWN",
                                       "TIE", "FULL", "CROSSED", "SHORT", "WRITE", "LINE", "IMAGE", "UNCROSSED",
                                       "PLAN", "DAMAGE", "EDITION", "OPEN", "SESSION", "ABSENT", "ROOM"};
    HERE;
    CHECK(COUNT_OF(name) == 23);
    for (uint32_t number = 0; number < COUNT_OF(name); number++)
        CHECK(strcmp(tcam_cause_name(number), name[number]) == 0);
    CHECK(strcmp(tcam_cause_name(23), "?") == 0);
    CHECK(strcmp(tcam_cause_name(UINT32_MAX), "?") == 0);
    CHECK(TCAM_OK == 0 && TCAM_SHAPE == 1 && TCAM_RECORD == 2 && TCAM_TWICE == 3 && TCAM_ORDER == 4);
    CHECK(TCAM_RULE == 5 && TCAM_KNOWN == 6 && TCAM_UNKNOWN == 7 && TCAM_TIE == 8 && TCAM_FULL == 9);
    CHECK(TCAM_CROSSED == 10 && TCAM_SHORT == 11 && TCAM_WRITE == 12 && TCAM_LINE == 13 && TCAM_IMAGE == 14);
    CHECK(TCAM_UNCROSSED == 15 && TCAM_PLAN == 16 && TCAM_DAMAGE == 17 && TCAM_EDITION == 18);
    CHECK(TCAM_OPEN == 19 && TCAM_SESSION == 20 && TCAM_ABSENT == 21 && TCAM_ROOM == 22);
    CHECK(TCAM_ID_ACTION(1, 2) == 0x0000000100000002u);
    CHECK(TCAM_ID_ACTION(-1, 0) == 0xFFFFFFFF00000000u);
    CHECK(TCAM_ID_ACTION(0, -1) == 0x00000000FFFFFFFFu);
}

/* Six slots: 11*, 1*1, 1, 00, 01 from the highest bit, and an empty slot. */
static void put_six(void)
{
    static const char *const pattern[] = {"11*", "1*1", "1", "00", "01"};
    static const uint32_t id[] = {1, 3, 2, 5, 6}, action[] = {7, 9, 8, 1, 2}, priority[] = {30, 25, 20, 10, 40};
    clear();
    for (uint32_t slot = 0; slot < 5; slot++) {
        struct rule rule = rule_of(id[slot], priority[slot], pattern[slot], action[slot]);
        set_record(table + SLOTS(slot), &rule);
    }
}

static void six_slots(void)
{
    const struct pattern key = ends(0x5000000000000000u, 0);
    uint32_t slot = 77, id = 77, action = 77, spot = 77;
    size_t words = SLOTS(6);

    HERE;
    put_six();
    CHECK(tcam_lookup(table, words, width, key.word, width, &slot, &id, &action, &spot) == TCAM_OK);
    CHECK(slot == 4 && id == 6 && action == 2 && spot == 77);
    const uint64_t *record = tcam_slot_words(table, words, width, slot);
    CHECK(record == table + 4 * (2 * width + 2));
    if (record != NULL) {
        CHECK(tcam_record_id(record, width) == 6);
        CHECK(tcam_record_action(record, width) == 2);
        CHECK(tcam_record_rank(record, width) == 40);
    }
    CHECK(tcam_slot_words(table, words, width, 5) == NULL);
    CHECK(tcam_slot_words(table, words, width, 6) == NULL);

    LOOKUP(table, words, ends(0x5000000000000000u, 0), HIT(4, 6, 2));
    LOOKUP(table, words, ends(0xE000000000000000u, 0), HIT(0, 1, 7));
    LOOKUP(table, words, ends(0xA000000000000000u, 0), HIT(1, 3, 9));
    LOOKUP(table, words, ends(0x8000000000000000u, 0), HIT(2, 2, 8));
    LOOKUP(table, words, ends(0x3FFFFFFFFFFFFFFFu, ALL), HIT(3, 5, 1));

    /* without rule 2 its keys miss */
    memset(table + SLOTS(2), 0, SLOTS(1) * sizeof *table);
    LOOKUP(table, words, ends(0x8000000000000000u, 0), MISS);
    LOOKUP(table, words, ends(0xA000000000000000u, 0), HIT(1, 3, 9));
}

/* A constant table of each width, written out word by word. */
static void constant_tables(void)
{
    static const uint64_t of_two[] = {
        0xC000000000000000u, 0, 0xC000000000000000u, 0, TCAM_ID_ACTION(1, 7), 30,
        0, 0x0000000000000001u, 0, 0x0000000000000001u, TCAM_ID_ACTION(3, 9), 25,
    };
    static const uint64_t of_five[] = {
        0xC000000000000000u, 0, 0, 0, 0, 0xC000000000000000u, 0, 0, 0, 0, TCAM_ID_ACTION(1, 7), 30,
        0, 0, 0, 0, 0x0000000000000001u, 0, 0, 0, 0, 0x0000000000000001u, TCAM_ID_ACTION(3, 9), 25,
    };
    const uint64_t *fixed = width == 2 ? of_two : of_five;
    size_t words = width == 2 ? TCAM_WORDS(of_two) : TCAM_WORDS(of_five);
    LOOKUP(fixed, words, ends(TOP, 1), HIT(1, 3, 9));
    LOOKUP(fixed, words, ends(0xC000000000000000u, 1), HIT(0, 1, 7));
    LOOKUP(fixed, words, ends(TOP, 2), MISS);
    SHOWN(fixed, words, 0);
    SHOWN(fixed, words, 1);
    HIDDEN(fixed, words, 2);
}

static void shapes(void)
{
    static uint64_t long_table[3 * 65536 + ROOM(1)];
    const size_t long_words = 3 * 65536 + SLOTS(1); /* whole records, and in 16 bits one record, at each width */
    const struct pattern zeros = every(0);

    clear();
    put_any(0, 11, 12, 13);
    LOOKUP(table, SLOTS(1), ends(1, 2), HIT(0, 11, 12));
    for (size_t words = 0; words <= SLOTS(6) + 4; words++) {
        if (words % SLOTS(1) == 0 && words != 0)
            continue;
        LOOKUP(table, words, ends(1, 2), REFUSED(TCAM_SHAPE, 0));
        HIDDEN(table, words, 0);
    }
    LOOKUP(table, SLOTS(1024), ends(1, 2), HIT(0, 11, 12));
    LOOKUP(table, SLOTS(1025), ends(1, 2), REFUSED(TCAM_SHAPE, 0));
    LOOKUP(table, SLOTS(1026), ends(1, 2), REFUSED(TCAM_SHAPE, 0));
    LOOKUP(table, SLOTS(1024) - 1, ends(1, 2), REFUSED(TCAM_SHAPE, 0));
    LOOKUP(table, SLOTS(1024) + 1, ends(1, 2), REFUSED(TCAM_SHAPE, 0));
    SHOWN(table, SLOTS(1024), 0);
    HIDDEN(table, SLOTS(1025), 0);
    HIDDEN(table, SLOTS(1025), 1024);
    HIDDEN(table, SLOTS(1024) + 1, 0);

    HERE;
    CHECK(long_words % SLOTS(1) == 0);
    long_table[2 * width] = TCAM_ID_ACTION(1, 1);
    call_lookup(long_table, long_words, zeros.word, REFUSED(TCAM_SHAPE, 0));
    call_slot_record(long_table, long_words, 0, 0);
    long_table[2 * width] = 0;
}

/* Every other width, whatever the words are: those of a table and a key of that width, or of either known one. */
static void other_widths(void)
{
    static const uint32_t others[] = {0, 1, 3, 4, 6, 7, 10, 65538, 65541, 0x80000002u, 0xFFFFFFFBu, 0xFFFFFFFEu, UINT32_MAX};
    const uint32_t known = width;
    const record_words key = {0};
    clear();
    put_any(0, 11, 12, 13);
    LOOKUP(table, SLOTS(2), ends(1, 2), HIT(0, 11, 12));
    for (size_t index = 0; index < COUNT_OF(others); index++) {
        uint32_t other = others[index], cell[4] = {77, 78, 79, 80}, first = 81;
        const size_t table_words[] = {TCAM_TABLE_WORDS(known, 2), TCAM_TABLE_WORDS(other, 2), TCAM_RECORD_WORDS(other), 0};
        HERE;
        for (size_t words = 0; words < COUNT_OF(table_words); words++) {
            if (table_words[words] > COUNT_OF(table))
                continue;
            for (size_t key_words = 0; key_words <= COUNT_OF(key); key_words++, cell[3] = 80) {
                CHECK(tcam_lookup(table, table_words[words], other, key, key_words, &cell[0], &cell[1], &cell[2], &cell[3]) ==
                      TCAM_SHAPE);
                CHECK(cell[0] == 77 && cell[1] == 78 && cell[2] == 79 && cell[3] == 0);
            }
            CHECK(tcam_slot_record(table, table_words[words], other, 0, &first) == 0 && first == 0);
            CHECK(tcam_slot_words(table, table_words[words], other, 0) == NULL);
            first = 81;
        }
    }
}

/* A key of any other number of words, before anything is said of the table. */
static void other_keys(void)
{
    const record_words key = {0};
    clear();
    put_any(0, 11, 12, 13);
    for (int unsound = 0; unsound < 2; unsound++) {
        for (size_t key_words = 0; key_words <= COUNT_OF(key); key_words++) {
            HERE;
            if (key_words != width)
                lookup_lent(table, SLOTS(2), key, key_words, REFUSED(TCAM_SHAPE, 0));
            else
                lookup_lent(table, SLOTS(2), key, key_words, unsound ? REFUSED(TCAM_RECORD, 1) : HIT(0, 11, 12));
        }
        table[SLOTS(1)] = 1;
    }
    HERE;
    lookup_lent(table, SLOTS(2) + 1, key, width, REFUSED(TCAM_SHAPE, 0));
    lookup_lent(table, SLOTS(2) + 1, key, width + 1, REFUSED(TCAM_SHAPE, 0));
}

/* No table at all, and no key. */
static void no_table(void)
{
    const struct pattern key = ends(1, 2);
    uint32_t slot = 1, id = 2, action = 3, spot = 4, first = 5;
    HERE;
    CHECK(tcam_lookup(NULL, 0, width, key.word, width, &slot, &id, &action, &spot) == TCAM_SHAPE);
    CHECK(slot == 1 && id == 2 && action == 3 && spot == 0);
    spot = 4;
    clear();
    CHECK(tcam_lookup(table, SLOTS(1), width, NULL, 0, &slot, &id, &action, &spot) == TCAM_SHAPE);
    CHECK(slot == 1 && id == 2 && action == 3 && spot == 0);
    CHECK(tcam_slot_record(NULL, 0, width, 0, &first) == 0);
    CHECK(first == 0);
    CHECK(tcam_slot_words(NULL, 0, width, 0) == NULL);
}

/* The same words at the other width are another table: 36 words are six slots or three. */
static void other_readings(void)
{
    const uint32_t known = width, other = width == 2 ? 5 : 2;
    clear();
    put(0, ends(0xC000000000000000u, 0), ends(0xC000000000000000u, 0), 1, 7, 30);
    put_any(1, 2, 8, 20);
    LOOKUP(table, 36, ends(0, 0), HIT(1, 2, 8));
    SHOWN(table, 36, 0);
    width = other;
    LOOKUP(table, 36, ends(0, 0), REFUSED(TCAM_RECORD, 0));
    HIDDEN(table, 36, 0);
    width = known;
    clear();
    width = other; /* an empty table is one at either width */
    LOOKUP(table, 36, ends(0, 0), MISS);
    width = known;
    LOOKUP(table, 36, ends(0, 0), MISS);
}

/* Check 1 comes before check 2. */
static void shape_before_record(void)
{
    clear();
    table[0] = 1;
    LOOKUP(table, SLOTS(1) + 1, every(0), REFUSED(TCAM_SHAPE, 0));
    LOOKUP(table, SLOTS(1), every(0), REFUSED(TCAM_RECORD, 0));
}

/* Each word alone: only an id makes a rule, and that rule matches every key. */
static void words_alone(void)
{
    for (uint32_t word = 0; word < 2 * width + 2; word++) {
        for (int bit = 0; bit < 64; bit++) {
            clear();
            put(0, every(ALL), every(ALL), 1, 1, 1);
            table[SLOTS(1) + word] = (uint64_t)1 << bit;
            if (word == 2 * width && bit >= 32) {
                LOOKUP(table, SLOTS(3), ends(5, 6), HIT(1, (uint32_t)1 << (bit - 32), 0));
                SHOWN(table, SLOTS(3), 1);
            } else {
                LOOKUP(table, SLOTS(3), ends(5, 6), REFUSED(TCAM_RECORD, 1));
                HIDDEN(table, SLOTS(3), 1);
                HIDDEN(table, SLOTS(3), 0);
            }
        }
    }
}

/* Id 0 in a rule that is otherwise sound. */
static void ids_and_ranks(void)
{
    static const uint64_t wrong_rank[] = {65536, 65537, 131072, 0x100000000u, 0x100000005u, TOP, ALL};
    const struct pattern value = ends(0, 5), mask = ends(0, ALL);
    clear();
    put(0, value, mask, 0, 7, 9);
    LOOKUP(table, SLOTS(1), ends(0, 5), REFUSED(TCAM_RECORD, 0));
    LOOKUP(table, SLOTS(1), ends(0, 6), REFUSED(TCAM_RECORD, 0));
    put(0, value, mask, 1, 7, 9);
    LOOKUP(table, SLOTS(1), ends(0, 5), HIT(0, 1, 7));

    /* ranks */
    put(0, value, mask, 1, 7, 0);
    LOOKUP(table, SLOTS(1), ends(0, 5), HIT(0, 1, 7));
    put(0, value, mask, 1, 7, 65535);
    LOOKUP(table, SLOTS(1), ends(0, 5), HIT(0, 1, 7));
    for (size_t index = 0; index < COUNT_OF(wrong_rank); index++) {
        put(0, value, mask, 1, 7, wrong_rank[index]);
        LOOKUP(table, SLOTS(1), ends(0, 5), REFUSED(TCAM_RECORD, 0));
        LOOKUP(table, SLOTS(1), ends(0, 6), REFUSED(TCAM_RECORD, 0));
        HIDDEN(table, SLOTS(1), 0);
    }
}

/* Rank 65,536 where every bit of the width is cared for. */
static void exact_ranks(void)
{
    const struct pattern value = ends(5, 6);
    clear();
    put_any(1, 2, 8, 65535);
    put(0, value, every(ALL), 1, 7, 65536);
    LOOKUP(table, SLOTS(2), value, HIT(0, 1, 7));
    LOOKUP(table, SLOTS(2), ends(5, 7), HIT(1, 2, 8));
    SHOWN(table, SLOTS(2), 0);
    HERE;
    const uint64_t *record = tcam_slot_words(table, SLOTS(2), width, 0);
    CHECK(record != NULL && tcam_record_rank(record, width) == TCAM_EXACT_RANK);

    /* the lowest matching slot wins, whatever the ranks are; and id 0 and a value outside the mask are as unsound as ever */
    put(0, every(0), every(0), 2, 8, 1);
    put(1, value, every(ALL), 1, 7, 65536);
    LOOKUP(table, SLOTS(2), value, HIT(0, 2, 8));
    put(0, value, every(ALL), 0, 7, 65536);
    LOOKUP(table, SLOTS(2), value, REFUSED(TCAM_RECORD, 0));
    put(0, value, ends(ALL, 0), 1, 7, 65536);
    LOOKUP(table, SLOTS(2), value, REFUSED(TCAM_RECORD, 0));
}

/* Not where one bit is not cared for, or only some words are; and no rank above it. */
static void other_ranks(void)
{
    static const uint64_t wrong_rank[] = {65537, 131072, 0x100010000u, 0x200000000u, TOP, ALL};
    const struct pattern value = ends(5, 6);
    clear();
    put_any(1, 2, 8, 65535);
    for (uint32_t bit = 0; bit < 64 * width; bit++) {
        struct pattern mask = all_but(ALL, bit / 64, TOP >> bit % 64);
        put(0, every(0), mask, 1, 7, 65536);
        LOOKUP(table, SLOTS(2), every(0), REFUSED(TCAM_RECORD, 0));
        LOOKUP(table, SLOTS(2), value, REFUSED(TCAM_RECORD, 0));
        HIDDEN(table, SLOTS(2), 0);
        HIDDEN(table, SLOTS(2), 1);
        put(0, every(0), mask, 1, 7, 65535);
        LOOKUP(table, SLOTS(2), every(0), HIT(0, 1, 7));
    }
    for (uint32_t words = 0; words < width; words++) {
        struct pattern mask = every(0);
        for (uint32_t word = 0; word < words; word++)
            mask.word[word] = ALL;
        put(0, every(0), mask, 1, 7, 65536);
        LOOKUP(table, SLOTS(2), every(0), REFUSED(TCAM_RECORD, 0));
    }
    for (size_t index = 0; index < COUNT_OF(wrong_rank); index++) {
        put(0, value, every(ALL), 1, 7, wrong_rank[index]);
        LOOKUP(table, SLOTS(2), value, REFUSED(TCAM_RECORD, 0));
        HIDDEN(table, SLOTS(2), 1);
    }
}

/* A value bit outside the mask: each bit of each word. */
static void values_outside_masks(void)
{
    for (uint32_t word = 0; word < width; word++)
        for (int bit = 0; bit < 64; bit++) {
            uint64_t one = (uint64_t)1 << bit;
            clear();
            put(0, only(word, one), only(word, one), 3, 4, 5);
            LOOKUP(table, SLOTS(1), only(word, one), HIT(0, 3, 4));
            put(0, only(word, one), only(word, ~one), 3, 4, 5);
            LOOKUP(table, SLOTS(1), only(word, one), REFUSED(TCAM_RECORD, 0));
            put(0, only(word, one), all_but(ALL, word, one), 3, 4, 5);
            LOOKUP(table, SLOTS(1), every(0), REFUSED(TCAM_RECORD, 0));
        }
}

/* The lowest bad slot is named, and a match before it does not count. */
static void lowest_bad_slot(void)
{
    clear();
    put_any(0, 1, 1, 1);
    put_any(3, 2, 2, 65536);
    put(5, ends(TOP, 0), every(0), 3, 3, 3);
    LOOKUP(table, SLOTS(8), every(0), REFUSED(TCAM_RECORD, 3));
    HIDDEN(table, SLOTS(8), 0);
    HIDDEN(table, SLOTS(8), 3);
    put_any(3, 2, 2, 2);
    LOOKUP(table, SLOTS(8), every(0), REFUSED(TCAM_RECORD, 5));
    HIDDEN(table, SLOTS(8), 0);
    put(5, ends(TOP, 0), ends(TOP, 0), 3, 3, 3);
    LOOKUP(table, SLOTS(8), every(0), HIT(0, 1, 1));
    SHOWN(table, SLOTS(8), 0);
    table[SLOTS(8) - 1] = 1;
    LOOKUP(table, SLOTS(8), every(0), REFUSED(TCAM_RECORD, 7));
    LOOKUP(table, SLOTS(7), every(0), HIT(0, 1, 1));
}

static void match_all_or_one(void)
{
    /* mask 0 matches every key */
    clear();
    put_any(0, 8, 9, 0);
    LOOKUP(table, SLOTS(1), every(0), HIT(0, 8, 9));
    LOOKUP(table, SLOTS(1), every(ALL), HIT(0, 8, 9));
    LOOKUP(table, SLOTS(1), ends(0x0123456789ABCDEFu, 0xFEDCBA9876543210u), HIT(0, 8, 9));

    /* a full mask matches one key: each other bit misses */
    struct pattern value = ends(0x0123456789ABCDEFu, 0xFEDCBA9876543210u);
    put(0, value, every(ALL), 8, 9, 0);
    LOOKUP(table, SLOTS(1), value, HIT(0, 8, 9));
    LOOKUP(table, SLOTS(1), ends(0xFEDCBA9876543210u, 0x0123456789ABCDEFu), MISS);
    for (uint32_t bit = 0; bit < 64 * width; bit++) {
        struct pattern key = value;
        key.word[bit / 64] ^= (uint64_t)1 << bit % 64;
        LOOKUP(table, SLOTS(1), key, MISS);
    }
}

/* One bit cared for, as 1 and as 0. */
static void one_bit(void)
{
    clear();
    for (uint32_t word = 0; word < width; word++)
        for (int bit = 0; bit < 64; bit++) {
            uint64_t one = (uint64_t)1 << bit;
            put(0, only(word, one), only(word, one), 8, 9, 0);
            LOOKUP(table, SLOTS(1), all_but(ALL, word, ~one), HIT(0, 8, 9));
            LOOKUP(table, SLOTS(1), all_but(ALL, word, one), MISS);
            put(0, every(0), only(word, one), 8, 9, 0);
            LOOKUP(table, SLOTS(1), all_but(ALL, word, ~one), MISS);
            LOOKUP(table, SLOTS(1), all_but(ALL, word, one), HIT(0, 8, 9));
        }
}

/* An empty slot matches nothing, not even the key 0. */
static void empty_slots(void)
{
    clear();
    LOOKUP(table, SLOTS(1), every(0), MISS);
    LOOKUP(table, SLOTS(1), every(ALL), MISS);
    put(2, every(0), every(ALL), 8, 9, 0);
    LOOKUP(table, SLOTS(4), every(0), HIT(2, 8, 9));
    LOOKUP(table, SLOTS(4), ends(0, 1), MISS);
    LOOKUP(table, SLOTS(2), every(0), MISS);

    /* an empty slot before a rule that matches every key: the empty one's mask is 0 too, and the rule answers */
    clear();
    put_any(1, 1, 7, 5);
    LOOKUP(table, SLOTS(2), every(0), HIT(1, 1, 7));
    LOOKUP(table, SLOTS(2), every(ALL), HIT(1, 1, 7));
    LOOKUP(table, SLOTS(1), every(0), MISS);

    /* ids and actions at their ends */
    clear();
    put(2, every(0), every(ALL), UINT32_MAX, UINT32_MAX, 65535);
    LOOKUP(table, SLOTS(4), every(0), HIT(2, UINT32_MAX, UINT32_MAX));
    put(2, every(0), every(ALL), 1, UINT32_MAX, 65535);
    LOOKUP(table, SLOTS(4), every(0), HIT(2, 1, UINT32_MAX));
    put(2, every(0), every(ALL), UINT32_MAX, 0, 65535);
    LOOKUP(table, SLOTS(4), every(0), HIT(2, UINT32_MAX, 0));
    put(0, every(0), every(ALL), 1, 0, 0);
    LOOKUP(table, SLOTS(4), every(0), HIT(0, 1, 0));
}

static void first_match(void)
{
    const struct pattern top = ends(TOP, 0);

    /* in order: the lower slot has the higher rank */
    clear();
    put(1, top, top, 21, 31, 200);
    put_any(3, 22, 32, 100);
    LOOKUP(table, SLOTS(4), top, HIT(1, 21, 31));
    LOOKUP(table, SLOTS(4), every(0), HIT(3, 22, 32));

    /* out of order, by rank and by a tie: still the lowest slot */
    put(1, top, top, 21, 31, 50);
    LOOKUP(table, SLOTS(4), top, HIT(1, 21, 31));
    put(1, top, top, 21, 31, 100);
    LOOKUP(table, SLOTS(4), top, HIT(1, 21, 31));
    put_any(0, 23, 33, 0);
    LOOKUP(table, SLOTS(4), top, HIT(0, 23, 33));
    SHOWN(table, SLOTS(4), 3);
}

/* An id that stands twice, with the same record and with another. */
static void first_of_two(void)
{
    clear();
    put(1, ends(0, 7), ends(0, ALL), 40, 50, 60);
    put(2, ends(0, 7), ends(0, ALL), 40, 50, 60);
    LOOKUP(table, SLOTS(3), ends(1, 7), HIT(1, 40, 50));
    put(1, ends(0, 6), ends(0, ALL), 40, 51, 60);
    LOOKUP(table, SLOTS(3), ends(1, 7), HIT(2, 40, 50));
    LOOKUP(table, SLOTS(3), ends(1, 6), HIT(1, 40, 51));
    put_any(0, 40, 52, 60);
    LOOKUP(table, SLOTS(3), ends(1, 7), HIT(0, 40, 52));
    SHOWN(table, SLOTS(3), 0);
    SHOWN(table, SLOTS(3), 1);
    SHOWN(table, SLOTS(3), 2);
}

/* 1,024 rules, slot i for the key that begins with i and ends with ~i. */
static void full_table(void)
{
    clear();
    for (uint32_t slot = 0; slot < 1024; slot++)
        put(slot, ends(slot, ~(uint64_t)slot), every(ALL), slot + 1, 5000 - slot, slot);
    for (uint32_t slot = 0; slot < 1024; slot += 31)
        LOOKUP(table, SLOTS(1024), ends(slot, ~(uint64_t)slot), HIT(slot, slot + 1, 5000 - slot));
    LOOKUP(table, SLOTS(1024), ends(1023, ~(uint64_t)1023), HIT(1023, 1024, 3977));
    LOOKUP(table, SLOTS(1024), ends(1022, ~(uint64_t)1023), MISS);
    LOOKUP(table, SLOTS(1024), ends(1024, ~(uint64_t)1024), MISS);
    LOOKUP(table, SLOTS(1023), ends(1023, ~(uint64_t)1023), MISS);
    SHOWN(table, SLOTS(1024), 0);
    SHOWN(table, SLOTS(1024), 512);
    SHOWN(table, SLOTS(1024), 1023);
    HIDDEN(table, SLOTS(1024), 1024);
    HIDDEN(table, SLOTS(1023), 1023);

    table[SLOTS(1024) - 1] = 65536;
    LOOKUP(table, SLOTS(1024), ends(0, ALL), HIT(0, 1, 5000));
    SHOWN(table, SLOTS(1024), 1023);
    table[SLOTS(1024) - 1] = 65537;
    LOOKUP(table, SLOTS(1024), ends(0, ALL), REFUSED(TCAM_RECORD, 1023));
    HIDDEN(table, SLOTS(1024), 0);
    LOOKUP(table, SLOTS(1023), ends(0, ALL), HIT(0, 1, 5000));
    table[SLOTS(700) + 2 * width] = 1;
    LOOKUP(table, SLOTS(1024), ends(0, ALL), REFUSED(TCAM_RECORD, 700));

    /* 1,024 slots, all empty but the last; then all empty */
    clear();
    put_any(1023, 1, 2, 3);
    LOOKUP(table, SLOTS(1024), ends(4, 5), HIT(1023, 1, 2));
    SHOWN(table, SLOTS(1024), 1023);
    HIDDEN(table, SLOTS(1024), 1022);
    clear();
    LOOKUP(table, SLOTS(1024), every(0), MISS);
    HIDDEN(table, SLOTS(1024), 1023);
}

static void slot_records(void)
{
    clear();
    put_any(0, 1, 2, 3);
    put(2, ends(1, 2), ends(3, 3), 4, 5, 6);
    SHOWN(table, SLOTS(3), 0);
    HIDDEN(table, SLOTS(3), 1);
    SHOWN(table, SLOTS(3), 2);
    HIDDEN(table, SLOTS(3), 3);
    HIDDEN(table, SLOTS(3), 4);
    HIDDEN(table, SLOTS(3), 1024);
    HIDDEN(table, SLOTS(3), 65536);           /* 0 in 16 bits */
    HIDDEN(table, SLOTS(3), 0x2AAAAAABu);     /* 6 times it is 2 in 32 bits */
    HIDDEN(table, SLOTS(3), 0x15555556u);     /* 12 times it is 8 in 32 bits */
    HIDDEN(table, SLOTS(3), 0x80000000u);
    HIDDEN(table, SLOTS(3), 0x80000002u);
    HIDDEN(table, SLOTS(3), UINT32_MAX);
    SHOWN(table, SLOTS(1), 0);
    HIDDEN(table, SLOTS(1), 1);
    HIDDEN(table, SLOTS(1), UINT32_MAX);

    /* check 1 fails, check 2 fails in another slot, check 2 fails in this slot */
    HIDDEN(table, SLOTS(3) - 1, 0);
    HIDDEN(table, SLOTS(3) + 1, 0);
    HIDDEN(table, 0, 0);
    table[SLOTS(1)] = 1;
    HIDDEN(table, SLOTS(3), 0);
    HIDDEN(table, SLOTS(3), 1);
    HIDDEN(table, SLOTS(3), 2);
    HIDDEN(table, SLOTS(3), 3);
    SHOWN(table, SLOTS(1), 0);
}

/* The parts of a record that is found. */
static void record_parts(void)
{
    clear();
    put(2, ends(1, 2), ends(3, 3), 4, 5, 6);
    HERE;
    const uint64_t *record = tcam_slot_words(table, SLOTS(3), width, 2);
    CHECK(record == table + SLOTS(2));
    if (record != NULL) {
        CHECK(tcam_record_value(record, width, 0) == 1 && tcam_record_value(record, width, width - 1) == 2);
        CHECK(tcam_record_mask(record, width, 0) == 3 && tcam_record_mask(record, width, width - 1) == 3);
        CHECK(tcam_record_id(record, width) == 4);
        CHECK(tcam_record_action(record, width) == 5);
        CHECK(tcam_record_rank(record, width) == 6);
    }
}

/* ---- Random tables ---- */

static void flip(uint64_t *words, uint32_t count)
{
    uint32_t bit = below(64 * count);
    words[bit / 64] ^= (uint64_t)1 << bit % 64;
}

static void random_mask(uint64_t *mask)
{
    uint32_t way = below(8);
    memset(mask, 0, width * sizeof *mask);
    switch (way) {
    case 0: break;
    case 1:
    case 2:
        for (uint32_t word = 0; word < width; word++)
            mask[word] = way == 1 ? ALL : random_word();
        break;
    case 3: mask[0] = random_word(); break;
    case 4: mask[1 + below(width - 1)] = random_word(); break;
    case 5:
        for (uint32_t bit = below(64 * width + 1); bit > 0; bit--)
            mask[(bit - 1) / 64] |= TOP >> (bit - 1) % 64;
        break;
    default:
        for (uint32_t bits = 1 + below(4); bits > 0; bits--)
            flip(mask, width);
    }
}

static uint32_t random_number(void)
{
    switch (below(4)) {
    case 0: return UINT32_MAX;
    case 1: return (uint32_t)random_word();
    default: return below(8);
    }
}

/* A sound rule. Half of the rules have the value of the table's own key, so that several match it. */
static void random_rule(uint64_t *record, const uint64_t *own_key)
{
    int own = below(2) == 0;
    uint32_t id = random_number();
    random_mask(record + width);
    for (uint32_t word = 0; word < width; word++)
        record[word] = (own ? own_key[word] : random_word()) & record[width + word];
    record[2 * width] = TCAM_ID_ACTION(id == 0 ? 9 : id, random_number());
    record[2 * width + 1] = below(4) == 0 ? 65535 * below(2) : below(65536);
    if (is_exact(record) && below(2) == 0)
        record[2 * width + 1] = 65536;
}

static void random_words(uint64_t *words)
{
    for (uint32_t word = 0; word < width; word++)
        words[word] = random_word();
}

static void random_key(uint64_t *key, const uint64_t *own_key, const uint64_t *record)
{
    uint32_t way = below(8);
    random_words(key);
    if (way == 1) {
        memcpy(key, own_key, width * sizeof *key);
    } else if (way == 2) {
        memset(key, below(2) == 0 ? 0 : 255, width * sizeof *key);
    } else if (way > 2) { /* one that the rule matches, or nearly */
        for (uint32_t word = 0; word < width; word++)
            key[word] = record[word] | (key[word] & ~record[width + word]);
        if (way > 5)
            flip(key, width);
    }
}

/* How often each kind of answer came: the random tables must reach them all, at each width. */
static struct {
    unsigned long hits, later_hits, shadowing_hits, misses, shape_refusals, record_refusals, later_records, shown, hidden;
} seen;

static void count_lookup(const uint64_t *made, size_t words, const uint64_t *key, struct told told)
{
    if (told.number == TCAM_SHAPE) {
        seen.shape_refusals++;
    } else if (told.number == TCAM_RECORD) {
        seen.record_refusals++;
        seen.later_records += told.spot > 0;
    } else if (told.id == 0) {
        seen.misses++;
    } else {
        size_t rest = SLOTS(told.slot + 1);
        seen.hits++;
        seen.later_hits += told.slot > 0;
        seen.shadowing_hits += ref_lookup(made + rest, words - rest, key).id != 0;
    }
}

/* Rules and empty slots, and damage to some of them; gives the words. */
static size_t make_table(uint64_t *made, uint32_t slots, const uint64_t *own_key)
{
    uint32_t empty_of_8 = below(2) == 0 ? 0 : below(8);
    size_t words = SLOTS(slots);
    for (uint32_t slot = 0; slot < slots; slot++) {
        random_rule(made + SLOTS(slot), own_key);
        if (below(8) < empty_of_8)
            memset(made + SLOTS(slot), 0, SLOTS(1) * sizeof *made);
    }
    if (below(4) == 0) /* damage */
        for (uint32_t flips = below(4) == 0 ? 1 + below(4) : 1; flips > 0; flips--)
            flip(made, (uint32_t)words);
    return below(32) == 0 ? words - 1 - below((uint32_t)SLOTS(1)) : words;
}

static void random_table(void)
{
    static uint64_t made[ROOM(MOST_SLOTS)];
    uint32_t slots = turn % 1000 == 999 ? 13 + below(1012) : 1 + below(12);
    pattern_words own_key;
    random_words(own_key);
    size_t words = make_table(made, slots, own_key);

    struct lent lent = lend(made, words, (int)below(2));
    for (int round = 0; round < 2; round++) {
        pattern_words key;
        random_key(key, own_key, made + SLOTS(below(slots)));
        struct told told = ref_lookup(made, words, key);
        call_lookup(lent.table, words, key, told);
        check_lent(&lent);
        count_lookup(made, words, key, told);
    }
    uint32_t slot = below(16) == 0 ? (uint32_t)random_word() : below(slots + 1);
    int is_shown = ref_shown(made, words, slot);
    call_slot_record(lent.table, words, slot, is_shown);
    check_lent(&lent);
    seen.shown += is_shown != 0;
    seen.hidden += is_shown == 0;
}

static unsigned long tables; /* at each width */

static void random_tables(void)
{
    case_line = 0;
    memset(&seen, 0, sizeof seen);
    for (turn = 0; turn < tables; turn++)
        random_table();
    if (tables < 10000)
        return;

    HERE;
    CHECK(seen.hits > tables / 10);
    CHECK(seen.later_hits > tables / 20);
    CHECK(seen.shadowing_hits > tables / 20);
    CHECK(seen.misses > tables / 10);
    CHECK(seen.shape_refusals > tables / 100);
    CHECK(seen.record_refusals > tables / 20);
    CHECK(seen.later_records > tables / 20);
    CHECK(seen.shown > tables / 10);
    CHECK(seen.hidden > tables / 10);
}

int main(int count, char **words)
{
    static void (*const cases[])(void) = {
        names, six_slots, constant_tables, shapes, other_widths, other_keys, no_table, other_readings, shape_before_record,
        words_alone, ids_and_ranks, exact_ranks, other_ranks, values_outside_masks, lowest_bad_slot, match_all_or_one, one_bit, empty_slots,
        first_match, first_of_two, full_table, slot_records, record_parts, random_tables,
    };
    tables = begin(count, words, 202000) / 2;
    run_cases(cases, COUNT_OF(cases));

    return verdict("lookup_test");
}
