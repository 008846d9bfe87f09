/*
 * What README.md says of crossed inserts and of plans dropped half-way, on small random tables of each width, with rules of both
 * editions. The way out of a crossed insert always works, by the rules that depend on the new one and by those that precede it.
 * Rules that are put in by falling or by rising rank are never crossed, by falling rank with one write each. Where a plan was
 * dropped, every key has its old reply, one rule stands twice, the slot that TCAM_TWICE names can be emptied without another
 * reply, and the insert is planned anew.
 *
 *     ways_out_test [seed [tables]]
 */
#define _DEFAULT_SOURCE /* for mmap without a file */
#include "testing.h"

#define MOST 9 /* slots of a table, and rules */
#define KEYS 8 /* the three highest bits of one word are used */
#define FALLING 0
#define RISING 1

static uint32_t used_word; /* the word of the table's rules and keys that is used */

/* A rule as it stands in a slot. One of eight is without wildcards, and half of these came under 1.0. */
static void random_rule(uint64_t *record, uint32_t id)
{
    uint64_t mask = (uint64_t)below(KEYS) << 61, value = (uint64_t)below(KEYS) << 61;
    struct rule rule = {id, below(12), {0}, {0}, id + 100};
    int exact = below(8) == 0;
    if (exact)
        mask = ALL;
    for (uint32_t word = 0; word < width; word++)
        rule.mask[word] = exact ? ALL : 0;
    rule.value[used_word] = value & mask;
    rule.mask[used_word] = mask;
    if (exact && below(2) == 0)
        rule.priority = TCAM_EXACT_RANK;
    set_record(record, &rule);
}

/* The rule of a slot as it is given again, to get the rank that it had: under 1.3 with its rank for a priority, or under 1.0. */
static uint32_t give(uint64_t *given, const uint64_t *record)
{
    memcpy(given, record, SLOTS(1) * sizeof *given);
    if (rank_of(record) <= TCAM_MAX_PRIORITY)
        return TCAM_EDITION_13;
    given[2 * width + 1] = 5;
    return TCAM_EDITION_10;
}

/* The ids that the keys are answered with. */
static void look_up_all(const uint64_t *table, size_t words, uint32_t *ids)
{
    for (uint64_t number = 0; number < KEYS; number++) {
        uint32_t slot, action, spot;
        pattern_words key = {0};
        key[used_word] = number << 61;
        CHECK(tcam_lookup(table, words, width, key, width, &slot, &ids[number], &action, &spot) == TCAM_OK);
    }
}

static int replies_are(const uint64_t *table, size_t words, const uint32_t *ids)
{
    uint32_t now[KEYS];
    look_up_all(table, words, now);
    return memcmp(now, ids, sizeof now) == 0;
}

/* The ids by the rules alone: the highest-ranked match, or 0. */
static void replies_of(record_words *rules, size_t count, uint32_t *ids)
{
    for (uint64_t number = 0; number < KEYS; number++) {
        const uint64_t *best = NULL;
        pattern_words key = {0};
        key[used_word] = number << 61;
        for (size_t index = 0; index < count; index++)
            if (matches(rules[index], key) && (best == NULL || rank_of(rules[index]) > rank_of(best)))
                best = rules[index];
        ids[number] = best == NULL ? 0 : id_of(best);
    }
}

/* Makes writes of a plan, as many as are told, or all of them and the call that finds it finished. */
static void carry_out(uint64_t *table, size_t words, const uint32_t *plan, uint32_t count, const uint64_t *rule, uint32_t writes)
{
    tcam_progress progress = {0, count};
    record_words given;
    edition = give(given, rule);
    for (uint32_t made = 0; made < writes; made++)
        CHECK(tcam_carry_out(table, words, width, given, TCAM_RECORD_WORDS(width), edition, plan, count, &progress) ==
              (made < count ? TCAM_WROTE : TCAM_FINISHED));
}

/* The plan of an insert, for as many words as a table may have slots. */
static uint32_t plan_insert(const uint64_t *table, size_t words, const uint64_t *rule, uint32_t *plan, uint32_t *count,
                            uint32_t *spot)
{
    record_words given;
    uint32_t covered;
    edition = give(given, rule);
    return tcam_plan_insert(table, words, width, uncounted, given, TCAM_RECORD_WORDS(width), edition, plan, MOST, count, &covered,
                            spot);
}

/* Inserts, and gives the number of writes; 0 where the insert is declined, with this number. */
static uint32_t insert(uint64_t *table, size_t words, const uint64_t *rule, uint32_t *number)
{
    uint32_t plan[MOST], count, spot;
    *number = plan_insert(table, words, rule, plan, &count, &spot);
    if (*number != TCAM_OK)
        return 0;
    carry_out(table, words, plan, count, rule, count + 1);
    return count;
}

static void take_out(uint64_t *table, size_t words, const uint64_t *rule)
{
    uint32_t plan[1], count, spot;
    CHECK(tcam_plan_delete(table, words, width, uncounted, id_of(rule), plan, 1, &count, &spot) == TCAM_OK);
    carry_out(table, words, plan, count, tcam_no_rule, 2);
}

static int by_falling_rank(const void *left, const void *right)
{
    uint64_t one = rank_of(left), other = rank_of(right);
    return (one < other) - (one > other);
}

static int by_rising_rank(const void *left, const void *right)
{
    return by_falling_rank(right, left);
}

static void sort(record_words *rules, size_t count, int order)
{
    qsort(rules, count, sizeof rules[0], order == FALLING ? by_falling_rank : by_rising_rank);
}

/* Takes out what depends on the first of these rules, directly or through others, or for rising rank what precedes it, in one
 * pass: from the first slot on, or from the last. */
static size_t take_out_chain(uint64_t *table, uint32_t slots, record_words *rules, int order)
{
    size_t count = 1;
    for (uint32_t step = 0; step < slots; step++) {
        const uint64_t *record = table + SLOTS(order == FALLING ? step : slots - 1 - step);
        int found = 0;
        for (size_t index = 0; index < count && !is_empty(record); index++)
            found |= overlap(record, rules[index]) && (order == FALLING ? rank_of(record) < rank_of(rules[index])
                                                                        : rank_of(record) > rank_of(rules[index]));
        if (found) {
            memcpy(rules[count], record, SLOTS(1) * sizeof *record);
            take_out(table, SLOTS(slots), rules[count++]);
        }
    }
    return count;
}

static void check_way_out(const uint64_t *crossed, uint32_t slots, const uint64_t *rule, int order)
{
    uint64_t table[ROOM(MOST)];
    record_words rules[MOST + 1], all[MOST + 1];
    uint32_t expected[KEYS], number;
    size_t count = 0, record_bytes = SLOTS(1) * sizeof *table;
    for (uint32_t slot = 0; slot < slots; slot++)
        if (!is_empty(crossed + SLOTS(slot)))
            memcpy(all[count++], crossed + SLOTS(slot), record_bytes);
    memcpy(all[count++], rule, record_bytes);
    replies_of(all, count, expected);

    memcpy(table, crossed, SLOTS(slots) * sizeof *table);
    memcpy(rules[0], rule, record_bytes);
    count = take_out_chain(table, slots, rules, order);
    sort(rules, count, order);
    CHECK(id_of(rules[0]) == id_of(rule));
    for (size_t index = 0; index < count; index++)
        CHECK(insert(table, SLOTS(slots), rules[index], &number) > 0);
    CHECK(replies_are(table, SLOTS(slots), expected));
}

/* The plan is dropped after so many writes, at least one and not all; it is lost, and the insert is planned anew. */
static void check_dropped(const uint64_t *start, size_t words, const uint64_t *rule, const uint32_t *plan, uint32_t count,
                          uint32_t writes)
{
    uint64_t table[ROOM(MOST)], whole[ROOM(MOST)];
    uint32_t before[KEYS], after[KEYS], anew[MOST], anew_count, spot, number;
    memcpy(whole, start, words * sizeof *whole);
    memcpy(table, start, words * sizeof *table);
    look_up_all(start, words, before);
    carry_out(whole, words, plan, count, rule, count);
    look_up_all(whole, words, after);

    carry_out(table, words, plan, count, rule, writes);
    CHECK(replies_are(table, words, before));
    CHECK(plan_insert(table, words, rule, anew, &anew_count, &spot) == TCAM_TWICE);
    uint32_t empty = tcam_write_word(TCAM_EMPTY, spot);
    carry_out(table, words, &empty, 1, tcam_no_rule, 1);
    CHECK(replies_are(table, words, before));
    anew_count = insert(table, words, rule, &number);
    CHECK(anew_count > 0);
    CHECK(replies_are(table, words, after));
}

static void check_sorted(int order)
{
    uint64_t table[ROOM(MOST)] = {0};
    record_words rules[MOST];
    uint32_t slots = 1 + below(MOST), number;
    for (uint32_t index = 0; index < slots; index++)
        random_rule(rules[index], index + 1);
    sort(rules, slots, order);
    for (uint32_t index = 0; index < slots; index++) {
        uint32_t writes = insert(table, SLOTS(slots), rules[index], &number);
        CHECK(number == TCAM_OK ? order == RISING || writes == 1 : number == TCAM_TIE);
    }
}

static unsigned long tables, crossed, dropped; /* tables at each width, and what came of them */

/* One table and one rule: what holds of the insert, whatever its answer is. */
static void check_table(void)
{
    uint64_t table[ROOM(MOST)] = {0};
    record_words rule;
    uint32_t slots = 2 + below(MOST - 1), plan[MOST], count, spot;
    used_word = below(width);
    for (uint32_t slot = 0; slot < slots; slot++)
        if (below(10) < 7)
            random_rule(table + SLOTS(slot), slot + 1);
    if (table_fault(table, SLOTS(slots), 4, &spot) != 0)
        return;
    random_rule(rule, 100);
    uint32_t number = plan_insert(table, SLOTS(slots), rule, plan, &count, &spot);
    for (uint32_t writes = 1; number == TCAM_OK && writes < count; writes++, dropped++)
        check_dropped(table, SLOTS(slots), rule, plan, count, writes);
    for (int order = FALLING; number == TCAM_CROSSED && order <= RISING; order++, crossed++)
        check_way_out(table, slots, rule, order);
    check_sorted(turn % 2 == 0 ? FALLING : RISING);
}

static void check_tables(void)
{
    crossed = dropped = 0;
    for (turn = 0; turn < tables; turn++)
        check_table();
    CHECK(tables < 1000 || (crossed > 0 && dropped > 0));
    printf("ways_out_test: width %u: %lu ways out of a crossed insert, %lu plans dropped half-way\n", (unsigned)width, crossed,
           dropped);
}

int main(int argument_count, char **arguments)
{
    static void (*const cases[])(void) = {check_tables};
    tables = begin(argument_count, arguments, 400000) / 2;
    run_cases(cases, COUNT_OF(cases));

    return verdict("ways_out_test");
}
