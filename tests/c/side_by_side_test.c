/*
 * Calls that only read a table, at each width, in several threads side by side on one table that nothing writes, each with
 * cells and buffers of its own: every thread has the answers that one thread alone has. The table's pages are closed for
 * writing meanwhile.
 *
 *     side_by_side_test [seed [rounds]]
 */
#define _DEFAULT_SOURCE /* for mmap without a file, and barriers */
#include "testing.h"

#include <pthread.h>

#define THREADS 4
#define KEYS 64
#define TABLE_SLOTS 96

static const uint64_t *table;
#define WORDS SLOTS(TABLE_SLOTS)

static pattern_words keys[KEYS];
static record_words new_rule;
static unsigned long rounds;
static pthread_barrier_t start;

/* What the calls answer: a lookup of each key, each slot's record, a plan of each kind, one with a list, and an image. */
struct answers {
    uint32_t found[KEYS][4], part[TABLE_SLOTS][2], insert[3], delete[2], save[2];
    uint32_t insert_plan[TABLE_SLOTS], delete_plan[1];
    uint32_t listed[4], listed_plan[TABLE_SLOTS];
    uint16_t list[TCAM_LIST_NUMBERS(TABLE_SLOTS)];
    uint8_t image[TCAM_IMAGE_BYTES(MOST_WIDTH, TABLE_SLOTS)];
};

/* Begins at another key and another slot in each thread and each round. */
static void ask(struct answers *told, unsigned long first)
{
    uint32_t spot = 0;
    memset(told, 0, sizeof *told);
    for (unsigned long index = first; index < first + KEYS; index++) {
        const uint64_t *key = keys[index % KEYS];
        uint32_t *found = told->found[index % KEYS];
        found[0] = tcam_lookup(table, WORDS, width, key, width, found + 1, found + 2, found + 3, &spot);
    }
    for (unsigned long index = first; index < first + TABLE_SLOTS; index++) {
        uint32_t slot = (uint32_t)(index % TABLE_SLOTS);
        told->part[slot][0] = tcam_slot_record(table, WORDS, width, slot, &told->part[slot][1]);
    }
    told->insert[0] = tcam_plan_insert(table, WORDS, width, uncounted, new_rule, TCAM_RECORD_WORDS(width), TCAM_EDITION_13,
                                       told->insert_plan, TABLE_SLOTS, told->insert + 1, told->insert + 2, &spot);
    told->listed[0] = tcam_plan_insert_listed(table, WORDS, width, uncounted, new_rule, TCAM_RECORD_WORDS(width), TCAM_EDITION_13,
                                              told->list, TCAM_WORDS(told->list), told->listed_plan, TABLE_SLOTS,
                                              told->listed + 1, told->listed + 2, told->listed + 3, &spot);
    told->delete[0] = tcam_plan_delete(table, WORDS, width, uncounted, 2, told->delete_plan, 1, told->delete + 1, &spot);
    told->save[0] = tcam_save(table, WORDS, width, uncounted, told->image, sizeof told->image, told->save + 1, &spot);
}

static struct answers alone;

struct reader {
    pthread_t thread;
    unsigned long first, differences;
};

static void *read_on(void *lent)
{
    struct reader *reader = lent;
    struct answers *told = malloc(sizeof *told);
    if (told == NULL)
        abort();
    pthread_barrier_wait(&start);
    for (unsigned long round = 0; round < rounds; round++) {
        ask(told, reader->first + round);
        reader->differences += memcmp(told, &alone, sizeof alone) != 0;
    }
    free(told);
    return NULL;
}

/* Rules by falling priority in the first two thirds of the slots. Seven keys of eight match one of them. */
static void make_table(uint64_t *made)
{
    const struct rule rule = rule_of(1000, 60000, "0", 7);
    set_record(new_rule, &rule);
    memset(made, 0, WORDS * sizeof *made);
    for (uint32_t key = 0; key < KEYS; key++)
        for (uint32_t word = 0; word < width; word++)
            keys[key][word] = random_word();
    for (uint32_t slot = 0; slot < TABLE_SLOTS * 2 / 3; slot++) {
        uint64_t mask = ALL << (48 + below(13)), value = random_word() & mask;
        struct rule held = {slot + 1, 50000 - slot, {value}, {mask}, slot + 500};
        set_record(made + SLOTS(slot), &held);
        if (slot % 8 != 0)
            keys[slot % KEYS][0] = value | (random_word() & ~mask);
    }
}

static void side_by_side(void)
{
    static uint64_t made[ROOM(TABLE_SLOTS)];
    struct reader readers[THREADS];
    uint32_t hits = 0, rules = 0;
    HERE;
    make_table(made);
    struct lent lent = lend(made, WORDS, 0);
    table = lent.table;
    protect_table(0);
    ask(&alone, 0);
    for (uint32_t key = 0; key < KEYS; key++) {
        CHECK(alone.found[key][0] == TCAM_OK);
        hits += alone.found[key][2] != 0;
    }
    for (uint32_t slot = 0; slot < TABLE_SLOTS; slot++)
        rules += alone.part[slot][0] == TCAM_RECORD_WORDS(width);
    CHECK(hits > KEYS / 2 && rules == TABLE_SLOTS * 2 / 3);
    CHECK(alone.insert[0] == TCAM_OK && alone.insert[1] > 1 && alone.insert[2] == TCAM_NONE);
    CHECK(alone.listed[0] == TCAM_OK && alone.listed[1] == alone.insert[1] && alone.listed[3] == 1);
    CHECK(alone.delete[0] == TCAM_OK && alone.delete[1] == 1 && alone.delete_plan[0] == EMPTYING(1));
    CHECK(alone.save[0] == TCAM_OK && alone.save[1] == TCAM_IMAGE_BYTES(width, rules));

    HERE;
    CHECK(pthread_barrier_init(&start, NULL, THREADS) == 0);
    for (int index = 0; index < THREADS; index++) {
        readers[index].first = (unsigned long)index * 17;
        readers[index].differences = 0;
        if (pthread_create(&readers[index].thread, NULL, read_on, &readers[index]) != 0) {
            perror("threads");
            exit(1);
        }
    }
    for (int index = 0; index < THREADS; index++) {
        CHECK(pthread_join(readers[index].thread, NULL) == 0);
        CHECK(readers[index].differences == 0);
    }
    CHECK(pthread_barrier_destroy(&start) == 0);
    protect_table(1);
    check_lent(&lent);
}

int main(int count, char **arguments)
{
    static void (*const cases[])(void) = {side_by_side};
    rounds = begin(count, arguments, 2000) / 2; /* at each width */
    run_cases(cases, COUNT_OF(cases));

    return verdict("side_by_side_test");
}
