/*
 * What the test programs over the library share: the width under test, the edition and the flag, counted checks, rules and records,
 * checks 1 to 4, random numbers, and lent tables, rules, keys and cells between guards. A program defines _DEFAULT_SOURCE before it
 * includes this, for mmap without a file.
 */
#ifndef TESTING_H
#define TESTING_H

#include "tcam.h"

#include <stdio.h>
#include <stdlib.h>
#include <string.h>
#include <sys/mman.h>
#include <unistd.h>

#define ALL UINT64_MAX
#define TOP 0x8000000000000000u
#define COUNT_OF(array) (sizeof(array) / sizeof *(array))

/* ---- The width under test, the edition and the flag ---- */

static const uint32_t widths[] = {TCAM_WIDTH_128, TCAM_WIDTH_320};
static uint32_t width = TCAM_WIDTH_128;

/* The edition that rules are given under: 1.3 but where a case says otherwise. */
static const uint32_t editions[] = {TCAM_EDITION_10, TCAM_EDITION_13};
static uint32_t edition = TCAM_EDITION_13;

/* The flag that names the table as counted, but where a case says otherwise; and numbers that all name it as uncounted. */
static uint32_t uncounted = TCAM_COUNTED;
static const uint32_t uncounted_flags[] = {TCAM_UNCOUNTED, 2, 7, 256, 65536, 0x80000000u, UINT32_MAX};

/* Words of a table of so many slots at this width, which are also where slot n begins; and room for it at either width. */
#define SLOTS(n) ((size_t)(n) * (2 * width + 2))
#define MOST_WIDTH TCAM_WIDTH_320
#define ROOM(slots) TCAM_TABLE_WORDS(MOST_WIDTH, slots)

/* A record at either width; a value, a mask or a key. */
typedef uint64_t record_words[ROOM(1)];
typedef uint64_t pattern_words[MOST_WIDTH];

/* Words of a plan. */
#define COPY(from, to) ((uint32_t)(from) * 65536u + (uint32_t)(to))
#define PUT(to) COPY(65535u, to)
#define EMPTYING(to) COPY(65534u, to)

/* ---- Checks ---- */

static unsigned long checks, failures;
static int case_line;                   /* the case under test: its line in the program, 0 for a made table */
static const char *made_how = "random table"; /* how the table under test was made, and its number */
static unsigned long turn;
static unsigned long long seed = 2026;

static inline void check(int holds, const char *expression, const char *file, int line)
{
    checks++;
    if (holds)
        return;
    failures++;
    if (failures > 20)
        return;
    fprintf(stderr, "%s:%d: failed: %s", file, line, expression);
    if (case_line != 0)
        fprintf(stderr, " (case at line %d, ", case_line);
    else
        fprintf(stderr, " (%s %lu, seed %llu, ", made_how, turn, seed);
    fprintf(stderr, "width %u, edition %u, flag %u)\n", (unsigned)width, (unsigned)edition, (unsigned)uncounted);
}

#define CHECK(expression) check((expression) ? 1 : 0, #expression, __FILE__, __LINE__)
#define HERE (case_line = __LINE__)

/* The program's last line, and what it returns. */
static inline int verdict(const char *program)
{
    if (failures != 0) {
        fprintf(stderr, "%s: %lu of %lu checks failed\n", program, failures, checks);
        return 1;
    }
    printf("%s: %lu checks passed\n", program, checks);
    return 0;
}

/* ---- Rules and records, bit by bit, in the words of the rules ---- */

/* The words of a value and a mask past the width are not used. */
struct rule {
    uint32_t id;
    uint64_t priority;
    pattern_words value, mask;
    uint32_t action;
};

static inline void set_record(uint64_t *record, const struct rule *rule)
{
    for (uint32_t word = 0; word < width; word++) {
        record[word] = rule->value[word];
        record[width + word] = rule->mask[word];
    }
    record[2 * width] = TCAM_ID_ACTION(rule->id, rule->action);
    record[2 * width + 1] = rule->priority;
}

/* A rule from a pattern of 0, 1 and *, highest bit first, the rest uncared for. */
static inline struct rule rule_of(uint32_t id, uint64_t priority, const char *pattern, uint32_t action)
{
    struct rule rule = {id, priority, {0}, {0}, action};
    for (size_t index = 0; pattern[index] != 0; index++) {
        uint64_t one = TOP >> index % 64;
        if (pattern[index] == '1')
            rule.value[index / 64] |= one;
        if (pattern[index] != '*')
            rule.mask[index / 64] |= one;
    }
    return rule;
}

/* The word with id and action. */
static inline uint64_t tag_of(const uint64_t *record)
{
    return record[2 * width];
}

static inline uint32_t id_of(const uint64_t *record)
{
    return (uint32_t)(tag_of(record) / 4294967296u);
}

/* The last word: the rank of a rule in a slot, the priority of one that is given. */
static inline uint64_t rank_of(const uint64_t *record)
{
    return record[2 * width + 1];
}

static inline int is_empty(const uint64_t *record)
{
    for (uint32_t word = 2 * width + 2; word > 0; word--)
        if (record[word - 1] != 0)
            return 0;
    return 1;
}

/* Every bit of the width is cared for. */
static inline int is_exact(const uint64_t *record)
{
    for (uint32_t word = 0; word < width; word++)
        if (record[width + word] != ALL)
            return 0;
    return 1;
}

static inline int is_within_mask(const uint64_t *record)
{
    for (uint32_t word = 0; word < width; word++) {
        uint64_t value = record[word], mask = record[width + word];
        for (; value != 0; value /= 2, mask /= 2)
            if (value % 2 == 1 && mask % 2 == 0)
                return 0;
    }
    return 1;
}

/* A rule as a call is given it: its priority is at most 65,535, whatever its mask. */
static inline int is_sound_given(const uint64_t *record)
{
    return id_of(record) != 0 && rank_of(record) <= 65535 && is_within_mask(record);
}

/* A slot's record: where every bit is cared for its rank may be 65,536 too. */
static inline int is_sound(const uint64_t *record)
{
    return id_of(record) != 0 && rank_of(record) <= (is_exact(record) ? 65536 : 65535) && is_within_mask(record);
}

/* The record that a rule is put in as: with the rank that the edition gives it. */
static inline void set_ranked(uint64_t *record, const struct rule *rule)
{
    set_record(record, rule);
    if (edition == 10 && is_exact(record))
        record[2 * width + 1] = 65536;
}

/* Bit by bit, until one of the masks has no bits left: no position is cared for by both with different values. */
static inline int overlap(const uint64_t *a, const uint64_t *b)
{
    for (uint32_t word = 0; word < width; word++) {
        uint64_t value_a = a[word], mask_a = a[width + word], value_b = b[word], mask_b = b[width + word];
        while (mask_a != 0 && mask_b != 0) {
            if ((mask_a & 1) == 1 && (mask_b & 1) == 1 && (value_a & 1) != (value_b & 1))
                return 0;
            mask_a >>= 1;
            mask_b >>= 1;
            value_a >>= 1;
            value_b >>= 1;
        }
    }
    return 1;
}

/* Whether two records have the same action. */
static inline int same_action(const uint64_t *a, const uint64_t *b)
{
    return tag_of(a) % 4294967296u == tag_of(b) % 4294967296u;
}

/* Whether order is about two rules: they overlap and, in an uncounted table, their actions differ. */
static inline int ordered(const uint64_t *a, const uint64_t *b)
{
    return (uncounted == TCAM_COUNTED || !same_action(a, b)) && overlap(a, b);
}

/* Whether two slots hold rules of the same value, mask and rank; an empty slot is equal to nothing. */
static inline int equal(const uint64_t *a, const uint64_t *b)
{
    for (uint32_t word = 0; word < 2 * width; word++)
        if (a[word] != b[word])
            return 0;
    return rank_of(a) == rank_of(b) && !is_empty(a) && !is_empty(b);
}

/* Whether a key matches a rule, word by word. */
static inline int matches(const uint64_t *record, const uint64_t *key)
{
    for (uint32_t word = 0; word < width; word++)
        if ((key[word] & record[width + word]) != record[word])
            return 0;
    return !is_empty(record);
}

/* ---- Checks 1 to 4 of a table ---- */

/* The number of slots; 0 where the width is neither 2 nor 5, or the words are not those of 1 to 1,024 slots. */
static inline uint32_t slots_of(size_t words)
{
    for (uint32_t slots = 1; slots <= 1024 && (width == 2 || width == 5); slots++)
        if (words == SLOTS(slots))
            return slots;
    return 0;
}

/* The lowest slot that is neither empty nor a sound rule; here and below, `slots` where there is none. */
static inline uint32_t first_unsound(const uint64_t *table, uint32_t slots)
{
    for (uint32_t slot = 0; slot < slots; slot++)
        if (!is_empty(table + SLOTS(slot)) && !is_sound(table + SLOTS(slot)))
            return slot;
    return slots;
}

/* The lowest slot whose id stands in an earlier slot too. */
static inline uint32_t first_twice(const uint64_t *table, uint32_t slots)
{
    for (uint32_t slot = 0; slot < slots; slot++)
        for (uint32_t earlier = 0; earlier < slot && !is_empty(table + SLOTS(slot)); earlier++)
            if (id_of(table + SLOTS(earlier)) == id_of(table + SLOTS(slot)))
                return slot;
    return slots;
}

/* The lowest slot with an earlier rule of no higher rank that it is ordered with. */
static inline uint32_t first_out_of_order(const uint64_t *table, uint32_t slots)
{
    for (uint32_t slot = 0; slot < slots; slot++) {
        const uint64_t *rule = table + SLOTS(slot);
        for (uint32_t earlier = 0; earlier < slot && !is_empty(rule); earlier++) {
            const uint64_t *other = table + SLOTS(earlier);
            if (rank_of(other) <= rank_of(rule) && !is_empty(other) && ordered(other, rule))
                return slot;
        }
    }
    return slots;
}

/* Check 1 and those after it up to number `last`: the number of the first that fails and its spot, or 0 and 0. */
static inline uint32_t table_fault(const uint64_t *table, size_t words, uint32_t last, uint32_t *spot)
{
    static uint32_t (*const first_fault[])(const uint64_t *, uint32_t) = {first_unsound, first_twice, first_out_of_order};
    uint32_t slots = slots_of(words);
    *spot = 0;
    if (slots == 0)
        return 1;
    for (uint32_t number = 2; number <= last; number++) {
        uint32_t slot = first_fault[number - 2](table, slots);
        if (slot < slots) {
            *spot = slot;
            return number;
        }
    }
    return 0;
}

/* ---- Random numbers ---- */

static uint64_t random_state;

static inline uint64_t random_word(void)
{
    uint64_t x = random_state += 0x9E3779B97F4A7C15u;
    x = (x ^ x >> 30) * 0xBF58476D1CE4E5B9u;
    x = (x ^ x >> 27) * 0x94D049BB133111EBu;
    return x ^ x >> 31;
}

static inline uint32_t below(uint32_t limit)
{
    return (uint32_t)((random_word() >> 32) % limit);
}

/* ---- Lent tables, rules and keys ---- */

/*
 * What is lent as words stands in pages of its own, at the first word or at the last. The pages before and behind cannot be
 * read or written. At its other end it has guard words: rules that match every key, so that a slot read too many shows in
 * an answer.
 */
#define MOST_SLOTS (TCAM_MAX_SLOTS + 2)
#define GUARDS SLOTS(2)

static inline uint64_t guard_word(size_t index)
{
    index %= SLOTS(1);
    return index == 2 * width ? TCAM_ID_ACTION(0x600D600D, 0x0BAD0BAD) : index == 2 * width + 1 ? 9 : 0;
}

struct pages {
    char *start;
    size_t bytes;
};

static struct pages table_pages, rule_pages, key_pages;

static inline void open_pages(struct pages *pages, size_t least_bytes)
{
    size_t page = (size_t)sysconf(_SC_PAGESIZE);
    pages->bytes = (least_bytes + page - 1) / page * page;
    char *mapped = mmap(NULL, pages->bytes + 2 * page, PROT_NONE, MAP_PRIVATE | MAP_ANONYMOUS, -1, 0);
    if (mapped == MAP_FAILED || mprotect(mapped + page, pages->bytes, PROT_READ | PROT_WRITE) != 0) {
        perror("pages");
        exit(1);
    }
    pages->start = mapped + page;
}

static inline void protect_pages(const struct pages *pages, int writable)
{
    if (mprotect(pages->start, pages->bytes, writable ? PROT_READ | PROT_WRITE : PROT_READ) != 0) {
        perror("pages");
        exit(1);
    }
}

static inline void protect_table(int writable)
{
    protect_pages(&table_pages, writable);
}

struct lent {
    const uint64_t *original; /* the words as they were */
    uint64_t *table;          /* the copy that is lent */
    uint64_t *guards;
    size_t words;
};

static inline struct lent lend_in(const struct pages *in, const uint64_t *original, size_t words, int at_end)
{
    uint64_t *pages = (uint64_t *)(void *)in->start;
    struct lent lent = {original, pages, pages + words, words};
    if (at_end) {
        lent.table = pages + in->bytes / sizeof *pages - words;
        lent.guards = lent.table - GUARDS;
    }
    memcpy(lent.table, original, words * sizeof *original);
    for (size_t index = 0; index < GUARDS; index++)
        lent.guards[index] = guard_word(index);
    return lent;
}

static inline struct lent lend(const uint64_t *original, size_t words, int at_end)
{
    return lend_in(&table_pages, original, words, at_end);
}

static inline void check_lent(const struct lent *lent)
{
    int guards_stay = 1;
    CHECK(memcmp(lent->table, lent->original, lent->words * sizeof *lent->table) == 0);
    for (size_t index = 0; index < GUARDS; index++)
        guards_stay &= lent->guards[index] == guard_word(index);
    CHECK(guards_stay);
}

/* ---- Lent cells ---- */

/* Marks change from word to word and from call to call. None is a word of a plan. */
static inline uint32_t next_mark(void)
{
    static uint32_t mark = 0xA5A5A5A5u;
    mark = mark * 1664525u + 1013904223u;
    return mark | 0x40000000u;
}

/* Lent cells have odd numbers, each between guards of even numbers; all are marked beforehand. */
static inline void mark_cells(uint32_t *cell, uint32_t *before, int cells)
{
    for (int index = 0; index < cells; index++)
        cell[index] = before[index] = next_mark();
}

static inline void check_cell_guards(const uint32_t *cell, const uint32_t *before, int cells)
{
    int guards_stay = 1;
    for (int index = 0; index < cells; index += 2)
        guards_stay &= cell[index] == before[index];
    CHECK(guards_stay);
}

/* ---- The start of a program ---- */

/* Takes the seed, and how many tables or calls to make, from the command line where they stand there. */
static inline unsigned long begin(int count, char **arguments, unsigned long most)
{
    if (count > 1)
        seed = strtoull(arguments[1], NULL, 0);
    if (count > 2)
        most = strtoul(arguments[2], NULL, 0);
    random_state = seed;
    open_pages(&table_pages, (ROOM(MOST_SLOTS) + ROOM(2)) * sizeof(uint64_t));
    open_pages(&rule_pages, ROOM(4) * sizeof(uint64_t));
    open_pages(&key_pages, ROOM(4) * sizeof(uint64_t));
    return most;
}

/* At each width all cases, in their order. */
static inline void run_cases(void (*const *cases)(void), size_t count)
{
    for (size_t at = 0; at < COUNT_OF(widths); at++) {
        width = widths[at];
        for (size_t index = 0; index < count; index++) {
            edition = TCAM_EDITION_13;
            uncounted = TCAM_COUNTED;
            cases[index]();
        }
    }
}

#endif
