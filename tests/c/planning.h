/*
 * What plan_test.c and clearing_test.c share: checks 1 to 9 and the costs of slots by document 01, lent plans between guards, what is
 * looked at in a table after each write, and tables of rules that are written down.
 */
#ifndef PLANNING_H
#define PLANNING_H

#include "testing.h"

/* ---- The reference: document 01, "Why a call declines" and "How a plan is found" ---- */

/* A refusal's number and spot, or 0, the count, the plan and, of an insert, the slot of the rule that covers the new one. */
struct told {
    uint32_t number, spot, count, covered;
    uint32_t plan[TCAM_MAX_SLOTS];
};

static inline uint32_t refuse(struct told *told, uint32_t number, uint32_t spot)
{
    told->number = number;
    told->spot = spot;
    told->count = 0;
    return number;
}

/* Checks 1 to 4. */
static inline uint32_t ref_table(const uint64_t *table, size_t words, struct told *told)
{
    uint32_t spot, number = table_fault(table, words, 4, &spot);
    return refuse(told, number, spot);
}

#define NEVER 1000000

/* For each slot its cost in one direction, and where its rule would go. */
static int down_cost[TCAM_MAX_SLOTS], down_next[TCAM_MAX_SLOTS], up_cost[TCAM_MAX_SLOTS], up_next[TCAM_MAX_SLOTS];

static inline void find_down_costs(const uint64_t *table, int slots)
{
    for (int slot = slots - 1; slot >= 0; slot--) {
        int least = NEVER, dependant = slots - 1;
        down_next[slot] = -1;
        if (is_empty(table + SLOTS(slot))) {
            down_cost[slot] = 0;
            continue;
        }
        for (int later = slot + 1; later < slots; later++)
            if (precedes(table + SLOTS(slot), table + SLOTS(later))) {
                dependant = later;
                break;
            }
        for (int to = dependant; to > slot; to--)
            if (down_cost[to] < NEVER && down_cost[to] <= least) {
                least = down_cost[to];
                down_next[slot] = to; /* in the end the lowest */
            }
        down_cost[slot] = least == NEVER ? NEVER : least + 1;
    }
}

static inline void find_up_costs(const uint64_t *table, int slots)
{
    for (int slot = 0; slot < slots; slot++) {
        int least = NEVER, preceding = 0;
        up_next[slot] = -1;
        if (is_empty(table + SLOTS(slot))) {
            up_cost[slot] = 0;
            continue;
        }
        for (int earlier = slot - 1; earlier >= 0; earlier--)
            if (precedes(table + SLOTS(earlier), table + SLOTS(slot))) {
                preceding = earlier;
                break;
            }
        for (int to = preceding; to < slot; to++)
            if (up_cost[to] < NEVER && up_cost[to] <= least) {
                least = up_cost[to];
                up_next[slot] = to; /* in the end the highest */
            }
        up_cost[slot] = least == NEVER ? NEVER : least + 1;
    }
}

/* A's and B's slots: -1 and the number of slots where there are none. */
static inline void find_neighbours(const uint64_t *table, int slots, const uint64_t *new_record, int *a, int *b)
{
    *a = -1;
    *b = slots;
    for (int slot = 0; slot < slots; slot++)
        if (precedes(table + SLOTS(slot), new_record))
            *a = slot;
    for (int slot = slots - 1; slot >= 0; slot--)
        if (precedes(new_record, table + SLOTS(slot)))
            *b = slot;
}

/* Whether a new rule replaces that of a slot: they are equal and, in an uncounted table, of one action. */
static inline int is_replaced(const uint64_t *record, const uint64_t *new_record)
{
    return equal(record, new_record) && (uncounted == TCAM_COUNTED || same_action(record, new_record));
}

/* The lowest slot whose rule a new one replaces; `slots` where there is none. */
static inline uint32_t replaced_slot(const uint64_t *table, uint32_t slots, const uint64_t *new_record)
{
    uint32_t slot = 0;
    while (slot < slots && !is_replaced(table + SLOTS(slot), new_record))
        slot++;
    return slot;
}

/* Checks 1 to 9 of a rule that is given, with 18 after 5; 8 and 9 are not asked of one that replaces another. The number of the
 * first that fails, or 0 and the record that the rule is put in as. */
static inline uint32_t ref_given(const uint64_t *table, size_t words, const struct rule *rule, uint64_t *record, struct told *told)
{
    uint32_t slots = slots_of(words), empties = 0;
    if (ref_table(table, words, told) != 0)
        return told->number;
    set_record(record, rule);
    if (!is_sound_given(record))
        return refuse(told, 5, 0);
    if (edition != 10 && edition != 13)
        return refuse(told, 18, 0);
    set_ranked(record, rule);
    for (uint32_t slot = 0; slot < slots; slot++)
        if (id_of(table + SLOTS(slot)) == rule->id)
            return refuse(told, 6, slot);
    if (replaced_slot(table, slots, record) < slots)
        return 0;
    for (uint32_t slot = 0; slot < slots; slot++) {
        const uint64_t *held = table + SLOTS(slot);
        if (!is_empty(held) && rank_of(held) == rank_of(record) && ordered(held, record))
            return refuse(told, 8, slot);
    }
    for (uint32_t slot = 0; slot < slots; slot++)
        empties += is_empty(table + SLOTS(slot)) != 0;
    return empties == 0 ? refuse(told, 9, 0) : 0;
}

/* ---- Lent plans and cells ---- */

/* Lent plans stand in pages too, as lent tables do, with marks at the other end. */
#define MOST_ROOM (TCAM_MAX_SLOTS + 16)
#define PLAN_GUARDS 8

static struct pages plan_pages;

/* The lent plan: its room in words, the marks that stood in it, and the guards at its open end. */
static struct {
    uint32_t *words, *guards;
    uint32_t room;
    uint32_t before[MOST_ROOM], guards_before[PLAN_GUARDS];
} plan;

static inline void lend_plan(uint32_t room, int at_end)
{
    uint32_t *pages = (uint32_t *)(void *)plan_pages.start;
    plan.room = room;
    plan.words = at_end ? pages + plan_pages.bytes / sizeof *pages - room : pages;
    plan.guards = at_end ? plan.words - PLAN_GUARDS : plan.words + room;
    for (uint32_t index = 0; index < room; index++)
        plan.words[index] = plan.before[index] = next_mark();
    for (uint32_t index = 0; index < PLAN_GUARDS; index++)
        plan.guards[index] = plan.guards_before[index] = next_mark();
}

/* The lent cells, each between guards. Beside the count an insert tells the slot that covers, and a clearing with a list whether the
 * list was refreshed. */
enum { COUNT = 1, COVERED = 3, REFRESHED = 3, SPOT = 5, CELLS = 7 };

static struct {
    uint32_t now[CELLS], before[CELLS];
} cells;

/* Everything after a call, against the answer wanted with a buffer of any length. */
static inline void check_left(const struct lent *lent, uint32_t number, const struct told *want)
{
    uint32_t want_number = want->number, want_spot = want->spot, written = want->count;
    if (want_number == TCAM_OK && plan.room < want->count) {
        want_number = TCAM_SHORT;
        want_spot = want->count;
    }
    if (want_number != TCAM_OK)
        written = 0;
    CHECK(number == want_number);
    if (want_number == TCAM_OK) {
        CHECK(cells.now[COUNT] == want->count);
        CHECK(cells.now[SPOT] == cells.before[SPOT]);
    } else {
        CHECK(cells.now[COUNT] == cells.before[COUNT]);
        CHECK(cells.now[SPOT] == want_spot);
    }
    CHECK(memcmp(plan.words, want->plan, written * sizeof *plan.words) == 0);
    CHECK(memcmp(plan.words + written, plan.before + written, (plan.room - written) * sizeof *plan.words) == 0);
    CHECK(memcmp(plan.guards, plan.guards_before, sizeof plan.guards_before) == 0);
    check_cell_guards(cells.now, cells.before, CELLS);
    check_lent(lent);
}

/* ---- A table after a write ---- */

/* Id and action of the first slot that matches; 0 for a miss. */
static inline uint64_t first_reply(const uint64_t *table, uint32_t slots, const uint64_t *key)
{
    for (uint32_t slot = 0; slot < slots; slot++)
        if (matches(table + SLOTS(slot), key))
            return tag_of(table + SLOTS(slot));
    return 0;
}

/* What is promised of a reply: the wanted one or, in an uncounted table, one of its action; a miss for a miss. */
static inline int is_promised(uint64_t reply, uint64_t wanted_reply)
{
    if (uncounted == TCAM_COUNTED || wanted_reply == 0 || reply == 0)
        return reply == wanted_reply;
    return reply % 4294967296u == wanted_reply % 4294967296u;
}

/* The rule of a slot against all others: the ordered ones before it have strictly higher ranks, those after lower. */
static inline int in_order_at(const uint64_t *table, uint32_t slots, uint32_t slot)
{
    const uint64_t *rule = table + SLOTS(slot);
    for (uint32_t other = 0; other < slots && !is_empty(rule); other++) {
        const uint64_t *record = table + SLOTS(other);
        if (other < slot ? rank_of(record) > rank_of(rule) : rank_of(record) < rank_of(rule))
            continue;
        if (id_of(record) != id_of(rule) && !is_empty(record) && ordered(record, rule))
            return 0;
    }
    return 1;
}

static inline int in_order(const uint64_t *table, uint32_t slots)
{
    for (uint32_t slot = 0; slot < slots; slot++)
        if (!in_order_at(table, slots, slot))
            return 0;
    return 1;
}

/* An empty slot, or one whose id stands in another slot too. */
static inline int is_free(const uint64_t *table, uint32_t slots, uint32_t slot)
{
    for (uint32_t other = 0; other < slots; other++)
        if (other != slot && id_of(table + SLOTS(other)) == id_of(table + SLOTS(slot)))
            return 1;
    return is_empty(table + SLOTS(slot));
}

static inline uint32_t times_held(const uint64_t *table, uint32_t slots, const uint64_t *record)
{
    uint32_t times = 0;
    for (uint32_t slot = 0; slot < slots; slot++)
        times += tag_of(table + SLOTS(slot)) == tag_of(record) &&
                 memcmp(table + SLOTS(slot), record, SLOTS(1) * sizeof *record) == 0;
    return times;
}

/* ---- Tables of written rules, and what is wanted of them ---- */

static uint64_t table[ROOM(MOST_SLOTS)];
static struct told want, ref;

static inline void clear(void)
{
    memset(table, 0, sizeof table);
}

static inline void put(uint32_t slot, struct rule rule)
{
    set_record(table + SLOTS(slot), &rule);
}

/* A rule and the slot that holds it. */
struct placed {
    uint32_t slot, id;
    uint64_t priority;
    const char *pattern;
    uint32_t action;
};

/* The case's table: these rules, and no others. */
static inline void hold(const struct placed *rules, size_t count)
{
    clear();
    for (size_t index = 0; index < count; index++) {
        const struct placed *rule = rules + index;
        put(rule->slot, rule_of(rule->id, rule->priority, rule->pattern, rule->action));
    }
}

#define HOLD(...) hold((struct placed[]){__VA_ARGS__}, sizeof((struct placed[]){__VA_ARGS__}) / sizeof(struct placed))

static inline void check_ref(void)
{
    CHECK(ref.number == want.number);
    CHECK(ref.spot == want.spot);
    CHECK(ref.count == want.count);
    CHECK(memcmp(ref.plan, want.plan, want.count * sizeof *want.plan) == 0);
}

static inline void wanted(uint32_t number, uint32_t spot, const uint32_t *writes, size_t count)
{
    want.number = number;
    want.spot = spot;
    want.count = (uint32_t)count;
    for (size_t index = 0; index < count; index++)
        want.plan[index] = writes[index];
}

#define WRITES(...) (uint32_t[]){__VA_ARGS__}, sizeof((uint32_t[]){__VA_ARGS__}) / sizeof(uint32_t)

/* What a counted table answers, in the midst of a case. */
#define COUNTED(statement)                 \
    do {                                   \
        uint32_t flag = uncounted;         \
        uncounted = TCAM_COUNTED;          \
        statement;                         \
        uncounted = flag;                  \
    } while (0)

/* A rule without wildcards, for the key 0. */
static inline struct rule for_key_zero(uint32_t id, uint64_t priority, uint32_t action)
{
    struct rule rule = rule_of(id, priority, "", action);
    for (uint32_t word = 0; word < width; word++)
        rule.mask[word] = ALL;
    return rule;
}

#endif
