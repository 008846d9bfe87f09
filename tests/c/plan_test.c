/*
 * Plans inserts and deletes as firmware would, at each width, carries the plans out, and checks every answer, every lent buffer
 * and every table on the way: first cases whose plans are written here, then all tables of a few slots and random ones.
 * Their plans come from a reference written from document 01 and document 02's 2026-07, 2026-03, 2026-11 and 2026-05, and their counts
 * from a search of the comparison class.
 *
 *     plan_test [seed [tables]]
 */
#define _DEFAULT_SOURCE /* for mmap without a file */
#include "testing.h"

/* ---- The reference: document 01, "Why a call declines" and "How a plan is found" ---- */

/* A refusal's number and spot, or 0, the count, the plan and, of an insert, the slot of the rule that covers the new one. */
struct told {
    uint32_t number, spot, count, covered;
    uint32_t plan[TCAM_MAX_SLOTS];
};

/* What there was to choose in a plan, for the counts at the end. */
static struct {
    int up, equal, choice_tie, hop_tie, on_dependant, around_dependant;
} way;

/* Whether the first of two rules precedes the second: they are ordered and it has the higher rank. */
static int precedes(const uint64_t *a, const uint64_t *b)
{
    return rank_of(a) > rank_of(b) && !is_empty(a) && !is_empty(b) && ordered(a, b);
}

static uint32_t refuse(struct told *told, uint32_t number, uint32_t spot)
{
    told->number = number;
    told->spot = spot;
    told->count = 0;
    return number;
}

/* Checks 1 to 4. */
static uint32_t ref_table(const uint64_t *table, size_t words, struct told *told)
{
    uint32_t spot, number = table_fault(table, words, 4, &spot);
    return refuse(told, number, spot);
}

#define NEVER 1000000

/* For each slot its cost in one direction, and where its rule would go. */
static int down_cost[TCAM_MAX_SLOTS], down_next[TCAM_MAX_SLOTS], up_cost[TCAM_MAX_SLOTS], up_next[TCAM_MAX_SLOTS];

static void find_down_costs(const uint64_t *table, int slots)
{
    for (int slot = slots - 1; slot >= 0; slot--) {
        int least = NEVER, dependant = slots - 1;
        down_next[slot] = -1;
        if (is_empty(table + SLOTS(slot))) {
            down_cost[slot] = 0;
            continue;
        }
        for (int later = slot + 1; later < slots; later++)
            if (precedes(table + SLOTS(slot), table + SLOTS(later))) {
                dependant = later;
                break;
            }
        for (int to = dependant; to > slot; to--)
            if (down_cost[to] < NEVER && down_cost[to] <= least) {
                least = down_cost[to];
                down_next[slot] = to; /* in the end the lowest */
            }
        down_cost[slot] = least == NEVER ? NEVER : least + 1;
    }
}

static void find_up_costs(const uint64_t *table, int slots)
{
    for (int slot = 0; slot < slots; slot++) {
        int least = NEVER, preceding = 0;
        up_next[slot] = -1;
        if (is_empty(table + SLOTS(slot))) {
            up_cost[slot] = 0;
            continue;
        }
        for (int earlier = slot - 1; earlier >= 0; earlier--)
            if (precedes(table + SLOTS(earlier), table + SLOTS(slot))) {
                preceding = earlier;
                break;
            }
        for (int to = preceding; to < slot; to++)
            if (up_cost[to] < NEVER && up_cost[to] <= least) {
                least = up_cost[to];
                up_next[slot] = to; /* in the end the highest */
            }
        up_cost[slot] = least == NEVER ? NEVER : least + 1;
    }
}

/* A's and B's slots: -1 and the number of slots where there are none. */
static void find_neighbours(const uint64_t *table, int slots, const uint64_t *new_record, int *a, int *b)
{
    *a = -1;
    *b = slots;
    for (int slot = 0; slot < slots; slot++)
        if (precedes(table + SLOTS(slot), new_record))
            *a = slot;
    for (int slot = slots - 1; slot >= 0; slot--)
        if (precedes(new_record, table + SLOTS(slot)))
            *b = slot;
}

/* Fills in `way`: of the new rule's slot, then of each displaced rule's. */
static void find_way(const uint64_t *table, int slots, int a, int b, int slot)
{
    const int *cost = way.up ? up_cost : down_cost, *next = way.up ? up_next : down_next;
    way.choice_tie = way.hop_tie = way.on_dependant = way.around_dependant = 0;
    for (int other = way.up ? a : a + 1; other < (way.up ? b : b + 1); other++)
        if (other >= 0 && other < slots && other != slot && cost[other] == cost[slot])
            way.choice_tie = 1;
    for (; cost[slot] > 0; slot = next[slot]) {
        const uint64_t *rule = table + SLOTS(slot);
        for (int to = next[slot]; to >= 0 && to < slots; to += way.up ? -1 : 1) {
            int last = way.up ? precedes(table + SLOTS(to), rule) : precedes(rule, table + SLOTS(to));
            way.hop_tie |= to != next[slot] && cost[to] == cost[next[slot]];
            way.on_dependant |= to == next[slot] && last;
            way.around_dependant |= cost[to] > cost[next[slot]] && last;
            if (last)
                break;
        }
    }
}

static void find_plan(const uint64_t *table, int slots, int a, int b, struct told *told)
{
    int down = NEVER, down_slot = -1, up = NEVER, up_slot = -1;
    find_down_costs(table, slots);
    find_up_costs(table, slots);
    for (int slot = 0; slot < slots; slot++)
        if (a + 1 <= slot && slot <= b && down_cost[slot] < down) {
            down = down_cost[slot];
            down_slot = slot;
        }
    for (int slot = slots - 1; slot >= 0; slot--)
        if (a <= slot && slot <= b - 1 && up_cost[slot] < up) {
            up = up_cost[slot];
            up_slot = slot;
        }
    way.up = up < down;
    int slot = way.up ? up_slot : down_slot, cost = way.up ? up : down;
    if (slot < 0) { /* document 01 excludes it */
        refuse(told, 99, 0);
        return;
    }
    way.equal = down == up && down > 0;
    find_way(table, slots, a, b, slot);
    told->count = (uint32_t)cost + 1;
    told->plan[cost] = PUT(slot);
    while (cost > 0) {
        int next = way.up ? up_next[slot] : down_next[slot];
        told->plan[--cost] = COPY(slot, next);
        slot = next;
    }
}

/* Whether a new rule replaces that of a slot: they are equal and, in an uncounted table, of one action. */
static int is_replaced(const uint64_t *record, const uint64_t *new_record)
{
    return equal(record, new_record) && (uncounted == TCAM_COUNTED || same_action(record, new_record));
}

/* The lowest slot whose rule a new one replaces; `slots` where there is none. */
static uint32_t replaced_slot(const uint64_t *table, uint32_t slots, const uint64_t *new_record)
{
    uint32_t slot = 0;
    while (slot < slots && !is_replaced(table + SLOTS(slot), new_record))
        slot++;
    return slot;
}

/* Checks 1 to 10 of an insert, with 18 after 5 and a replacement after 6, and its plan. */
static void ref_plan(const uint64_t *table, size_t words, const struct rule *rule, struct told *told)
{
    record_words record;
    uint32_t slots = slots_of(words), empties = 0;
    int a, b;
    if (ref_table(table, words, told) != 0)
        return;
    set_record(record, rule);
    if (!is_sound_given(record)) {
        refuse(told, 5, 0);
        return;
    }
    if (edition != 10 && edition != 13) {
        refuse(told, 18, 0);
        return;
    }
    set_ranked(record, rule);
    for (uint32_t slot = 0; slot < slots; slot++)
        if (id_of(table + SLOTS(slot)) == rule->id) {
            refuse(told, 6, slot);
            return;
        }
    uint32_t replaced = replaced_slot(table, slots, record);
    if (replaced < slots) {
        told->count = 1;
        told->plan[0] = PUT(replaced);
        return;
    }
    for (uint32_t slot = 0; slot < slots; slot++) {
        const uint64_t *held = table + SLOTS(slot);
        if (!is_empty(held) && rank_of(held) == rank_of(record) && ordered(held, record)) {
            refuse(told, 8, slot);
            return;
        }
    }
    for (uint32_t slot = 0; slot < slots; slot++)
        empties += is_empty(table + SLOTS(slot)) != 0;
    if (empties == 0) {
        refuse(told, 9, 0);
        return;
    }
    find_neighbours(table, (int)slots, record, &a, &b);
    if (a > b) {
        refuse(told, 10, (uint32_t)a);
        return;
    }
    find_plan(table, (int)slots, a, b, told);
}

/* Bit by bit: what the first of two rules cares for, the second asks for too. */
static int covers(const uint64_t *a, const uint64_t *b)
{
    for (uint32_t bit = 0; bit < 64 * width; bit++) {
        const uint32_t value = bit / 64, mask = width + value;
        const uint64_t one = TOP >> bit % 64;
        if ((a[mask] & one) != 0 && ((b[mask] & one) == 0 || (a[value] & one) != (b[value] & one)))
            return 0;
    }
    return 1;
}

/* The lowest slot with a rule of higher rank that covers the new one by itself; 65,535 where there is none. */
static uint32_t covering_slot(const uint64_t *table, uint32_t slots, const uint64_t *new_record)
{
    for (uint32_t slot = 0; slot < slots; slot++) {
        const uint64_t *held = table + SLOTS(slot);
        if (!is_empty(held) && rank_of(held) > rank_of(new_record) && covers(held, new_record))
            return slot;
    }
    return 65535;
}

/* All that is told of an insert. */
static void ref_insert(const uint64_t *table, size_t words, const struct rule *rule, struct told *told)
{
    record_words record;
    ref_plan(table, words, rule, told);
    if (told->number != 0)
        return;
    set_ranked(record, rule);
    told->covered = covering_slot(table, slots_of(words), record);
}

/* Checks 1 to 4, 5 and 7 of a delete, and its plan. */
static void ref_delete(const uint64_t *table, size_t words, uint32_t id, struct told *told)
{
    uint32_t slots = slots_of(words);
    if (ref_table(table, words, told) != 0)
        return;
    if (id == 0) {
        refuse(told, 5, 0);
        return;
    }
    for (uint32_t slot = 0; slot < slots; slot++)
        if (id_of(table + SLOTS(slot)) == id) {
            told->count = 1;
            told->plan[0] = EMPTYING(slot);
            return;
        }
    refuse(told, 7, 0);
}

/* ---- Lent buffers ---- */

/* Lent plans stand in pages too, as lent tables do, with marks at the other end. */
#define MOST_ROOM (TCAM_MAX_SLOTS + 16)
#define PLAN_GUARDS 8

static struct pages plan_pages;

/* The lent plan: its room in words, the marks that stood in it, and the guards at its open end. */
static struct {
    uint32_t *words, *guards;
    uint32_t room;
    uint32_t before[MOST_ROOM], guards_before[PLAN_GUARDS];
} plan;

static void lend_plan(uint32_t room, int at_end)
{
    uint32_t *pages = (uint32_t *)(void *)plan_pages.start;
    plan.room = room;
    plan.words = at_end ? pages + plan_pages.bytes / sizeof *pages - room : pages;
    plan.guards = at_end ? plan.words - PLAN_GUARDS : plan.words + room;
    for (uint32_t index = 0; index < room; index++)
        plan.words[index] = plan.before[index] = next_mark();
    for (uint32_t index = 0; index < PLAN_GUARDS; index++)
        plan.guards[index] = plan.guards_before[index] = next_mark();
}

/* The lent cells, each between guards. */
enum { COUNT = 1, COVERED = 3, SPOT = 5, CELLS = 7 };

static struct {
    uint32_t now[CELLS], before[CELLS];
} cells;

/* ---- One call, with all that it promises ---- */

/* Everything after a call, against the answer wanted with a buffer of any length. */
static void check_left(const struct lent *lent, uint32_t number, const struct told *want)
{
    uint32_t want_number = want->number, want_spot = want->spot, written = want->count;
    if (want_number == TCAM_OK && plan.room < want->count) {
        want_number = TCAM_SHORT;
        want_spot = want->count;
    }
    if (want_number != TCAM_OK)
        written = 0;
    CHECK(number == want_number);
    if (want_number == TCAM_OK) {
        CHECK(cells.now[COUNT] == want->count);
        CHECK(cells.now[SPOT] == cells.before[SPOT]);
    } else {
        CHECK(cells.now[COUNT] == cells.before[COUNT]);
        CHECK(cells.now[SPOT] == want_spot);
    }
    CHECK(memcmp(plan.words, want->plan, written * sizeof *plan.words) == 0);
    CHECK(memcmp(plan.words + written, plan.before + written, (plan.room - written) * sizeof *plan.words) == 0);
    CHECK(memcmp(plan.guards, plan.guards_before, sizeof plan.guards_before) == 0);
    check_cell_guards(cells.now, cells.before, CELLS);
    check_lent(lent);
}

/* The rule is lent at either end of its pages, and so many of its words. */
static uint32_t call_insert_of(const struct lent *lent, const struct rule *rule, size_t rule_words, uint32_t room, int at_end,
                               const struct told *want)
{
    uint64_t given[ROOM(2)] = {0};
    set_record(given, rule);
    struct lent lent_rule = lend_in(&rule_pages, given, rule_words, at_end);
    lend_plan(room, at_end);
    mark_cells(cells.now, cells.before, CELLS);
    uint32_t number = tcam_plan_insert(lent->table, lent->words, width, uncounted, lent_rule.table, rule_words, edition,
                                       plan.words, room, &cells.now[COUNT], &cells.now[COVERED], &cells.now[SPOT]);
    check_left(lent, number, want);
    CHECK(cells.now[COVERED] == (number == TCAM_OK ? want->covered : cells.before[COVERED]));
    check_lent(&lent_rule);
    return number;
}

static uint32_t call_insert(const struct lent *lent, const struct rule *rule, uint32_t room, int at_end, const struct told *want)
{
    return call_insert_of(lent, rule, SLOTS(1), room, at_end, want);
}

static uint32_t call_delete(const struct lent *lent, uint32_t id, uint32_t room, int at_end, const struct told *want)
{
    lend_plan(room, at_end);
    mark_cells(cells.now, cells.before, CELLS);
    uint32_t number = tcam_plan_delete(lent->table, lent->words, width, uncounted, id, plan.words, room, &cells.now[COUNT],
                                       &cells.now[SPOT]);
    check_left(lent, number, want);
    return number;
}

/* ---- Carrying out ---- */

#define MOST_KEYS 48

struct keys {
    uint32_t count;
    pattern_words key[MOST_KEYS];
};

static void add_key(struct keys *keys, const uint64_t *key)
{
    if (keys->count < MOST_KEYS)
        memcpy(keys->key[keys->count++], key, width * sizeof *key);
}

/* A key at random, of those that have this value at the bits of this mask. */
static void add_random_key(struct keys *keys, const uint64_t *value, const uint64_t *mask)
{
    pattern_words key;
    for (uint32_t word = 0; word < width; word++)
        key[word] = value[word] | (random_word() & ~mask[word]);
    add_key(keys, key);
}

/* Keys that the rules match, one each, and some that they may not. */
static void sample_keys(struct keys *keys, const uint64_t *table, uint32_t slots, const struct rule *rule, uint32_t most)
{
    static const pattern_words none;
    keys->count = 0;
    for (uint32_t round = 0; round < most / 4; round++)
        add_random_key(keys, rule->value, rule->mask);
    for (uint32_t round = 0; round < most / 2; round++) {
        const uint64_t *record = table + SLOTS(slots <= most / 2 ? round % slots : below(slots));
        add_random_key(keys, record, record + width);
    }
    while (keys->count < most)
        add_random_key(keys, none, none);
}

/* Id and action of the first slot that matches; 0 for a miss. */
static uint64_t first_reply(const uint64_t *table, uint32_t slots, const uint64_t *key)
{
    for (uint32_t slot = 0; slot < slots; slot++)
        if (matches(table + SLOTS(slot), key))
            return tag_of(table + SLOTS(slot));
    return 0;
}

/* The reply by highest rank, of the old rules and the new one; one that the new one replaces has its rank, and gives way to it. Of
 * several of the highest rank, in an uncounted table, all have one action. */
static uint64_t best_reply(const uint64_t *table, uint32_t slots, const uint64_t *new_record, const uint64_t *key)
{
    const uint64_t *best = matches(new_record, key) ? new_record : NULL;
    for (uint32_t slot = 0; slot < slots; slot++)
        if (matches(table + SLOTS(slot), key) && (best == NULL || rank_of(table + SLOTS(slot)) > rank_of(best)))
            best = table + SLOTS(slot);
    return best == NULL ? 0 : tag_of(best);
}

/* What is promised of a reply: the wanted one or, in an uncounted table, one of its action; a miss for a miss. */
static int is_promised(uint64_t reply, uint64_t wanted_reply)
{
    if (uncounted == TCAM_COUNTED || wanted_reply == 0 || reply == 0)
        return reply == wanted_reply;
    return reply % 4294967296u == wanted_reply % 4294967296u;
}

/* The rule of a slot against all others: the ordered ones before it have strictly higher ranks, those after lower. */
static int in_order_at(const uint64_t *table, uint32_t slots, uint32_t slot)
{
    const uint64_t *rule = table + SLOTS(slot);
    for (uint32_t other = 0; other < slots && !is_empty(rule); other++) {
        const uint64_t *record = table + SLOTS(other);
        if (other < slot ? rank_of(record) > rank_of(rule) : rank_of(record) < rank_of(rule))
            continue;
        if (id_of(record) != id_of(rule) && !is_empty(record) && ordered(record, rule))
            return 0;
    }
    return 1;
}

static int in_order(const uint64_t *table, uint32_t slots)
{
    for (uint32_t slot = 0; slot < slots; slot++)
        if (!in_order_at(table, slots, slot))
            return 0;
    return 1;
}

/* An empty slot, or one whose id stands in another slot too. */
static int is_free(const uint64_t *table, uint32_t slots, uint32_t slot)
{
    for (uint32_t other = 0; other < slots; other++)
        if (other != slot && id_of(table + SLOTS(other)) == id_of(table + SLOTS(slot)))
            return 1;
    return is_empty(table + SLOTS(slot));
}

static uint32_t times_held(const uint64_t *table, uint32_t slots, const uint64_t *record)
{
    uint32_t times = 0;
    for (uint32_t slot = 0; slot < slots; slot++)
        times += tag_of(table + SLOTS(slot)) == tag_of(record) &&
                 memcmp(table + SLOTS(slot), record, SLOTS(1) * sizeof *record) == 0;
    return times;
}

static uint64_t carried[ROOM(TCAM_MAX_SLOTS)];

/* After an insert: each rule of the table before stands once, but for the one that is replaced, and so does the new one. */
static void check_held_once(const uint64_t *old, uint32_t slots, const uint64_t *new_record)
{
    int held_once = times_held(carried, slots, new_record) == 1;
    uint32_t old_empty = 0, empty = 0, replaced = replaced_slot(old, slots, new_record);
    for (uint32_t slot = 0; slot < slots; slot++) {
        old_empty += is_empty(old + SLOTS(slot)) != 0;
        empty += is_empty(carried + SLOTS(slot)) != 0;
        if (!is_empty(old + SLOTS(slot)))
            held_once &= times_held(carried, slots, old + SLOTS(slot)) == (slot != replaced);
    }
    CHECK(held_once);
    CHECK(empty + (replaced == slots) == old_empty);
}

/* Carries out the plan of an insert, on `carried`, and checks the table after every write. */
static void carry_out_insert(const uint64_t *old, uint32_t slots, const struct rule *rule, const uint32_t *writes,
                             uint32_t count, const struct keys *keys)
{
    int toward_higher = 0, toward_lower = 0;
    record_words new_record;
    uint64_t old_reply[MOST_KEYS], new_reply[MOST_KEYS];
    set_ranked(new_record, rule);
    memcpy(carried, old, SLOTS(slots) * sizeof *old);
    for (uint32_t key = 0; key < keys->count; key++) {
        old_reply[key] = first_reply(old, slots, keys->key[key]);
        new_reply[key] = best_reply(old, slots, new_record, keys->key[key]);
    }
    CHECK(1 <= count && count <= slots);
    if (count > slots)
        return;
    for (uint32_t index = 0; index < count; index++) {
        uint32_t from = tcam_write_from(writes[index]), to = tcam_write_to(writes[index]);
        int last = index == count - 1, replies_right = 1;
        int exists = to < slots && (last ? from == TCAM_PUT : from < slots && from != to && !is_empty(carried + SLOTS(from)));
        CHECK(exists);
        if (!exists)
            return;
        if (!last && from < to)
            toward_higher = 1;
        if (!last && from > to)
            toward_lower = 1;
        CHECK(!(toward_higher && toward_lower));
        CHECK(is_free(carried, slots, to) || (last && equal(carried + SLOTS(to), new_record)));
        memcpy(carried + SLOTS(to), last ? new_record : carried + SLOTS(from), SLOTS(1) * sizeof *carried);
        CHECK(slots > 16 ? in_order_at(carried, slots, to) : in_order(carried, slots));
        for (uint32_t key = 0; key < keys->count; key++)
            replies_right &= is_promised(first_reply(carried, slots, keys->key[key]), last ? new_reply[key] : old_reply[key]);
        CHECK(replies_right);
        uint32_t key = below(keys->count), slot, id, action, spot;
        CHECK(tcam_lookup(carried, SLOTS(slots), width, keys->key[key], width, &slot, &id, &action, &spot) == TCAM_OK &&
              TCAM_ID_ACTION(id, action) == first_reply(carried, slots, keys->key[key]));
    }
    check_held_once(old, slots, new_record);
}

/* Carries out the plan of a delete, on `carried`. */
static void carry_out_delete(const uint64_t *old, uint32_t slots, uint32_t id, const uint32_t *writes, uint32_t count)
{
    int others_stay = 1;
    uint32_t to = tcam_write_to(writes[0]);
    memcpy(carried, old, SLOTS(slots) * sizeof *old);
    CHECK(count == 1);
    CHECK(tcam_write_from(writes[0]) == TCAM_EMPTY);
    CHECK(to < slots);
    if (to >= slots)
        return;
    CHECK(id_of(old + SLOTS(to)) == id);
    memset(carried + SLOTS(to), 0, SLOTS(1) * sizeof *carried);
    for (uint32_t slot = 0; slot < slots; slot++)
        others_stay &= slot == to ? is_empty(carried + SLOTS(slot)) : id_of(carried + SLOTS(slot)) != id;
    CHECK(others_stay);
    CHECK(in_order(carried, slots));
}

/* ---- The comparison class, searched breadth first ---- */

#define CLASS_SLOTS 5

/* may[a][b]: the rule of slot a, in the table to begin with, may stand before that of slot b; the new rule is the last. */
static int may[CLASS_SLOTS + 1][CLASS_SLOTS + 1];

/* A table on the way: for each slot the slot that its rule came from, or NONE. Packed, three bits for each. */
#define NONE 7

static int stands_right(const int *held, int slots, int slot, int rule)
{
    for (int other = 0; other < slots; other++) {
        if (other == slot || held[other] == NONE || held[other] == rule)
            continue;
        if (other < slot ? !may[held[other]][rule] : !may[rule][held[other]])
            return 0;
    }
    return 1;
}

static int slot_free(const int *held, int slots, int slot)
{
    for (int other = 0; other < slots; other++)
        if (other != slot && held[other] == held[slot])
            return 1;
    return held[slot] == NONE;
}

static uint32_t pack(const int *held, int slots)
{
    uint32_t state = 0;
    for (int slot = 0; slot < slots; slot++)
        state = state * 8 + (uint32_t)held[slot];
    return state;
}

static void unpack(uint32_t state, int *held, int slots)
{
    for (int slot = slots - 1; slot >= 0; slot--) {
        held[slot] = (int)(state % 8);
        state /= 8;
    }
}

/* The least number of writes with copies in one direction, the last writing the new rule; 0 where no sequence ends. */
static uint32_t least_toward(const int *start, int slots, int higher)
{
    static uint32_t seen[8 * 8 * 8 * 8 * 8], round, queue[8 * 8 * 8 * 8 * 8], writes[8 * 8 * 8 * 8 * 8];
    uint32_t first = 0, last = 0;
    int held[CLASS_SLOTS];
    round++;
    queue[last++] = pack(start, slots);
    seen[queue[0]] = round;
    writes[queue[0]] = 0;
    for (; first < last; first++) {
        unpack(queue[first], held, slots);
        for (int to = 0; to < slots; to++) {
            if (!slot_free(held, slots, to))
                continue;
            if (stands_right(held, slots, to, slots))
                return writes[queue[first]] + 1;
            for (int from = higher ? 0 : to + 1; from < (higher ? to : slots); from++) {
                int lost = held[to];
                if (held[from] == NONE || !stands_right(held, slots, to, held[from]))
                    continue;
                held[to] = held[from];
                uint32_t state = pack(held, slots);
                held[to] = lost;
                if (seen[state] == round)
                    continue;
                seen[state] = round;
                writes[state] = writes[queue[first]] + 1;
                queue[last++] = state;
            }
        }
    }
    return 0;
}

static uint32_t least_in_class(const uint64_t *table, uint32_t slots, const struct rule *rule)
{
    uint64_t records[ROOM(CLASS_SLOTS + 1)];
    int held[CLASS_SLOTS];
    memcpy(records, table, SLOTS(slots) * sizeof *table);
    set_ranked(records + SLOTS(slots), rule);
    for (uint32_t a = 0; a <= slots; a++)
        for (uint32_t b = 0; b <= slots; b++)
            may[a][b] = rank_of(records + SLOTS(a)) > rank_of(records + SLOTS(b)) ||
                        !ordered(records + SLOTS(a), records + SLOTS(b));
    for (uint32_t slot = 0; slot < slots; slot++)
        held[slot] = is_empty(table + SLOTS(slot)) ? NONE : (int)slot;
    uint32_t down = least_toward(held, (int)slots, 1), up = least_toward(held, (int)slots, 0);
    return down == 0 || (up != 0 && up < down) ? up : down;
}

/* ---- Cases ---- */

static uint64_t table[ROOM(MOST_SLOTS)];
static struct told want, ref;

static void clear(void)
{
    memset(table, 0, sizeof table);
}

static void put(uint32_t slot, struct rule rule)
{
    set_record(table + SLOTS(slot), &rule);
}

/* A rule and the slot that holds it. */
struct placed {
    uint32_t slot, id;
    uint64_t priority;
    const char *pattern;
    uint32_t action;
};

/* The case's table: these rules, and no others. */
static void hold(const struct placed *rules, size_t count)
{
    clear();
    for (size_t index = 0; index < count; index++) {
        const struct placed *rule = rules + index;
        put(rule->slot, rule_of(rule->id, rule->priority, rule->pattern, rule->action));
    }
}

#define HOLD(...) hold((struct placed[]){__VA_ARGS__}, sizeof((struct placed[]){__VA_ARGS__}) / sizeof(struct placed))

static void check_ref(void)
{
    CHECK(ref.number == want.number);
    CHECK(ref.spot == want.spot);
    CHECK(ref.count == want.count);
    CHECK(memcmp(ref.plan, want.plan, want.count * sizeof *want.plan) == 0);
}

/* The reference must agree with what is wanted of an insert; the slot of the rule that covers the new one is the reference's. */
static void check_insert_ref(size_t words, const struct rule *rule)
{
    ref_insert(table, words, rule, &ref);
    check_ref();
    want.covered = ref.covered;
}

/* An insert on the case's table, both ends of the pages, with a buffer of each length that matters. */
static void try_insert(size_t words, const struct rule *rule)
{
    uint32_t one_short = want.count - (want.count > 0);
    uint32_t rooms[] = {want.count, one_short, want.count + 1, want.count + 7, 1, 0, want.count / 2, TCAM_MAX_SLOTS + 2};
    check_insert_ref(words, rule);
    for (int at_end = 0; at_end < 2; at_end++) {
        struct lent lent = lend(table, words, at_end);
        protect_table(0);
        if (words > SLOTS(100))
            call_insert(&lent, rule, rooms[at_end], 1, &want);
        for (size_t index = 0; index < COUNT_OF(rooms) && words <= SLOTS(100); index++)
            for (int plan_at_end = 0; plan_at_end < 2; plan_at_end++)
                call_insert(&lent, rule, rooms[index], plan_at_end, &want);
        protect_table(1);
    }
}

static void wanted(uint32_t number, uint32_t spot, const uint32_t *writes, size_t count)
{
    want.number = number;
    want.spot = spot;
    want.count = (uint32_t)count;
    for (size_t index = 0; index < count; index++)
        want.plan[index] = writes[index];
}

/* After an insert into a counted table: while the rule that covers the new one stands, no key is answered by the new one. */
static void check_obscured(uint32_t slots, const struct rule *rule, uint32_t covered, const struct keys *keys)
{
    int answered = 0;
    for (uint32_t key = 0; key < keys->count; key++)
        answered |= first_reply(carried, slots, keys->key[key]) / 4294967296u == rule->id;
    CHECK(covered == TCAM_NONE || uncounted != TCAM_COUNTED || !answered);
}

/* A rule that replaces another is none that the comparison class is for. */
static int replaces(const uint64_t *held, uint32_t slots, const struct rule *rule)
{
    record_words record;
    set_ranked(record, rule);
    return replaced_slot(held, slots, record) < slots;
}

/* An insert with this plan, carried out; if it is to stay, the case's table is the new one afterwards. */
static void insert_case(int line, uint32_t slots, struct rule rule, int stay, const uint32_t *writes, size_t count)
{
    struct keys keys;
    case_line = line;
    wanted(TCAM_OK, 0, writes, count);
    try_insert(SLOTS(slots), &rule);

    /* the plan as the library gives it */
    struct lent lent = lend(table, SLOTS(slots), 0);
    if (call_insert(&lent, &rule, slots, 1, &want) != TCAM_OK || cells.now[COUNT] > slots)
        return;
    sample_keys(&keys, table, slots, &rule, slots > 100 ? 8 : MOST_KEYS);
    carry_out_insert(table, slots, &rule, plan.words, cells.now[COUNT], &keys);
    check_obscured(slots, &rule, cells.now[COVERED], &keys);
    if (slots <= CLASS_SLOTS && !replaces(table, slots, &rule))
        CHECK(least_in_class(table, slots, &rule) == count);
    if (stay)
        memcpy(table, carried, SLOTS(slots) * sizeof *table);
}

/* The same, and the slot of the rule that covers the new one. */
static void covered_case(int line, uint32_t slots, struct rule rule, uint32_t covered, const uint32_t *writes, size_t count)
{
    insert_case(line, slots, rule, 0, writes, count);
    CHECK(want.covered == covered);
}

static void insert_refused(int line, size_t words, struct rule rule, uint32_t number, uint32_t spot)
{
    case_line = line;
    wanted(number, spot, NULL, 0);
    try_insert(words, &rule);
}

static void delete_case(int line, uint32_t slots, uint32_t id, uint32_t slot, int stay)
{
    uint32_t rooms[] = {1, 0, 2, 7, TCAM_MAX_SLOTS + 2}, write = EMPTYING(slot);
    case_line = line;
    wanted(TCAM_OK, 0, &write, 1);
    ref_delete(table, SLOTS(slots), id, &ref);
    check_ref();
    for (int at_end = 0; at_end < 2; at_end++) {
        struct lent lent = lend(table, SLOTS(slots), at_end);
        protect_table(0);
        for (size_t index = 0; index < COUNT_OF(rooms); index++)
            for (int plan_at_end = 0; plan_at_end < 2; plan_at_end++)
                call_delete(&lent, id, rooms[index], plan_at_end, &want);
        protect_table(1);
    }
    struct lent lent = lend(table, SLOTS(slots), 0);
    if (call_delete(&lent, id, 1, 1, &want) != TCAM_OK)
        return;
    carry_out_delete(table, slots, id, plan.words, cells.now[COUNT]);
    if (stay)
        memcpy(table, carried, SLOTS(slots) * sizeof *table);
}

static void delete_refused(int line, size_t words, uint32_t id, uint32_t number, uint32_t spot)
{
    case_line = line;
    wanted(number, spot, NULL, 0);
    ref_delete(table, words, id, &ref);
    check_ref();
    for (int at_end = 0; at_end < 2; at_end++) {
        struct lent lent = lend(table, words, at_end);
        protect_table(0);
        for (uint32_t room = 0; room < 3; room++)
            call_delete(&lent, id, room, at_end, &want);
        protect_table(1);
    }
}

#define WRITES(...) (uint32_t[]){__VA_ARGS__}, sizeof((uint32_t[]){__VA_ARGS__}) / sizeof(uint32_t)
#define PLANNED(slots, rule, ...) insert_case(__LINE__, slots, rule, 0, WRITES(__VA_ARGS__))
#define COVERED_BY(slot, slots, rule, ...) covered_case(__LINE__, slots, rule, slot, WRITES(__VA_ARGS__))
#define INSERTED(slots, rule, ...) insert_case(__LINE__, slots, rule, 1, WRITES(__VA_ARGS__))
#define REFUSED(words, rule, number, spot) insert_refused(__LINE__, words, rule, number, spot)
#define DELETED(slots, id, slot) delete_case(__LINE__, slots, id, slot, 1)
#define KEPT(words, id, number, spot) delete_refused(__LINE__, words, id, number, spot)

static void names(void)
{
    HERE;
    CHECK(TCAM_PUT == 65535);
    CHECK(TCAM_EMPTY == 65534);
    CHECK(TCAM_NONE == 65535);
    CHECK(tcam_write_from(0) == 0 && tcam_write_to(0) == 0);
    CHECK(tcam_write_from(0x00010004u) == 1 && tcam_write_to(0x00010004u) == 4);
    CHECK(tcam_write_from(0x03FF0000u) == 1023 && tcam_write_to(0x000003FFu) == 1023);
    CHECK(tcam_write_from(UINT32_MAX) == TCAM_PUT && tcam_write_to(UINT32_MAX) == 65535);
    CHECK(tcam_write_from(0xFFFE0002u) == TCAM_EMPTY && tcam_write_to(0xFFFE0002u) == 2);
}

/* A key of this first word and this last one. */
static void look_up(int line, uint32_t slots, uint64_t key_first, uint64_t key_last, uint32_t want_slot,
                    uint32_t want_id, uint32_t want_action)
{
    uint32_t slot = 77, id = 77, action = 77, spot = 77;
    pattern_words key = {key_first};
    case_line = line;
    key[width - 1] |= key_last;
    CHECK(tcam_lookup(table, SLOTS(slots), width, key, width, &slot, &id, &action, &spot) == TCAM_OK);
    CHECK(slot == want_slot && id == want_id && action == want_action && spot == 77);
}

/* Document 01's script, carried out by the test. */
static void script(void)
{
    clear();                                                          /* T 6 */
    INSERTED(6, rule_of(1, 30, "11*", 7), PUT(0));                    /* I 1 30 11* 7 */
    INSERTED(6, rule_of(2, 20, "1", 8), PUT(1));                      /* I 2 20 1 8 */
    INSERTED(6, rule_of(3, 25, "1*1", 9), COPY(1, 2), PUT(1));        /* I 3 25 1*1 9 */
    REFUSED(SLOTS(6), rule_of(4, 25, "111", 9), TCAM_TIE, 1);         /* I 4 25 111 9 */
    INSERTED(6, rule_of(5, 10, "00", 1), PUT(3));                     /* I 5 10 00 1 */
    INSERTED(6, rule_of(6, 40, "01", 2), PUT(4));                     /* I 6 40 01 2 */
    REFUSED(SLOTS(6), rule_of(7, 20, "0", 3), TCAM_CROSSED, 4);       /* I 7 20 0 3 */
    look_up(__LINE__, 6, 0x5000000000000000u, 0, 4, 6, 2);            /* L 0101 */
    DELETED(6, 2, 2);                                                 /* D 2 */
    look_up(__LINE__, 6, 0x8000000000000000u, 0, 0, 0, 0);            /* L 1000 */
}

/* A rule that cares for the last bit of the last word alone. */
static struct rule last_bit(uint32_t id, uint64_t priority, uint64_t bit, uint32_t action)
{
    struct rule rule = rule_of(id, priority, "", action);
    rule.value[width - 1] = bit;
    rule.mask[width - 1] = 1;
    return rule;
}

/* [1/30 11 a7, 2/20 * a8, empty], and rules that only the last bit of the last word tells apart. */
static void last_word_decides(void)
{
    HOLD({0, 1, 30, "11", 7}, {1, 2, 20, "", 8});
    INSERTED(3, last_bit(3, 25, 1, 9), COPY(1, 2), PUT(1));
    look_up(__LINE__, 3, TOP, 1, 1, 3, 9);
    look_up(__LINE__, 3, TOP, 0, 2, 2, 8);
    look_up(__LINE__, 3, TOP | TOP >> 1, 1, 0, 1, 7);
    REFUSED(SLOTS(3), last_bit(4, 25, 0, 9), TCAM_FULL, 0); /* and no tie */
    PLANNED(3, last_bit(4, 25, 1, 9), PUT(1));              /* over rule 3, to which it is equal */
    DELETED(3, 2, 2);
    PLANNED(3, last_bit(4, 25, 0, 9), PUT(2));

    /* the same words at the other width: 36 are six slots or three */
    HOLD({0, 1, 30, "11", 7}, {1, 2, 20, "", 8});
    width = width == 2 ? 5 : 2;
    REFUSED(36, rule_of(9, 1, "", 1), TCAM_RECORD, 0);
    KEPT(36, 1, TCAM_RECORD, 0);
    width = width == 2 ? 5 : 2;
    PLANNED(36 / (2 * width + 2), rule_of(9, 1, "", 1), PUT(2));
}

/* A rule of any other number of words, before anything is said of the table, of the rule or of the buffer. */
static void other_rules(void)
{
    const struct rule rule = rule_of(3, 25, "1", 9), unsound = rule_of(0, 65536, "1", 9);
    HERE;
    HOLD({0, 1, 30, "11", 7}, {1, 2, 20, "", 8});
    wanted(TCAM_SHAPE, 0, NULL, 0);
    for (int fault = 0; fault < 2; fault++) {
        for (size_t rule_words = 0; rule_words <= ROOM(1) + 2; rule_words++)
            for (int at_end = 0; at_end < 2 && rule_words != SLOTS(1); at_end++) {
                struct lent lent = lend(table, SLOTS(3), at_end);
                protect_table(0);
                call_insert_of(&lent, &rule, rule_words, 3, at_end, &want);
                call_insert_of(&lent, &unsound, rule_words, 0, at_end, &want);
                protect_table(1);
            }
        table[SLOTS(2)] = 1;
    }
}

/* Every other width, whatever the words of the table and of the rule are: nothing is written. */
static void other_widths(void)
{
    static const uint32_t others[] = {0, 1, 3, 4, 6, 7, 10, 65538, 65541, 0x80000002u, UINT32_MAX};
    const struct rule rule = rule_of(3, 25, "1", 9);
    record_words given = {0};
    HOLD({0, 1, 30, "11", 7}, {1, 2, 20, "", 8});
    set_record(given, &rule);
    for (size_t index = 0; index < COUNT_OF(others); index++)
        for (size_t words = 0; words <= SLOTS(3); words++) {
            uint32_t lent_plan[4] = {77, 78, 79, 80}, count = 81, covered = 83, spot = 82;
            HERE;
            for (size_t rule_words = 0; rule_words <= ROOM(1); rule_words++, spot = 82) {
                uint32_t number = tcam_plan_insert(table, words, others[index], uncounted, given, rule_words, edition, lent_plan, 4,
                                                   &count, &covered, &spot);
                CHECK(number == TCAM_SHAPE);
                CHECK(lent_plan[0] == 77 && lent_plan[1] == 78 && count == 81 && covered == 83 && spot == 0);
            }
            CHECK(tcam_plan_delete(table, words, others[index], uncounted, 1, lent_plan, 4, &count, &spot) == TCAM_SHAPE);
            CHECK(lent_plan[0] == 77 && lent_plan[1] == 78 && count == 81 && spot == 0);
        }
}

/* 0 empty, 1 a, 2 b, and b depends on a. */
static void between_two(void)
{
    HOLD({1, 20, 30, "111", 1}, {2, 21, 10, "1", 2});
}

/* The tables at the edge. */
static void edge_tables(void)
{
    /* one slot: empty, then occupied */
    clear();
    PLANNED(1, rule_of(1, 1, "", 1), PUT(0));
    put(0, rule_of(1, 1, "0", 1));
    REFUSED(SLOTS(1), rule_of(2, 2, "", 2), TCAM_FULL, 0);
    REFUSED(SLOTS(1), rule_of(2, 1, "1", 2), TCAM_FULL, 0);

    /* 0 a, 1 other, 2 c, 3 d, 4 empty; c depends on a, d on c; the new rule before a: around the nearest dependants */
    HOLD({0, 10, 30, "00**", 1}, {1, 11, 5, "1***", 2}, {2, 12, 20, "0*1*", 3}, {3, 13, 10, "01**", 4});
    PLANNED(5, rule_of(14, 40, "000*", 5), COPY(1, 4), COPY(0, 1), PUT(0));

    /* the new rule between two: up, and down where slot 3 is empty too */
    between_two();
    PLANNED(3, rule_of(22, 20, "11", 3), COPY(1, 0), PUT(1));
    PLANNED(4, rule_of(22, 20, "11", 3), COPY(2, 3), PUT(2));
}

/* A plan of two in a buffer of one word. */
static void short_buffers(void)
{
    uint32_t two_words[2] = {77, 78}, count = 79, covered = 81, spot = 80;
    const struct rule rule = rule_of(22, 20, "11", 3);
    record_words given;
    between_two();
    HERE;
    set_record(given, &rule);
    CHECK(tcam_plan_insert(table, SLOTS(3), width, uncounted, given, SLOTS(1), edition, two_words, 1, &count, &covered,
                           &spot) == TCAM_SHORT);
    CHECK(two_words[0] == 77 && two_words[1] == 78 && count == 79 && covered == 81 && spot == 2);

    /* no buffer at all, no table and no rule */
    CHECK(tcam_plan_insert(table, SLOTS(3), width, uncounted, given, SLOTS(1), edition, NULL, 0, &count, &covered, &spot) ==
          TCAM_SHORT);
    CHECK(count == 79 && covered == 81 && spot == 2);
    CHECK(tcam_plan_delete(table, SLOTS(3), width, uncounted, 21, NULL, 0, &count, &spot) == TCAM_SHORT);
    CHECK(count == 79 && spot == 1);
    CHECK(tcam_plan_insert(NULL, 0, width, uncounted, given, SLOTS(1), edition, two_words, 2, &count, &covered, &spot) ==
          TCAM_SHAPE);
    CHECK(count == 79 && covered == 81 && spot == 0);
    spot = 80;
    CHECK(tcam_plan_insert(table, SLOTS(3), width, uncounted, NULL, 0, edition, two_words, 2, &count, &covered, &spot) ==
          TCAM_SHAPE);
    CHECK(count == 79 && covered == 81 && spot == 0);
    spot = 80;
    CHECK(tcam_plan_delete(NULL, 0, width, uncounted, 21, two_words, 2, &count, &spot) == TCAM_SHAPE);
    CHECK(two_words[0] == 77 && two_words[1] == 78 && count == 79 && spot == 0);
    spot = 80;
    CHECK(tcam_plan_delete(table, SLOTS(3), width, uncounted, 21, two_words, 2, &count, &spot) == TCAM_OK);
    CHECK(two_words[0] == 0xFFFE0002u && two_words[1] == 78 && count == 1 && spot == 80);
}

/* Delete of an absent id, of id 0, of the last rule. */
static void absent_ids(void)
{
    between_two();
    KEPT(SLOTS(4), 22, TCAM_UNKNOWN, 0);
    KEPT(SLOTS(4), 0, TCAM_RULE, 0);
    DELETED(4, 20, 1);
    KEPT(SLOTS(4), 20, TCAM_UNKNOWN, 0);
    DELETED(4, 21, 2);
    KEPT(SLOTS(4), 21, TCAM_UNKNOWN, 0);
    KEPT(SLOTS(1), UINT32_MAX, TCAM_UNKNOWN, 0);
}

/* Priorities at their ends. */
static void priorities_at_ends(void)
{
    clear();
    PLANNED(2, rule_of(1, 65535, "1", 1), PUT(0));
    PLANNED(2, rule_of(UINT32_MAX, 0, "1", UINT32_MAX), PUT(0));
    REFUSED(SLOTS(2), rule_of(1, 65536, "1", 1), TCAM_RULE, 0);
    REFUSED(SLOTS(2), rule_of(1, 0x10000001u, "1", 1), TCAM_RULE, 0);
    REFUSED(SLOTS(2), rule_of(1, UINT32_MAX, "1", 1), TCAM_RULE, 0);
    REFUSED(SLOTS(2), rule_of(1, 0x100000001u, "1", 1), TCAM_RULE, 0); /* 1 in the lower 32 bits */
    REFUSED(SLOTS(2), rule_of(1, TOP, "1", 1), TCAM_RULE, 0);
    REFUSED(SLOTS(2), rule_of(1, ALL, "1", 1), TCAM_RULE, 0);
    put(1, rule_of(7, 65535, "1", 1));
    PLANNED(3, rule_of(1, 65534, "", 1), PUT(2));
    REFUSED(SLOTS(3), rule_of(1, 65535, "", 1), TCAM_TIE, 1);
    put(1, rule_of(7, 0, "1", 1));
    PLANNED(3, rule_of(1, 1, "", 1), PUT(0));
    REFUSED(SLOTS(3), rule_of(1, 0, "", 1), TCAM_TIE, 1);
    PLANNED(3, rule_of(1, 0, "0", 1), PUT(0));
}

/* Mask 0 overlaps every rule. */
static void mask_zero(void)
{
    HOLD({0, 1, 30, "1", 1}, {2, 2, 10, "0", 2});
    PLANNED(3, rule_of(3, 20, "", 3), PUT(1));
    PLANNED(3, rule_of(3, 40, "", 3), COPY(0, 1), PUT(0));
    PLANNED(3, rule_of(3, 5, "", 3), COPY(2, 1), PUT(2));
    REFUSED(SLOTS(3), rule_of(3, 30, "", 3), TCAM_TIE, 0);
    REFUSED(SLOTS(3), rule_of(3, 10, "", 3), TCAM_TIE, 2);
}

/* Choices that document 01 settles, one by one. */
static void choices(void)
{
    /* the lowest of the slots that do, down */
    clear();
    PLANNED(5, rule_of(1, 1, "1", 1), PUT(0));
    put(1, rule_of(2, 9, "1", 1));
    PLANNED(5, rule_of(1, 1, "1", 1), PUT(2));
    put(4, rule_of(3, 0, "1", 1));
    PLANNED(5, rule_of(1, 1, "1", 1), PUT(2));
    PLANNED(5, rule_of(1, 1, "0", 1), PUT(0));

    /* the highest, up: of the slots that a displaced rule can go to, and of those that the new one can */
    HOLD({2, 2, 9, "1", 1}, {3, 3, 5, "", 1});
    PLANNED(4, rule_of(1, 7, "1", 1), COPY(2, 1), PUT(2));
    HOLD({1, 2, 9, "1", 1}, {2, 3, 3, "0", 1}, {3, 4, 3, "1", 1});
    PLANNED(4, rule_of(1, 6, "1", 1), COPY(2, 0), PUT(2));

    /* up, where down costs more; down, where up costs more */
    HOLD({1, 2, 50, "1", 1}, {2, 3, 40, "1", 1}, {3, 4, 30, "1", 1});
    PLANNED(5, rule_of(1, 45, "1", 1), COPY(1, 0), PUT(1));
    PLANNED(5, rule_of(1, 35, "1", 1), COPY(3, 4), PUT(3));
    PLANNED(6, rule_of(1, 45, "1", 1), COPY(1, 0), PUT(1));
}

/* A displaced rule goes to the lowest empty slot, down, and no further than its nearest dependant. */
static void displaced_rules(void)
{
    HOLD({0, 2, 20, "1", 1}, {1, 3, 15, "0", 1});
    PLANNED(4, rule_of(1, 30, "1", 1), COPY(0, 2), PUT(0));
    put(1, rule_of(3, 15, "11", 1));
    PLANNED(4, rule_of(1, 30, "1", 1), COPY(1, 2), COPY(0, 1), PUT(0));
    PLANNED(4, rule_of(1, 30, "10", 1), COPY(1, 2), COPY(0, 1), PUT(0));

    /* the dependant's own slot is used, after its rule has a copy further on */
    HOLD({0, 2, 20, "1", 1}, {1, 3, 15, "1", 1});
    PLANNED(3, rule_of(1, 17, "1", 1), COPY(1, 2), PUT(1));
    PLANNED(3, rule_of(1, 12, "1", 1), PUT(2));
}

/* A rule whose value and mask have these bits in one word, and no others. */
static struct rule of_word(uint32_t id, uint64_t priority, uint32_t word, uint64_t value, uint64_t mask)
{
    struct rule rule = rule_of(id, priority, "", 1);
    rule.value[word] = value;
    rule.mask[word] = mask;
    return rule;
}

/* Priorities of rules that do not overlap count for nothing. */
static void rules_apart(void)
{
    HOLD({0, 2, 1, "00", 1}, {1, 3, 60000, "01", 1}, {2, 4, 5, "10", 1});
    PLANNED(5, rule_of(1, 30000, "11", 1), PUT(3));
    PLANNED(5, rule_of(1, 30000, "10", 1), COPY(0, 3), PUT(0));
    PLANNED(5, rule_of(1, 3, "1", 1), PUT(3));
    REFUSED(SLOTS(5), rule_of(1, 30000, "0", 1), TCAM_CROSSED, 1);
    REFUSED(SLOTS(5), rule_of(1, 3, "*0", 1), TCAM_CROSSED, 2);
}

/* Bits of any other word than the first decide too, and only both masks together. */
static void rules_apart_in_word(uint32_t word)
{
    clear();
    put(0, of_word(2, 20, word, 1, 1));
    put(1, of_word(3, 10, word, 0, 2));
    PLANNED(3, of_word(1, 30, word, 0, 1), COPY(1, 2), PUT(1));
    PLANNED(3, of_word(1, 30, word, 2, 3), PUT(2));
    PLANNED(3, of_word(1, 15, word, 1, 3), COPY(1, 2), PUT(1));
    PLANNED(3, of_word(1, 30, word, 3, 3), COPY(1, 2), COPY(0, 1), PUT(0));
}

static void rules_apart_in_words(void)
{
    for (uint32_t word = 0; word < width; word++)
        rules_apart_in_word(word);
}

#define FINE rule_of(99, 7, "0000", 1)

/* Spots of refusals. 1: lengths. */
static void wrong_lengths(void)
{
    clear();
    for (size_t words = 0; words <= SLOTS(6) + 4; words++) {
        if (words % SLOTS(1) == 0 && words != 0)
            continue;
        REFUSED(words, FINE, TCAM_SHAPE, 0);
        KEPT(words, 1, TCAM_SHAPE, 0);
    }
    REFUSED(SLOTS(1025), FINE, TCAM_SHAPE, 0);
    REFUSED(SLOTS(1026), FINE, TCAM_SHAPE, 0);
    REFUSED(SLOTS(1024) + 1, FINE, TCAM_SHAPE, 0);
    REFUSED(SLOTS(1024) - 1, FINE, TCAM_SHAPE, 0);
    KEPT(SLOTS(1025), 1, TCAM_SHAPE, 0);
}

/* Lengths of more than 16 bits: the one ends in those of a record, the other in those of a zero. */
static void long_lengths(void)
{
    static uint64_t long_table[3 * 65536 + ROOM(1)];
    static uint32_t long_plan[65536];
    const size_t long_words = 3 * 65536 + SLOTS(1);
    const struct rule rule = rule_of(1, 1, "", 1);
    uint32_t count = 77, covered = 79, spot = 78;
    record_words given;
    HERE;
    memset(long_table, 0, sizeof long_table);
    long_plan[0] = 0;
    set_record(given, &rule);
    CHECK(long_words % SLOTS(1) == 0);
    CHECK(tcam_plan_insert(long_table, long_words, width, uncounted, given, SLOTS(1), edition, long_plan, 1, &count, &covered,
                           &spot) == TCAM_SHAPE);
    CHECK(long_plan[0] == 0 && count == 77 && covered == 79 && spot == 0);
    spot = 78;
    CHECK(tcam_plan_delete(long_table, long_words, width, uncounted, 1, long_plan, 1, &count, &spot) == TCAM_SHAPE);
    CHECK(long_plan[0] == 0 && count == 77 && spot == 0);
    spot = 78;
    uint32_t number = tcam_plan_insert(long_table, SLOTS(1), width, uncounted, given, SLOTS(1), edition, long_plan,
                                       COUNT_OF(long_plan), &count, &covered, &spot);
    CHECK(number == TCAM_OK);
    CHECK(long_plan[0] == PUT(0) && long_plan[1] == 0 && count == 1 && covered == TCAM_NONE && spot == 78);
    count = 77;
    long_table[2 * width] = TCAM_ID_ACTION(1, 1);
    CHECK(tcam_plan_delete(long_table, SLOTS(1), width, uncounted, 1, long_plan, COUNT_OF(long_plan), &count, &spot) == TCAM_OK);
    CHECK(long_plan[0] == EMPTYING(0) && long_plan[1] == 0 && count == 1 && spot == 78);
}

/* 2: the lowest record that is neither empty nor sound. */
static void unsound_records(void)
{
    HOLD({2, 1, 65536, "1", 1}, {4, 2, 5, "1", 1});
    table[SLOTS(5)] = 1;
    REFUSED(SLOTS(6), FINE, TCAM_RECORD, 2);
    KEPT(SLOTS(6), 2, TCAM_RECORD, 2);
    put(2, rule_of(1, 65535, "1", 1));
    REFUSED(SLOTS(6), FINE, TCAM_RECORD, 5);
    KEPT(SLOTS(6), 2, TCAM_RECORD, 5);
    table[SLOTS(5)] = 0;
    table[SLOTS(5) + 2 * width] = 1;
    REFUSED(SLOTS(6), FINE, TCAM_RECORD, 5);
    table[SLOTS(5) + 2 * width] = TCAM_ID_ACTION(3, 0);
    PLANNED(6, FINE, PUT(0));
    table[SLOTS(6) - 1] = 0x100000000u;
    REFUSED(SLOTS(6), FINE, TCAM_RECORD, 5);
    KEPT(SLOTS(6), 2, TCAM_RECORD, 5);
}

/* 3: the lowest slot whose id stands earlier; records need not be equal. */
static void ids_twice(void)
{
    HOLD({0, 5, 50, "00", 1}, {1, 6, 40, "01", 1}, {3, 6, 30, "10", 1}, {4, 5, 20, "11", 1});
    REFUSED(SLOTS(6), rule_of(6, 7, "1111", 1), TCAM_TWICE, 3);
    KEPT(SLOTS(6), 6, TCAM_TWICE, 3);
    put(3, rule_of(7, 30, "10", 1));
    REFUSED(SLOTS(6), FINE, TCAM_TWICE, 4);
    put(4, rule_of(5, 50, "00", 1));
    REFUSED(SLOTS(6), FINE, TCAM_TWICE, 4);
    KEPT(SLOTS(6), 5, TCAM_TWICE, 4);
}

/* 4: the lowest slot with an earlier overlapping rule of no higher rank. */
static void disordered(void)
{
    HOLD({0, 5, 20, "0", 1}, {2, 6, 20, "1", 1}, {3, 7, 20, "00", 1}, {5, 8, 21, "01", 1});
    REFUSED(SLOTS(6), FINE, TCAM_ORDER, 3);
    KEPT(SLOTS(6), 5, TCAM_ORDER, 3);
    put(3, rule_of(7, 19, "00", 1));
    REFUSED(SLOTS(6), FINE, TCAM_ORDER, 5);
    KEPT(SLOTS(6), 5, TCAM_ORDER, 5);
    put(5, rule_of(8, 20, "01", 1));
    REFUSED(SLOTS(6), FINE, TCAM_ORDER, 5);
    put(5, rule_of(8, 19, "01", 1));
    PLANNED(6, FINE, PUT(4));
}

/* A sound table of six slots. */
static void four_rules(void)
{
    HOLD({0, 5, 20, "0", 1}, {2, 6, 20, "1", 1}, {3, 7, 19, "00", 1}, {5, 8, 19, "01", 1});
}

/* 5: each bit of value outside the mask, id 0. */
static void unsound_rules(void)
{
    four_rules();
    for (uint32_t bit = 0; bit < 64 * width; bit++) {
        uint64_t one = (uint64_t)1 << bit % 64;
        struct rule outside = of_word(99, 7, bit / 64, one, ~one), beside = of_word(99, 7, bit / 64, one, 0);
        for (uint32_t word = 0; word < width; word++)
            outside.mask[word] |= word == bit / 64 ? 0 : ALL;
        beside.mask[(bit / 64 + 1) % width] = one;
        REFUSED(SLOTS(6), outside, TCAM_RULE, 0);
        REFUSED(SLOTS(6), beside, TCAM_RULE, 0);
    }
    REFUSED(SLOTS(6), rule_of(0, 7, "1", 1), TCAM_RULE, 0);
    REFUSED(SLOTS(6), rule_of(0, 0, "", 0), TCAM_RULE, 0);
    REFUSED(SLOTS(1), rule_of(0, 0, "", 0), TCAM_RULE, 0);
}

/* 6: its slot; 8: the lowest; an id in the table comes before a tie in an earlier slot. */
static void known_and_tied(void)
{
    four_rules();
    REFUSED(SLOTS(6), rule_of(5, 7, "0000", 1), TCAM_KNOWN, 0);
    REFUSED(SLOTS(6), rule_of(6, 7, "0000", 1), TCAM_KNOWN, 2);
    REFUSED(SLOTS(6), rule_of(8, 20, "0000", 1), TCAM_KNOWN, 5);
    REFUSED(SLOTS(6), rule_of(99, 19, "0", 1), TCAM_TIE, 3);
    REFUSED(SLOTS(6), rule_of(99, 19, "011", 1), TCAM_TIE, 5);
    REFUSED(SLOTS(6), rule_of(99, 20, "", 1), TCAM_TIE, 0);
    REFUSED(SLOTS(6), rule_of(8, 19, "01", 1), TCAM_KNOWN, 5);
    PLANNED(6, rule_of(99, 19, "01", 1), PUT(5)); /* the same rule again, with another id */
}

/* [1/30 11 a7, 2/20 1 a8], which is full. */
static void two_rules(void)
{
    HOLD({0, 1, 30, "11", 7}, {1, 2, 20, "1", 8});
}

/* A rule sent again, with another id: one put-in over the one present, even where no slot is empty. */
static void sent_again(void)
{
    uint32_t words[3] = {77, 78, 79}, count = 80, covered = 82, spot = 81;
    const struct rule again = rule_of(9, 20, "1", 5);
    record_words given;
    for (size_t index = 0; index < COUNT_OF(editions); index++) {
        edition = editions[index];
        two_rules();
        PLANNED(2, again, PUT(1));
        REFUSED(SLOTS(2), rule_of(2, 20, "1", 5), TCAM_KNOWN, 1);
        REFUSED(SLOTS(2), rule_of(1, 20, "1", 5), TCAM_KNOWN, 0);
        REFUSED(SLOTS(2), rule_of(9, 20, "10", 5), TCAM_TIE, 1);
        REFUSED(SLOTS(2), rule_of(9, 20, "", 5), TCAM_TIE, 1);
        REFUSED(SLOTS(2), rule_of(9, 25, "1", 5), TCAM_FULL, 0);
        REFUSED(SLOTS(2), rule_of(9, 20, "0", 5), TCAM_FULL, 0);
        PLANNED(3, again, PUT(1));
        INSERTED(2, again, PUT(1));
        look_up(__LINE__, 2, TOP, 0, 1, 9, 5);
        look_up(__LINE__, 2, TOP | TOP >> 1, 0, 0, 1, 7);
        KEPT(SLOTS(2), 2, TCAM_UNKNOWN, 0); /* rule 2 is gone */
        INSERTED(2, rule_of(2, 20, "1", 6), PUT(1));
        look_up(__LINE__, 2, TOP, 0, 1, 2, 6);
    }
    HERE; /* no word, and more than one */
    two_rules();
    set_record(given, &again);
    CHECK(tcam_plan_insert(table, SLOTS(2), width, uncounted, given, SLOTS(1), edition, words, 0, &count, &covered, &spot) ==
          TCAM_SHORT);
    CHECK(words[0] == 77 && count == 80 && covered == 82 && spot == 1);
    spot = 81;
    CHECK(tcam_plan_insert(table, SLOTS(2), width, uncounted, given, SLOTS(1), edition, words, 3, &count, &covered, &spot) ==
          TCAM_OK);
    CHECK(words[0] == PUT(1) && words[1] == 78 && words[2] == 79 && count == 1 && covered == TCAM_NONE && spot == 81);

    /* an empty slot is equal to nothing, nor to a rule of zeros but for its id */
    clear();
    PLANNED(2, rule_of(9, 0, "", 0), PUT(0));
    put(1, rule_of(1, 0, "", 0));
    PLANNED(2, rule_of(9, 0, "", 0), PUT(1));
}

/* Every bit of value and mask is compared. */
static void nearly_sent_again(void)
{
    for (uint32_t bit = 0; bit < 64 * width; bit++) {
        uint64_t one = TOP >> bit % 64;
        clear();
        put(1, of_word(1, 20, bit / 64, one, one));
        PLANNED(2, of_word(9, 20, bit / 64, one, one), PUT(1));
        PLANNED(2, of_word(9, 20, bit / 64, 0, one), PUT(0));
        REFUSED(SLOTS(2), of_word(9, 20, 0, 0, 0), TCAM_TIE, 1);
        put(0, of_word(2, 30, bit / 64, 0, one));
        PLANNED(2, of_word(9, 20, bit / 64, one, one), PUT(1));
        REFUSED(SLOTS(2), of_word(9, 20, bit / 64, 0, one), TCAM_FULL, 0);
        REFUSED(SLOTS(2), of_word(9, 21, bit / 64, one, one), TCAM_FULL, 0);
    }
}

/* 10: the highest slot that precedes. */
static void crossed(void)
{
    HOLD({0, 1, 5, "000", 1}, {1, 2, 90, "001", 1}, {2, 3, 5, "010", 1}, {3, 4, 90, "011", 1}, {5, 5, 5, "100", 1});
    REFUSED(SLOTS(7), rule_of(99, 50, "", 1), TCAM_CROSSED, 3);
    REFUSED(SLOTS(7), rule_of(99, 50, "00", 1), TCAM_CROSSED, 1);
    REFUSED(SLOTS(7), rule_of(99, 50, "01", 1), TCAM_CROSSED, 3);
    PLANNED(7, rule_of(99, 50, "0*1", 1), PUT(4));
    PLANNED(7, rule_of(99, 50, "*00", 1), COPY(0, 4), PUT(0));

    /* crossed is refused also where the class has a sequence: 1 to 4, 0 to 1, the new rule to 3 */
    HOLD({0, 1, 5, "1", 1}, {1, 2, 5, "00", 1}, {2, 3, 90, "01", 1});
    struct rule between = rule_of(99, 50, "0", 1);
    REFUSED(SLOTS(5), between, TCAM_CROSSED, 2);
    CHECK(least_in_class(table, 5, &between) == 3);
}

/* ---- Tables without counters ---- */

/* Each case of these under every number that names the table as uncounted, and under both editions. */
static void under_every_flag(void (*cases)(void))
{
    for (size_t index = 0; index < COUNT_OF(uncounted_flags) * COUNT_OF(editions); index++) {
        edition = editions[index % COUNT_OF(editions)];
        uncounted = uncounted_flags[index / COUNT_OF(editions)];
        cases();
    }
}

/* What a counted table answers, in the midst of a case. */
#define COUNTED(statement)                 \
    do {                                   \
        uint32_t flag = uncounted;         \
        uncounted = TCAM_COUNTED;          \
        statement;                         \
        uncounted = flag;                  \
    } while (0)

/* [1/20 1* a7, 2/30 *1 a7, empty]: the higher rank stands in the higher slot. */
static void against_rank(void)
{
    const struct rule apart = rule_of(9, 5, "0", 9);
    HOLD({0, 1, 20, "1*", 7}, {1, 2, 30, "*1", 7});
    COUNTED(REFUSED(SLOTS(3), apart, TCAM_ORDER, 1));
    COUNTED(KEPT(SLOTS(3), 1, TCAM_ORDER, 1));
    look_up(__LINE__, 3, TOP | TOP >> 1, 0, 0, 1, 7);
    INSERTED(3, apart, PUT(2));
    look_up(__LINE__, 3, TOP | TOP >> 1, 0, 0, 1, 7);
    COUNTED(KEPT(SLOTS(3), 9, TCAM_ORDER, 1));
    DELETED(3, 1, 0);
    look_up(__LINE__, 3, TOP | TOP >> 1, 0, 1, 2, 7);
    COUNTED(DELETED(3, 2, 1)); /* in order for either */

    /* with another action in any bit, out of order */
    for (uint32_t bit = 0; bit < 32; bit++) {
        HOLD({0, 1, 20, "1*", 7}, {1, 2, 30, "*1", 7 ^ (uint32_t)1 << bit});
        REFUSED(SLOTS(3), apart, TCAM_ORDER, 1);
        KEPT(SLOTS(3), 1, TCAM_ORDER, 1);
    }
    HOLD({0, 1, 20, "1*", 7}, {1, 1, 30, "*1", 7}); /* 3 before 4 */
    REFUSED(SLOTS(3), apart, TCAM_TWICE, 1);
    HOLD({0, 1, 20, "1*", 7}, {1, 2, 65536, "*1", 7}); /* and 2 */
    REFUSED(SLOTS(3), apart, TCAM_RECORD, 1);
}

/* [empty, 1/40 1* a7, 2/30 *1 a7], 3/20 01 a9: one write less, and the key 11 is told rule 2 for rule 1 on the way. */
static void fewer_writes(void)
{
    const struct rule new_rule = rule_of(3, 20, "01", 9);
    HOLD({1, 1, 40, "1*", 7}, {2, 2, 30, "*1", 7});
    COUNTED(PLANNED(3, new_rule, COPY(1, 0), COPY(2, 1), PUT(2)));
    PLANNED(3, new_rule, COPY(2, 0), PUT(2));
    look_up(__LINE__, 3, TOP | TOP >> 1, 0, 1, 1, 7);
    memcpy(table, table + SLOTS(2), SLOTS(1) * sizeof *table);
    look_up(__LINE__, 3, TOP | TOP >> 1, 0, 0, 2, 7);

    /* the mirror, toward higher slots */
    HOLD({0, 1, 40, "1*", 7}, {1, 2, 30, "*1", 7});
    COUNTED(PLANNED(3, rule_of(3, 50, "10", 9), COPY(1, 2), COPY(0, 1), PUT(0)));
    INSERTED(3, rule_of(3, 50, "10", 9), COPY(0, 2), PUT(0));
    look_up(__LINE__, 3, TOP | TOP >> 1, 0, 1, 2, 7);
}

/* [1/20 1 a7, 2/20 1 a7, empty]: two equal rules. */
static void equal_rules(void)
{
    HOLD({0, 1, 20, "1", 7}, {1, 2, 20, "1", 7});
    COUNTED(REFUSED(SLOTS(3), rule_of(9, 20, "1", 7), TCAM_ORDER, 1));
    REFUSED(SLOTS(3), rule_of(9, 20, "1", 8), TCAM_TIE, 0);
    REFUSED(SLOTS(2), rule_of(9, 20, "1", 8), TCAM_TIE, 0);
    PLANNED(2, rule_of(9, 20, "1", 7), PUT(0));
    REFUSED(SLOTS(3), rule_of(2, 20, "1", 7), TCAM_KNOWN, 1);
    INSERTED(3, rule_of(9, 20, "1", 7), PUT(0)); /* the lowest, and the other stays */
    look_up(__LINE__, 3, TOP, 0, 0, 9, 7);
    INSERTED(3, rule_of(10, 20, "1", 7), PUT(0));
    KEPT(SLOTS(3), 9, TCAM_UNKNOWN, 0);
    DELETED(3, 10, 0);
    look_up(__LINE__, 3, TOP, 0, 1, 2, 7);
    PLANNED(3, rule_of(11, 20, "1", 7), PUT(1));

    /* the lowest equal one stands behind others */
    HOLD({0, 1, 40, "1", 8}, {1, 2, 20, "0", 7}, {2, 3, 20, "1", 7}, {3, 4, 20, "1", 7});
    PLANNED(4, rule_of(9, 20, "1", 7), PUT(2));
    REFUSED(SLOTS(4), rule_of(9, 20, "1", 9), TCAM_TIE, 2);
    REFUSED(SLOTS(4), rule_of(9, 20, "", 8), TCAM_TIE, 1);
    REFUSED(SLOTS(4), rule_of(9, 20, "", 7), TCAM_FULL, 0); /* it ties with none, and replaces none */
    for (uint32_t bit = 0; bit < 32; bit++)
        REFUSED(SLOTS(4), rule_of(9, 20, "1", 7 ^ (uint32_t)1 << bit), TCAM_TIE, 2);
}

/* [5/10 00 a1, 6/40 01 a2, empty], 7/20 0: crossed unless it has the action of one of the two. */
static void spared_refusals(void)
{
    HOLD({0, 5, 10, "00", 1}, {1, 6, 40, "01", 2});
    for (uint32_t action = 1; action <= 3; action++)
        COUNTED(REFUSED(SLOTS(3), rule_of(7, 20, "0", action), TCAM_CROSSED, 1));
    PLANNED(3, rule_of(7, 20, "0", 1), PUT(2));
    PLANNED(3, rule_of(7, 20, "0", 2), COPY(0, 2), PUT(0));
    REFUSED(SLOTS(3), rule_of(7, 20, "0", 3), TCAM_CROSSED, 1);

    /* 7/10 and 7/40 tie with the one or with the other */
    for (uint32_t action = 1; action <= 3; action++) {
        COUNTED(REFUSED(SLOTS(3), rule_of(7, 10, "0", action), TCAM_TIE, 0));
        COUNTED(REFUSED(SLOTS(3), rule_of(7, 40, "0", action), TCAM_TIE, 1));
    }
    PLANNED(3, rule_of(7, 10, "0", 1), PUT(2));
    REFUSED(SLOTS(3), rule_of(7, 10, "0", 2), TCAM_TIE, 0);
    PLANNED(3, rule_of(7, 40, "0", 2), COPY(0, 2), PUT(0));
    REFUSED(SLOTS(3), rule_of(7, 40, "0", 1), TCAM_TIE, 1);
}

static void uncounted_cases(void)
{
    under_every_flag(against_rank);
    under_every_flag(fewer_writes);
    under_every_flag(equal_rules);
    under_every_flag(spared_refusals);
}

/* Where all actions differ the answers are those of a counted table, but for a rule that is sent again with another action. */
static void different_actions(void)
{
    uncounted = TCAM_UNCOUNTED;
    last_word_decides();
    edge_tables();
    two_rules();
    REFUSED(SLOTS(2), rule_of(9, 20, "1", 5), TCAM_TIE, 1);
    PLANNED(2, rule_of(9, 20, "1", 8), PUT(1));
    REFUSED(SLOTS(2), rule_of(9, 25, "1", 5), TCAM_FULL, 0);
    for (size_t index = 0; index < COUNT_OF(editions); index++) { /* at rank 65,536 */
        struct rule exact_rule = rule_of(1, 65536, "", 7);
        for (uint32_t word = 0; word < width; word++)
            exact_rule.mask[word] = ALL;
        clear();
        put(0, exact_rule);
        exact_rule.id = 2;
        put(1, exact_rule);
        exact_rule.id = 3;
        exact_rule.priority = 500;
        edition = editions[index];
        COUNTED(REFUSED(SLOTS(3), exact_rule, TCAM_ORDER, 1));
        PLANNED(3, exact_rule, PUT(edition == TCAM_EDITION_10 ? 0 : 2));
        exact_rule.action = 8;
        if (edition == TCAM_EDITION_10)
            REFUSED(SLOTS(3), exact_rule, TCAM_TIE, 0);
        else
            PLANNED(3, exact_rule, PUT(2));
    }
}

/* Faults of a table and a rule, one bit each; for a delete KNOWN stands for an id that is absent. */
enum {
    SHAPE = 1, RECORD = 2, TWICE = 4, ORDER = 8, RULE = 16, EDITION = 32, KNOWN = 64, TIE = 128, FULL = 256, CROSSED = 512,
    SHORT = 1024, SETS = 2048,
};

static size_t wrong_words(uint32_t variant)
{
    const size_t wrong[] = {SLOTS(9) - 1, SLOTS(9) + 1, SLOTS(9) + SLOTS(1) / 2};
    return wrong[variant];
}

static void faulty_table(uint32_t set)
{
    HOLD({0, 1, 100, "1000", 1}, {1, 2, set & CROSSED ? 10 : 90, "000", 1}, {2, 3, set & CROSSED ? 90 : 10, "001", 1},
         {3, 4, set & TIE ? 50 : 10, "010", 1}, {4, set & TWICE ? 1 : 5, 30, "1001", 1}, {5, 6, 20, "1010", 1},
         {6, 7, set & ORDER ? 20 : 10, "101", 1}, {7, 8, set & RECORD ? 65536 : 20, "1100", 1});
    if (set & FULL)
        put(8, rule_of(9, 20, "1101", 1));
}

static struct rule faulty_rule(uint32_t set, uint32_t variant)
{
    struct rule rule = rule_of(set & KNOWN ? 7 : 99, 50, "0", 1);
    if (set & RULE && variant == 0)
        rule.id = 0;
    if (set & RULE && variant == 1)
        rule.priority += 65536;
    if (set & RULE && variant == 2)
        rule.value[width - 1] = 1;
    return rule;
}

static const struct {
    uint32_t fault, number, spot;
} faults[] = {{SHAPE, 1, 0},    {RECORD, 2, 7}, {TWICE, 3, 4}, {ORDER, 4, 6}, {RULE, 5, 0},
              {EDITION, 18, 0}, {KNOWN, 6, 6},  {TIE, 8, 3},   {FULL, 9, 0},  {CROSSED, 10, 2}};

static void faulty_inserts(uint32_t set, size_t lowest)
{
    static const uint32_t writes[] = {COPY(2, 8), PUT(2)}, right[] = {13, 10, 13}, wrong[] = {0, 11, 99};
    for (uint32_t variant = 0; variant < 3; variant++) {
        struct rule rule = faulty_rule(set, variant);
        edition = set & EDITION ? wrong[variant] : right[variant];
        size_t words = set & SHAPE ? wrong_words(variant) : SLOTS(9);
        HERE;
        if (lowest < COUNT_OF(faults))
            wanted(faults[lowest].number, faults[lowest].spot, NULL, 0);
        else
            wanted(0, 0, writes, 2);
        check_insert_ref(words, &rule);
        struct lent lent = lend(table, words, variant % 2);
        call_insert(&lent, &rule, set & SHORT ? variant % 2 : 2 + variant, 1, &want);
    }
}

static void faulty_delete(uint32_t set, size_t lowest)
{
    uint32_t id = set & RULE ? 0 : set & KNOWN ? 98 : 6, write = EMPTYING(5);
    size_t words = set & SHAPE ? wrong_words(set % 3) : SLOTS(9);
    HERE;
    if (lowest < 5)
        wanted(faults[lowest].number, faults[lowest].spot, NULL, 0);
    else if (set & KNOWN)
        wanted(7, 0, NULL, 0);
    else
        wanted(0, 0, &write, 1);
    ref_delete(table, words, id, &ref);
    check_ref();
    struct lent lent = lend(table, words, (int)set % 2);
    call_delete(&lent, id, set & SHORT ? 0 : 1 + set % 3, 1, &want);
}

/* Every set of faults at once: the first in the order of checks is named. */
static void fault_sets(void)
{
    for (uint32_t set = 0; set < SETS; set++) {
        size_t lowest = 0;
        while (lowest < COUNT_OF(faults) && (set & faults[lowest].fault) == 0)
            lowest++;
        faulty_table(set);
        faulty_inserts(set, lowest);
        faulty_delete(set, lowest);
    }
}

/* ---- Editions ---- */

/* A rule without wildcards, for the key 0. */
static struct rule for_key_zero(uint32_t id, uint64_t priority, uint32_t action)
{
    struct rule rule = rule_of(id, priority, "", action);
    for (uint32_t word = 0; word < width; word++)
        rule.mask[word] = ALL;
    return rule;
}

/* The same with one bit that is not cared for. */
static struct rule for_two_keys(uint32_t id, uint64_t priority, uint32_t bit, uint32_t action)
{
    struct rule rule = for_key_zero(id, priority, action);
    rule.mask[bit / 64] ^= TOP >> bit % 64;
    return rule;
}

/* Under 1.0 a rule without wildcards stands above one of the highest priority; under 1.3 below it. */
static void either_edition(void)
{
    edition = TCAM_EDITION_10;
    clear();
    INSERTED(3, for_key_zero(1, 7, 1), PUT(0));
    INSERTED(3, rule_of(2, 65535, "", 2), PUT(1));
    CHECK(rank_of(table) == 65536 && rank_of(table + SLOTS(1)) == 65535);
    look_up(__LINE__, 3, 0, 0, 0, 1, 1);
    look_up(__LINE__, 3, 0, 1, 1, 2, 2);

    edition = TCAM_EDITION_13;
    clear();
    INSERTED(3, for_key_zero(1, 7, 1), PUT(0));
    INSERTED(3, rule_of(2, 65535, "", 2), COPY(0, 1), PUT(0));
    CHECK(rank_of(table) == 65535 && rank_of(table + SLOTS(1)) == 7);
    look_up(__LINE__, 3, 0, 0, 0, 2, 2);
    look_up(__LINE__, 3, 0, 1, 0, 2, 2);

    /* in the other order */
    edition = TCAM_EDITION_10;
    HOLD({0, 2, 65535, "", 2});
    PLANNED(3, for_key_zero(1, 7, 1), COPY(0, 1), PUT(0));
    PLANNED(3, for_key_zero(1, 65535, 1), COPY(0, 1), PUT(0));
    edition = TCAM_EDITION_13;
    PLANNED(3, for_key_zero(1, 7, 1), PUT(1));
    REFUSED(SLOTS(3), for_key_zero(1, 65535, 1), TCAM_TIE, 0);
}

/* Ranks tie, and not priorities. */
static void tied_ranks(void)
{
    clear();
    put(0, for_key_zero(1, 65536, 1));
    edition = TCAM_EDITION_10;
    PLANNED(3, for_key_zero(3, 500, 1), PUT(0)); /* no tie: the same rule again */
    PLANNED(3, for_two_keys(3, 65535, 0, 1), PUT(1));
    edition = TCAM_EDITION_13;
    PLANNED(3, for_key_zero(3, 7, 1), PUT(1));
    PLANNED(3, for_key_zero(3, 65535, 1), PUT(1));

    put(0, for_key_zero(1, 7, 1));
    PLANNED(3, for_key_zero(3, 7, 1), PUT(0));
    REFUSED(SLOTS(3), for_two_keys(3, 7, 64 * width - 1, 1), TCAM_TIE, 0);
    edition = TCAM_EDITION_10;
    INSERTED(3, for_key_zero(3, 7, 1), COPY(0, 1), PUT(0));
    REFUSED(SLOTS(3), for_two_keys(4, 7, 0, 1), TCAM_TIE, 1);
}

/* Every bit of the width counts: with one of them not cared for, or with some of the words alone, the rank is the priority. */
static void masks_not_full(void)
{
    edition = TCAM_EDITION_10;
    HOLD({0, 2, 8, "", 2});
    for (uint32_t bit = 0; bit < 64 * width; bit++)
        PLANNED(3, for_two_keys(1, 7, bit, 1), PUT(1));
    for (uint32_t words = 0; words < width; words++) {
        struct rule rule = rule_of(1, 7, "", 1);
        for (uint32_t word = 0; word < words; word++)
            rule.mask[word] = ALL;
        PLANNED(3, rule, PUT(1));
    }
    PLANNED(3, for_key_zero(1, 7, 1), COPY(0, 1), PUT(0));
    struct rule all_ones = for_key_zero(1, 7, 1);
    memcpy(all_ones.value, all_ones.mask, sizeof all_ones.value);
    PLANNED(3, all_ones, COPY(0, 1), PUT(0));
}

/* 2: rank 65,536 is sound where every bit of the width is cared for, and no higher rank ever is. */
static void ranks_of_records(void)
{
    static const uint64_t wrong[] = {65537, 131072, 0x100010000u, 0x100000007u, TOP, ALL};
    clear();
    put(0, for_key_zero(1, 65536, 1));
    PLANNED(3, rule_of(2, 65535, "", 2), PUT(1));
    DELETED(3, 1, 0);
    for (uint32_t bit = 0; bit < 64 * width; bit++) {
        put(0, for_two_keys(1, 65536, bit, 1));
        REFUSED(SLOTS(3), FINE, TCAM_RECORD, 0);
        KEPT(SLOTS(3), 1, TCAM_RECORD, 0);
        put(0, for_two_keys(1, 65535, bit, 1));
        PLANNED(3, rule_of(2, 65534, "", 2), PUT(1));
    }
    for (size_t index = 0; index < COUNT_OF(wrong); index++) {
        put(0, for_key_zero(1, wrong[index], 1));
        REFUSED(SLOTS(3), FINE, TCAM_RECORD, 0);
        KEPT(SLOTS(3), 1, TCAM_RECORD, 0);
    }
    for (int position = 0; position < 2; position++) { /* 4: the earlier of two overlapping rules has no higher rank */
        clear();
        put(1, position == 0 ? rule_of(2, 65535, "", 2) : for_key_zero(2, 65536, 2));
        put(2, for_key_zero(1, 65536, 1));
        REFUSED(SLOTS(3), FINE, TCAM_ORDER, 2);
        KEPT(SLOTS(3), 1, TCAM_ORDER, 2);
    }
}

/* 18 for every other edition, after 5 and before 6; a delete takes no edition. */
static void other_editions(void)
{
    static const uint32_t others[] = {0, 1, 9, 11, 12, 14, 99, 65546, 65549, 0x8000000Au, 0x8000000Du, UINT32_MAX};
    for (size_t index = 0; index < COUNT_OF(others); index++) {
        edition = others[index];
        four_rules();
        REFUSED(SLOTS(6), FINE, TCAM_EDITION, 0);
        REFUSED(SLOTS(6), for_key_zero(99, 7, 1), TCAM_EDITION, 0);
        REFUSED(SLOTS(6), rule_of(6, 7, "0000", 1), TCAM_EDITION, 0);  /* a known id */
        REFUSED(SLOTS(6), rule_of(99, 20, "", 1), TCAM_EDITION, 0);    /* a tie */
        REFUSED(SLOTS(6), rule_of(99, 20, "0", 1), TCAM_EDITION, 0);   /* a rule sent again */
        REFUSED(SLOTS(6), rule_of(99, 65536, "1", 1), TCAM_RULE, 0);
        REFUSED(SLOTS(6), for_key_zero(99, 65536, 1), TCAM_RULE, 0);
        REFUSED(SLOTS(6), rule_of(0, 7, "1", 1), TCAM_RULE, 0);
        REFUSED(SLOTS(6), last_bit(99, 7, 3, 1), TCAM_RULE, 0);        /* a value outside the mask */
        REFUSED(SLOTS(6) - 1, FINE, TCAM_SHAPE, 0);
        put(1, rule_of(5, 7, "1", 1));
        REFUSED(SLOTS(6), FINE, TCAM_TWICE, 1);
        put(1, rule_of(9, 65536, "1", 1));
        REFUSED(SLOTS(6), FINE, TCAM_RECORD, 1);
    }
}

/* 65,536 is a rank and no priority: a rule is not given with it, and a slot's record that holds it is not given again. */
static void priorities_given(void)
{
    static const uint64_t wrong[] = {65536, 65537, 0x100000007u, 0x100010000u, TOP, ALL};
    for (size_t index = 0; index < COUNT_OF(editions); index++) {
        uint32_t words[3] = {77, 78, 79}, count = 80, covered = 82, spot = 81;
        record_words again;
        edition = editions[index];
        clear();
        for (size_t priority = 0; priority < COUNT_OF(wrong); priority++)
            REFUSED(SLOTS(3), for_key_zero(1, wrong[priority], 1), TCAM_RULE, 0);
        PLANNED(3, for_key_zero(1, 65535, 1), PUT(0));

        HERE;
        put(0, for_key_zero(1, 65536, 1));
        memcpy(again, table, SLOTS(1) * sizeof *table);
        for (int taken_out = 0; taken_out < 2; taken_out++) {
            CHECK(tcam_plan_insert(table, SLOTS(3), width, uncounted, again, SLOTS(1), edition, words, 3, &count, &covered,
                                   &spot) == TCAM_RULE);
            CHECK(words[0] == 77 && words[1] == 78 && words[2] == 79 && count == 80 && covered == 82 && spot == 0);
            clear();
            spot = 81;
        }
    }
}

/* ---- Rules that another covers ---- */

/* [1/40 10, 2/30 1, 3/20 *, empty], all of different actions. */
static void covered_rules(void)
{
    HOLD({0, 1, 40, "10", 1}, {1, 2, 30, "1", 2}, {2, 3, 20, "", 3});
    COVERED_BY(1, 4, rule_of(9, 10, "11", 9), PUT(3));
    COVERED_BY(1, 4, rule_of(9, 25, "11", 9), COPY(2, 3), PUT(2));
    COVERED_BY(TCAM_NONE, 4, rule_of(9, 35, "11", 9), COPY(2, 3), COPY(1, 2), PUT(1));
    COVERED_BY(1, 4, rule_of(9, 29, "1", 9), COPY(2, 3), PUT(2)); /* an equal match */
    COVERED_BY(TCAM_NONE, 4, rule_of(9, 31, "1", 9), COPY(2, 3), COPY(1, 2), PUT(1));
    COVERED_BY(2, 4, rule_of(9, 10, "01", 9), PUT(3));
    COVERED_BY(0, 4, rule_of(9, 19, "10", 9), PUT(3)); /* the lowest of three */
    COVERED_BY(2, 4, rule_of(9, 19, "", 9), PUT(3));
    COVERED_BY(TCAM_NONE, 4, rule_of(9, 41, "101", 9), COPY(2, 3), COPY(1, 2), COPY(0, 1), PUT(0));

    /* two rules that cover the new one only together */
    HOLD({0, 1, 40, "10", 1}, {1, 2, 30, "11", 2});
    COVERED_BY(TCAM_NONE, 3, rule_of(9, 10, "1", 9), PUT(2));

    /* the slot is one of the table before the plan: here the new rule goes to it */
    HOLD({1, 1, 40, "1", 1}, {2, 2, 10, "1", 2});
    COVERED_BY(1, 3, rule_of(9, 20, "1", 9), COPY(1, 0), PUT(1));
    COVERED_BY(1, 3, rule_of(9, 20, "11", 9), COPY(1, 0), PUT(1));
}

/* A rule that is sent again: one of its own rank does not cover it, and one of a higher rank may. */
static void covered_replacements(void)
{
    HOLD({0, 1, 40, "10", 1}, {1, 2, 30, "1", 9}, {2, 3, 20, "", 9});
    COVERED_BY(TCAM_NONE, 4, rule_of(9, 30, "1", 9), PUT(1));
    COVERED_BY(TCAM_NONE, 3, rule_of(9, 20, "", 9), PUT(2));
    HOLD({0, 1, 40, "1", 1}, {1, 2, 30, "0", 9}, {2, 3, 20, "11", 9});
    COVERED_BY(0, 3, rule_of(9, 20, "11", 9), PUT(2));
    COVERED_BY(TCAM_NONE, 3, rule_of(9, 30, "0", 9), PUT(1));
}

/* Each bit of the width by itself, in both rules, with another value, or in the mask of one of them alone. */
static void covered_at_each_bit(void)
{
    for (uint32_t bit = 0; bit < 64 * width; bit++) {
        const uint32_t word = bit / 64, other = (bit + 1) % (64 * width);
        const uint64_t one = TOP >> bit % 64;
        struct rule narrower = of_word(9, 10, word, one, one);
        narrower.mask[other / 64] |= TOP >> other % 64;
        clear();
        put(0, of_word(1, 40, word, one, one));
        COVERED_BY(0, 2, of_word(9, 10, word, one, one), PUT(1));
        COVERED_BY(0, 2, narrower, PUT(1));
        COVERED_BY(TCAM_NONE, 2, of_word(9, 10, word, 0, one), PUT(1));
        COVERED_BY(TCAM_NONE, 2, of_word(9, 10, word, 0, 0), PUT(1));
        COVERED_BY(TCAM_NONE, 2, of_word(9, 10, other / 64, 0, TOP >> other % 64), PUT(1));
    }
}

/* Ranks are compared, and not priorities. */
static void covered_by_rank(void)
{
    HOLD({0, 1, 65535, "", 1});
    COVERED_BY(0, 2, for_key_zero(9, 7, 9), PUT(1));
    edition = TCAM_EDITION_10;
    COVERED_BY(0, 2, for_two_keys(9, 7, 64 * width - 1, 9), PUT(1));
    COVERED_BY(TCAM_NONE, 2, for_key_zero(9, 7, 9), COPY(0, 1), PUT(0));
    clear();
    put(0, for_key_zero(1, 65536, 1));
    COVERED_BY(TCAM_NONE, 2, for_key_zero(9, 7, 1), PUT(0));
    edition = TCAM_EDITION_13;
    COVERED_BY(0, 2, for_key_zero(9, 65535, 9), PUT(1));
}

/* In an uncounted table a rule of the same action covers too, and one may stand behind the rule that it covers. */
static void covered_by_own_action(void)
{
    HOLD({0, 1, 40, "1", 7});
    COVERED_BY(0, 2, rule_of(9, 10, "11", 7), PUT(1));
    COVERED_BY(0, 2, rule_of(9, 10, "1", 7), PUT(1));
    COVERED_BY(TCAM_NONE, 2, rule_of(9, 40, "11", 7), PUT(1));
    COVERED_BY(TCAM_NONE, 2, rule_of(9, 50, "11", 7), PUT(1));
    HOLD({0, 1, 20, "1", 7}, {1, 2, 30, "1", 7});
    COVERED_BY(1, 3, rule_of(9, 20, "1", 7), PUT(0));
    COVERED_BY(0, 3, rule_of(9, 10, "1", 7), PUT(2));

    HOLD({1, 1, 40, "1", 7});
    COVERED_BY(1, 2, rule_of(9, 10, "11", 7), PUT(0));
    INSERTED(2, rule_of(9, 10, "11", 7), PUT(0));
    look_up(__LINE__, 2, TOP | TOP >> 1, 0, 0, 9, 7); /* so that a key is told the covered one */
}

static void cover_cases(void)
{
    covered_rules();
    covered_replacements();
    covered_at_each_bit();
    covered_by_rank();
    under_every_flag(covered_rules);
    under_every_flag(covered_replacements);
    under_every_flag(covered_by_own_action);
}

/* 1,024 slots, one of them empty. */
static const uint32_t empties[] = {0, 512, 1023};

/* Every rule depends on all before it, and the new one comes before the rule of a slot: the rules between move by one. */
static void long_chain(uint32_t hole, uint32_t place)
{
    static uint32_t writes[TCAM_MAX_SLOTS];
    uint32_t count = 0;
    clear();
    for (uint32_t slot = 0; slot < 1024; slot++)
        if (slot != hole)
            put(slot, rule_of(slot + 1, 60000 - 40 * slot, "", slot));
    if (place <= hole) {
        for (uint32_t slot = hole; slot > place; slot--)
            writes[count++] = COPY(slot - 1, slot);
        writes[count++] = PUT(place);
    } else {
        for (uint32_t slot = hole; slot < place - 1; slot++)
            writes[count++] = COPY(slot + 1, slot);
        writes[count++] = PUT(place - 1);
    }
    insert_case(__LINE__, 1024, rule_of(5000, 60020 - 40 * place, "", 9), 0, writes, count);
}

static void long_chains(void)
{
    static const uint32_t places[] = {0, 1, 511, 512, 513, 1023, 1024};
    for (size_t index = 0; index < COUNT_OF(empties) * COUNT_OF(places); index++)
        long_chain(empties[index / COUNT_OF(places)], places[index % COUNT_OF(places)]);
}

/* A rule of the first word `value`, all of whose bits are cared for. */
static struct rule exact(uint32_t id, uint64_t priority, uint64_t value, uint32_t action)
{
    return (struct rule){id, priority, {value}, {ALL}, action};
}

/* The same, which cares for the last bit of the last word too. */
static struct rule exact_to_last(uint32_t id, uint64_t priority, uint64_t value, uint32_t action)
{
    struct rule rule = exact(id, priority, value, action);
    rule.value[width - 1] |= 1;
    rule.mask[width - 1] |= 1;
    return rule;
}

/* No rule overlaps another: one move is enough, over the whole table. */
static void long_table_apart(uint32_t hole)
{
    clear();
    for (uint32_t slot = 0; slot < 1024; slot++)
        if (slot != hole)
            put(slot, exact(slot + 1, slot % 7, slot, slot));
    PLANNED(1024, exact_to_last(5000, 3, 1024, 9), PUT(hole));
    REFUSED(SLOTS(1024), exact_to_last(700, 3, 1024, 9), TCAM_KNOWN, 699);
    REFUSED(SLOTS(1024), exact_to_last(5000, 700 % 7, 700, 9), TCAM_TIE, 700);
    DELETED(1024, 701, 700);
    KEPT(SLOTS(1024), 701, TCAM_UNKNOWN, 0);
}

static void long_tables_apart(void)
{
    for (size_t index = 0; index < COUNT_OF(empties); index++)
        long_table_apart(empties[index]);
    put(700, exact(701, 0, 700, 700));
    PLANNED(1024, exact(5000, 9, 0, 9), COPY(0, 1023), PUT(0));
    REFUSED(SLOTS(1024), rule_of(5000, 3, "", 9), TCAM_TIE, 3);
    REFUSED(SLOTS(1024), of_word(5000, 3, 0, 1, ~(uint64_t)4), TCAM_CROSSED, 5);
    put(1023, exact(1024, 1, 1023, 1));
    REFUSED(SLOTS(1024), exact(5000, 9, 0, 9), TCAM_FULL, 0);
    memset(table, 0, SLOTS(1) * sizeof *table);
    PLANNED(1024, exact(5000, 0, 1023, 9), COPY(1023, 0), PUT(1023));
    DELETED(1024, 1024, 1023);
    PLANNED(1024, exact(5000, 0, 1023, 9), PUT(0));

    /* faults in the last slots */
    put(1023, exact(700, 1, 1023, 1));
    REFUSED(SLOTS(1024), exact(5000, 9, 0, 9), TCAM_TWICE, 1023);
    put(1023, exact(5001, 6, 1020, 1));
    REFUSED(SLOTS(1024), exact(5000, 9, 0, 9), TCAM_ORDER, 1023);
    KEPT(SLOTS(1024), 5001, TCAM_ORDER, 1023);
    put(1023, exact(5001, 4, 1020, 1));
    PLANNED(1024, exact(5000, 9, 1, 9), PUT(0));
    put(1023, exact(5001, 65536, 1020, 1));
    REFUSED(SLOTS(1024), exact(5000, 9, 1, 9), TCAM_RECORD, 1023);
    PLANNED(1023, exact(5000, 9, 1, 9), PUT(0));
}

static void long_tables_of_few_rules(void)
{
    clear();
    PLANNED(1024, rule_of(1, 1, "", 1), PUT(0));
    KEPT(SLOTS(1024), 1, TCAM_UNKNOWN, 0);
    put(1023, rule_of(2, 2, "", 1));
    PLANNED(1024, rule_of(1, 1, "", 1), COPY(1023, 1022), PUT(1023));
    put(0, rule_of(3, 3, "", 1));
    PLANNED(1024, rule_of(1, 4, "", 1), COPY(0, 1), PUT(0));
}

/* ---- Made tables ---- */

/* How often each kind of answer came: the random tables must reach them all. */
#define CAUSES (TCAM_ROOM + 1)
static struct {
    unsigned long refused[CAUSES], planned, of_count[TCAM_MAX_SLOTS + 1], whole, up, equal, choice_tie, hop_tie, on_dependant,
        around_dependant, raised, below_raised, replaced, replaced_in_full, covered, replaced_covered, searched, deleted,
        not_deleted[CAUSES];
    /* of uncounted tables: plans where a counted one declines with this number, shorter ones, and one of several equal replaced */
    unsigned long spared[CAUSES], shorter, one_of_several;
} seen;

/* Rank 65,536 in a table, and of a rule that is put in. */
static int has_exact_rank(const uint64_t *records, uint32_t count)
{
    for (uint32_t index = 0; index < count; index++)
        if (rank_of(records + SLOTS(index)) == 65536)
            return 1;
    return 0;
}

static int has_empty_slot(const uint64_t *held, uint32_t slots)
{
    for (uint32_t slot = 0; slot < slots; slot++)
        if (is_empty(held + SLOTS(slot)))
            return 1;
    return 0;
}

/* How many rules of a table are equal to a new one. */
static uint32_t equal_to(const uint64_t *held, uint32_t slots, const struct rule *rule)
{
    record_words record;
    uint32_t equals = 0;
    set_ranked(record, rule);
    for (uint32_t slot = 0; slot < slots; slot++)
        equals += equal(held + SLOTS(slot), record) != 0;
    return equals;
}

/* A plan for an uncounted table, beside what a counted one would answer. */
static void count_spared(const uint64_t *held, uint32_t slots, const struct rule *rule, const struct told *told)
{
    static struct told counted;
    if (uncounted == TCAM_COUNTED)
        return;
    COUNTED(ref_insert(held, SLOTS(slots), rule, &counted));
    if (counted.number != TCAM_OK)
        seen.spared[counted.number]++;
    else
        seen.shorter += told->count < counted.count;
    seen.one_of_several += replaces(held, slots, rule) && equal_to(held, slots, rule) > 1;
}

static void count_insert(const uint64_t *held, uint32_t slots, const struct rule *rule, const struct told *told)
{
    record_words record;
    if (told->number != TCAM_OK) {
        seen.refused[told->number < CAUSES ? told->number : 0]++;
        return;
    }
    if (replaces(held, slots, rule)) {
        seen.replaced++;
        seen.replaced_in_full += !has_empty_slot(held, slots);
        seen.replaced_covered += told->covered != TCAM_NONE;
        return;
    }
    seen.planned++;
    seen.covered += told->covered != TCAM_NONE;
    seen.of_count[told->count]++;
    seen.whole += told->count == slots && slots > 2;
    seen.up += way.up != 0;
    seen.equal += way.equal != 0;
    seen.choice_tie += way.choice_tie != 0;
    seen.hop_tie += way.hop_tie != 0;
    seen.on_dependant += way.on_dependant != 0;
    seen.around_dependant += way.around_dependant != 0;
    set_ranked(record, rule);
    seen.raised += has_exact_rank(record, 1);
    seen.below_raised += has_exact_rank(held, slots) && !has_exact_rank(record, 1);
}

/* An insert on a made table: each length of buffer that matters, carried out, and searched where the table is small. */
static void made_insert(const struct lent *lent, uint32_t slots, const struct rule *rule, const struct keys *keys)
{
    ref_insert(lent->original, lent->words, rule, &ref);
    count_insert(lent->original, slots, rule, &ref);
    if (ref.number == TCAM_OK)
        count_spared(lent->original, slots, rule, &ref);
    CHECK(ref.number < CAUSES);
    if (ref.number != TCAM_OK) {
        call_insert(lent, rule, below(slots + 2), (int)below(2), &ref);
        if (ref.number == TCAM_FULL && slots <= CLASS_SLOTS)
            CHECK(least_in_class(lent->original, slots, rule) == 0);
        return;
    }
    call_insert(lent, rule, ref.count - 1, (int)below(2), &ref);
    seen.refused[TCAM_SHORT] += ref.count > 1;
    if (ref.count > 2)
        call_insert(lent, rule, below(ref.count), (int)below(2), &ref);
    call_insert(lent, rule, ref.count, (int)below(2), &ref);

    /* the plan as the library gives it, in a buffer that always does */
    if (call_insert(lent, rule, slots + below(8), (int)below(2), &ref) != TCAM_OK)
        return;
    CHECK(cells.now[COUNT] <= plan.room);
    if (cells.now[COUNT] > plan.room)
        return;
    carry_out_insert(lent->original, slots, rule, plan.words, cells.now[COUNT], keys);
    check_obscured(slots, rule, cells.now[COVERED], keys);
    if (slots <= CLASS_SLOTS && !replaces(lent->original, slots, rule)) {
        CHECK(least_in_class(lent->original, slots, rule) == cells.now[COUNT]);
        seen.searched++;
    }
}

static void made_delete(const struct lent *lent, uint32_t slots, uint32_t id)
{
    ref_delete(lent->original, lent->words, id, &ref);
    if (ref.number == TCAM_OK) {
        seen.deleted++;
        call_delete(lent, id, 0, (int)below(2), &ref);
        if (call_delete(lent, id, 1 + below(3), (int)below(2), &ref) == TCAM_OK)
            carry_out_delete(lent->original, slots, id, plan.words, cells.now[COUNT]);
    } else {
        seen.not_deleted[ref.number]++;
        call_delete(lent, id, below(3), (int)below(2), &ref);
    }
}

/* Patterns of a few bits, at places of their own among all bits, over bits that all rules of a table have in common. */
struct space {
    uint32_t bits, place[4];
    pattern_words value, mask; /* in common */
};

/* digits: one of 0, 1 and 2 (not cared for) for each bit */
static void set_digits(struct rule *rule, const struct space *space, const uint8_t *digits)
{
    memcpy(rule->value, space->value, sizeof rule->value);
    memcpy(rule->mask, space->mask, sizeof rule->mask);
    for (uint32_t bit = 0; bit < space->bits; bit++) {
        uint64_t one = TOP >> space->place[bit] % 64;
        if (digits[bit] == 1)
            rule->value[space->place[bit] / 64] |= one;
        if (digits[bit] != 2)
            rule->mask[space->place[bit] / 64] |= one;
    }
}

/* Every key of the space; what is not common to the rules is random. */
static void space_keys(struct keys *keys, const struct space *space)
{
    keys->count = 0;
    for (uint32_t number = 0; number < (uint32_t)1 << space->bits; number++) {
        pattern_words key;
        for (uint32_t word = 0; word < width; word++)
            key[word] = space->value[word] | (random_word() & ~space->mask[word]);
        for (uint32_t bit = 0; bit < space->bits; bit++) {
            uint64_t one = TOP >> space->place[bit] % 64;
            key[space->place[bit] / 64] &= ~one;
            if (number >> bit & 1)
                key[space->place[bit] / 64] |= one;
        }
        add_key(keys, key);
    }
}

/* The table of this number: each decimal digit is a slot's pattern, or 9 for an empty slot. */
static void small_table(const struct space *space, const uint8_t (*patterns)[2], uint32_t slots, uint32_t number)
{
    clear();
    for (uint32_t slot = 0; slot < slots; slot++, number /= 10) {
        struct rule rule = rule_of(slot + 1, 2 * (slots - slot), "", 50 + slot);
        if (number % 10 == 9)
            continue;
        set_digits(&rule, space, patterns[number % 10]);
        put(slot, rule);
    }
}

/*
 * All tables of 1 to 4 slots whose rules are patterns of two bits, with priorities that fall from slot to slot, and all
 * new rules of such patterns with a priority between two of them, below or above. An insert that is not crossed depends
 * on the overlaps and on the place among the priorities alone. With 4 slots three patterns of the new rule do: the
 * others come of them by exchanging the bits or 0 and 1, for all rules of the table too. The two bits are the last of a
 * word and the first of the last one.
 */
static void all_tables(void)
{
    const struct space space = {2, {63, 64 * (width - 1), 0, 0}, {0}, {0}};
    static const uint8_t patterns[9][2] = {{0, 0}, {0, 2}, {2, 2}, {0, 1}, {1, 0}, {1, 1}, {1, 2}, {2, 0}, {2, 1}};
    struct keys keys;
    uint32_t tables = 1;

    case_line = 0;
    made_how = "small table";
    turn = 0;
    memset(&seen, 0, sizeof seen);
    space_keys(&keys, &space);
    for (uint32_t slots = 1; slots <= 4; slots++) {
        tables *= 10;
        for (uint32_t number = 0; number < tables; number++) {
            small_table(&space, patterns, slots, number);
            struct lent lent = lend(table, SLOTS(slots), (int)number % 2);
            for (uint32_t pattern = 0; pattern < (slots == 4 ? 3 : 9); pattern++)
                for (uint32_t place = 0; place <= slots; place++) {
                    struct rule rule = rule_of(90, 2 * place + 1, "", 91);
                    set_digits(&rule, &space, patterns[pattern]);
                    made_insert(&lent, slots, &rule, &keys);
                    turn++;
                }
        }
    }
    HERE;
    CHECK(turn == 10 * 18 + 100 * 27 + 1000 * 36 + 10000 * 15);
    CHECK(seen.searched > turn / 4);
    CHECK(seen.refused[TCAM_FULL] > turn / 4);
}

/* The first bits, the last, those at the border of the last word, some in all words, or any. In a third of the spaces all other
 * bits are cared for, so that a rule that cares for its bits too is without wildcards. */
static void random_space(struct space *space)
{
    const uint32_t bits = 64 * width, last = bits - 64;
    const uint32_t places[4][4] = {{0, 1, 2, 3},
                                   {bits - 1, bits - 2, bits - 3, bits - 4},
                                   {last - 2, last - 1, last, last + 1},
                                   {5, bits - 58, 40, bits - 27}};
    uint32_t choice = below(5);
    int others_cared_for = below(3) == 0;
    space->bits = 2 + below(3);
    for (uint32_t bit = 0; bit < 4; bit++)
        space->place[bit] = choice < 4 ? places[choice][bit] : bit * (bits / 4) + below(bits / 4);
    for (uint32_t word = 0; word < MOST_WIDTH; word++)
        space->mask[word] = others_cared_for ? ALL : below(2) == 0 ? 0 : below(2) == 0 ? ALL : random_word();
    for (uint32_t bit = 0; bit < (others_cared_for ? space->bits : 4); bit++)
        space->mask[space->place[bit] / 64] &= ~(TOP >> space->place[bit] % 64);
    for (uint32_t word = 0; word < MOST_WIDTH; word++)
        space->value[word] = random_word() & space->mask[word];
}

/* The ids of a table, all different. */
static uint32_t made_id(uint32_t kind, uint32_t index)
{
    switch (kind) {
    case 0: return index + 1;
    case 1: return UINT32_MAX - index;
    case 2: return 65536 * (index + 1);
    default: return 0x9E3779B1u * (index + 1);
    }
}

#define MADE_RULES TCAM_MAX_SLOTS

/* Rules of a made table: their digits, and where they overlap. */
static struct {
    struct rule rule;
    uint8_t digits[4];
    int placed;
} made[MADE_RULES + 1];

static int made_overlap(const struct space *space, uint32_t a, uint32_t b)
{
    for (uint32_t bit = 0; bit < space->bits; bit++)
        if (made[a].digits[bit] + made[b].digits[bit] == 1)
            return 0;
    return 1;
}

/* Whether order is about the two: in an uncounted table their actions differ. */
static int made_ordered(const struct space *space, uint32_t a, uint32_t b)
{
    return (uncounted == TCAM_COUNTED || made[a].rule.action != made[b].rule.action) && made_overlap(space, a, b);
}

/* Of uncounted tables one of few. */
static uint32_t made_action(void)
{
    return uncounted != TCAM_COUNTED ? below(3) : below(4) == 0 ? UINT32_MAX : below(100);
}

static void make_rule(const struct space *space, uint32_t index, uint32_t stars, uint32_t priorities)
{
    for (uint32_t bit = 0; bit < 4; bit++)
        made[index].digits[bit] = (uint8_t)(below(8) < stars ? 2 : below(2));
    set_digits(&made[index].rule, space, made[index].digits);
    made[index].rule.priority = priorities == 65535 ? 65535 * below(2) : 2 * below(priorities / 2);
    made[index].rule.action = made_action();
    made[index].placed = 0;
}

/* A rule without wildcards, which may be in the table by either edition. */
static void may_raise(struct rule *rule)
{
    record_words record;
    set_record(record, rule);
    if (is_exact(record) && below(2) == 0)
        rule->priority = 65536;
}

/* Rules that do not tie with each other, in an uncounted table only where they are of one action; returns how many were found. */
static uint32_t make_rules(const struct space *space, uint32_t wanted_rules, uint32_t stars, uint32_t priorities)
{
    for (uint32_t index = 0; index < wanted_rules; index++) {
        int ties = 1;
        for (uint32_t attempt = 0; attempt < 8 && ties; attempt++) {
            ties = 0;
            make_rule(space, index, stars, priorities);
            may_raise(&made[index].rule);
            if (uncounted != TCAM_COUNTED && index > 0 && below(6) == 0)
                made[index] = made[below(index)]; /* an equal rule of one action */
            for (uint32_t other = 0; other < index; other++)
                ties |= made[other].rule.priority == made[index].rule.priority && made_ordered(space, other, index);
        }
        if (ties)
            return index;
    }
    return wanted_rules;
}

/* One of the rules not yet placed that no other of them precedes: any, or the one of highest priority. */
static uint32_t next_rule(const struct space *space, uint32_t rules, int by_priority)
{
    uint32_t chosen = rules, candidates = 0;
    for (uint32_t index = 0; index < rules; index++) {
        int first = !made[index].placed;
        for (uint32_t other = 0; other < rules && first; other++)
            if (!made[other].placed && made[other].rule.priority > made[index].rule.priority)
                first = !by_priority && !made_ordered(space, other, index);
        if (first && below(++candidates) == 0)
            chosen = index;
    }
    made[chosen].placed = 1;
    return chosen;
}

/* A table in order, at random: how many rules, which slots, and any of the orders that do. */
static uint32_t make_table(const struct space *space, uint32_t slots, uint32_t *id_kind)
{
    static const uint32_t priority_ranges[] = {12, 24, 1000, 65536, 65535};
    uint32_t fill = below(4), stars = 1 + below(7), left = slots;
    int by_priority = below(3) == 0;
    uint32_t rules = fill == 0 ? slots - 1 : fill == 1 && slots > 1 ? slots - 2 : below(slots + 1);
    rules = make_rules(space, rules, stars, priority_ranges[below(5)]);
    *id_kind = below(4);
    clear();
    for (uint32_t slot = 0, placed = 0; slot < slots && placed < rules; slot++, left--) {
        if (below(left) >= rules - placed)
            continue;
        uint32_t index = next_rule(space, rules, by_priority);
        made[index].rule.id = made_id(*id_kind, placed++);
        put(slot, made[index].rule);
    }
    make_rule(space, rules, below(2) == 0 ? stars : 3 + below(6), priority_ranges[below(4)]);
    made[rules].rule.id = made_id(*id_kind, rules);
    if (rules > 0 && below(2) == 0) { /* a priority next to that of some rule */
        uint64_t near = made[below(rules)].rule.priority;
        made[rules].rule.priority = near >= 65535 || (near > 0 && below(2) == 0) ? near - 1 : near + 1;
        if (uncounted != TCAM_COUNTED && near <= 65535 && below(3) == 0)
            made[rules].rule.priority = near;
    }
    return rules;
}

static void swap_slots(uint32_t a, uint32_t b)
{
    for (size_t word = 0; word < SLOTS(1); word++) {
        uint64_t kept = table[SLOTS(a) + word];
        table[SLOTS(a) + word] = table[SLOTS(b) + word];
        table[SLOTS(b) + word] = kept;
    }
}

/* Damage to the table, the new rule, its edition or several of them; returns the length lent. */
static size_t damage(uint32_t slots, struct rule *rule)
{
    size_t words = SLOTS(slots);
    if (below(12) == 0) /* out of order */
        swap_slots(below(slots), below(slots));
    if (below(24) == 0) { /* an id twice */
        uint32_t from = below(slots), to = below(slots);
        table[SLOTS(to) + 2 * width] = table[SLOTS(from) + 2 * width];
    }
    if (below(24) == 0) { /* any bit */
        uint32_t bit = below(64 * (uint32_t)SLOTS(slots));
        table[bit / 64] ^= (uint64_t)1 << bit % 64;
    }
    if (below(48) == 0)
        words = words - 1 - below((uint32_t)SLOTS(1) - 1) + (below(2) == 0 ? SLOTS(1) : 0);
    if (below(16) == 0) /* an id of the table, or 0 */
        rule->id = id_of(table + SLOTS(below(slots)));
    if (below(32) == 0)
        rule->priority += (uint64_t)65536 << below(48);
    if (below(32) == 0)
        rule->value[below(width)] |= (uint64_t)1 << below(64);
    if (below(32) == 0)
        edition = below(2) == 0 ? below(20) : (uint32_t)random_word();
    return words;
}

/* The rules of the table in its first slots: it has so many slots then, and none is empty. */
static uint32_t close_ranks(uint32_t slots)
{
    uint32_t rules = 0;
    for (uint32_t slot = 0; slot < slots; slot++)
        if (!is_empty(table + SLOTS(slot)))
            swap_slots(rules++, slot);
    return rules;
}

/* One of the table's rules sent again, under either edition, or one that nearly is; the table may be full. */
static uint32_t send_again(uint32_t slots, uint32_t rules, struct rule *rule)
{
    const struct rule *present = &made[below(rules)].rule;
    const uint32_t id = rule->id;
    *rule = *present;
    rule->id = id;
    if (uncounted == TCAM_COUNTED || below(4) == 0)
        rule->action = made_action();
    if (rule->priority == 65536)
        rule->priority = below(65536);
    if (below(4) == 0)
        rule->priority ^= 1;
    return below(2) == 0 ? close_ranks(slots) : slots;
}

static void random_table(uint32_t slots)
{
    struct space space;
    struct keys keys;
    uint32_t id_kind;
    uncounted = below(2) == 0 ? TCAM_COUNTED : uncounted_flags[below(COUNT_OF(uncounted_flags))];
    random_space(&space);
    uint32_t rules = make_table(&space, slots, &id_kind);
    struct rule rule = made[rules].rule;
    if (rules > 0 && below(8) == 0)
        slots = send_again(slots, rules, &rule);
    edition = editions[below(2)];
    space_keys(&keys, &space);
    size_t words = below(2) == 0 ? SLOTS(slots) : damage(slots, &rule);
    struct lent lent = lend(table, words, (int)below(2));
    made_insert(&lent, slots, &rule, &keys);
    uint32_t id = below(8) == 0 ? made_id(id_kind, rules) : id_of(table + SLOTS(below(slots)));
    made_delete(&lent, slots, id == 0 && below(4) != 0 ? made_id(id_kind, 0) : id);
}

/* Of the random tables, more than one in so many is refused with each number that stands here. */
static const unsigned long insert_refusals[CAUSES] = {
    [TCAM_SHAPE] = 200, [TCAM_RECORD] = 200, [TCAM_TWICE] = 200, [TCAM_ORDER] = 200, [TCAM_RULE] = 100, [TCAM_EDITION] = 200,
    [TCAM_KNOWN] = 200, [TCAM_TIE] = 100, [TCAM_FULL] = 50, [TCAM_CROSSED] = 100, [TCAM_SHORT] = 10,
};
static const unsigned long delete_refusals[CAUSES] = {
    [TCAM_SHAPE] = 200, [TCAM_RECORD] = 200, [TCAM_TWICE] = 200, [TCAM_ORDER] = 200, [TCAM_RULE] = 20, [TCAM_UNKNOWN] = 20,
};

static void check_refusals(const unsigned long *refused, const unsigned long *one_in, unsigned long tables)
{
    case_line = 0;
    made_how = "refusal";
    for (turn = 0; turn < CAUSES; turn++)
        if (one_in[turn] != 0)
            CHECK(refused[turn] > tables / one_in[turn]);
}

static void check_plans(unsigned long tables)
{
    HERE;
    CHECK(seen.planned > tables / 2);
    CHECK(seen.of_count[1] > tables / 10);
    for (uint32_t writes = 2; writes <= 6; writes++)
        CHECK(seen.of_count[writes] > tables / 500);
    for (uint32_t writes = 7; writes <= 10; writes++)
        CHECK(seen.of_count[writes] > 0);
    CHECK(seen.whole > tables / 1000);
    CHECK(seen.up > tables / 20);
    CHECK(seen.equal > tables / 100);
    CHECK(seen.choice_tie > tables / 10);
    CHECK(seen.hop_tie > tables / 20);
    CHECK(seen.on_dependant > tables / 20);
    CHECK(seen.around_dependant > tables / 100);
    CHECK(seen.raised > tables / 100);
    CHECK(seen.below_raised > tables / 100);
    CHECK(seen.replaced > tables / 20);
    CHECK(seen.replaced_in_full > tables / 50);
    CHECK(seen.covered > tables / 10);
    CHECK(seen.planned - seen.covered > tables / 10);
    CHECK(seen.replaced_covered > tables / 100);
    CHECK(seen.searched > tables / 5);
    CHECK(seen.deleted > tables / 4);
    CHECK(seen.spared[TCAM_ORDER] > tables / 20);
    CHECK(seen.spared[TCAM_TIE] > tables / 500);
    CHECK(seen.spared[TCAM_CROSSED] > tables / 5000);
    CHECK(seen.shorter > tables / 500);
    CHECK(seen.one_of_several > tables / 500);
}

static unsigned long tables_made; /* at each width */

static void random_tables(void)
{
    const unsigned long tables = tables_made;
    case_line = 0;
    made_how = "random table";
    memset(&seen, 0, sizeof seen);
    for (turn = 0; turn < tables; turn++)
        random_table(1 + below(12));
    if (tables < 50000)
        return;

    check_refusals(seen.refused, insert_refusals, tables);
    check_refusals(seen.not_deleted, delete_refusals, tables);
    check_plans(tables);
}

/* A few of more slots. */
static void longer_tables(void)
{
    case_line = 0;
    made_how = "longer table";
    for (turn = 0; turn < 200; turn++)
        random_table(13 + below(turn % 50 == 49 ? 1012 : 60));
}

int main(int count, char **words)
{
    static void (*const cases[])(void) = {
        names, script, last_word_decides, other_rules, other_widths, edge_tables, short_buffers, absent_ids,
        priorities_at_ends, mask_zero, choices, displaced_rules, rules_apart, rules_apart_in_words, wrong_lengths,
        long_lengths, unsound_records, ids_twice, disordered, unsound_rules, known_and_tied, sent_again,
        nearly_sent_again, crossed, uncounted_cases, different_actions, fault_sets, either_edition, tied_ranks,
        masks_not_full, ranks_of_records, other_editions, priorities_given, cover_cases, long_chains, long_tables_apart,
        long_tables_of_few_rules, all_tables, random_tables, longer_tables,
    };
    tables_made = begin(count, words, 102000) / 2;
    open_pages(&plan_pages, (MOST_ROOM + PLAN_GUARDS) * sizeof(uint32_t));
    run_cases(cases, COUNT_OF(cases));

    return verdict("plan_test");
}
