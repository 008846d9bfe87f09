/* Planning inserts and deletes in C: checks, windows by the neighbour list, costs, the choice between the directions, and the
   chain's words. Position p is slot p going down, and the slot as far from the last one going up. */
#include "checks.h"

typedef struct choice {
    bool up;
    size_t cost;
    size_t position;
} choice;

/* One past the last position of a rule's window. */
static size_t window_end(const uint16_t *near, size_t slots, bool up, size_t slot)
{
    size_t found = near[2 * slot + up];
    return found >= slots ? slots : up ? slots - found : found + 1;
}

/* For each position one past its window's last position, or 0 where the slot is empty. */
static void fill_ends(const uint64_t *table, size_t slots, const uint16_t *near, bool up, uint16_t *ends)
{
    for (size_t slot = 0; slot < slots; slot++) {
        size_t end = id_of(table + slot * WORDS) != 0 ? window_end(near, slots, up, slot) : 0;
        ends[up ? slots - 1 - slot : slot] = (uint16_t)end;
    }
}

static uint16_t least_between(const uint16_t *costs, size_t from, size_t to, size_t top)
{
    uint16_t least = (uint16_t)top;
    for (size_t at = from; at < to; at++)
        least = costs[at] < least ? costs[at] : least;
    return least;
}

/* The least of a window's costs; its first, which may just have been stored, is read by itself. */
static uint16_t least_in_window(const uint16_t *costs, size_t from, size_t to, size_t top)
{
    if (from >= to)
        return (uint16_t)top;
    uint16_t rest = least_between(costs, from + 1, to, top);
    return costs[from] < rest ? costs[from] : rest;
}

/* The costs of all positions along one direction, the last position first.
   The least of all is kept, so that no window that runs to the last position is searched. */
static void fill_costs(const uint64_t *table, size_t slots, const uint16_t *near, bool up, uint16_t *costs)
{
    uint16_t ends[SLOTS_MOST], least = (uint16_t)slots;
    fill_ends(table, slots, near, up, ends);
    for (size_t position = slots; position-- > 0;) {
        size_t end = ends[position];
        uint16_t cost = 0;
        if (end == slots)
            cost = (uint16_t)(least + 1);
        else if (end != 0)
            cost = (uint16_t)(least_in_window(costs, position + 1, end, slots) + 1);
        costs[position] = cost;
        least = cost < least ? cost : least;
    }
}

static size_t first_of_cost(const uint16_t *costs, size_t from, size_t to, size_t cost)
{
    size_t at = from;
    while (at < to && costs[at] != cost)
        at++;
    return at;
}

/* The choice of least cost in a range of positions along one direction. */
static choice best_between(const uint16_t *costs, size_t slots, bool up, size_t from, size_t to)
{
    size_t cost = least_between(costs, from, to, slots);
    return (choice){up, cost, first_of_cost(costs, from, to, cost)};
}

static uint32_t slot_at(size_t slots, bool up, size_t position)
{
    return (uint32_t)(up ? slots - 1 - position : position);
}

/* The chain's words, stored from the far end of the plan's front, and last the word that puts the new rule in. */
static void write_plan(const uint16_t *costs, size_t slots, choice made, uint32_t *plan)
{
    size_t position = made.position;
    for (size_t left = made.cost; left-- > 0;) {
        size_t next = first_of_cost(costs, position + 1, slots, left);
        plan[left] = slot_at(slots, made.up, position) << 16 | slot_at(slots, made.up, next);
        position = next;
    }
    plan[made.cost] = (uint32_t)PUT_IN << 16 | slot_at(slots, made.up, made.position);
}

/* Check 6. */
static check check_known(const uint64_t *table, size_t slots, const uint64_t *new)
{
    size_t known = slot_of_id(table, slots, id_of(new));
    return known < slots ? fail(KNOWN, known) : pass();
}

/* The lowest slot that ties with a new rule, or the number of slots. */
static size_t tied_slot(const uint64_t *table, size_t slots, bool uncounted, const uint64_t *new)
{
    size_t slot = 0;
    while (slot < slots && !tied(table + slot * WORDS, new, uncounted))
        slot++;
    return slot;
}

/* The lowest slot with a rule of the new one's rank, value, mask and action, as in an uncounted table one that is replaced; or the
   number of slots. */
static size_t equal_slot(const uint64_t *table, size_t slots, const uint64_t *new)
{
    size_t slot = 0;
    while (slot < slots && !(is_equal(table + slot * WORDS, new) && same_action(table + slot * WORDS, new)))
        slot++;
    return slot;
}

/* Check 9. */
static check check_full(const uint64_t *table, size_t slots)
{
    for (size_t slot = 0; slot < slots; slot++)
        if (id_of(table + slot * WORDS) == 0)
            return pass();
    return fail(FULL, 0);
}

/* Check 10, with A + 1 and B. */
static check check_crossed(const uint64_t *table, size_t slots, bool uncounted, const uint64_t *new, size_t *after,
                           size_t *dependant)
{
    size_t above = slots, below = 0;
    while (above > 0 && !precedes(table + (above - 1) * WORDS, new, uncounted))
        above--;
    while (below < slots && !precedes(new, table + below * WORDS, uncounted))
        below++;
    *after = above;
    *dependant = below;
    return above > below + 1 ? fail(CROSSED, above - 1) : pass();
}

/* Check 11 and the words, for a rule between A and B. */
static check plan_between(const uint64_t *table, size_t slots, const uint16_t *near, size_t after, size_t dependant,
                          uint32_t *plan, size_t plan_words, uint32_t *count)
{
    uint16_t down[SLOTS_MOST], up[SLOTS_MOST];
    fill_costs(table, slots, near, false, down);
    fill_costs(table, slots, near, true, up);
    choice best_down = best_between(down, slots, false, after, dependant < slots ? dependant + 1 : slots);
    choice best_up = best_between(up, slots, true, slots - dependant, after > 0 ? slots - after + 1 : slots);
    choice made = best_down.cost <= best_up.cost ? best_down : best_up;
    if (plan_words < made.cost + 1)
        return fail(SHORT, made.cost + 1);
    write_plan(made.up ? up : down, slots, made, plan);
    *count = (uint32_t)made.cost + 1;
    return pass();
}

/* Check 11, and a plan of one write. */
static check plan_one(uint32_t from, size_t slot, uint32_t *plan, size_t plan_words, uint32_t *count)
{
    if (plan_words < 1)
        return fail(SHORT, 1);
    plan[0] = from << 16 | (uint32_t)slot;
    *count = 1;
    return pass();
}

/* Checks 9 to 11 of a rule that ties with none, and the words. */
static check plan_beside(const uint64_t *table, size_t slots, bool uncounted, const uint16_t *near, const uint64_t *new,
                         uint32_t *plan, size_t plan_words, uint32_t *count)
{
    size_t after, dependant;
    check made = check_full(table, slots);
    if (made.number == OK)
        made = check_crossed(table, slots, uncounted, new, &after, &dependant);
    if (made.number == OK)
        made = plan_between(table, slots, near, after, dependant, plan, plan_words, count);
    return made;
}

/* Checks 6 to 11 of a rule with its rank, and the words. */
static check plan_ranked(const uint64_t *table, size_t slots, bool uncounted, const uint16_t *near, const uint64_t *new,
                         uint32_t *plan, size_t plan_words, uint32_t *count)
{
    check made = check_known(table, slots, new);
    if (made.number != OK)
        return made;
    size_t tie = tied_slot(table, slots, uncounted, new);
    /* in a counted table a rule that is equal to the new one is its only tie, in an uncounted one none is replaced then */
    if (tie < slots && !uncounted && is_equal(table + tie * WORDS, new))
        return plan_one(PUT_IN, tie, plan, plan_words, count);
    if (tie < slots)
        return fail(TIE, tie);
    size_t equal = uncounted ? equal_slot(table, slots, new) : slots;
    if (equal < slots)
        return plan_one(PUT_IN, equal, plan, plan_words, count);
    return plan_beside(table, slots, uncounted, near, new, plan, plan_words, count);
}

/* The lowest slot with a rule of a higher rank that alone covers the new one, or none. */
static uint32_t covering_slot(const uint64_t *table, size_t slots, const uint64_t *new)
{
    for (size_t slot = 0; slot < slots; slot++)
        if (obscures(table + slot * WORDS, new))
            return (uint32_t)slot;
    return NO_SLOT;
}

static check plan_new(const uint64_t *table, size_t words, bool uncounted, const uint64_t *rule, size_t rule_words,
                      uint32_t edition, uint32_t *plan, size_t plan_words, uint32_t *count, uint32_t *covered)
{
    uint16_t near[NEAR_MOST];
    uint64_t new[WORDS];
    size_t slots = words / WORDS;
    check made = rule_words == WORDS ? check_listed(table, words, uncounted, near) : fail(SHAPE, 0);
    if (made.number == OK)
        made = check_given(rule, edition, new);
    if (made.number == OK)
        made = plan_ranked(table, slots, uncounted, near, new, plan, plan_words, count);
    if (made.number == OK)
        *covered = covering_slot(table, slots, new);
    return made;
}

uint32_t CALL(plan_insert)(const uint64_t *table, size_t words, uint32_t uncounted, const uint64_t *rule, size_t rule_words,
                           uint32_t edition, uint32_t *plan, size_t plan_words, uint32_t *count, uint32_t *covered,
                           uint32_t *spot)
{
    check made = plan_new(table, words, uncounted != 0, rule, rule_words, edition, plan, plan_words, count, covered);
    if (made.number != OK)
        *spot = made.spot;
    return made.number;
}

static check plan_emptying(const uint64_t *table, size_t words, bool uncounted, uint32_t id, uint32_t *plan, size_t plan_words,
                           uint32_t *count)
{
    check sound = check_table(table, words, uncounted);
    if (sound.number != OK)
        return sound;
    if (id == 0)
        return fail(RULE, 0);
    size_t slot = slot_of_id(table, words / WORDS, id);
    if (slot == words / WORDS)
        return fail(UNKNOWN, 0);
    return plan_one(EMPTYING, slot, plan, plan_words, count);
}

uint32_t CALL(plan_delete)(const uint64_t *table, size_t words, uint32_t uncounted, uint32_t id, uint32_t *plan,
                           size_t plan_words, uint32_t *count, uint32_t *spot)
{
    check made = plan_emptying(table, words, uncounted != 0, id, plan, plan_words, count);
    if (made.number != OK)
        *spot = made.spot;
    return made.number;
}
