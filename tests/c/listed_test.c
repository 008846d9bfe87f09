/*
 * Plans inserts and carries plans out with a neighbour list lent, at each width, and checks every number of the list, what was told of
 * it and all that stands around it: first lists that are written here, then random tables, in order or not, with ids in several slots.
 * Lists come from a reference written from document 02's 2026-10, by all pairs of slots; all else is compared with the same call
 * without a list, which plan_test.c and carry_test.c test.
 *
 *     listed_test [seed [tables]]
 */
#define _DEFAULT_SOURCE /* for mmap without a file */
#include "testing.h"

#define NO 65535
#define MOST_NUMBERS (2 * MOST_SLOTS)

/* ---- The reference: a list from the whole table ---- */

/* Two rules of different ids that are ordered, the first of higher rank. */
static int precedes(const uint64_t *a, const uint64_t *b)
{
    return !is_empty(a) && !is_empty(b) && id_of(a) != id_of(b) && rank_of(a) > rank_of(b) && ordered(a, b);
}

/* Every pair of slots, the earlier first: from the last pair on the later slot is set, from the first on the earlier. */
static void ref_list(const uint64_t *held, uint32_t slots, uint16_t *list)
{
    for (uint32_t place = 0; place < 2 * slots; place++)
        list[place] = NO;
    for (uint32_t earlier = 0; earlier < slots; earlier++)
        for (uint32_t later = earlier + 1; later < slots; later++)
            if (precedes(held + SLOTS(earlier), held + SLOTS(later))) {
                if (list[2 * earlier] == NO)
                    list[2 * earlier] = (uint16_t)later; /* the first that is met is the nearest */
                list[2 * later + 1] = (uint16_t)earlier; /* the last that is met is */
            }
}

/* ---- What is lent: a table, a rule, a list, a plan and a progress record ---- */

static uint64_t table[ROOM(MOST_SLOTS)];
static size_t words;
static record_words rule;
static size_t rule_words;
static uint16_t list[MOST_NUMBERS + 8];
static uint32_t numbers;
static uint32_t plan[MOST_SLOTS], room;
static tcam_progress progress;

/* Whether the last call told that the list was refreshed; NOT_TOLD where it told nothing. */
#define NOT_TOLD 0xBAD0BAD0u
static uint32_t refreshed;

static void start(uint32_t slots)
{
    memset(table, 0, sizeof table);
    words = SLOTS(slots);
    rule_words = SLOTS(1);
    numbers = 2 * slots;
    room = slots;
}

static void hold(uint32_t slot, uint32_t id, uint64_t priority, const char *pattern)
{
    struct rule made = rule_of(id, priority, pattern, id + 100);
    set_record(table + SLOTS(slot), &made);
}

static void give(uint32_t id, uint64_t priority, const char *pattern)
{
    struct rule made = rule_of(id, priority, pattern, id + 100);
    set_record(rule, &made);
}

static void set_list(const uint16_t *wanted)
{
    memcpy(list, wanted, numbers * sizeof *list);
}

static void right_list(void)
{
    ref_list(table, slots_of(words), list);
}

/* ---- Lent lists, between a closed page and guards ---- */

#define LIST_GUARDS 16

static struct pages list_pages;

static struct {
    uint16_t *lent, *guards;
    uint16_t guards_before[LIST_GUARDS];
} lists;

static void lend_list(int at_end)
{
    uint16_t *pages = (uint16_t *)(void *)list_pages.start;
    lists.lent = at_end ? pages + list_pages.bytes / sizeof *pages - numbers : pages;
    lists.guards = at_end ? lists.lent - LIST_GUARDS : lists.lent + numbers;
    memcpy(lists.lent, list, numbers * sizeof *list);
    for (int index = 0; index < LIST_GUARDS; index++)
        lists.guards[index] = lists.guards_before[index] = (uint16_t)next_mark();
}

/* After a success the list is this table's and *told says whether it was `before`'s, else both are as they were. */
static void check_list(int success, const uint64_t *now, const uint64_t *before, uint32_t told)
{
    static uint16_t want[MOST_NUMBERS], entry[MOST_NUMBERS];
    CHECK(memcmp(lists.guards, lists.guards_before, sizeof lists.guards_before) == 0);
    if (success) {
        ref_list(now, slots_of(words), want);
        ref_list(before, slots_of(words), entry);
        CHECK(told == (memcmp(entry, list, numbers * sizeof *list) != 0));
        CHECK(memcmp(lists.lent, want, numbers * sizeof *want) == 0);
    } else {
        CHECK(told == NOT_TOLD);
        CHECK(memcmp(lists.lent, list, numbers * sizeof *list) == 0);
    }
    memcpy(list, lists.lent, numbers * sizeof *list);
    refreshed = told;
}

static unsigned long calls;

/* ---- One call, with all that it promises ---- */

enum { COUNT = 1, COVERED = 3, REFRESHED = 5, SPOT = 7, CELLS = 9 };

/* The insert planned without a list and with it, at either end of the pages: both the same, but for the list. The result is
 * number + spot * 2^32, with a spot of 0 on success; the plan and its count are left in `plan` and `progress`. */
static uint64_t plan_insert(void)
{
    static uint32_t plain[MOST_SLOTS], listed[MOST_SLOTS + 1];
    uint32_t cell[CELLS], before[CELLS], count = NOT_TOLD, covered = NOT_TOLD, spot = 0;
    int at_end = (int)(calls++ % 2);
    struct lent lent = lend(table, words, at_end), lent_rule = lend_in(&rule_pages, rule, rule_words, at_end);
    for (uint32_t index = 0; index <= room; index++)
        listed[index] = next_mark();
    memcpy(plain, listed, room * sizeof *plain);
    uint32_t mark = listed[room];
    uint32_t number = tcam_plan_insert(lent.table, words, width, uncounted, lent_rule.table, rule_words, edition, plain, room, &count,
                                       &covered, &spot);
    int fits = slots_of(words) != 0 && rule_words == SLOTS(1) && numbers == 2 * slots_of(words);
    if (!fits)
        number = TCAM_SHAPE, spot = 0, memcpy(plain, listed, room * sizeof *plain);
    lend_list(at_end);
    mark_cells(cell, before, CELLS);
    cell[REFRESHED] = NOT_TOLD;
    CHECK(number == tcam_plan_insert_listed(lent.table, words, width, uncounted, lent_rule.table, rule_words, edition, lists.lent,
                                            numbers, listed, room, cell + COUNT, cell + COVERED, cell + REFRESHED, cell + SPOT));
    CHECK(memcmp(plain, listed, room * sizeof *plain) == 0 && listed[room] == mark);
    CHECK(cell[COUNT] == (number == TCAM_OK ? count : before[COUNT]) && cell[COVERED] == (number == TCAM_OK ? covered : before[COVERED]));
    CHECK(cell[SPOT] == (number == TCAM_OK ? before[SPOT] : spot));
    check_cell_guards(cell, before, CELLS);
    check_lent(&lent);
    check_lent(&lent_rule);
    check_list(number == TCAM_OK, table, table, cell[REFRESHED]);
    memcpy(plan, listed, room * sizeof *plan);
    progress = (tcam_progress){0, number == TCAM_OK ? count : 0};
    return (uint64_t)(number == TCAM_OK ? 0 : spot) << 32 | number;
}

/* One write without a list and with it: both the same, but for the list. The table and the progress record are advanced. */
static uint64_t carry_out(void)
{
    static uint64_t plain[ROOM(MOST_SLOTS)], entry[ROOM(MOST_SLOTS)];
    uint32_t cell[3], before[3];
    int at_end = (int)(calls++ % 2);
    memcpy(plain, table, words * sizeof *plain);
    memcpy(entry, table, words * sizeof *entry);
    tcam_progress plain_progress = progress, listed_progress = progress;
    uint64_t result = TCAM_SHAPE;
    if (numbers == 2 * slots_of(words))
        result = tcam_carry_out(plain, words, width, rule, rule_words, edition, plan, room, &plain_progress);
    struct lent lent = lend(table, words, at_end), lent_rule = lend_in(&rule_pages, rule, rule_words, at_end);
    lend_list(at_end);
    mark_cells(cell, before, 3);
    cell[1] = NOT_TOLD;
    CHECK(result == tcam_carry_out_listed(lent.table, words, width, uncounted, lent_rule.table, rule_words, edition, lists.lent,
                                          numbers, plan, room, &listed_progress, cell + 1));
    memcpy(table, plain, words * sizeof *plain);
    check_lent(&lent);
    check_lent(&lent_rule);
    check_cell_guards(cell, before, 3);
    CHECK(listed_progress.done == plain_progress.done && listed_progress.total == plain_progress.total);
    check_list(result == TCAM_WROTE, table, entry, cell[1]);
    progress = plain_progress;
    return result;
}

/* A plan of this one write, made. */
static uint64_t write_one(uint32_t word)
{
    plan[0] = word;
    room = 1;
    progress = (tcam_progress){0, 1};
    return carry_out();
}

/* ---- Lists that are written here ---- */

/* A success that found the list right, or not, and leaves this one. */
static void check_told(uint32_t want_refreshed, const uint16_t *want)
{
    CHECK(refreshed == want_refreshed);
    CHECK(memcmp(list, want, numbers * sizeof *want) == 0);
}

/* [1/40 *0*, 2/10 01*, 3/30 1**, 4/20 11*, empty], and its list. */
static const uint16_t chain_list[] = {2, NO, NO, NO, 3, 0, NO, 2, NO, NO};

static void chain(void)
{
    start(5);
    hold(0, 1, 40, "*0*");
    hold(1, 2, 10, "01*");
    hold(2, 3, 30, "1**");
    hold(3, 4, 20, "11*");
    give(5, 50, "00*");
    set_list(chain_list);
}

static void planned_with_a_list(void)
{
    static const uint32_t writes[] = {COPY(1, 4), COPY(0, 1), PUT(0)};
    HERE;
    chain();
    CHECK(plan_insert() == TCAM_OK);
    check_told(0, chain_list);
    CHECK(progress.total == 3 && memcmp(plan, writes, sizeof writes) == 0);
    for (uint32_t place = 0; place < numbers; place++) {
        HERE;
        set_list(chain_list);
        list[place] = (uint16_t)(list[place] ^ 1u << place);
        CHECK(plan_insert() == TCAM_OK);
        check_told(1, chain_list);
        CHECK(progress.total == 3 && memcmp(plan, writes, sizeof writes) == 0);
    }
    HERE;
    list[9] = 0;
    CHECK(plan_insert() == TCAM_OK);
    check_told(1, chain_list);
    HERE; /* two words are one too few: a wrong list stays */
    list[9] = 0;
    room = 2;
    CHECK(plan_insert() == ((uint64_t)3 << 32 | TCAM_SHORT));
    CHECK(list[9] == 0 && refreshed == NOT_TOLD);
    HERE; /* nine numbers */
    room = 5;
    numbers = 9;
    CHECK(plan_insert() == TCAM_SHAPE);
}

static void carried_out_with_a_list(void)
{
    static const uint16_t after[3][10] = {
        {2, NO, NO, NO, 3, 0, NO, 2, NO, NO}, {2, NO, 2, NO, 3, 1, NO, 2, NO, NO}, {1, NO, 2, 0, 3, 1, NO, 2, NO, NO}};
    for (uint32_t wrong = 0; wrong < 3; wrong++) {
        HERE;
        chain();
        CHECK(plan_insert() == TCAM_OK);
        for (uint32_t write = 0; write < 3; write++) {
            if (wrong == 1)
                list[(3 * write + 1) % numbers] ^= 4;
            if (wrong == 2)
                set_list(after[2]);
            CHECK(carry_out() == TCAM_WROTE);
            check_told(wrong != 0, after[write]);
        }
        HERE; /* finished, however often: a wrong list stays */
        list[0] = 4711;
        CHECK(carry_out() == TCAM_FINISHED && refreshed == NOT_TOLD && list[0] == 4711);
        CHECK(carry_out() == TCAM_FINISHED && refreshed == NOT_TOLD && list[0] == 4711);
    }
}

/* A table that planning declines: its list is what an emptying of another slot, or any write, leaves. */
static void tables_out_of_order(void)
{
    static const uint16_t tied[] = {3, NO, 3, NO, 3, NO, NO, 2, NO, NO};
    static const uint16_t twice[] = {2, NO, 2, NO, NO, 1, NO, NO, NO, NO};
    static const uint16_t once[] = {2, NO, NO, NO, NO, 0, NO, NO, NO, NO};
    HERE;
    start(5);
    hold(0, 1, 20, "1");
    hold(1, 2, 20, "1");
    hold(2, 3, 30, "1");
    hold(3, 4, 10, "1");
    hold(4, 9, 5, "0");
    right_list();
    CHECK(write_one(EMPTYING(4)) == TCAM_WROTE);
    check_told(0, tied);
    CHECK(plan_insert() == ((uint64_t)1 << 32 | TCAM_ORDER) && refreshed == NOT_TOLD);
    HERE;
    start(5);
    hold(0, 1, 30, "1");
    hold(1, 1, 20, "1");
    hold(2, 2, 10, "1");
    hold(4, 9, 5, "0");
    memset(list, 0, sizeof list);
    CHECK(write_one(EMPTYING(4)) == TCAM_WROTE);
    check_told(1, twice);
    CHECK(plan_insert() == ((uint64_t)1 << 32 | TCAM_TWICE));
    CHECK(write_one(EMPTYING(1)) == TCAM_WROTE);
    check_told(0, once);
}

/* The last rule goes, and comes back: an empty slot has 65,535 twice. */
static void empty_slots(void)
{
    static const uint16_t none[] = {NO, NO, NO, NO}, both[] = {1, NO, NO, 0};
    HERE;
    start(2);
    right_list();
    check_told(refreshed = 0, none);
    hold(0, 1, 20, "1");
    hold(1, 2, 10, "1");
    set_list(both);
    CHECK(write_one(EMPTYING(0)) == TCAM_WROTE);
    check_told(0, none);
    CHECK(write_one(EMPTYING(1)) == TCAM_WROTE);
    check_told(0, none);
    give(3, 30, "1");
    CHECK(write_one(PUT(0)) == TCAM_WROTE);
    check_told(0, none);
    give(4, 29, "11");
    CHECK(write_one(PUT(1)) == TCAM_WROTE);
    check_told(0, both);
    HERE; /* one slot */
    start(1);
    memset(list, 0, sizeof list);
    CHECK(plan_insert() == TCAM_OK);
    check_told(1, none);
}

/* Rules of one action are no neighbours in an uncounted table, whatever number names it so. */
static void uncounted_lists(void)
{
    static const uint16_t counted[] = {1, NO, 2, 0, NO, 1, NO, NO}, looser[] = {2, NO, 2, NO, NO, 1, NO, NO};
    for (size_t index = 0; index <= COUNT_OF(uncounted_flags); index++) {
        const uint16_t *want = index == 0 ? counted : looser;
        HERE;
        start(4);
        hold(0, 1, 30, "1");
        hold(1, 2, 20, "1");
        hold(2, 3, 10, "1");
        table[SLOTS(1) + 2 * width] = TCAM_ID_ACTION(2, 101);
        give(4, 5, "0");
        uncounted = index == 0 ? TCAM_COUNTED : uncounted_flags[index - 1];
        set_list(index == 0 ? looser : counted); /* that of the other flag */
        CHECK(plan_insert() == TCAM_OK);
        check_told(1, want);
        set_list(index == 0 ? looser : counted);
        CHECK(carry_out() == TCAM_WROTE);
        check_told(1, want);
    }
    uncounted = TCAM_COUNTED;
}

/* ---- Refusals ---- */

/* Every other number of numbers: before all else that is wrong, in a finished plan too. A list of none may have no address. */
static void other_lengths(void)
{
    for (uint32_t lent = 0; lent <= 20; lent++) {
        if (lent == 10)
            continue;
        HERE;
        chain();
        numbers = lent;
        CHECK(plan_insert() == TCAM_SHAPE);
        CHECK(write_one(EMPTYING(0)) == TCAM_SHAPE);
        table[SLOTS(3) + 2 * width] = 7; /* no id */
        rule[2 * width] = 0;
        CHECK(plan_insert() == TCAM_SHAPE);
        CHECK(write_one(PUT(9)) == TCAM_SHAPE);
        progress.done = progress.total;
        CHECK(carry_out() == TCAM_SHAPE);
        progress.done = 9;
        CHECK(carry_out() == TCAM_SHAPE);
    }
    HERE;
    chain();
    uint32_t count = 1, covered = 2, told = 3, spot = 4;
    progress = (tcam_progress){0, 1};
    CHECK(tcam_plan_insert_listed(table, words, width, uncounted, rule, rule_words, edition, NULL, 0, plan, room, &count, &covered, &told,
                                  &spot) == TCAM_SHAPE);
    CHECK(tcam_carry_out_listed(table, words, width, uncounted, rule, rule_words, edition, NULL, 0, plan, room, &progress, &told) ==
          TCAM_SHAPE);
    CHECK(count == 1 && covered == 2 && told == 3 && spot == 0 && progress.done == 0);
}

/* A list of the right length for other slots, a table or a rule of another number of words, another width. */
static void other_shapes(void)
{
    static const uint32_t others[] = {0, 1, 3, 4, 6, 7, 10, 65538, 65541, 0x80000002u, UINT32_MAX};
    const size_t bad[] = {0, 1, SLOTS(1) - 1, SLOTS(1) + 1, SLOTS(5) + 1, SLOTS(1025)};
    for (size_t index = 0; index < COUNT_OF(bad); index++) {
        HERE;
        chain();
        words = bad[index];
        numbers = (uint32_t)(2 * (words / SLOTS(1)));
        CHECK(plan_insert() == TCAM_SHAPE);
        CHECK(write_one(EMPTYING(0)) == TCAM_SHAPE);
    }
    for (size_t lent = 0; lent <= ROOM(1); lent++) {
        HERE;
        chain();
        rule_words = lent;
        CHECK(plan_insert() == (lent == SLOTS(1) ? TCAM_OK : TCAM_SHAPE));
        CHECK(write_one(EMPTYING(0)) == (lent == SLOTS(1) ? TCAM_WROTE : TCAM_SHAPE));
    }
    const uint32_t right = width;
    for (size_t index = 0; index < COUNT_OF(others); index++) {
        HERE;
        chain();
        uint32_t cells[] = {1, 2, 3, 4};
        progress = (tcam_progress){0, 1};
        CHECK(tcam_plan_insert_listed(table, words, others[index], uncounted, rule, rule_words, edition, list, numbers, plan, room, cells,
                                      cells + 1, cells + 2, cells + 3) == TCAM_SHAPE);
        CHECK(tcam_carry_out_listed(table, words, others[index], uncounted, rule, rule_words, edition, list, numbers, plan, room,
                                    &progress, cells + 2) == TCAM_SHAPE);
        CHECK(cells[0] == 1 && cells[1] == 2 && cells[2] == 3 && cells[3] == 0 && progress.done == 0);
        CHECK(memcmp(list, chain_list, sizeof chain_list) == 0 && width == right);
    }
}

/* Each refusal of a planned insert, with a list that is wrong and stays so. */
static void refused_inserts(void)
{
    static const uint32_t want[] = {TCAM_RECORD, TCAM_TWICE, TCAM_ORDER, TCAM_RULE,    TCAM_EDITION,
                                    TCAM_KNOWN,  TCAM_TIE,   TCAM_FULL,  TCAM_CROSSED, TCAM_SHORT};
    for (size_t index = 0; index < COUNT_OF(want); index++) {
        HERE;
        chain();
        memset(list, 0, sizeof list);
        edition = want[index] == TCAM_EDITION ? 12 : TCAM_EDITION_13;
        switch (want[index]) {
        case TCAM_RECORD: table[SLOTS(4)] = 1; break;
        case TCAM_TWICE: hold(4, 2, 10, "01*"); break;
        case TCAM_ORDER: hold(4, 6, 41, "*0*"); break;
        case TCAM_RULE: give(0, 50, "00*"); break;
        case TCAM_KNOWN: give(4, 50, "00*"); break;
        case TCAM_TIE: give(5, 10, "010"); break;
        case TCAM_FULL: hold(4, 6, 1, "001"); break;
        case TCAM_CROSSED: give(5, 15, "*1*"); break;
        case TCAM_SHORT: room = 0; break;
        default: break;
        }
        CHECK((uint32_t)plan_insert() == want[index]);
        CHECK(refreshed == NOT_TOLD);
    }
    edition = TCAM_EDITION_13;
}

/* Each refusal of a carrying out, likewise. */
static void refused_writes(void)
{
    static const uint32_t unfit[] = {COPY(0, 0), COPY(4, 0), COPY(0, 1), COPY(0, 5), COPY(5, 4), EMPTYING(4), EMPTYING(5), PUT(0), PUT(5)};
    for (size_t index = 0; index < COUNT_OF(unfit); index++) {
        HERE;
        chain();
        memset(list, 0, sizeof list);
        CHECK(write_one(unfit[index]) == TCAM_WRITE && refreshed == NOT_TOLD);
    }
    HERE;
    chain();
    memset(list, 0, sizeof list);
    edition = 11;
    CHECK(write_one(PUT(4)) == TCAM_EDITION && refreshed == NOT_TOLD);
    edition = TCAM_EDITION_13;
    give(0, 50, "00*");
    CHECK(write_one(PUT(4)) == TCAM_RULE && refreshed == NOT_TOLD);
    progress = (tcam_progress){2, 1};
    CHECK(carry_out() == ((uint64_t)2 << 32 | TCAM_WRITE) && refreshed == NOT_TOLD);
    progress = (tcam_progress){0, 2};
    CHECK(carry_out() == TCAM_WRITE && refreshed == NOT_TOLD);
    table[SLOTS(2) + 2 * width + 1] = 65536;
    CHECK(write_one(EMPTYING(0)) == ((uint64_t)2 << 32 | TCAM_RECORD) && refreshed == NOT_TOLD);
}

/* ---- Tables of many slots ---- */

/* Ranks fall at every so many slots: where that is often, a rule's neighbours are next to it, else far away or none. */
static void large_table(uint32_t slots, uint32_t ranks_of)
{
    start(slots);
    for (uint32_t slot = 0; slot < slots; slot++)
        if (slot % 7 != 3)
            hold(slot, slot + 1, 60000 - slot / ranks_of, slot % 5 == 0 ? "1" : slot % 5 == 1 ? "0" : "*1");
}

/* A slot is emptied, written to by a copy of slot 1, emptied again with a wrong list, and written to by a put-in. */
static void change_slot(uint32_t slot, uint32_t wrong)
{
    if (!is_empty(table + SLOTS(slot)))
        CHECK(write_one(EMPTYING(slot)) == TCAM_WROTE && refreshed == 0);
    CHECK(write_one(COPY(1, slot)) == TCAM_WROTE && refreshed == 0);
    list[wrong] ^= 0x8000;
    CHECK(write_one(EMPTYING(slot)) == TCAM_WROTE && refreshed == 1);
    CHECK(write_one(PUT(slot)) == TCAM_WROTE && refreshed == 0);
}

static void large_tables(void)
{
    static const uint32_t sizes[] = {159, 160, 161, 1023, 1024}, steps[] = {1, 64, 2000};
    for (size_t index = 0; index < COUNT_OF(sizes) * COUNT_OF(steps); index++) {
        const uint32_t slots = sizes[index / 3], at[] = {0, 3, slots / 2, slots - 2, slots - 1};
        HERE;
        large_table(slots, steps[index % 3]);
        right_list();
        give(5000, 60000 - slots / 2, "1");
        for (uint32_t place = 0; place < COUNT_OF(at); place++)
            change_slot(at[place], numbers - 1 - place);
    }
}

/* ---- Random tables ---- */

static unsigned long tables, wrote, declined, planned;

/* Few patterns, ranks and ids, so that ties, disorder and ids in several slots are frequent; now and then a rule without wildcards. */
static void random_record(uint64_t *record, uint32_t ids)
{
    struct rule made = {1 + below(ids), below(6), {0}, {0}, below(3)};
    uint32_t word = below(width);
    made.mask[word] = (uint64_t)below(8) << 61;
    made.value[word] = ((uint64_t)below(8) << 61) & made.mask[word];
    for (uint32_t index = 0; below(12) == 0 && index < width; index++)
        made.mask[index] = ALL;
    set_record(record, &made);
    if (is_exact(record) && below(2) == 0)
        record[2 * width + 1] = 65536;
}

/* The rule that is given, whose priority is none of a slot's highest rank. */
static void random_given(void)
{
    random_record(rule, 40);
    if (rank_of(rule) > 65535)
        rule[2 * width + 1] = 5;
    edition = editions[below(2)];
}

static void random_list(void)
{
    right_list();
    switch (below(4)) {
    case 0: list[below(numbers)] = (uint16_t)below(numbers); break;
    case 1:
        for (uint32_t place = 0; place < numbers; place++)
            list[place] = (uint16_t)random_word();
        break;
    default: break;
    }
}

static uint32_t random_write(uint32_t slots)
{
    uint32_t from = below(slots), to = below(slots + below(2));
    switch (below(4)) {
    case 0: return PUT(to);
    case 1: return EMPTYING(to);
    default: return COPY(from, to);
    }
}

static void random_table(void)
{
    uint32_t slots = 1 + below(below(8) == 0 ? 40 : 8), ids = 1 + below(2 * slots);
    start(slots);
    uncounted = below(2) == 0 ? TCAM_COUNTED : uncounted_flags[below((uint32_t)COUNT_OF(uncounted_flags))];
    for (uint32_t slot = 0; slot < slots; slot++)
        if (below(10) < 8)
            random_record(table + SLOTS(slot), ids);
    random_list();
    for (int write = 0; write < 4; write++) {
        random_given();
        uint64_t result = write_one(random_write(slots));
        CHECK(result == TCAM_WROTE || (uint32_t)result == TCAM_WRITE);
        wrote += result == TCAM_WROTE;
        declined += result != TCAM_WROTE;
        if (below(3) == 0)
            random_list();
    }
    random_given();
    room = slots;
    planned += plan_insert() == TCAM_OK;
    while (progress.done < progress.total && carry_out() == TCAM_WROTE)
        CHECK(refreshed == 0);
}

static void random_tables(void)
{
    case_line = 0;
    wrote = declined = planned = 0;
    for (turn = 0; turn < tables; turn++)
        random_table();
    CHECK(tables < 1000 || (wrote > 0 && declined > 0 && planned > 0));
    printf("listed_test: width %u: %lu writes made and %lu declined, %lu inserts planned\n", (unsigned)width, wrote, declined, planned);
}

int main(int argument_count, char **arguments)
{
    static void (*const cases[])(void) = {planned_with_a_list, carried_out_with_a_list, tables_out_of_order, empty_slots,
                                          uncounted_lists,     other_lengths,           other_shapes,        refused_inserts,
                                          refused_writes,      large_tables,            random_tables};
    tables = begin(argument_count, arguments, 100000) / 2; /* at each width */
    open_pages(&list_pages, (MOST_NUMBERS + LIST_GUARDS) * sizeof(uint16_t));
    run_cases(cases, COUNT_OF(cases));

    return verdict("listed_test");
}
