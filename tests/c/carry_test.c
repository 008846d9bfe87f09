/*
 * Carries plans out as firmware would, at each width, one write per call through a lent progress record, and checks every
 * result, table and record: first cases whose answers are written here, then plans of the library with lookups between the
 * writes, then random plans and records. Every call is also compared with a reference written from document 01, "Carrying out",
 * and document 02's 2026-07 and 2026-03.
 *
 *     carry_test [seed [calls]]
 */
#define _DEFAULT_SOURCE /* for mmap without a file */
#include "testing.h"

#define REFUSED(number, spot) ((uint64_t)(spot) * 4294967296u + (number))

/* ---- What is lent: a table, a rule, a plan and a progress record ---- */

#define MOST_ROOM (TCAM_MAX_SLOTS + 4)

static uint64_t table[ROOM(MOST_SLOTS)];
static size_t words;
static struct rule rule;
static size_t rule_words; /* how many words of the rule's record are lent */
static record_words rule_record; /* what six_slots()'s rule is in a slot */
static uint32_t plan[MOST_ROOM];
static uint32_t room;
static tcam_progress progress;

/* A rule whose action tells its id. */
static struct rule made_rule(uint32_t id, uint64_t priority, const char *pattern)
{
    return rule_of(id, priority, pattern, id + 100);
}

static void hold(uint32_t slot, uint32_t id, uint64_t priority, const char *pattern)
{
    struct rule made = made_rule(id, priority, pattern);
    set_record(table + SLOTS(slot), &made);
}

static void empty_table(uint32_t slots)
{
    memset(table, 0, sizeof table);
    words = SLOTS(slots);
    rule_words = SLOTS(1);
}

/* ---- The reference: document 01, "Carrying out", in its order ---- */

/* Slot `to` exists and is empty, or its id stands in another slot too. */
static int ref_free(uint32_t slots, uint32_t to)
{
    if (to >= slots)
        return 0;
    for (uint32_t slot = 0; slot < slots; slot++)
        if (slot != to && id_of(table + SLOTS(slot)) == id_of(table + SLOTS(to)))
            return 1;
    return is_empty(table + SLOTS(to));
}

static int ref_held(uint32_t slots, uint32_t slot)
{
    return slot < slots && !is_empty(table + SLOTS(slot));
}

/* `new_record` is the rule that is put in, with its rank. */
static int ref_fits(uint32_t slots, uint32_t from, uint32_t to, const uint64_t *new_record)
{
    if (from == 65535)
        return ref_free(slots, to) || (to < slots && equal(table + SLOTS(to), new_record));
    if (from == 65534)
        return ref_held(slots, to);
    return from != to && ref_held(slots, from) && ref_free(slots, to);
}

/* One step on what is lent. */
static uint64_t ref_step(void)
{
    uint32_t done = progress.done, total = progress.total, spot;
    if (rule_words != SLOTS(1))
        return REFUSED(1, 0);
    uint32_t number = table_fault(table, words, 2, &spot);
    if (number != 0)
        return REFUSED(number, spot);
    if (done > total || total > room)
        return REFUSED(12, done);
    if (done == total)
        return 4294967295u;
    uint32_t from = plan[done] / 65536, to = plan[done] % 65536;
    record_words record = {0};
    if (from == 65535) {
        set_record(record, &rule);
        if (!is_sound_given(record))
            return REFUSED(5, 0);
        if (edition != 10 && edition != 13)
            return REFUSED(18, 0);
        set_ranked(record, &rule);
    }
    if (!ref_fits(slots_of(words), from, to, record))
        return REFUSED(12, done);
    if (from < 65534)
        memcpy(record, table + SLOTS(from), SLOTS(1) * sizeof *record);
    memcpy(table + SLOTS(to), record, SLOTS(1) * sizeof *record);
    progress.done++;
    return 0;
}

/* ---- One call, with all that it promises ---- */

#define PLAN_GUARDS 8
#define MARK 0xC0FFEE01u

static struct pages plan_pages;
static unsigned long calls;

/*
 * Calls on copies of all that is lent, the table, the rule and the plan at either end of their pages, the record between
 * marks; and makes the reference's step on what is lent itself. The two agree in every word.
 */
static uint64_t step(void)
{
    int at_end = (int)(calls++ % 2);
    uint64_t given[ROOM(2)] = {0};
    set_record(given, &rule);
    struct lent lent = lend(table, words, at_end), lent_rule = lend_in(&rule_pages, given, rule_words, at_end);
    uint32_t *pages = (uint32_t *)(void *)plan_pages.start;
    uint32_t *lent_plan = at_end ? pages + plan_pages.bytes / sizeof *pages - room : pages;
    uint32_t *guards = at_end ? lent_plan - PLAN_GUARDS : lent_plan + room;
    struct {
        uint32_t before;
        tcam_progress progress;
        uint32_t after;
    } record = {MARK, progress, ~MARK};
    int guards_stay = 1;

    memcpy(lent_plan, plan, room * sizeof *plan);
    for (uint32_t index = 0; index < PLAN_GUARDS; index++)
        guards[index] = PUT(index);
    uint64_t result =
        tcam_carry_out(lent.table, words, width, lent_rule.table, rule_words, edition, lent_plan, room, &record.progress);
    CHECK(result == ref_step());
    check_lent(&lent);
    check_lent(&lent_rule);
    CHECK(record.progress.done == progress.done && record.progress.total == progress.total);
    CHECK(record.before == MARK && record.after == ~MARK);
    CHECK(memcmp(lent_plan, plan, room * sizeof *plan) == 0);
    for (uint32_t index = 0; index < PLAN_GUARDS; index++)
        guards_stay &= guards[index] == PUT(index);
    CHECK(guards_stay);
    return result;
}

/* A call that is to leave everything as it was: a refusal, or "finished". */
static void leaves(uint64_t want)
{
    static uint64_t table_before[ROOM(MOST_SLOTS)];
    tcam_progress before = progress;
    memcpy(table_before, table, sizeof table);
    CHECK(step() == want);
    CHECK(memcmp(table_before, table, sizeof table) == 0);
    CHECK(progress.done == before.done && progress.total == before.total);
}

/* A call that is to make the write: slot `to` holds the record afterwards, and no other slot has changed. */
static void writes(uint32_t to, const uint64_t *record)
{
    static uint64_t wanted[ROOM(MOST_SLOTS)];
    tcam_progress before = progress;
    memcpy(wanted, table, sizeof table);
    memmove(wanted + SLOTS(to), record, SLOTS(1) * sizeof *record);
    CHECK(step() == TCAM_WROTE);
    CHECK(memcmp(wanted, table, sizeof table) == 0);
    CHECK(progress.done == before.done + 1 && progress.total == before.total);
}

static const record_words no_words;

/* ---- Refusals ---- */

/* Six slots: rules 1, 2 and 3, with a second copy of rule 2; slots 2 and 5 are empty. */
static void six_slots(void)
{
    empty_table(6);
    hold(0, 1, 50, "11");
    hold(1, 2, 40, "1");
    hold(3, 3, 30, "0");
    hold(4, 2, 40, "1");
    rule = made_rule(9, 45, "10");
    set_record(rule_record, &rule);
}

/* A plan of this one write is next, with some writes done before it and one behind it. */
static void next_write(uint32_t word, uint32_t done)
{
    for (uint32_t index = 0; index < done; index++)
        plan[index] = EMPTYING(0);
    plan[done] = word;
    plan[done + 1] = EMPTYING(1);
    room = done + 2;
    progress.done = done;
    progress.total = done + 2;
}

/* The write does not fit, wherever in the plan it stands: the spot is the writes done. */
static void unfit(uint32_t word)
{
    static const uint32_t dones[] = {0, 1, 2, 1000};
    for (int index = 0; index < 4; index++) {
        next_write(word, dones[index]);
        leaves(REFUSED(TCAM_WRITE, dones[index]));
    }
}

static void shapes(void)
{
    const size_t bad[] = {0, 1, 5, 7, 11, SLOTS(1) / 2, SLOTS(1) - 1, SLOTS(1) + 1, SLOTS(1025), SLOTS(1025) + 1, SLOTS(1024) + 1};
    HERE;
    for (size_t index = 0; index < COUNT_OF(bad); index++)
        for (uint32_t done = 0; done <= 3; done++) {
            six_slots();
            words = bad[index];
            next_write(COPY(0, 2), 0);
            progress.done = done;
            leaves(REFUSED(TCAM_SHAPE, 0));
        }
    six_slots();
    words = SLOTS(1024);
    next_write(COPY(0, 1023), 0);
    writes(1023, table);
}

/* A rule of any other number of words: where it is put in, and also in a copy, in the carrying out of a delete and of a finished
 * plan; before anything else is said of the table, of the progress record or of the rule. */
static void other_rules(void)
{
    static const uint32_t next[] = {PUT(2), COPY(0, 2), EMPTYING(0), COPY(0, 0)};
    for (size_t lent = 0; lent <= ROOM(1) + 2; lent++)
        for (size_t index = 0; lent != SLOTS(1) && index < COUNT_OF(next); index++) {
            HERE;
            six_slots();
            rule_words = lent;
            next_write(next[index], 0);
            leaves(REFUSED(TCAM_SHAPE, 0));
            progress.done = progress.total;
            leaves(REFUSED(TCAM_SHAPE, 0));
            progress.done++;
            leaves(REFUSED(TCAM_SHAPE, 0));
            rule.id = 0;
            table[SLOTS(5)] = 1;
            leaves(REFUSED(TCAM_SHAPE, 0));
        }
    HERE; /* the record of zeros has the words of either width, and no write puts it in */
    six_slots();
    next_write(EMPTYING(3), 0);
    CHECK(tcam_carry_out(table, words, width, tcam_no_rule, SLOTS(1), edition, plan, room, &progress) == TCAM_WROTE);
    CHECK(is_empty(table + SLOTS(3)) && progress.done == 1);
    next_write(PUT(3), 0);
    CHECK(tcam_carry_out(table, words, width, tcam_no_rule, SLOTS(1), edition, plan, room, &progress) == TCAM_RULE);
    CHECK(is_empty(table + SLOTS(3)) && progress.done == 0);
    progress.done = progress.total;
    CHECK(tcam_carry_out(table, words, width, NULL, 0, edition, plan, room, &progress) == TCAM_SHAPE);
    CHECK(tcam_carry_out(NULL, 0, width, tcam_no_rule, SLOTS(1), edition, plan, room, &progress) == TCAM_SHAPE);
}

/* Every other width: the table, the rule and the progress record stay as they are. */
static void other_widths(void)
{
    static const uint32_t others[] = {0, 1, 3, 4, 6, 7, 10, 65538, 65541, 0x80000002u, UINT32_MAX};
    static uint64_t before[ROOM(MOST_SLOTS)];
    for (size_t index = 0; index < COUNT_OF(others); index++)
        for (size_t lent = 0; lent <= ROOM(1); lent++)
            for (uint32_t done = 0; done <= 1; done++) {
                HERE;
                six_slots();
                memcpy(before, table, sizeof table);
                plan[0] = EMPTYING(0);
                progress = (tcam_progress){done, 1};
                CHECK(tcam_carry_out(table, words, others[index], rule_record, lent, edition, plan, 1, &progress) == TCAM_SHAPE);
                CHECK(memcmp(before, table, sizeof table) == 0 && progress.done == done && progress.total == 1);
            }
}

static void records(void)
{
    for (uint32_t done = 0; done <= 3; done++) {
        HERE;
        six_slots();
        next_write(COPY(0, 2), 0);
        progress.done = done;
        table[SLOTS(6) - 1] = 65536;
        leaves(REFUSED(TCAM_RECORD, 5));
        table[SLOTS(2)] = 1;
        leaves(REFUSED(TCAM_RECORD, 2));
        table[2 * width] = 7;
        leaves(REFUSED(TCAM_RECORD, 0));
        progress.total = 3;
        leaves(REFUSED(TCAM_RECORD, 0));
    }
}

/* 12 for a record whose writes done are more than those in all, or those in all more than the plan's words; or "finished". */
static void records_of_progress(void)
{
    static const uint32_t numbers[] = {0, 1, 2, 3, 4, 1023, 65536, 2147483648u, 4294967294u, 4294967295u};
    HERE;
    six_slots();
    for (room = 0; room <= 3; room++)
        for (int first = 0; first < 10; first++)
            for (int second = 0; second < 10; second++) {
                uint32_t done = numbers[first], total = numbers[second];
                plan[0] = plan[1] = plan[2] = COPY(0, 0);
                progress = (tcam_progress){done, total};
                if (done > total || total > room)
                    leaves(REFUSED(TCAM_WRITE, done));
                else if (done == total)
                    leaves(TCAM_FINISHED);
                else
                    leaves(REFUSED(TCAM_WRITE, done));
            }
    room = 3;
    progress = (tcam_progress){3, 2};
    leaves(REFUSED(TCAM_WRITE, 3));
    progress = (tcam_progress){1, 4};
    leaves(REFUSED(TCAM_WRITE, 1));
    progress = (tcam_progress){4, 4};
    leaves(REFUSED(TCAM_WRITE, 4));
    progress = (tcam_progress){2, 2};
    leaves(TCAM_FINISHED);
    plan[2] = COPY(0, 2);
    progress = (tcam_progress){2, 3};
    writes(2, table);
}

/* What was given with the call is declined where a write puts a rule in, and nowhere else. */
static void declined_where_put_in(uint32_t cause)
{
    next_write(PUT(2), 1);
    leaves(REFUSED(cause, 0));
    next_write(PUT(0), 1);
    leaves(REFUSED(cause, 0));
    next_write(PUT(6), 1);
    leaves(REFUSED(cause, 0));
    next_write(COPY(0, 0), 1);
    leaves(REFUSED(TCAM_WRITE, 1));
    next_write(EMPTYING(2), 1);
    leaves(REFUSED(TCAM_WRITE, 1));
    next_write(COPY(0, 2), 1);
    writes(2, table);
    next_write(EMPTYING(3), 1);
    writes(3, no_words);
    progress.done = progress.total;
    leaves(TCAM_FINISHED);
}

/* 5 where an unsound rule is put in, before 12; not where the next write copies or empties. */
static void unsound_rules(void)
{
    for (uint32_t fault = 0; fault < 5 + width; fault++) {
        HERE;
        six_slots();
        if (fault == 0)
            rule.id = 0;
        else if (fault == 1)
            rule.priority = 65536;
        else if (fault == 2)
            rule.priority += 4294967296u; /* the lower 32 bits are a priority */
        else if (fault == 3)
            rule.value[0] |= 1;
        else if (fault == 4)
            memset(&rule, 0, sizeof rule);
        else
            rule.value[fault - 5] |= TOP >> 5;
        declined_where_put_in(TCAM_RULE);
    }
    six_slots();
    record_words record;
    rule.priority = 65535;
    set_record(record, &rule);
    next_write(PUT(2), 1);
    writes(2, record);
}

/* Every bit of the width is cared for: as in the pattern, and as 0 behind it. */
static struct rule without_wildcards(struct rule made)
{
    for (uint32_t word = 0; word < width; word++)
        made.mask[word] = ALL;
    return made;
}

/* 18 where a rule is put in with another edition, after 5 and before 12; not where the next write copies or empties. */
static void other_editions(void)
{
    static const uint32_t others[] = {0, 1, 9, 11, 12, 14, 99, 65546, 65549, 0x8000000Au, 0x8000000Du, UINT32_MAX};
    for (size_t index = 0; index < 2 * COUNT_OF(others); index++) {
        HERE;
        six_slots();
        edition = others[index / 2];
        if (index % 2 == 1)
            rule = without_wildcards(rule);
        declined_where_put_in(TCAM_EDITION);
        progress.done++;
        leaves(REFUSED(TCAM_WRITE, progress.done));
        rule.priority = 65536;
        next_write(PUT(5), 1);
        leaves(REFUSED(TCAM_RULE, 0));
        next_write(PUT(0), 1);
        leaves(REFUSED(TCAM_RULE, 0));
        table[SLOTS(5)] = 1;
        leaves(REFUSED(TCAM_RECORD, 5));
    }
}

/* A rule that is put in stands in its slot with this rank, and as it was given otherwise. */
static void put_in_with(uint64_t rank)
{
    record_words record;
    struct rule given = rule;
    six_slots();
    rule = given;
    set_record(record, &rule);
    record[2 * width + 1] = rank;
    next_write(PUT(2), 1);
    writes(2, record);
    CHECK(table[SLOTS(3) - 1] == rank);
    next_write(PUT(4), 1); /* over a copy of a rule that stands in another slot too */
    writes(4, record);
    next_write(COPY(2, 5), 1);
    writes(5, record);
}

/* Under 1.0 the rank of a rule without wildcards is 65,536; every other rank is the priority. */
static void ranks(void)
{
    static const uint64_t priorities[] = {0, 7, 45, 65535};
    for (size_t index = 0; index < COUNT_OF(priorities); index++) {
        const struct rule wild = made_rule(9, priorities[index], "10"), exact = without_wildcards(wild);
        HERE;
        for (size_t either = 0; either < COUNT_OF(editions); either++) {
            edition = editions[either];
            rule = wild;
            put_in_with(priorities[index]);
            rule = exact;
            put_in_with(edition == TCAM_EDITION_10 ? 65536 : priorities[index]);
        }
        edition = TCAM_EDITION_10;
        for (uint32_t bit = 0; bit < 64 * width; bit++) { /* one bit that is not cared for */
            rule = exact;
            rule.value[0] = 0;
            rule.mask[bit / 64] ^= TOP >> bit % 64;
            put_in_with(priorities[index]);
        }
        for (uint32_t count = 0; count < width; count++) { /* some of the words alone: 128 bits of 320 too */
            rule = exact;
            rule.value[0] = 0;
            memset(rule.mask + count, 0, (width - count) * sizeof *rule.mask);
            put_in_with(priorities[index]);
        }
    }
}

/* A table's rank 65,536 is sound where every bit of the width is cared for, and no higher rank ever is; whatever the edition. */
static void ranks_of_records(void)
{
    static const uint64_t wrong[] = {65537, 131072, 0x100010000u, TOP, ALL};
    for (size_t index = 0; index < COUNT_OF(editions); index++) {
        struct rule exact = without_wildcards(made_rule(7, 65536, ""));
        edition = editions[index];
        for (uint32_t bit = 0; bit < 64 * width; bit++) {
            HERE;
            six_slots();
            set_record(table + SLOTS(2), &exact);
            next_write(COPY(2, 5), 0);
            table[SLOTS(2) + width + bit / 64] ^= TOP >> bit % 64;
            leaves(REFUSED(TCAM_RECORD, 2));
            table[SLOTS(2) + width + bit / 64] ^= TOP >> bit % 64;
            writes(5, table + SLOTS(2));
        }
        for (size_t rank = 0; rank < COUNT_OF(wrong); rank++) {
            HERE;
            table[SLOTS(3) - 1] = wrong[rank];
            leaves(REFUSED(TCAM_RECORD, 2));
        }
    }
}

/* 65,536 is a rank and no priority, under either edition: a slot's record that holds it is not put in again. */
static void records_given_again(void)
{
    for (size_t index = 0; index < COUNT_OF(editions); index++) {
        HERE;
        edition = TCAM_EDITION_10;
        rule = without_wildcards(made_rule(9, 7, "10"));
        put_in_with(65536);
        edition = editions[index];
        rule.priority = rank_of(table + SLOTS(2));
        next_write(PUT(4), 1);
        leaves(REFUSED(TCAM_RULE, 0));
        next_write(COPY(2, 4), 1);
        writes(4, table + SLOTS(2));
    }
}

/* Writes from slots or to slots that do not exist. */
static void absent_slots(void)
{
    static const uint32_t absent[] = {6, 7, 1023, 1024, 1025, 6144, 32768, 65532, 65533};
    HERE;
    six_slots();
    for (size_t index = 0; index < COUNT_OF(absent); index++) {
        unfit(COPY(absent[index], 2));
        unfit(COPY(absent[index], absent[index]));
        unfit(COPY(0, absent[index]));
        unfit(PUT(absent[index]));
        unfit(EMPTYING(absent[index]));
    }
    for (uint32_t to = 65534; to <= 65535; to++) {
        unfit(COPY(0, to));
        unfit(PUT(to));
        unfit(EMPTYING(to));
    }
}

/* A copy onto itself, from an empty slot, onto the only copy of a rule; a put-in there; an emptying of an empty slot. */
static void unfit_writes(void)
{
    HERE;
    six_slots();
    for (uint32_t slot = 0; slot < 6; slot++)
        unfit(COPY(slot, slot));
    HERE;
    for (uint32_t to = 0; to < 6; to++) {
        unfit(COPY(2, to));
        unfit(COPY(5, to));
    }
    HERE;
    unfit(COPY(1, 0));
    unfit(COPY(0, 3));
    unfit(COPY(4, 3));
    unfit(PUT(0));
    unfit(PUT(3));
    unfit(EMPTYING(2));
    unfit(EMPTYING(5));
}

/* A rule that has another copy may be written over; then the other copy may not. */
static void other_copies(void)
{
    HERE;
    six_slots();
    next_write(COPY(3, 5), 1);
    writes(5, table + SLOTS(3));
    next_write(COPY(0, 3), 1); /* rule 3 has another copy now */
    writes(3, table);
    unfit(COPY(0, 5));
    unfit(PUT(5));
    HERE;
    six_slots();
    next_write(PUT(1), 1); /* rule 2 has another copy */
    writes(1, rule_record);
    unfit(PUT(4));
    unfit(COPY(0, 4));
    HERE;
    six_slots();
    next_write(COPY(1, 4), 1); /* a copy onto a copy of the same rule */
    writes(4, table + SLOTS(1));
    next_write(EMPTYING(0), 1); /* the only copy */
    writes(0, no_words);
    unfit(EMPTYING(0));
}

/* The same in a table of one slot. */
static void one_slot(void)
{
    HERE;
    six_slots();
    empty_table(1);
    unfit(COPY(0, 0));
    unfit(EMPTYING(0));
    next_write(PUT(0), 0);
    writes(0, rule_record);
    next_write(PUT(0), 0);
    writes(0, rule_record); /* the same rule again: it is equal to itself */
    rule.priority++;
    unfit(PUT(0));
    next_write(EMPTYING(0), 0);
    writes(0, no_words);
}

/* A rule goes over one of its value, mask and rank, whatever their ids; [1/30 11 a7, 2/20 1 a8] has no empty slot. */
static void sent_again(void)
{
    record_words again;
    uint32_t slot, id, action, spot;
    pattern_words key = {TOP};
    HERE;
    empty_table(2);
    rule = rule_of(1, 30, "11", 7);
    set_record(table, &rule);
    rule = rule_of(2, 20, "1", 8);
    set_record(table + SLOTS(1), &rule);
    rule = rule_of(9, 20, "1", 5);
    set_record(again, &rule);
    unfit(PUT(0));
    unfit(PUT(2));
    unfit(COPY(0, 1));
    next_write(PUT(1), 0);
    writes(1, again);
    CHECK(tcam_lookup(table, words, width, key, width, &slot, &id, &action, &spot) == TCAM_OK);
    CHECK(slot == 1 && id == 9 && action == 5);
    HERE; /* once more, and under an id that the other slot has */
    next_write(PUT(1), 3);
    writes(1, again);
    rule.id = 1;
    set_record(again, &rule);
    next_write(PUT(1), 3);
    writes(1, again);
}

/* Another rank, another mask or another value does not do, nor does a copy; each bit counts. */
static void nearly_sent_again(void)
{
    const struct rule given = made_rule(9, 20, "1");
    for (uint32_t bit = 1; bit < 64 * width; bit++) {
        HERE;
        empty_table(3);
        hold(0, 1, 30, "11");
        hold(1, 2, 20, "1");
        hold(2, 3, 20, "1"); /* a second rule of this value, mask and rank, as no table in order has it */
        rule = given;
        rule.mask[bit / 64] |= TOP >> bit % 64;
        unfit(PUT(1));
        rule.value[bit / 64] |= TOP >> bit % 64;
        unfit(PUT(1));
    }
    HERE;
    unfit(COPY(1, 2));
    unfit(COPY(2, 1));
    rule = made_rule(9, 19, "1");
    unfit(PUT(1));
    rule = made_rule(9, 21, "1");
    unfit(PUT(1));
    rule = made_rule(9, 20, "0");
    unfit(PUT(1));
    rule = made_rule(9, 20, "");
    unfit(PUT(1));
    rule = given;
    set_record(rule_record, &rule);
    next_write(PUT(2), 1);
    writes(2, rule_record);
    next_write(PUT(1), 1);
    writes(1, rule_record);
}

/* The rank decides that the edition gives, and not the priority. */
static void sent_again_under_either_edition(void)
{
    for (size_t index = 0; index < 2 * COUNT_OF(editions); index++) {
        struct rule exact = without_wildcards(made_rule(1, index % 2 == 0 ? 65536 : 500, ""));
        int fits = editions[index / 2] == (index % 2 == 0 ? TCAM_EDITION_10 : TCAM_EDITION_13);
        HERE;
        empty_table(1);
        set_record(table, &exact);
        edition = editions[index / 2];
        rule = without_wildcards(made_rule(3, 500, ""));
        set_ranked(rule_record, &rule);
        if (!fits)
            unfit(PUT(0));
        next_write(PUT(0), 0);
        if (fits)
            writes(0, rule_record);
    }
}

/* ---- Plans of the library ---- */

/* The rules that the table holds, each once. */
static struct rule held[TCAM_MAX_SLOTS];
static uint32_t held_count;

#define KEYS 24
static pattern_words keys[KEYS];

static int rule_matches(const struct rule *one, const uint64_t *key)
{
    for (uint32_t word = 0; word < width; word++)
        if ((key[word] & one->mask[word]) != one->value[word])
            return 0;
    return 1;
}

/* The reply by highest rank, id and action, 0 for a miss. A rule that is held has its rank for its priority. */
static uint64_t best_reply(const uint64_t *key)
{
    const struct rule *best = NULL;
    for (uint32_t index = 0; index < held_count; index++)
        if (rule_matches(&held[index], key) && (best == NULL || held[index].priority > best->priority))
            best = &held[index];
    return best == NULL ? 0 : TCAM_ID_ACTION(best->id, best->action);
}

/* Whether a rule that is held matches the key, and has this id and this action. */
static int is_held_match(const uint64_t *key, uint32_t id, uint32_t action)
{
    for (uint32_t index = 0; index < held_count; index++)
        if (held[index].id == id && held[index].action == action && rule_matches(&held[index], key))
            return 1;
    return 0;
}

static unsigned long other_ids; /* how often the id was not that of the highest rank */

/* What is promised of a reply: that of the highest rank or, in an uncounted table, one of its action, of a rule that matches too. */
static int is_promised(const uint64_t *key, uint32_t id, uint32_t action)
{
    const uint64_t best = best_reply(key);
    if (TCAM_ID_ACTION(id, action) == best)
        return 1;
    other_ids++;
    return uncounted != TCAM_COUNTED && best != 0 && action == best % 4294967296u && is_held_match(key, id, action);
}

static void check_replies(void)
{
    int replies_right = 1;
    for (int key = 0; key < KEYS; key++) {
        uint32_t slot, id, action, spot;
        replies_right &= tcam_lookup(table, words, width, keys[key], width, &slot, &id, &action, &spot) == TCAM_OK &&
                         is_promised(keys[key], id, action);
    }
    CHECK(replies_right);
}

static void choose_keys(void)
{
    for (int key = 0; key < KEYS; key++) {
        const struct rule *near = key % 4 == 0 || held_count == 0 ? &rule : &held[below(held_count)];
        for (uint32_t word = 0; word < width; word++) {
            keys[key][word] = random_word();
            if (key % 2 == 0)
                keys[key][word] = near->value[word] | (keys[key][word] & ~near->mask[word]);
        }
    }
}

static uint64_t carry(uint64_t *lent_table, uint32_t plan_words, tcam_progress *record)
{
    record_words given;
    set_record(given, &rule);
    return tcam_carry_out(lent_table, words, width, given, SLOTS(1), edition, plan, plan_words, record);
}

/*
 * The plan's length given as its count and as that of its whole buffer: call by call both come to the same. After the last
 * write the table is as it stays, so that the call that answers "finished" may be left out.
 */
static void either_length(uint32_t count)
{
    static uint64_t by_count[ROOM(MOST_SLOTS)], by_room[ROOM(MOST_SLOTS)], written[ROOM(MOST_SLOTS)];
    tcam_progress counted = {0, count}, whole = {0, count};
    size_t bytes = words * sizeof *table;
    int same = 1;
    memcpy(by_count, table, bytes);
    memcpy(by_room, table, bytes);
    for (uint32_t call = 0; call < count + 2; call++) {
        if (call == count)
            memcpy(written, by_count, bytes);
        uint64_t result = carry(by_count, count, &counted);
        same &= result == (call < count ? TCAM_WROTE : TCAM_FINISHED) && carry(by_room, room, &whole) == result;
        same &= counted.done == (call < count ? call + 1 : count) && counted.total == count;
        same &= memcmp(&whole, &counted, sizeof whole) == 0 && memcmp(by_room, by_count, bytes) == 0;
    }
    CHECK(same);
    CHECK(memcmp(written, by_count, bytes) == 0 && memcmp(written, table, bytes) != 0);
}

/*
 * Carries a plan out to its end: every key keeps its reply until the last write. `changes` makes the change in `held`. The
 * call that answers "finished" is left out after every other plan, and what is done to the table next shows no difference.
 */
static void carry_to_the_end(uint32_t count, void (*changes)(void))
{
    static unsigned long plans;
    either_length(count);
    choose_keys();
    progress = (tcam_progress){0, count};
    check_replies();
    for (uint32_t done = 0; done < count; done++) {
        CHECK(step() == TCAM_WROTE);
        CHECK(progress.done == done + 1 && progress.total == count);
        if (done + 1 == count)
            changes();
        check_replies();
    }
    if (plans++ % 2 == 0) {
        leaves(TCAM_FINISHED);
        leaves(TCAM_FINISHED);
    }
}

static void forget(uint32_t id)
{
    for (uint32_t index = 0; index < held_count; index++)
        if (held[index].id == id)
            held[index] = held[--held_count];
}

static uint32_t replaced_id; /* of the rule that the one to come replaces, or 0 */

/* The lowest equal rule, in an uncounted table one of the same action. */
static uint32_t id_to_replace(void)
{
    record_words record;
    set_ranked(record, &rule);
    for (uint32_t slot = 0; slot < slots_of(words); slot++) {
        const uint64_t *present = table + SLOTS(slot);
        if (equal(present, record) && (uncounted == TCAM_COUNTED || same_action(present, record)))
            return id_of(present);
    }
    return 0;
}

/* A rule that is replaced counts as deleted. */
static void rule_comes(void)
{
    record_words record;
    set_ranked(record, &rule);
    forget(replaced_id);
    held[held_count] = rule;
    held[held_count++].priority = rank_of(record);
}

static void rule_goes(void)
{
    forget(rule.id);
}

static uint32_t insert(uint32_t *count)
{
    uint32_t covered, spot;
    record_words given;
    set_record(given, &rule);
    room = slots_of(words);
    for (uint32_t index = 0; index < room; index++)
        plan[index] = COPY(index, index);
    uint32_t number =
        tcam_plan_insert(table, words, width, uncounted, given, SLOTS(1), edition, plan, room, count, &covered, &spot);
    replaced_id = id_to_replace();
    if (number == TCAM_OK)
        carry_to_the_end(*count, rule_comes);
    return number;
}

/* The rule's words and the edition are not looked at where a rule is taken out. */
static uint32_t delete_rule(uint32_t id)
{
    uint32_t count, spot, kept = edition;
    room = 3;
    plan[1] = plan[2] = COPY(0, 0);
    memset(&rule, 0, sizeof rule);
    uint32_t number = tcam_plan_delete(table, words, width, uncounted, id, plan, room, &count, &spot);
    if (number == TCAM_OK) {
        rule.id = id;
        rule.priority = ALL;
        edition = 99;
        carry_to_the_end(count, rule_goes);
        edition = kept;
    }
    return number;
}

/* Slots 0 a, 1 other, 2 c, 3 d, 4 empty; c depends on a, d on c; the new rule comes before a: 1→4, 0→1, new→0. */
static void five_slots(void)
{
    static const uint32_t want[] = {COPY(1, 4), COPY(0, 1), PUT(0)};
    uint32_t count;
    HERE;
    empty_table(5);
    held[0] = made_rule(1, 40, "00*");
    held[1] = made_rule(2, 10, "01");
    held[2] = made_rule(3, 30, "*01");
    held[3] = made_rule(4, 20, "1*1");
    held_count = 4;
    for (uint32_t slot = 0; slot < 4; slot++)
        set_record(table + SLOTS(slot), &held[slot]);
    rule = made_rule(5, 50, "000");
    CHECK(insert(&count) == TCAM_OK);
    CHECK(count == 3 && memcmp(plan, want, sizeof want) == 0);
    CHECK(id_of(table) == 5 && id_of(table + SLOTS(1)) == 1 && id_of(table + SLOTS(4)) == 2);
    CHECK(id_of(table + SLOTS(2)) == 3 && id_of(table + SLOTS(3)) == 4);
    HERE;
    CHECK(delete_rule(1) == TCAM_OK);
    CHECK(is_empty(table + SLOTS(1)) && held_count == 4);

    HERE; /* the same plan once more, from its start: its first write copies an empty slot */
    memcpy(plan, want, sizeof want);
    room = 3;
    progress = (tcam_progress){0, 3};
    leaves(REFUSED(TCAM_WRITE, 0));
    progress.done = 2; /* and its last would go over a rule that has no other copy */
    rule = made_rule(6, 60, "000");
    leaves(REFUSED(TCAM_WRITE, 2));
}

/* In the middle of a plan, a rule standing in two slots, no planning call takes the table. */
static void plans_in_the_middle(void)
{
    uint32_t count = 77, covered = 77, spot = 77, other[5] = {1, 2, 3, 4, 5};
    const struct rule new_rule = made_rule(9, 50, "0");
    record_words given;
    HERE;
    set_record(given, &new_rule);
    empty_table(3);
    hold(0, 1, 40, "0");
    hold(1, 2, 30, "0");
    plan[0] = COPY(1, 2);
    plan[1] = COPY(0, 1);
    room = 2;
    progress = (tcam_progress){0, 2};
    CHECK(tcam_carry_out(table, words, width, given, SLOTS(1), edition, plan, room, &progress) == TCAM_WROTE && progress.done == 1);
    CHECK(tcam_plan_insert(table, words, width, uncounted, given, SLOTS(1), edition, other, 5, &count, &covered, &spot) ==
          TCAM_TWICE);
    CHECK(spot == 2 && covered == 77);
    spot = 77;
    CHECK(tcam_plan_delete(table, words, width, uncounted, 1, other, 5, &count, &spot) == TCAM_TWICE && spot == 2);
    CHECK(count == 77 && other[0] == 1 && other[4] == 5);
}

/* A rule for the key that ends in this number, and for no other. */
static struct rule for_key(uint32_t id, uint64_t priority, uint64_t last)
{
    struct rule made = without_wildcards(made_rule(id, priority, ""));
    made.value[width - 1] = last;
    return made;
}

/* An insert whose plan has so many writes, the last of them to this slot. */
static void inserted(struct rule given, uint32_t want_count, uint32_t want_slot)
{
    uint32_t count = 0;
    rule = given;
    CHECK(insert(&count) == TCAM_OK && count == want_count);
    CHECK(count > 0 && plan[count - 1] == PUT(want_slot) && id_of(table + SLOTS(want_slot)) == given.id);
}

/* The key that ends in this number has its reply from this rule. */
static void answered(uint64_t last, uint32_t want_id)
{
    uint32_t slot, id, action, spot;
    pattern_words key = {0};
    key[width - 1] = last;
    CHECK(tcam_lookup(table, words, width, key, width, &slot, &id, &action, &spot) == TCAM_OK && id == want_id);
}

/*
 * A table that is filled under 1.0 and then under 1.3. With the change of edition nothing is written and no reply is another: the
 * rules present keep their rank, and later ones get theirs by the new edition.
 */
static void upgrade(void)
{
    static const uint32_t ids[] = {1, 3, 6, 2, 5, 4};
    static const uint64_t ranks_held[] = {65536, 65536, 65535, 65534, 8, 7};
    static uint64_t before[ROOM(6)];
    HERE;
    empty_table(6);
    held_count = 0;
    edition = TCAM_EDITION_10;
    inserted(made_rule(2, 65534, ""), 1, 0);
    inserted(for_key(1, 7, 1), 2, 0); /* above rule 2, whatever its priority */
    inserted(for_key(3, 7, 3), 2, 1);
    memcpy(before, table, sizeof before);
    answered(1, 1);
    answered(3, 3);
    answered(4, 2);

    HERE;
    edition = TCAM_EDITION_13;
    choose_keys();
    check_replies();
    CHECK(memcmp(before, table, sizeof before) == 0);
    inserted(for_key(4, 7, 4), 1, 3);        /* below rule 2 */
    inserted(for_key(5, 8, 1), 1, 4);        /* below rule 2 too, and no tie: rule 1 has kept its rank */
    inserted(made_rule(6, 65535, ""), 3, 2); /* between those that came without wildcards and rule 2 */
    for (uint32_t slot = 0; slot < 6; slot++)
        CHECK(id_of(table + SLOTS(slot)) == ids[slot] && rank_of(table + SLOTS(slot)) == ranks_held[slot]);
    answered(1, 1);
    answered(3, 3);
    answered(4, 6);
}

/* 1,024 slots, every rule depending on all before it: a plan of 1,024 writes. */
static void long_plan(void)
{
    uint32_t count;
    HERE;
    empty_table(1024);
    held_count = 1023;
    for (uint32_t slot = 0; slot < 1023; slot++) {
        held[slot] = rule_of(slot + 1, 60000 - slot, "", slot);
        set_record(table + SLOTS(slot), &held[slot]);
    }
    rule = rule_of(5000, 60001, "", 5);
    CHECK(insert(&count) == TCAM_OK);
    CHECK(count == 1024 && id_of(table) == 5000 && id_of(table + SLOTS(1023)) == 1023);
}

/* What is cared for in the first word is cared for in the last instead. */
static void move_to_last_word(struct rule *moved)
{
    moved->value[width - 1] = moved->value[0];
    moved->mask[width - 1] = moved->mask[0];
    moved->value[0] = moved->mask[0] = 0;
}

/* A rule at random, or one that is held sent again under the edition that gives it its rank. Tables that are named as uncounted some
 * time have few actions and priorities that often tie. */
static void choose_rule(uint32_t id, int few_actions)
{
    char pattern[5] = "****";
    uint32_t cared = below(5);
    for (uint32_t bit = 0; bit < cared; bit++)
        pattern[below(4)] = below(2) ? '1' : '0';
    rule = made_rule(id, below(few_actions ? 20 : 200), pattern);
    if (below(2) == 0) /* the last word decides, and not the first */
        move_to_last_word(&rule);
    if (below(4) == 0)
        rule = without_wildcards(rule);
    edition = editions[below(2)];
    if (few_actions)
        rule.action = below(3);
    if (held_count == 0 || below(6) != 0)
        return;
    const uint32_t action = few_actions ? rule.action : 1000 + id;
    rule = held[below(held_count)];
    rule.id = id;
    if (!few_actions || below(3) == 0)
        rule.action = action;
    edition = rule.priority == 65536 ? TCAM_EDITION_10 : TCAM_EDITION_13;
    rule.priority %= 65536;
}

/*
 * Inserts and deletes at random, each insert under an edition of its own, carried out to the end, over some tables. Every other one is
 * named as uncounted from some round on, or from the first: until then its keys are told the highest rank's id, and its action always.
 */
static void random_plans(void)
{
    unsigned long came = 0, went = 0, raised = 0, replaced = 0, writes_of[4] = {0, 0, 0, 0}, came_uncounted = 0;
    case_line = 0;
    made_how = "planned table";
    other_ids = 0;
    for (turn = 0; turn < 120; turn++) {
        const uint32_t few_actions = turn % 2, flag = uncounted_flags[below(COUNT_OF(uncounted_flags))];
        const uint32_t counted_rounds = few_actions ? below(3) * 15 : 60;
        empty_table(2 + below(12));
        held_count = 0;
        for (uint32_t round = 1; round <= 60; round++) {
            uint32_t count, before = held_count;
            uncounted = round <= counted_rounds ? TCAM_COUNTED : flag;
            if (held_count > 0 && below(4) == 0) {
                CHECK(delete_rule(held[below(held_count)].id) == TCAM_OK);
                went++;
                continue;
            }
            choose_rule(round, (int)few_actions);
            if (insert(&count) == TCAM_OK) {
                came++;
                came_uncounted += uncounted != TCAM_COUNTED;
                replaced += held_count == before;
                raised += held[held_count - 1].priority == 65536;
                writes_of[count < 3 ? count : 3]++;
            }
        }
    }
    CHECK(came > 1000 && went > 600 && raised > 100 && replaced > 200 && came_uncounted > 500 && other_ids > 1000);
    CHECK(writes_of[1] > 200 && writes_of[2] > 100 && writes_of[3] > 40);
}

/* ---- Random plans and records ---- */

static uint32_t random_end(uint32_t slots)
{
    static const uint32_t odd[] = {1023, 1024, 65533, 65534, 65535};
    return below(6) == 0 ? odd[below(5)] : below(slots + 1);
}

/* A table of a few rules, some of them damaged, a rule and a plan. */
static void make_call(uint32_t slots)
{
    int ids_differ = below(3) == 0, sent_again = below(3) == 0;
    empty_table(slots);
    for (uint32_t slot = 0; slot < slots; slot++)
        if (below(3) != 0)
            hold(slot, ids_differ ? 1 + slot : 1 + below(4), below(3), "1");
    if (below(4) == 0) { /* a rule without wildcards, given under 1.0 */
        struct rule exact = without_wildcards(made_rule(1 + below(4), 65536, "1"));
        set_record(table + SLOTS(below(slots)), &exact);
    }
    if (below(10) == 0)
        table[SLOTS(below(slots)) + below((uint32_t)SLOTS(1))] ^= random_word() >> below(64);
    if (below(20) == 0)
        words = below((uint32_t)SLOTS(6) + 4);
    if (below(40) == 0)
        rule_words = below((uint32_t)ROOM(1) + 3);
    rule = made_rule(below(8), below(10) == 0 ? 65535 + below(2) : 7, "01");
    if (sent_again) /* equal to rules of the table, or nearly so */
        rule = made_rule(1 + below(7), below(3), below(8) == 0 ? "11" : "1");
    if (below(10) == 0)
        rule.value[below(width)] |= 1;
    if (below(40) == 0)
        rule.priority |= TOP >> below(32);
    if (below(4) == 0)
        rule = without_wildcards(rule);
    edition = below(5) == 0 ? below(20) : editions[below(2)];
    room = below(4);
    for (uint32_t index = 0; index < room; index++)
        plan[index] = COPY(below(3) == 0 ? 65534 + below(2) : random_end(slots), random_end(slots));
    if (sent_again && room > 0)
        plan[below(room)] = PUT(below(slots));
    progress.total = below(6) == 0 ? below(6) : room;
    progress.done = below(6) == 0 ? below(6) : below(progress.total + 1);
}

static unsigned long most; /* calls at each width */

static void random_calls(void)
{
    unsigned long seen[TCAM_ROOM + 1] = {0}, wrote[3] = {0, 0, 0}, replaced = 0, finished = 0;
    case_line = 0;
    made_how = "random table";
    for (turn = 0; turn < most; turn++) {
        make_call(1 + below(5));
        for (int again = 0; again < 3; again++) {
            uint32_t from = progress.done < room ? plan[progress.done] / 65536 : 0;
            int goes_over = from == 65535 && !ref_free(slots_of(words), plan[progress.done] % 65536);
            uint64_t result = step();
            replaced += goes_over && result == TCAM_WROTE;
            if (result == TCAM_WROTE)
                wrote[from == 65535 ? 2 : from == 65534 ? 1 : 0]++;
            else if (result == TCAM_FINISHED)
                finished++;
            else
                seen[tcam_carry_number(result) % COUNT_OF(seen)]++;
        }
    }
    CHECK(seen[TCAM_SHAPE] > most / 100);
    CHECK(seen[TCAM_RECORD] > most / 100);
    CHECK(seen[TCAM_RULE] > most / 200);
    CHECK(seen[TCAM_EDITION] > most / 200);
    CHECK(seen[TCAM_WRITE] > most / 10);
    CHECK(finished > most / 10);
    for (int kind = 0; kind < 3; kind++)
        CHECK(wrote[kind] > most / 200);
    CHECK(replaced > most / 500);
}

/* The two halves of a result. */
static void halves(void)
{
    HERE;
    CHECK((uint32_t)TCAM_WROTE == 0 && (uint32_t)TCAM_FINISHED == 4294967295u);
    CHECK(tcam_carry_number(REFUSED(12, 4294967295u)) == TCAM_WRITE && tcam_carry_spot(REFUSED(12, 4294967295u)) == 4294967295u);
    CHECK(tcam_carry_number(REFUSED(2, 1023)) == TCAM_RECORD && tcam_carry_spot(REFUSED(2, 1023)) == 1023);
    CHECK(sizeof(tcam_progress) == 8);
}

int main(int count, char **arguments)
{
    static void (*const cases[])(void) = {
        halves, shapes, other_rules, other_widths, records, records_of_progress, unsound_rules, other_editions, ranks,
        ranks_of_records, records_given_again, absent_slots, unfit_writes, other_copies, one_slot, sent_again,
        nearly_sent_again, sent_again_under_either_edition, five_slots, plans_in_the_middle, upgrade, long_plan,
        random_plans, random_calls,
    };
    most = begin(count, arguments, 100000) / 2;
    open_pages(&plan_pages, (MOST_ROOM + PLAN_GUARDS) * sizeof(uint32_t));
    run_cases(cases, COUNT_OF(cases));

    return verdict("carry_test");
}
