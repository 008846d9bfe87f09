/*
 * The header's constants, macros and inline functions: cases whose answers are written here, and the texts of a spot for
 * refusals as the calls give them. The names of causes and a slot's words are in lookup_test.c, a result's halves in
 * carry_test.c.
 *
 *     header_test [seed [numbers]]
 */
#define _DEFAULT_SOURCE /* for mmap without a file */
#include "testing.h"

#include <inttypes.h>

/* ---- Constants, plan words, lengths ---- */

/* One less than zero is above zero: the constant has no sign. */
#define NO_SIGN(constant) (0 * (constant) - 1 > 0)

static void constants(void)
{
    HERE;
    CHECK(NO_SIGN(TCAM_WIDTH_128) && NO_SIGN(TCAM_WIDTH_320) && NO_SIGN(TCAM_MAX_SLOTS));
    CHECK(NO_SIGN(TCAM_PUT) && NO_SIGN(TCAM_EMPTY));
    CHECK(NO_SIGN(TCAM_WROTE) && NO_SIGN(TCAM_FINISHED) && NO_SIGN(TCAM_SPOT_TEXT) && NO_SIGN(TCAM_IMAGE_BYTES(2, 1)));
    CHECK(NO_SIGN(TCAM_RECORD_WORDS(2)) && NO_SIGN(TCAM_TABLE_WORDS(2, 1)) && NO_SIGN(TCAM_TABLE_SLOTS(2, 1)));
    CHECK(NO_SIGN(TCAM_LIST_NUMBERS(1)) && NO_SIGN(TCAM_NONE) && TCAM_NONE == 65535);
    CHECK(NO_SIGN(TCAM_EDITION_10) && NO_SIGN(TCAM_EDITION_13) && NO_SIGN(TCAM_MAX_PRIORITY) && NO_SIGN(TCAM_EXACT_RANK));
    CHECK(TCAM_WIDTH_128 == 2 && TCAM_WIDTH_320 == 5 && TCAM_MAX_SLOTS == 1024 && TCAM_SPOT_TEXT == 24);
    CHECK(TCAM_EDITION_10 == 10 && TCAM_EDITION_13 == 13 && TCAM_MAX_PRIORITY == 65535 && TCAM_EXACT_RANK == 65536);
    CHECK(TCAM_EXACT_RANK > TCAM_MAX_PRIORITY);
    CHECK(NO_SIGN(TCAM_COUNTED) && NO_SIGN(TCAM_UNCOUNTED) && TCAM_COUNTED == 0 && TCAM_UNCOUNTED == 1);
    /* the header's formula for a plan word, as it stands there */
    CHECK(TCAM_PUT * 65536 + 65535 == 4294967295u && TCAM_EMPTY * 65536 + 0 == 4294836224u);
}

static void plan_words(void)
{
    static const struct {
        uint32_t from, to, word;
    } want[] = {
        {TCAM_PUT, 0, 4294901760u},    {TCAM_PUT, 4, 4294901764u},   {TCAM_PUT, 1023, 4294902783u},
        {TCAM_EMPTY, 0, 4294836224u},  {TCAM_EMPTY, 2, 4294836226u}, {TCAM_EMPTY, 1023, 4294837247u},
        {0, 0, 0},                     {0, 1, 1},                    {1, 0, 65536},
        {1, 4, 65540},                 {1023, 1022, 67044350u},      {1022, 1023, 66978815u},
        {65533, 65535, 4294836223u},   {65535, 65535, 4294967295u},  {32768, 32768, 2147516416u},
    };
    for (size_t index = 0; index < COUNT_OF(want); index++) {
        HERE;
        CHECK(tcam_write_word(want[index].from, want[index].to) == want[index].word);
        CHECK(tcam_write_from(want[index].word) == want[index].from && tcam_write_to(want[index].word) == want[index].to);
        /* a half above 16 bits is cut, and does not reach into the other */
        CHECK(tcam_write_word(want[index].from + 65536, want[index].to + 65536) == want[index].word);
    }
    int there_and_back = 1;
    for (uint32_t half = 0; half < 65536; half++) {
        uint32_t from = tcam_write_word(half, 65535 - half), to = tcam_write_word(half ^ 0x5A5A, half);
        there_and_back &= tcam_write_from(from) == half && tcam_write_to(from) == 65535 - half;
        there_and_back &= tcam_write_from(to) == (half ^ 0x5A5A) && tcam_write_to(to) == half;
    }
    CHECK(there_and_back);
}

static void lengths(void)
{
    static const uint64_t whole[TCAM_TABLE_WORDS(TCAM_WIDTH_320, TCAM_MAX_SLOTS)] = {0};
    uint64_t one_slot[TCAM_RECORD_WORDS(TCAM_WIDTH_128)] = {0};
    uint32_t plan[4] = {0}, *const lent = plan;
    uint16_t list[TCAM_LIST_NUMBERS(3)] = {0};
    HERE;
    CHECK(TCAM_WORDS(whole) == 12288 && TCAM_WORDS(one_slot) == 6 && TCAM_WORDS(tcam_no_rule) == 12);
    CHECK(TCAM_WORDS(plan) == 4 && lent[TCAM_WORDS(plan) - 1] == 0);
    CHECK(TCAM_WORDS(list) == 6 && list[TCAM_WORDS(list) - 1] == 0);

    int rules = 3;
    HERE;
    CHECK(TCAM_RECORD_WORDS(2) == 6 && TCAM_RECORD_WORDS(5) == 12 && 2 * TCAM_RECORD_WORDS(1 + 1) == 12);
    CHECK(TCAM_TABLE_WORDS(2, 1024) == 6144 && TCAM_TABLE_WORDS(5, 1024) == 12288 && TCAM_TABLE_WORDS(5, rules + 1) == 48);
    CHECK(TCAM_TABLE_SLOTS(2, 36) == 6 && TCAM_TABLE_SLOTS(5, 36) == 3 && TCAM_TABLE_SLOTS(5, rules + 21) == 2);
    CHECK(TCAM_IMAGE_BYTES(2, 0) == 4 && TCAM_IMAGE_BYTES(2, 1) == 54 && TCAM_IMAGE_BYTES(2, TCAM_MAX_SLOTS) == 51204);
    CHECK(TCAM_IMAGE_BYTES(5, 0) == 4 && TCAM_IMAGE_BYTES(5, 1) == 102 && TCAM_IMAGE_BYTES(5, TCAM_MAX_SLOTS) == 100356);
    CHECK(TCAM_LIST_NUMBERS(1) == 2 && TCAM_LIST_NUMBERS(TCAM_MAX_SLOTS) == 2048 && TCAM_LIST_NUMBERS(rules + 2) == 10);
    CHECK(TCAM_IMAGE_BYTES(2, rules) == 154 && TCAM_IMAGE_BYTES(2, rules + 1) == 204 && 2 * TCAM_IMAGE_BYTES(2, 1) == 108);
    CHECK(TCAM_IMAGE_BYTES(5, rules) == 298 && TCAM_IMAGE_BYTES(rules + 2, 1) == 102);
}

/* A table's bytes pass for words up to 128 slots, which is what the header warns of; those of a rule and of a key never do. */
static void bytes_for_words(void)
{
    HERE;
    CHECK(slots_of(8 * SLOTS(1)) == 8 && slots_of(8 * SLOTS(128)) == 1024 && slots_of(8 * SLOTS(129)) == 0);
    for (size_t index = 0; index < COUNT_OF(widths); index++) {
        CHECK(8 * SLOTS(1) != TCAM_RECORD_WORDS(widths[index]));
        CHECK(8 * width != widths[index]);
    }
}

/* Each part has its own place, and nothing past the record is written. */
static void record_parts(void)
{
    static const uint64_t of_two[] = {1, 2, 11, 12, 0xFFFFFFFFFFFFFFFEu, 0xFFFFFFFDu, 77};
    static const uint64_t of_five[] = {1, 2, 3, 4, 5, 11, 12, 13, 14, 15, 0xFFFFFFFFFFFFFFFEu, 0xFFFFFFFDu, 77};
    static const uint64_t value[] = {1, 2, 3, 4, 5}, mask[] = {11, 12, 13, 14, 15};
    const uint64_t *want = width == 2 ? of_two : of_five;
    uint64_t record[ROOM(1) + 1];
    HERE;
    for (size_t index = 0; index < COUNT_OF(record); index++)
        record[index] = 77;
    CHECK(tcam_make_record(record, width, 4294967295u, 4294967293u, value, mask, 4294967294u) == record);
    CHECK(memcmp(record, want, (SLOTS(1) + 1) * sizeof *record) == 0);
    CHECK(tcam_record_id(record, width) == 4294967295u && tcam_record_action(record, width) == 4294967294u);
    CHECK(tcam_record_priority(record, width) == 4294967293u && tcam_record_rank(record, width) == 4294967293u);
    for (uint32_t index = 0; index < width; index++) {
        CHECK(tcam_record_value(record, width, index) == index + 1);
        CHECK(tcam_record_mask(record, width, index) == index + 11);
    }
    tcam_make_record(record, width, 1, 0, mask, value, 0);
    CHECK(tcam_record_id(record, width) == 1 && tcam_record_action(record, width) == 0);
    CHECK(tcam_record_priority(record, width) == 0 && tcam_record_rank(record, width) == 0);
    CHECK(tcam_record_value(record, width, width - 1) == width + 10 && tcam_record_mask(record, width, 0) == 1);
    CHECK(is_empty(tcam_no_rule));
}

/* ---- Spots in words ---- */

typedef char *text_of_spot(uint32_t number, uint32_t spot, char *text);

/* The text stands in a buffer of TCAM_SPOT_TEXT bytes between marks, which stay. */
static void check_text(int line, text_of_spot *of_spot, uint32_t number, uint32_t spot, const char *want)
{
    char bytes[8 + TCAM_SPOT_TEXT + 8], before[sizeof bytes];
    case_line = line;
    for (size_t index = 0; index < sizeof bytes; index++)
        bytes[index] = before[index] = (char)(next_mark() % 255 + 1);
    CHECK(of_spot(number, spot, bytes + 8) == bytes + 8);
    CHECK(memchr(bytes + 8, 0, TCAM_SPOT_TEXT) != NULL);
    CHECK(memcmp(bytes, before, 8) == 0 && memcmp(bytes + 8 + TCAM_SPOT_TEXT, before + 8 + TCAM_SPOT_TEXT, 8) == 0);
    bytes[8 + TCAM_SPOT_TEXT] = 0;
    CHECK(strcmp(bytes + 8, want) == 0);
}

#define OF_TABLE(number, spot, want) check_text(__LINE__, tcam_spot_text, number, spot, want)
#define OF_IMAGE(number, spot, want) check_text(__LINE__, tcam_image_spot_text, number, spot, want)
#define OF_BOTH(number, spot, want) (OF_TABLE(number, spot, want), OF_IMAGE(number, spot, want))

static void spots_that_are_slots(void)
{
    OF_BOTH(TCAM_RECORD, 4, "slot 4");
    OF_BOTH(TCAM_TWICE, 1023, "slot 1023");
    OF_BOTH(TCAM_ORDER, 1, "slot 1");
    OF_BOTH(TCAM_KNOWN, 0, "slot 0");
    OF_BOTH(TCAM_TIE, 10, "slot 10");
    OF_BOTH(TCAM_CROSSED, 99, "slot 99");
    static const uint32_t numbers[] = {TCAM_RECORD, TCAM_TWICE, TCAM_ORDER, TCAM_KNOWN, TCAM_TIE, TCAM_CROSSED};
    for (size_t index = 0; index < COUNT_OF(numbers); index++) {
        OF_BOTH(numbers[index], 0, "slot 0");
        OF_BOTH(numbers[index], 1, "slot 1");
        OF_BOTH(numbers[index], 4294967295u, "slot 4294967295");
    }
}

static void spots_that_count(void)
{
    OF_TABLE(TCAM_SHORT, 1, "1 word needed");
    OF_TABLE(TCAM_SHORT, 2, "2 words needed");
    OF_TABLE(TCAM_SHORT, 11, "11 words needed");
    OF_TABLE(TCAM_SHORT, 1024, "1024 words needed");
    OF_TABLE(TCAM_SHORT, 4294967295u, "4294967295 words needed");
    OF_IMAGE(TCAM_SHORT, 1, "1 byte needed");
    OF_IMAGE(TCAM_SHORT, 4, "4 bytes needed");
    OF_IMAGE(TCAM_SHORT, 204, "204 bytes needed");
    OF_IMAGE(TCAM_SHORT, 51204, "51204 bytes needed");
    OF_IMAGE(TCAM_SHORT, 4294967295u, "4294967295 bytes needed");
    OF_BOTH(TCAM_WRITE, 0, "0 writes done");
    OF_BOTH(TCAM_WRITE, 1, "1 write done");
    OF_BOTH(TCAM_WRITE, 2, "2 writes done");
    OF_BOTH(TCAM_WRITE, 21, "21 writes done");
    OF_BOTH(TCAM_WRITE, 4294967295u, "4294967295 writes done");
}

static void spots_that_are_places(void)
{
    OF_BOTH(TCAM_LINE, 1, "line 1");
    OF_BOTH(TCAM_LINE, 7, "line 7");
    OF_BOTH(TCAM_LINE, 4294967295u, "line 4294967295");
    OF_BOTH(TCAM_IMAGE, 0, "byte 0");
    OF_BOTH(TCAM_IMAGE, 1, "byte 1");
    OF_BOTH(TCAM_IMAGE, 2, "byte 2");
    OF_BOTH(TCAM_IMAGE, 4294967295u, "byte 4294967295");
    OF_BOTH(TCAM_PLAN, 0, "write 0");
    OF_BOTH(TCAM_PLAN, 1, "write 1");
    OF_BOTH(TCAM_PLAN, 4294967295u, "write 4294967295");
}

static void spots_that_name_nothing(void)
{
    static const uint32_t numbers[] = {
        TCAM_OK, TCAM_SHAPE, TCAM_RULE, TCAM_UNKNOWN, TCAM_FULL, TCAM_UNCROSSED, TCAM_DAMAGE, TCAM_EDITION, TCAM_OPEN, TCAM_SESSION,
        TCAM_ABSENT, TCAM_ROOM, 23, 24, 65536, 4294967295u,
    };
    for (size_t index = 0; index < COUNT_OF(numbers); index++) {
        OF_BOTH(numbers[index], 0, "");
        OF_BOTH(numbers[index], 1, "");
        OF_BOTH(numbers[index], 4294967295u, "");
    }
}

static unsigned long most; /* random numbers at each width */

/* Each power of ten with its neighbours, and random numbers of every length, against C's own printing. */
static void digits(void)
{
    char want[TCAM_SPOT_TEXT + 1];
    for (uint64_t power = 1; power <= 10000000000u; power *= 10)
        for (uint64_t spot = power - 1; spot <= power + 1 && spot <= 4294967295u; spot++) {
            snprintf(want, sizeof want, "slot %" PRIu64, spot);
            OF_BOTH(TCAM_RECORD, (uint32_t)spot, want);
        }
    for (unsigned long index = 0; index < most; index++) {
        uint32_t spot = (uint32_t)(random_word() >> (32 + below(32)));
        snprintf(want, sizeof want, "byte %" PRIu32, spot);
        OF_BOTH(TCAM_IMAGE, spot, want);
        snprintf(want, sizeof want, "%" PRIu32 " word%s needed", spot, spot == 1 ? "" : "s");
        OF_TABLE(TCAM_SHORT, spot, want);
    }
}

/* ---- Spots as the calls give them ---- */

/* Five slots, of which the last is empty: a new rule before the first takes three writes. */
static uint64_t table[ROOM(5)];
#define TABLE table, SLOTS(5), width

static void five_slots(void)
{
    static const char *const pattern[] = {"00*", "01", "*01", "1*1"};
    static const uint32_t priority[] = {40, 10, 30, 20};
    memset(table, 0, sizeof table);
    for (uint32_t slot = 0; slot < 4; slot++) {
        struct rule rule = rule_of(slot + 1, priority[slot], pattern[slot], 7);
        set_record(table + SLOTS(slot), &rule);
    }
}

static uint32_t insert(const struct rule *rule, uint32_t *plan, size_t room, uint32_t *count, uint32_t *spot)
{
    record_words given;
    uint32_t covered = 88, number;
    tcam_make_record(given, width, rule->id, (uint32_t)rule->priority, rule->value, rule->mask, rule->action);
    number = tcam_plan_insert(TABLE, uncounted, given, TCAM_RECORD_WORDS(width), edition, plan, room, count, &covered, spot);
    CHECK(covered == (number == TCAM_OK ? TCAM_NONE : 88)); /* no rule here is covered */
    return number;
}

static void refused_plans(void)
{
    struct rule new_rule = rule_of(5, 50, "000", 9);
    uint32_t plan[5], count, spot, number;
    HERE;
    five_slots();
    number = insert(&new_rule, plan, 2, &count, &spot);
    OF_TABLE(number, spot, "3 words needed");
    number = tcam_plan_delete(TABLE, uncounted, 3, plan, 0, &count, &spot);
    OF_TABLE(number, spot, "1 word needed");
    new_rule.id = 3;
    number = insert(&new_rule, plan, 5, &count, &spot);
    CHECK(number == TCAM_KNOWN);
    OF_TABLE(number, spot, "slot 2");
    new_rule.id = 5;
    new_rule.priority = 40;
    number = insert(&new_rule, plan, 5, &count, &spot);
    CHECK(number == TCAM_TIE);
    OF_TABLE(number, spot, "slot 0");
    number = tcam_plan_delete(TABLE, uncounted, 9, plan, 5, &count, &spot);
    CHECK(number == TCAM_UNKNOWN);
    OF_TABLE(number, spot, "");
    edition = 12;
    number = insert(&new_rule, plan, 5, &count, &spot);
    CHECK(number == TCAM_EDITION);
    OF_TABLE(number, spot, "");
    memcpy(table + SLOTS(4), table + SLOTS(1), SLOTS(1) * sizeof *table);
    number = tcam_plan_delete(TABLE, uncounted, 3, plan, 5, &count, &spot);
    CHECK(number == TCAM_TWICE);
    OF_TABLE(number, spot, "slot 4"); /* the later of the two */
}

/* The same table under either name: out of order for the one, and in order for the other, whose rules have one action. */
static void refused_if_counted(void)
{
    const struct rule higher = rule_of(5, 50, "1", 7), tied = rule_of(6, 50, "11", 7);
    uint32_t plan[5], count, spot = 77, number;
    HERE;
    five_slots();
    set_record(table + SLOTS(4), &higher);
    number = tcam_plan_delete(TABLE, TCAM_COUNTED, 3, plan, 5, &count, &spot);
    CHECK(number == TCAM_ORDER);
    OF_TABLE(number, spot, "slot 4");
    spot = 77;
    CHECK(tcam_plan_delete(TABLE, TCAM_UNCOUNTED, 3, plan, 5, &count, &spot) == TCAM_OK && count == 1 && spot == 77);
    memset(table + SLOTS(2), 0, SLOTS(1) * sizeof *table);
    uncounted = TCAM_UNCOUNTED;
    CHECK(insert(&tied, plan, 5, &count, &spot) == TCAM_OK && count == 1 && plan[0] == tcam_write_word(TCAM_PUT, 2));
    uncounted = TCAM_COUNTED;
    CHECK(insert(&tied, plan, 5, &count, &spot) == TCAM_ORDER && spot == 4);
}

static void refused_images(void)
{
    static uint8_t image[TCAM_IMAGE_BYTES(MOST_WIDTH, 5)];
    uint32_t bytes, spot, number;
    const uint32_t four_rules = width == 2 ? 204 : 396;
    HERE;
    five_slots();
    number = tcam_save(TABLE, uncounted, image, four_rules - 1, &bytes, &spot);
    OF_IMAGE(number, spot, width == 2 ? "204 bytes needed" : "396 bytes needed");
    CHECK(tcam_save(TABLE, uncounted, image, sizeof image, &bytes, &spot) == TCAM_OK && bytes == four_rules);
    number = tcam_load(image, bytes - 1, TABLE, uncounted, &spot);
    OF_IMAGE(number, spot, "byte 2");
    /* no checksum: another action is a sound image of another table */
    image[bytes - 1] ^= 1;
    CHECK(tcam_load(image, bytes, TABLE, uncounted, &spot) == TCAM_OK);
    const uint64_t *record = tcam_slot_words(TABLE, 3);
    CHECK(record != NULL && tcam_record_action(record, width) == 6 && tcam_record_id(record, width) == 4);
}

static void refused_writes(void)
{
    uint32_t plan[3] = {tcam_write_word(1, 4), tcam_write_word(2, 3), tcam_write_word(TCAM_EMPTY, 4)};
    tcam_progress progress = {0, 3};
    uint64_t result = 0;
    HERE;
    five_slots();
    for (int call = 0; call < 2; call++)
        result = tcam_carry_out(TABLE, tcam_no_rule, TCAM_RECORD_WORDS(width), edition, plan, TCAM_WORDS(plan), &progress);
    OF_TABLE(tcam_carry_number(result), tcam_carry_spot(result), "1 write done");
    progress.done = 3;
    result = tcam_carry_out(TABLE, tcam_no_rule, TCAM_RECORD_WORDS(width), edition, plan, TCAM_WORDS(plan), &progress);
    CHECK(result == TCAM_FINISHED);
    OF_TABLE(tcam_carry_number(result), tcam_carry_spot(result), "");
}

int main(int count, char **arguments)
{
    static void (*const cases[])(void) = {
        constants, plan_words, lengths, bytes_for_words, record_parts, spots_that_are_slots, spots_that_count,
        spots_that_are_places, spots_that_name_nothing, digits, refused_plans, refused_if_counted, refused_images, refused_writes,
    };
    most = begin(count, arguments, 20000) / 2;
    run_cases(cases, COUNT_OF(cases));

    return verdict("header_test");
}
