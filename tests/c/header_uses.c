/*
 * Every macro and inline function of tcam.h, used. tests/c/run compiles this as C and as C++, in each standard, and takes no
 * warning. What they answer is tested by the test programs.
 */
#include "tcam.h"
#include "tcam.h" /* a second time: nothing is declared twice */

#if TCAM_WIDTH_128 != 2 || TCAM_WIDTH_320 != 5 || TCAM_MAX_SLOTS != 1024 || TCAM_PUT != 65535 || TCAM_EMPTY != 65534 || \
    TCAM_WROTE != 0 || TCAM_FINISHED != 4294967295 || TCAM_SPOT_TEXT != 24 || TCAM_EDITION_10 != 10 || \
    TCAM_EDITION_13 != 13 || TCAM_MAX_PRIORITY != 65535 || TCAM_EXACT_RANK != 65536 || TCAM_COUNTED != 0 || \
    TCAM_UNCOUNTED != 1 || TCAM_NONE != 65535
#error "a constant of tcam.h, in a condition of the preprocessor"
#endif

/* in declarations and initializers */
uint64_t every_table[TCAM_TABLE_WORDS(TCAM_WIDTH_320, TCAM_MAX_SLOTS)];
uint32_t every_plan[TCAM_TABLE_SLOTS(TCAM_WIDTH_320, TCAM_WORDS(every_table))];
uint16_t every_list[TCAM_LIST_NUMBERS(TCAM_MAX_SLOTS)];
uint8_t every_image[TCAM_IMAGE_BYTES(TCAM_WIDTH_320, TCAM_MAX_SLOTS)];
char every_text[TCAM_SPOT_TEXT];
const uint64_t every_record[TCAM_RECORD_WORDS(TCAM_WIDTH_128)] = {0, 0, 0, 0, TCAM_ID_ACTION(1, 2), 3};
size_t every_words = TCAM_WORDS(every_table) + TCAM_WORDS(every_plan) + TCAM_WORDS(every_list);
uint32_t every_number[] = {TCAM_PUT, TCAM_EMPTY, TCAM_FINISHED, TCAM_OK, TCAM_IMAGE, TCAM_ROOM, TCAM_NONE};
uint32_t every_edition[] = {TCAM_EDITION_10, TCAM_EDITION_13};
uint32_t every_flag[] = {TCAM_COUNTED, TCAM_UNCOUNTED};
uint64_t every_rank[] = {TCAM_MAX_PRIORITY, TCAM_EXACT_RANK};
uint64_t every_result[] = {TCAM_WROTE, TCAM_FINISHED};

size_t every_size(int rules, uint32_t slots, uint32_t width, int signed_width);
uint64_t every_record_function(uint64_t *record, uint32_t width, const uint64_t *key, uint32_t index);
uint32_t every_planning(uint32_t width, uint32_t *count, uint32_t *covered, uint32_t *spot);
uint64_t every_carrying_out(uint32_t width, tcam_progress *progress);
uint32_t every_listed_planning(uint32_t width, uint32_t *count, uint32_t *covered, uint32_t *refreshed, uint32_t *spot);
uint64_t every_listed_carrying_out(uint32_t width, tcam_progress *progress, uint32_t *refreshed);
uint32_t every_image_call(uint32_t width, uint32_t flag, uint32_t *bytes, uint32_t *spot);
int every_comparison(uint32_t number, uint64_t result, size_t words);
int every_case(uint32_t word);
uint32_t every_number_function(uint32_t word, uint64_t result, uint32_t slot);
const char *every_text_function(uint32_t number, uint64_t result);

size_t every_size(int rules, uint32_t slots, uint32_t width, int signed_width)
{
    return TCAM_IMAGE_BYTES(width, rules) + TCAM_IMAGE_BYTES(signed_width, slots) + TCAM_IMAGE_BYTES(1 + 1, 1 + 1) +
           TCAM_RECORD_WORDS(width) * TCAM_RECORD_WORDS(signed_width) / TCAM_RECORD_WORDS(1 + 1) +
           TCAM_TABLE_WORDS(width, slots) / TCAM_TABLE_WORDS(signed_width, rules) + TCAM_TABLE_WORDS(1 + 1, 1 + 1) +
           TCAM_TABLE_SLOTS(width, slots) / TCAM_TABLE_SLOTS(signed_width, rules) + TCAM_TABLE_SLOTS(1 + 1, 6 + 6) +
           TCAM_LIST_NUMBERS(slots) * TCAM_LIST_NUMBERS(rules) / TCAM_LIST_NUMBERS(1 + 1);
}

uint64_t every_record_function(uint64_t *record, uint32_t width, const uint64_t *key, uint32_t index)
{
    tcam_make_record(record, width, 1, 2, key, key, 3);
    return tcam_record_value(record, width, index) + tcam_record_mask(record, width, index) + tcam_record_id(record, width) +
           tcam_record_action(record, width) + tcam_record_priority(record, width) + tcam_record_rank(record, width);
}

uint32_t every_planning(uint32_t width, uint32_t *count, uint32_t *covered, uint32_t *spot)
{
    return tcam_plan_insert(every_table, TCAM_WORDS(every_table), width, TCAM_COUNTED, tcam_no_rule, TCAM_RECORD_WORDS(width),
                            TCAM_EDITION_10, every_plan, TCAM_WORDS(every_plan), count, covered, spot);
}

uint32_t every_listed_planning(uint32_t width, uint32_t *count, uint32_t *covered, uint32_t *refreshed, uint32_t *spot)
{
    return tcam_plan_insert_listed(every_table, TCAM_WORDS(every_table), width, TCAM_COUNTED, tcam_no_rule, TCAM_RECORD_WORDS(width),
                                   TCAM_EDITION_10, every_list, TCAM_WORDS(every_list), every_plan, TCAM_WORDS(every_plan), count,
                                   covered, refreshed, spot);
}

uint64_t every_listed_carrying_out(uint32_t width, tcam_progress *progress, uint32_t *refreshed)
{
    return tcam_carry_out_listed(every_table, TCAM_WORDS(every_table), width, TCAM_UNCOUNTED, tcam_no_rule, TCAM_RECORD_WORDS(width),
                                 TCAM_EDITION_13, every_list, TCAM_WORDS(every_list), every_plan, TCAM_WORDS(every_plan), progress,
                                 refreshed);
}

uint32_t every_image_call(uint32_t width, uint32_t flag, uint32_t *bytes, uint32_t *spot)
{
    if (flag == TCAM_COUNTED)
        return tcam_save(every_table, TCAM_WORDS(every_table), width, flag, every_image, sizeof every_image, bytes, spot);
    return tcam_load(every_image, sizeof every_image, every_table, TCAM_WORDS(every_table), width, TCAM_UNCOUNTED, spot);
}

uint64_t every_carrying_out(uint32_t width, tcam_progress *progress)
{
    return tcam_carry_out(every_table, TCAM_WORDS(every_table), width, tcam_no_rule, TCAM_RECORD_WORDS(width), TCAM_EDITION_13,
                          every_plan, TCAM_WORDS(every_plan), progress);
}

/* with a number, a result and a length, as callers do */
int every_comparison(uint32_t number, uint64_t result, size_t words)
{
    return number == TCAM_OK || number < TCAM_IMAGE || number == TCAM_EDITION || number == TCAM_NONE ||
           every_list[0] == TCAM_NONE || tcam_write_from(number) == TCAM_PUT ||
           tcam_write_from(number) >= TCAM_EMPTY || result == TCAM_WROTE || result != TCAM_FINISHED ||
           TCAM_TABLE_SLOTS(TCAM_WIDTH_128, words) > TCAM_MAX_SLOTS || words == TCAM_WORDS(every_table);
}

int every_case(uint32_t word)
{
    switch (tcam_write_from(word)) {
    case TCAM_PUT: return 1;
    case TCAM_EMPTY: return 2;
    default: return 0;
    }
}

uint32_t every_number_function(uint32_t word, uint64_t result, uint32_t slot)
{
    const uint64_t *record = tcam_slot_words(every_table, TCAM_WORDS(every_table), TCAM_WIDTH_128, slot);
    uint32_t sum = tcam_write_from(word) + tcam_write_to(word) + tcam_write_word(TCAM_PUT, slot) +
                   tcam_write_word(TCAM_EMPTY, slot) + tcam_carry_number(result) + tcam_carry_spot(result);
    if (record == NULL)
        record = every_record;
    return sum + tcam_record_id(record, TCAM_WIDTH_128);
}

const char *every_text_function(uint32_t number, uint64_t result)
{
    if (number > TCAM_ROOM)
        return tcam_cause_name(number);
    if (number > TCAM_LINE)
        return tcam_image_spot_text(number, TCAM_MAX_SLOTS, every_text);
    return tcam_spot_text(tcam_carry_number(result), tcam_carry_spot(result), every_text);
}
