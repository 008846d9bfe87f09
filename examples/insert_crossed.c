/* An insert that is declined as crossed, and a way out that always works: the rules that depend on the new one, directly or
 * through others, are taken out; the new rule is put in; and they are put in again, by falling rank. At each of these
 * inserts nothing in the table depends on the rule that is put in, so that none is crossed. Build and run: examples/run */
#include <string.h>
#include "gateway.h"

static uint64_t table[] = {
    RULE(21, 100, KEY(10, 0, 7, 0, 0), KEY(255, 255, 255, 0, 0), 3),     /* subscriber 7: port 3 */
    RULE(24, 50, KEY(10, 0, 0, 0, 22), KEY(255, 255, 248, 0, 65535), 9), /* consoles of subscribers 0 to 7: drop */
    RULE(22, 300, KEY(10, 0, 9, 0, 0), KEY(255, 255, 255, 0, 0), 4),     /* subscriber 9: port 4 */
    EMPTY,
    EMPTY,
};
#define WORDS TCAM_WORDS(table)
#define SLOTS TCAM_TABLE_SLOTS(WIDTH, WORDS)

/* the new rule belongs after subscriber 9's and before subscriber 7's, which stand the other way round; and rule 24, which does
 * not overlap it, depends on subscriber 7's */
static const uint64_t web[RECORD_WORDS] = {
    RULE(23, 200, KEY(10, 0, 0, 0, 443), KEY(255, 255, 0, 0, 65535), 5), /* the site's web frames: proxy */
};

static struct frame frames[] = {
    {"10.0.7.40:443", {KEY(10, 0, 7, 40, 443)}, 0, 0}, {"10.0.7.40:22", {KEY(10, 0, 7, 40, 22)}, 0, 0},
    {"10.0.6.1:22", {KEY(10, 0, 6, 1, 22)}, 0, 0}, {"10.0.9.1:443", {KEY(10, 0, 9, 1, 443)}, 0, 0},
};
#define FRAMES (sizeof frames / sizeof frames[0])

/* Carries a plan out. Where frames have to be looked up meanwhile, this is done between two calls. */
static void carry_out_plan(const uint32_t *plan, uint32_t count, const uint64_t *rule)
{
    tcam_progress progress = {0, count};
    uint64_t result;
    while ((result = tcam_carry_out(table, WORDS, WIDTH, rule, RECORD_WORDS, TCAM_EDITION_13, plan, count, &progress)) ==
           TCAM_WROTE)
        ;
    if (result != TCAM_FINISHED)
        stop("carrying out", tcam_carry_number(result), tcam_carry_spot(result));
    print_changes(table, WORDS, frames, FRAMES);
}

/* Under OpenFlow 1.3 a rule's rank is its priority: a record that stood in a slot gets the rank again that it had. */
static void put_in(const uint64_t *rule)
{
    uint32_t plan[SLOTS], count, covered, spot;
    uint32_t number = tcam_plan_insert(table, WORDS, WIDTH, TCAM_COUNTED, rule, RECORD_WORDS, TCAM_EDITION_13, plan, SLOTS,
                                       &count, &covered, &spot);
    if (number != TCAM_OK)
        stop("insert", number, spot);
    printf("insert rule %" PRIu32 "\n", tcam_record_id(rule, WIDTH));
    carry_out_plan(plan, count, rule);
}

static void take_out(const uint64_t *rule)
{
    uint32_t plan[1], count, spot;
    uint32_t number = tcam_plan_delete(table, WORDS, WIDTH, TCAM_COUNTED, tcam_record_id(rule, WIDTH), plan, 1, &count, &spot);
    if (number != TCAM_OK)
        stop("delete", number, spot);
    printf("delete rule %" PRIu32 "\n", tcam_record_id(rule, WIDTH));
    carry_out_plan(plan, count, tcam_no_rule);
}

static int depends(const uint64_t *rule, const uint64_t *other)
{
    for (uint32_t index = 0; index < WIDTH; index++) {
        uint64_t both_care = tcam_record_mask(rule, WIDTH, index) & tcam_record_mask(other, WIDTH, index);
        if ((tcam_record_value(rule, WIDTH, index) ^ tcam_record_value(other, WIDTH, index)) & both_care)
            return 0; /* they do not overlap */
    }
    return tcam_record_rank(rule, WIDTH) < tcam_record_rank(other, WIDTH);
}

/* The slot's rule depends on one of these. */
static int depends_on_some(const uint64_t *rule, uint64_t rules[][RECORD_WORDS], size_t count)
{
    while (count > 0)
        if (depends(rule, rules[--count]))
            return 1;
    return 0;
}

/* Takes out every rule that depends on the first of these, directly or through others, and adds it to them. In a table in
 * order these come after what they depend on, but for the first one, so that one pass finds all. */
static size_t take_out_dependants(uint64_t rules[][RECORD_WORDS])
{
    size_t count = 1;
    for (uint32_t slot = 0; slot < SLOTS; slot++) {
        const uint64_t *record = tcam_slot_words(table, WORDS, WIDTH, slot);
        if (record != NULL && depends_on_some(record, rules, count)) {
            memcpy(rules[count], record, sizeof rules[count]);
            take_out(rules[count++]);
        }
    }
    return count;
}

static int by_falling_rank(const void *left, const void *right)
{
    uint32_t one = tcam_record_rank(left, WIDTH), other = tcam_record_rank(right, WIDTH);
    return (one < other) - (one > other);
}

int main(void)
{
    uint32_t plan[SLOTS], count, covered, spot;
    printf("at the start\n");
    print_replies(table, WORDS, frames, FRAMES);

    uint32_t number = tcam_plan_insert(table, WORDS, WIDTH, TCAM_COUNTED, web, RECORD_WORDS, TCAM_EDITION_13, plan, SLOTS,
                                       &count, &covered, &spot);
    print_refusal("insert of rule 23", number, spot);
    if (number != TCAM_CROSSED)
        return 1;

    uint64_t rules[SLOTS + 1][RECORD_WORDS];
    memcpy(rules[0], web, sizeof web);
    size_t taken = take_out_dependants(rules);
    qsort(rules, taken, sizeof rules[0], by_falling_rank); /* the new rule stays the first */
    for (size_t index = 0; index < taken; index++)
        put_in(rules[index]);

    printf("at the end\n");
    print_replies(table, WORDS, frames, FRAMES);
    return 0;
}
