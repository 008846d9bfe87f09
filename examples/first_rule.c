/* Puts a rule into a table of four slots, for the keys whose two highest bits are 1, and looks two keys up.
 * Every answer of the three calls is handled. Build and run: examples/run */
#include <inttypes.h>
#include <stdio.h>
#include "tcam.h"

#define WIDTH TCAM_WIDTH_128                        /* keys of 128 bits, two words */
#define EDITION TCAM_EDITION_13                     /* rules of OpenFlow 1.3: the higher priority wins */
static uint64_t table[TCAM_TABLE_WORDS(WIDTH, 4)];  /* zeros: every slot is empty */
static const uint64_t bits[WIDTH] = {UINT64_C(0xC000000000000000), 0}, no_bits[WIDTH] = {0, 0};

static int refused(const char *call, uint32_t number, uint32_t spot)
{
    char text[TCAM_SPOT_TEXT];
    printf("%s refused: %s %s\n", call, tcam_cause_name(number), tcam_spot_text(number, spot, text));
    return 1;
}

static int look_up(const uint64_t *key)
{
    uint32_t slot, id, action, spot;
    uint32_t number = tcam_lookup(table, TCAM_WORDS(table), WIDTH, key, WIDTH, &slot, &id, &action, &spot);
    if (number != TCAM_OK)
        return refused("lookup", number, spot);
    if (id == 0)
        printf("miss\n");
    else
        printf("slot %" PRIu32 ", rule %" PRIu32 ", action %" PRIu32 "\n", slot, id, action);
    return 0;
}

int main(void)
{
    uint64_t rule[TCAM_RECORD_WORDS(WIDTH)];
    tcam_make_record(rule, WIDTH, 1, 30, bits, bits, 7); /* id, priority, value, mask, action */

    uint32_t plan[4], count, covered, spot; /* a plan has at most as many words as the table has slots */
    uint32_t number = tcam_plan_insert(table, TCAM_WORDS(table), WIDTH, TCAM_COUNTED, rule, TCAM_WORDS(rule), EDITION, plan,
                                       TCAM_WORDS(plan), &count, &covered, &spot);
    if (number != TCAM_OK)
        return refused("insert", number, spot);
    if (covered != TCAM_NONE)
        printf("no key gets to this rule while the one that is now in slot %" PRIu32 " stands\n", covered);

    tcam_progress progress = {0, count};
    uint64_t result;
    while ((result = tcam_carry_out(table, TCAM_WORDS(table), WIDTH, rule, TCAM_WORDS(rule), EDITION, plan, count, &progress)) ==
           TCAM_WROTE)
        ; /* look up as many frames as you like here */
    if (result != TCAM_FINISHED)
        return refused("carrying out", tcam_carry_number(result), tcam_carry_spot(result));

    return look_up(bits) || look_up(no_bits);
}
