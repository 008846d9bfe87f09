/* An operator puts a rule in that a broader one of higher priority covers. The insert succeeds, and tells the slot of that rule: while
 * it stands, no frame meets the new one. Its id is read before the plan is carried out, since a plan may move rules to other slots.
 * Once the broader rule is deleted, frames meet the new one. Build and run: examples/run */
#include "gateway.h"

static uint64_t table[] = {
    EMPTY,
    RULE(51, 300, KEY(10, 0, 0, 0, 0), KEY(255, 255, 0, 0, 0), 9),   /* maintenance: drop every subscriber's frames */
    RULE(52, 100, KEY(10, 0, 7, 0, 0), KEY(255, 255, 255, 0, 0), 3), /* subscriber 7: port 3 */
};
#define WORDS TCAM_WORDS(table)
#define SLOTS TCAM_TABLE_SLOTS(WIDTH, WORDS)

/* a narrower rule of a priority between the two */
static const uint64_t web[RECORD_WORDS] = {
    RULE(53, 200, KEY(10, 0, 7, 0, 443), KEY(255, 255, 255, 0, 65535), 5), /* subscriber 7's web frames: proxy */
};

static struct frame frames[] = {
    {"10.0.7.40:443", {KEY(10, 0, 7, 40, 443)}, 0, 0},
    {"10.0.7.40:22", {KEY(10, 0, 7, 40, 22)}, 0, 0},
};
#define FRAMES (sizeof frames / sizeof frames[0])

/* Puts a rule in, and gives the id of the rule that covers it, or 0 where none does. */
static uint32_t put_in(const uint64_t *rule)
{
    uint32_t plan[SLOTS], count, covered, spot, covering = 0;
    uint32_t number = tcam_plan_insert(table, WORDS, WIDTH, TCAM_COUNTED, rule, RECORD_WORDS, TCAM_EDITION_13, plan, SLOTS,
                                       &count, &covered, &spot);
    if (number != TCAM_OK)
        stop("insert", number, spot);
    printf("insert rule %" PRIu32 "\n", tcam_record_id(rule, WIDTH));
    if (covered != TCAM_NONE) {
        covering = tcam_record_id(tcam_slot_words(table, WORDS, WIDTH, covered), WIDTH);
        printf("no frame will meet it while rule %" PRIu32 ", now in slot %" PRIu32 ", stands\n", covering, covered);
    }
    carry_out_and_tell(table, WORDS, plan, count, rule, TCAM_EDITION_13, frames, FRAMES);
    return covering;
}

int main(void)
{
    printf("at the start\n");
    print_replies(table, WORDS, frames, FRAMES);
    uint32_t covering = put_in(web);
    if (covering != 0)
        take_out_and_tell(table, WORDS, covering, frames, FRAMES);
    return 0;
}
