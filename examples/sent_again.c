/* The gateway's controller sends a rule again, with another action: the match and the priority of a rule present, and a new id.
 * As OpenFlow has it, the new rule replaces that one. The plan is one write, even though the table is full, and the old rule
 * counts as deleted. Build and run: examples/run */
#include "gateway.h"

static uint64_t table[] = {
    RULE(11, 300, KEY(10, 0, 7, 0, 22), KEY(255, 255, 255, 0, 65535), 9), /* the console of subscriber 7: drop */
    RULE(12, 200, KEY(10, 0, 7, 0, 0), KEY(255, 255, 255, 0, 0), 3),      /* subscriber 7: port 3 */
    RULE(13, 200, KEY(10, 0, 9, 0, 0), KEY(255, 255, 255, 0, 0), 4),      /* subscriber 9: port 4 */
};
#define WORDS TCAM_WORDS(table)
#define SLOTS TCAM_TABLE_SLOTS(WIDTH, WORDS)

/* subscriber 7 has moved to port 6 */
static const uint64_t moved[RECORD_WORDS] = {RULE(16, 200, KEY(10, 0, 7, 0, 0), KEY(255, 255, 255, 0, 0), 6)};
/* only its web frames: this is another match, at the priority of a rule that it overlaps */
static const uint64_t web[RECORD_WORDS] = {RULE(17, 200, KEY(10, 0, 7, 0, 443), KEY(255, 255, 255, 0, 65535), 6)};

static struct frame frames[] = {
    {"10.0.7.40:22", {KEY(10, 0, 7, 40, 22)}, 0, 0},
    {"10.0.7.40:443", {KEY(10, 0, 7, 40, 443)}, 0, 0},
    {"10.0.9.1:80", {KEY(10, 0, 9, 1, 80)}, 0, 0},
};
#define FRAMES (sizeof frames / sizeof frames[0])

int main(void)
{
    uint32_t plan[SLOTS], count, covered, spot;

    printf("at the start\n");
    print_replies(table, WORDS, frames, FRAMES);

    uint32_t number = tcam_plan_insert(table, WORDS, WIDTH, TCAM_COUNTED, web, RECORD_WORDS, TCAM_EDITION_13, plan, SLOTS,
                                       &count, &covered, &spot);
    print_refusal("insert of rule 17", number, spot);

    number = tcam_plan_insert(table, WORDS, WIDTH, TCAM_COUNTED, moved, RECORD_WORDS, TCAM_EDITION_13, plan, SLOTS, &count,
                              &covered, &spot);
    if (number != TCAM_OK)
        stop("insert", number, spot);
    printf("insert rule 16, %" PRIu32 " write\n", count);
    carry_out_and_tell(table, WORDS, plan, count, moved, TCAM_EDITION_13, frames, FRAMES);

    if (tcam_plan_delete(table, WORDS, WIDTH, TCAM_COUNTED, 12, plan, SLOTS, &count, &spot) == TCAM_UNKNOWN)
        printf("rule 12 is gone\n");
    return 0;
}
