/* The gateway's uplink counts nothing for its rules and sees their actions alone: its table is named as uncounted, so that rules of
 * one action are not ordered. An insert takes fewer writes than in a counted table, and one is planned that a counted table
 * declines. Frames are looked up at each write: the rule told may be another, the action stays. Build and run: examples/run */
#include "gateway.h"

static uint64_t table[] = {
    EMPTY,
    RULE(21, 400, KEY(10, 0, 7, 0, 0), KEY(255, 255, 255, 0, 0), 3),     /* subscriber 7: port 3 */
    RULE(22, 300, KEY(10, 0, 0, 0, 443), KEY(255, 255, 0, 0, 65535), 3), /* web frames of all subscribers: port 3 too */
};
#define WORDS TCAM_WORDS(table)
#define SLOTS TCAM_TABLE_SLOTS(WIDTH, WORDS)

/* subscriber 9, below the rule for web frames: drop */
static const uint64_t drop[RECORD_WORDS] = {RULE(23, 200, KEY(10, 0, 9, 0, 0), KEY(255, 255, 255, 0, 0), 9)};
/* mail of subscriber 7, at the priority of the rule that it overlaps: port 3 */
static const uint64_t mail[RECORD_WORDS] = {RULE(24, 400, KEY(10, 0, 7, 0, 25), KEY(255, 255, 255, 0, 65535), 3)};

static struct frame frames[] = {
    {"10.0.7.40:443", {KEY(10, 0, 7, 40, 443)}, 0, 0},
    {"10.0.9.1:443", {KEY(10, 0, 9, 1, 443)}, 0, 0},
    {"10.0.9.1:80", {KEY(10, 0, 9, 1, 80)}, 0, 0},
};
#define FRAMES (sizeof frames / sizeof frames[0])

/* The plan of an insert into the table as it is named, and what it takes; 0 words where it is declined. */
static uint32_t plan_insert(const char *named, uint32_t flag, const uint64_t *rule, uint32_t *plan)
{
    uint32_t count = 0, covered, spot;
    uint32_t number = tcam_plan_insert(table, WORDS, WIDTH, flag, rule, RECORD_WORDS, TCAM_EDITION_13, plan, SLOTS, &count,
                                       &covered, &spot);
    printf("insert of rule %" PRIu32 ", ", tcam_record_id(rule, WIDTH));
    if (number == TCAM_OK)
        printf("%s: %" PRIu32 " write%s\n", named, count, count == 1 ? "" : "s");
    else
        print_refusal(named, number, spot);
    return count;
}

int main(void)
{
    uint32_t plan[SLOTS], bytes, spot;
    uint8_t image[TCAM_IMAGE_BYTES(WIDTH, SLOTS)];

    printf("at the start\n");
    print_replies(table, WORDS, frames, FRAMES);

    plan_insert("counted", TCAM_COUNTED, mail, plan);
    plan_insert("counted", TCAM_COUNTED, drop, plan);
    plan_insert("uncounted", TCAM_UNCOUNTED, mail, plan);
    uint32_t count = plan_insert("uncounted", TCAM_UNCOUNTED, drop, plan);
    carry_out_and_tell(table, WORDS, plan, count, drop, TCAM_EDITION_13, frames, FRAMES);

    /* from the first uncounted plan on the table is named as uncounted, and so are its images */
    uint32_t number = tcam_save(table, WORDS, WIDTH, TCAM_COUNTED, image, sizeof image, &bytes, &spot);
    print_image_refusal("save as a counted table", number, spot);
    number = tcam_save(table, WORDS, WIDTH, TCAM_UNCOUNTED, image, sizeof image, &bytes, &spot);
    if (number == TCAM_OK)
        number = tcam_load(image, bytes, table, WORDS, WIDTH, TCAM_UNCOUNTED, &spot);
    if (number != TCAM_OK)
        stop("save or load", number, spot);
    printf("saved and loaded, %" PRIu32 " bytes\n", bytes);
    print_changes(table, WORDS, frames, FRAMES);
    return 0;
}
