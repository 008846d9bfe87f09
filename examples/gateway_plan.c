/* The gateway's table while it is in use: a rule is put in, by a plan that first moves others out of its way, and a rule
 * is taken out. The library plans and makes one write per call, and frames are looked up between any two writes. Then
 * the table is saved, and loaded again. Build and run: examples/run */
#include <string.h>
#include "gateway.h"

static uint64_t table[] = {
    RULE(12, 200, KEY(10, 0, 7, 0, 0), KEY(255, 255, 255, 0, 0), 3),   /* subscriber 7: port 3 */
    RULE(15, 50, KEY(192, 168, 0, 0, 0), KEY(255, 255, 0, 0, 0), 6),   /* guests: port 6 */
    RULE(13, 150, KEY(10, 0, 0, 0, 443), KEY(255, 0, 0, 0, 65535), 5), /* the site's web frames: proxy */
    RULE(14, 100, KEY(10, 0, 9, 0, 0), KEY(255, 255, 255, 0, 0), 4),   /* subscriber 9: port 4 */
    EMPTY,
};
#define WORDS TCAM_WORDS(table)
#define SLOTS TCAM_TABLE_SLOTS(WIDTH, WORDS)

/* the new rule comes before subscriber 7's, and so has to stand in a lower slot */
static const uint64_t console[RECORD_WORDS] = {
    RULE(11, 300, KEY(10, 0, 7, 0, 22), KEY(255, 255, 255, 0, 65535), 9), /* the subscriber's console: drop */
};

static struct frame frames[] = {
    {"10.0.7.40:22", {KEY(10, 0, 7, 40, 22)}, 0, 0}, {"10.0.7.40:443", {KEY(10, 0, 7, 40, 443)}, 0, 0},
    {"10.0.9.1:443", {KEY(10, 0, 9, 1, 443)}, 0, 0}, {"10.0.9.1:80", {KEY(10, 0, 9, 1, 80)}, 0, 0},
    {"192.168.0.1:80", {KEY(192, 168, 0, 1, 80)}, 0, 0}, {"172.16.0.1:80", {KEY(172, 16, 0, 1, 80)}, 0, 0},
};
#define FRAMES (sizeof frames / sizeof frames[0])

/* The table is saved, lost, and loaded again. */
static void restart(void)
{
    static uint8_t image[TCAM_IMAGE_BYTES(WIDTH, SLOTS)];
    uint32_t bytes, spot;
    uint32_t number = tcam_save(table, WORDS, WIDTH, TCAM_COUNTED, image, sizeof image, &bytes, &spot);
    if (number != TCAM_OK) {
        print_image_refusal("save", number, spot);
        exit(1);
    }
    printf("saved, %" PRIu32 " bytes\n", bytes);
    memset(table, 0, sizeof table);
    number = tcam_load(image, bytes, table, WORDS, WIDTH, TCAM_COUNTED, &spot);
    if (number != TCAM_OK) {
        print_image_refusal("load", number, spot);
        exit(1);
    }
    printf("loaded\n");
    print_changes(table, WORDS, frames, FRAMES);

    number = tcam_load(image, bytes - 1, table, WORDS, WIDTH, TCAM_COUNTED, &spot);
    print_image_refusal("load of a byte less", number, spot);
}

int main(void)
{
    uint32_t plan[SLOTS], count, covered, spot; /* as many words as slots always do */

    printf("at the start\n");
    print_replies(table, WORDS, frames, FRAMES);

    uint32_t number = tcam_plan_insert(table, WORDS, WIDTH, TCAM_COUNTED, console, RECORD_WORDS, TCAM_EDITION_13, plan, SLOTS,
                                       &count, &covered, &spot);
    if (number != TCAM_OK)
        stop("insert", number, spot);
    printf("insert rule 11, %" PRIu32 " writes\n", count);
    carry_out_and_tell(table, WORDS, plan, count, console, TCAM_EDITION_13, frames, FRAMES);

    number = tcam_plan_delete(table, WORDS, WIDTH, TCAM_COUNTED, 15, plan, SLOTS, &count, &spot);
    if (number != TCAM_OK)
        stop("delete", number, spot);
    printf("delete rule 15, %" PRIu32 " write\n", count);
    carry_out_and_tell(table, WORDS, plan, count, tcam_no_rule, TCAM_EDITION_13, frames, FRAMES); /* a delete puts no rule in */
    restart();
    return 0;
}
