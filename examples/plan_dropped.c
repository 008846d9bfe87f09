/* A plan that is dropped half-way, and the two ways to go on: with the plan, its rule and edition and its progress record, which
 * were kept; or without them, by emptying the slot where a rule stands twice and planning anew. Build and run: examples/run */
#include <string.h>
#include "gateway.h"

static const uint64_t start[] = {
    RULE(12, 200, KEY(10, 0, 7, 0, 0), KEY(255, 255, 255, 0, 0), 3),   /* subscriber 7: port 3 */
    RULE(15, 50, KEY(192, 168, 0, 0, 0), KEY(255, 255, 0, 0, 0), 6),   /* guests: port 6 */
    RULE(13, 150, KEY(10, 0, 0, 0, 443), KEY(255, 0, 0, 0, 65535), 5), /* the site's web frames: proxy */
    RULE(14, 100, KEY(10, 0, 9, 0, 0), KEY(255, 255, 255, 0, 0), 4),   /* subscriber 9: port 4 */
    EMPTY,
};
#define WORDS TCAM_WORDS(start)
#define SLOTS TCAM_TABLE_SLOTS(WIDTH, WORDS)
static uint64_t table[WORDS];

static const uint64_t console[RECORD_WORDS] = {
    RULE(11, 300, KEY(10, 0, 7, 0, 22), KEY(255, 255, 255, 0, 65535), 9), /* the subscriber's console: drop */
};

static struct frame frames[] = {
    {"10.0.7.40:22", {KEY(10, 0, 7, 40, 22)}, 0, 0}, {"10.0.9.1:443", {KEY(10, 0, 9, 1, 443)}, 0, 0},
    {"192.168.0.1:80", {KEY(192, 168, 0, 1, 80)}, 0, 0}, {"172.16.0.1:80", {KEY(172, 16, 0, 1, 80)}, 0, 0},
};
#define FRAMES (sizeof frames / sizeof frames[0])

static uint32_t plan_insert(uint32_t *plan, uint32_t *count, uint32_t *spot)
{
    uint32_t covered;
    return tcam_plan_insert(table, WORDS, WIDTH, TCAM_COUNTED, console, RECORD_WORDS, TCAM_EDITION_13, plan, SLOTS, count,
                            &covered, spot);
}

/* Makes writes of the plan, as many as are told or to its end, and tells which replies that changed. */
static void carry_out(const uint32_t *plan, tcam_progress *progress, uint32_t writes)
{
    uint64_t result = TCAM_WROTE;
    while (writes-- > 0 && result == TCAM_WROTE)
        result = tcam_carry_out(table, WORDS, WIDTH, console, RECORD_WORDS, TCAM_EDITION_13, plan, progress->total, progress);
    if (result != TCAM_WROTE && result != TCAM_FINISHED)
        stop("carrying out", tcam_carry_number(result), tcam_carry_spot(result));
    printf("%" PRIu32 " of %" PRIu32 " writes made\n", progress->done, progress->total);
    print_changes(table, WORDS, frames, FRAMES);
}

/* Plans the insert on the table as it was at the start, and makes all writes but the last. */
static tcam_progress drop_half_way(uint32_t *plan)
{
    uint32_t count, spot;
    memcpy(table, start, sizeof table);
    for (size_t index = 0; index < FRAMES; index++)
        look_up(table, WORDS, &frames[index]);
    uint32_t number = plan_insert(plan, &count, &spot);
    if (number != TCAM_OK)
        stop("insert", number, spot);
    tcam_progress progress = {0, count};
    carry_out(plan, &progress, count - 1);
    return progress;
}

/* The plan and its progress record are lost. Where planning the same insert again is declined since a rule stands twice, the
 * slot named has the later of its two copies: it is emptied, by a plan of one write, and no key gets another reply by that. */
static uint32_t plan_anew(uint32_t *plan)
{
    uint32_t number, count, spot;
    while ((number = plan_insert(plan, &count, &spot)) == TCAM_TWICE) {
        uint32_t empty[1] = {tcam_write_word(TCAM_EMPTY, spot)};
        tcam_progress progress = {0, 1};
        print_refusal("insert", number, spot);
        printf("empty slot %" PRIu32 ": ", spot);
        carry_out(empty, &progress, 1);
    }
    if (number == TCAM_KNOWN) /* the last write had been made, and nothing is left to do */
        return 0;
    if (number != TCAM_OK)
        stop("insert", number, spot);
    return count;
}

int main(void)
{
    uint32_t plan[SLOTS], bytes, spot;
    uint8_t image[TCAM_IMAGE_BYTES(WIDTH, SLOTS)];

    printf("the plan is kept: ");
    tcam_progress progress = drop_half_way(plan);
    uint32_t number = tcam_save(table, WORDS, WIDTH, TCAM_COUNTED, image, sizeof image, &bytes, &spot);
    if (number != TCAM_OK)
        print_image_refusal("save", number, spot);
    printf("carried on: ");
    carry_out(plan, &progress, progress.total);

    printf("the plan is lost: ");
    drop_half_way(plan);
    progress.done = 0;
    progress.total = plan_anew(plan);
    printf("planned anew: ");
    carry_out(plan, &progress, progress.total);
    return 0;
}
