/* A gateway whose controller speaks OpenFlow 1.0, and after an upgrade 1.3. In 1.0 an entry without wildcards stands above all
 * that have them, whatever their priorities; from 1.1 on the priority alone counts. The upgrade writes nothing: the rules
 * present keep their rank, and a later one gets its rank by the new edition. Build and run: examples/run */
#include "gateway.h"

#define SLOTS 4
static uint64_t table[TCAM_TABLE_WORDS(WIDTH, SLOTS)]; /* zeros: every slot is empty */
#define WORDS TCAM_WORDS(table)

/* a rule without wildcards, for one key: all 128 bits are cared for */
#define EXACT_RULE(id, priority, value, action) (value), 0, UINT64_MAX, UINT64_MAX, TCAM_ID_ACTION(id, action), (priority)

static const uint64_t subscriber[RECORD_WORDS] = {
    RULE(42, 65535, KEY(10, 0, 7, 0, 0), KEY(255, 255, 255, 0, 0), 3), /* subscriber 7: port 3 */
};
static const uint64_t console[RECORD_WORDS] = {EXACT_RULE(41, 7, KEY(10, 0, 7, 40, 22), 9)}; /* a host's console: drop */
static const uint64_t web[RECORD_WORDS] = {EXACT_RULE(43, 7, KEY(10, 0, 7, 40, 443), 5)};    /* its web frames: proxy */

static struct frame frames[] = {
    {"10.0.7.40:22", {KEY(10, 0, 7, 40, 22)}, 0, 0}, {"10.0.7.40:443", {KEY(10, 0, 7, 40, 443)}, 0, 0},
    {"10.0.7.41:22", {KEY(10, 0, 7, 41, 22)}, 0, 0},
};
#define FRAMES (sizeof frames / sizeof frames[0])

static void put_in(const uint64_t *rule, uint32_t edition)
{
    uint32_t plan[SLOTS], count, covered, spot;
    uint32_t number = tcam_plan_insert(table, WORDS, WIDTH, TCAM_COUNTED, rule, RECORD_WORDS, edition, plan, SLOTS,
                                       &count, &covered, &spot);
    if (number != TCAM_OK)
        stop("insert", number, spot);
    printf("insert rule %" PRIu32 ", priority %" PRIu32 "\n", tcam_record_id(rule, WIDTH), tcam_record_priority(rule, WIDTH));
    carry_out_and_tell(table, WORDS, plan, count, rule, edition, frames, FRAMES); /* with the edition that it was planned with */
}

static void print_ranks(void)
{
    for (uint32_t slot = 0; slot < SLOTS; slot++) {
        const uint64_t *record = tcam_slot_words(table, WORDS, WIDTH, slot);
        if (record != NULL)
            printf("slot %" PRIu32 ": rule %" PRIu32 ", rank %" PRIu32 "\n", slot, tcam_record_id(record, WIDTH),
                   tcam_record_rank(record, WIDTH));
    }
}

int main(void)
{
    printf("OpenFlow 1.0\n");
    put_in(subscriber, TCAM_EDITION_10);
    put_in(console, TCAM_EDITION_10);
    printf("OpenFlow 1.3\n");
    print_changes(table, WORDS, frames, FRAMES);
    put_in(web, TCAM_EDITION_13);
    print_ranks();
    return 0;
}
