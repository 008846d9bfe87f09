/* An operator's program that shows, for each slot, the rules that a move of its rule would meet: the nearest after it that depends on it
 * and the nearest before it that precedes it. It plans an insert with a neighbour list and carries the plan out with it, and the list is
 * up to date after each write. A delete is then made without the list: the next call with it tells so, and has put it right.
 * Build and run: examples/run */
#include "gateway.h"

static uint64_t table[] = {
    RULE(12, 200, KEY(10, 0, 7, 0, 0), KEY(255, 255, 255, 0, 0), 3),   /* subscriber 7: port 3 */
    RULE(15, 50, KEY(192, 168, 0, 0, 0), KEY(255, 255, 0, 0, 0), 6),   /* guests: port 6 */
    RULE(13, 150, KEY(10, 0, 0, 0, 443), KEY(255, 0, 0, 0, 65535), 5), /* the site's web frames: proxy */
    RULE(14, 100, KEY(10, 0, 9, 0, 0), KEY(255, 255, 255, 0, 0), 4),   /* subscriber 9: port 4 */
    EMPTY,
};
#define WORDS TCAM_WORDS(table)
#define SLOTS TCAM_TABLE_SLOTS(WIDTH, WORDS)

static uint16_t list[TCAM_LIST_NUMBERS(SLOTS)]; /* any numbers will do at the start */

static const uint64_t console[RECORD_WORDS] = {
    RULE(11, 300, KEY(10, 0, 7, 0, 22), KEY(255, 255, 255, 0, 65535), 9), /* the subscriber's console: drop */
};
static const uint64_t mail[RECORD_WORDS] = {
    RULE(16, 90, KEY(10, 0, 0, 0, 25), KEY(255, 0, 0, 0, 65535), 8), /* the site's mail: filter */
};

static void print_neighbour(const char *what, uint16_t slot)
{
    if (slot != TCAM_NONE)
        printf(", %s slot %" PRIu16, what, slot);
}

static void print_neighbours(uint32_t refreshed)
{
    printf(refreshed ? "    the list was not this table's, and is worked out afresh\n" : "    the list was up to date\n");
    for (uint32_t slot = 0; slot < SLOTS; slot++) {
        const uint64_t *record = tcam_slot_words(table, WORDS, WIDTH, slot);
        if (record == NULL)
            continue;
        printf("    slot %" PRIu32 ": rule %" PRIu32, slot, tcam_record_id(record, WIDTH));
        print_neighbour("before", list[2 * slot]);
        print_neighbour("after", list[2 * slot + 1]);
        printf("\n");
    }
}

static uint32_t plan_insert(const uint64_t *rule, uint32_t *plan)
{
    uint32_t count, covered, refreshed, spot;
    uint32_t number = tcam_plan_insert_listed(table, WORDS, WIDTH, TCAM_COUNTED, rule, RECORD_WORDS, TCAM_EDITION_13, list,
                                              TCAM_WORDS(list), plan, SLOTS, &count, &covered, &refreshed, &spot);
    if (number != TCAM_OK)
        stop("insert", number, spot);
    printf("insert rule %" PRIu32 ", planned\n", tcam_record_id(rule, WIDTH));
    print_neighbours(refreshed);
    return count;
}

static void carry_out(const uint64_t *rule, const uint32_t *plan, uint32_t count)
{
    tcam_progress progress = {0, count};
    uint32_t refreshed;
    uint64_t result;
    while ((result = tcam_carry_out_listed(table, WORDS, WIDTH, TCAM_COUNTED, rule, RECORD_WORDS, TCAM_EDITION_13, list,
                                           TCAM_WORDS(list), plan, count, &progress, &refreshed)) == TCAM_WROTE) {
        print_write(plan[progress.done - 1]);
        print_neighbours(refreshed);
    }
    if (result != TCAM_FINISHED)
        stop("carrying out", tcam_carry_number(result), tcam_carry_spot(result));
}

/* Without the list, which is then that of the table before. */
static void take_out(uint32_t id)
{
    uint32_t plan[1], count, spot;
    uint32_t number = tcam_plan_delete(table, WORDS, WIDTH, TCAM_COUNTED, id, plan, 1, &count, &spot);
    if (number != TCAM_OK)
        stop("delete", number, spot);
    tcam_progress progress = {0, count};
    uint64_t result = tcam_carry_out(table, WORDS, WIDTH, tcam_no_rule, RECORD_WORDS, TCAM_EDITION_13, plan, count, &progress);
    if (result != TCAM_WROTE)
        stop("carrying out", tcam_carry_number(result), tcam_carry_spot(result));
    printf("delete rule %" PRIu32 ", without the list\n", id);
}

int main(void)
{
    uint32_t plan[SLOTS];
    uint32_t count = plan_insert(console, plan);
    carry_out(console, plan, count);
    take_out(13);
    plan_insert(mail, plan); /* drawn, and not carried out */
    return 0;
}
