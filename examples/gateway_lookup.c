/* A small gateway table in the firmware's memory: looks up frames by their destination, as a line card would.
 * Build and run: examples/run */
#include "gateway.h"

static const uint64_t table[] = {
    RULE(11, 300, KEY(10, 0, 7, 0, 22), KEY(255, 255, 255, 0, 65535), 9),  /* the subscriber's console: drop */
    RULE(12, 200, KEY(10, 0, 7, 0, 0), KEY(255, 255, 255, 0, 0), 3),       /* subscriber 7: port 3 */
    EMPTY,
    RULE(13, 200, KEY(10, 0, 9, 0, 0), KEY(255, 255, 255, 0, 0), 4),       /* subscriber 9: port 4 */
    RULE(14, 100, KEY(10, 0, 0, 0, 0), KEY(255, 0, 0, 0, 0), 1),           /* the rest of the site: uplink */
};

static void show(const char *frame, uint64_t first_word)
{
    const uint64_t key[WIDTH] = {first_word, 0};
    uint32_t slot, id, action, spot;
    uint32_t number = tcam_lookup(table, TCAM_WORDS(table), WIDTH, key, TCAM_WORDS(key), &slot, &id, &action, &spot);
    if (number != TCAM_OK)
        stop("lookup", number, spot);
    if (id == 0)
        printf("%-18s miss\n", frame);
    else
        printf("%-18s slot %" PRIu32 ", rule %" PRIu32 ", action %" PRIu32 "\n", frame, slot, id, action);
}

int main(void)
{
    show("10.0.7.40:22", KEY(10, 0, 7, 40, 22));
    show("10.0.7.40:443", KEY(10, 0, 7, 40, 443));
    show("10.0.9.1:80", KEY(10, 0, 9, 1, 80));
    show("10.3.0.1:80", KEY(10, 3, 0, 1, 80));
    show("192.168.0.1:80", KEY(192, 168, 0, 1, 80));
    for (uint32_t slot = 0; slot < TCAM_TABLE_SLOTS(WIDTH, TCAM_WORDS(table)); slot++) {
        const uint64_t *record = tcam_slot_words(table, TCAM_WORDS(table), WIDTH, slot);
        if (record == NULL)
            printf("slot %" PRIu32 ": empty\n", slot);
        else
            printf("slot %" PRIu32 ": rule %" PRIu32 ", rank %" PRIu32 "\n", slot, tcam_record_id(record, WIDTH),
                   tcam_record_rank(record, WIDTH));
    }
    return 0;
}
