/* IPv6 rules in a table of keys of 320 bits: rules that overlap are put in, and one is taken out, with packets looked up between
 * any two writes. Build and run: examples/run
 *
 * The fields of a packet have 296 of the 320 bits of its key, and so have those of a rule in its value and its mask:
 *
 *     word 0   source address, upper 64 bits
 *     word 1   source address, lower 64 bits
 *     word 2   destination address, upper 64 bits
 *     word 3   destination address, lower 64 bits
 *     word 4   source port (bits 63 to 48), destination port (47 to 32), protocol (31 to 24); bits 23 to 0 are 0
 */
#define WIDTH TCAM_WIDTH_320
#include "frames.h"

#define SLOTS 6
static uint64_t table[TCAM_TABLE_WORDS(WIDTH, SLOTS)]; /* zeros: every slot is empty */
#define WORDS TCAM_WORDS(table)

struct fields {
    uint64_t source[2], destination[2];
    uint16_t source_port, destination_port;
    uint8_t protocol;
};

/* 2001:db8:SUBSCRIBER:NETWORK::HOST, and another address */
#define ADDRESS(subscriber, network, host) \
    {UINT64_C(0x20010DB800000000) | (uint64_t)(subscriber) << 16 | (uint64_t)(network), (host)}
#define ELSEWHERE {UINT64_C(0x20010DB900000000), 1}
#define ANY {0, 0}
#define TCP 6
#define UDP 17

/* a rule as it is configured: addresses by their prefixes; port 0 and protocol 0 are any */
struct entry {
    uint32_t id, priority;
    struct fields fields;
    unsigned source_prefix, destination_prefix;
    uint32_t action;
};

static const struct entry entries[] = {
    {31, 200, {ANY, ADDRESS(7, 0, 0), 0, 22, TCP}, 0, 48, 9},               /* ssh to subscriber 7: drop */
    {32, 50, {ANY, ADDRESS(0, 0, 0), 0, 0, 0}, 0, 32, 1},                   /* to all subscribers: uplink */
    {33, 100, {ANY, ADDRESS(7, 0, 0), 0, 0, 0}, 0, 48, 3},                  /* to subscriber 7: port 3 */
    {34, 300, {ADDRESS(1, 2, 0), ADDRESS(7, 0, 0), 0, 22, TCP}, 64, 48, 3}, /* ssh to subscriber 7 from operators: port 3 */
};

static const struct fields packets[] = {
    {ADDRESS(1, 2, 5), ADDRESS(7, 0, 40), 50000, 22, TCP},
    {ADDRESS(9, 0, 1), ADDRESS(7, 0, 40), 50001, 22, TCP},
    {ADDRESS(9, 0, 1), ADDRESS(7, 0, 40), 50002, 443, TCP},
    {ADDRESS(7, 0, 40), ADDRESS(9, 0, 1), 5353, 53, UDP},
    {ADDRESS(7, 0, 40), ELSEWHERE, 5353, 53, UDP},
};
#define PACKETS (sizeof packets / sizeof packets[0])
static struct frame frames[PACKETS] = {
    {"ssh from operator", {0}, 0, 0}, {"ssh to 7", {0}, 0, 0}, {"https to 7", {0}, 0, 0}, {"dns to 9", {0}, 0, 0},
    {"dns elsewhere", {0}, 0, 0},
};

/* The words of a key, a value or a mask. */
static void set_words(uint64_t *words, const struct fields *fields)
{
    words[0] = fields->source[0];
    words[1] = fields->source[1];
    words[2] = fields->destination[0];
    words[3] = fields->destination[1];
    words[4] = (uint64_t)fields->source_port << 48 | (uint64_t)fields->destination_port << 32 | (uint64_t)fields->protocol << 24;
}

static uint64_t upper_bits(unsigned count)
{
    return count == 0 ? 0 : UINT64_MAX << (64 - count);
}

/* The mask of a prefix of 0 to 128 bits. */
static void set_prefix(uint64_t *mask, unsigned length)
{
    mask[0] = upper_bits(length < 64 ? length : 64);
    mask[1] = upper_bits(length < 64 ? 0 : length - 64);
}

static void make_rule(uint64_t *record, const struct entry *entry)
{
    struct fields cared_for = {ANY, ANY, 0, 0, 0};
    uint64_t value[WIDTH], mask[WIDTH];
    set_prefix(cared_for.source, entry->source_prefix);
    set_prefix(cared_for.destination, entry->destination_prefix);
    cared_for.source_port = entry->fields.source_port == 0 ? 0 : UINT16_MAX;
    cared_for.destination_port = entry->fields.destination_port == 0 ? 0 : UINT16_MAX;
    cared_for.protocol = entry->fields.protocol == 0 ? 0 : UINT8_MAX;
    set_words(value, &entry->fields);
    set_words(mask, &cared_for);
    tcam_make_record(record, WIDTH, entry->id, entry->priority, value, mask, entry->action);
}

static void put_in(const struct entry *entry)
{
    uint64_t rule[RECORD_WORDS];
    uint32_t plan[SLOTS], count, covered, spot; /* as many words as slots always do */
    make_rule(rule, entry);
    uint32_t number = tcam_plan_insert(table, WORDS, WIDTH, TCAM_COUNTED, rule, RECORD_WORDS, TCAM_EDITION_13, plan, SLOTS,
                                       &count, &covered, &spot);
    if (number != TCAM_OK)
        stop("insert", number, spot);
    printf("insert rule %" PRIu32 ", %" PRIu32 " %s\n", entry->id, count, count == 1 ? "write" : "writes");
    carry_out_and_tell(table, WORDS, plan, count, rule, TCAM_EDITION_13, frames, PACKETS);
}

int main(void)
{
    for (size_t index = 0; index < PACKETS; index++)
        set_words(frames[index].key, &packets[index]);
    for (size_t index = 0; index < sizeof entries / sizeof entries[0]; index++)
        put_in(&entries[index]);
    take_out_and_tell(table, WORDS, 31, frames, PACKETS);
    printf("at the end\n");
    print_replies(table, WORDS, frames, PACKETS);
    return 0;
}
