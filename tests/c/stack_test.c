/*
 * Measures how much stack each call takes at 1,024 slots of each width, counted and uncounted, and checks that it is no more than
 * tcam.h says. A call runs on a stack of its own, painted beforehand; what it has used is what is no longer paint. Compiled without
 * sanitizers: some calls call C's memory functions, as tcam.h says, and a sanitizer's take more stack than C's.
 *
 *     stack_test [-v]    -v prints the measures
 */
#define _DEFAULT_SOURCE /* for mmap without a file */
#include "tcam.h"

#include <stdio.h>
#include <string.h>
#include <sys/mman.h>

#define SLOTS 1024
#define MOST_WORDS TCAM_TABLE_WORDS(TCAM_WIDTH_320, SLOTS)
#define STACK_BYTES ((size_t)1 << 20)

/* What tcam.h says, at each width. */
static const struct limits {
    uint32_t width;
    size_t lookup, slot_record, plan_delete, carry_out;
    size_t plan_insert; /* or, where that is more, */
    size_t chain;       /* and */
    size_t write;       /* for each word of the plan */
    size_t save, load;
    size_t plan_listed, chain_listed, carry_listed; /* with a list: as plan_insert and chain, with the same for each word */
} limits[] = {
    {TCAM_WIDTH_128, 288, 128, 24640, 336, 31008, 10848, 96, 24704, 74112, 31056, 10896, 24400},
    {TCAM_WIDTH_320, 288, 128, 24640, 336, 31008, 10848, 96, 24704, 123264, 31056, 10896, 24400},
};
static const struct limits *limit;

/* What tcam.h said while width 2 was the only one: at that width a call takes at most a twentieth more, or, where that is less than a
 * frame, 160 bytes: a lookup and a step hold words and addresses for both widths. */
static const struct limits once = {TCAM_WIDTH_128, 128, 128, 24064, 192, 30336, 10752, 96, 24064, 73216, 0, 0, 0};

static size_t grown(size_t bytes)
{
    return bytes + (bytes / 20 < 160 ? 160 : bytes / 20);
}

#ifdef __SANITIZE_ADDRESS__
#error "the stack is measured without sanitizers"
#endif

static uint64_t table[MOST_WORDS];
static uint64_t rule[TCAM_RECORD_WORDS(TCAM_WIDTH_320)];
static uint32_t plan[SLOTS];
static uint16_t list[TCAM_LIST_NUMBERS(SLOTS)];
static uint8_t image[TCAM_IMAGE_BYTES(TCAM_WIDTH_320, SLOTS)];
static const uint64_t key[TCAM_WIDTH_320] = {1, 2, 3, 4, 5};
static size_t words, rule_words, room;
static uint32_t width, uncounted;

static const uint32_t edition = TCAM_EDITION_10; /* under which a rule's mask is looked at for its rank */

static tcam_progress progress;

static unsigned char *stack;
static uint64_t carried;
static uint32_t result, first, slot, id, action, count, covered, refreshed, bytes_saved, spot;
static unsigned char *top; /* the stack of the function that calls */

/* Each runs on the painted stack. What it uses counts from its own frame, with the arguments that it pushes. */
#define ON_OWN_STACK __attribute__((noinline)) static void

ON_OWN_STACK run_lookup(void)
{
    top = __builtin_frame_address(0);
    result = tcam_lookup(table, words, width, key, width, &slot, &id, &action, &spot);
}

ON_OWN_STACK run_slot_record(void)
{
    top = __builtin_frame_address(0);
    result = tcam_slot_record(table, words, width, 1000, &first);
}

ON_OWN_STACK run_plan_insert(void)
{
    top = __builtin_frame_address(0);
    result = tcam_plan_insert(table, words, width, uncounted, rule, rule_words, edition, plan, room, &count, &covered, &spot);
}

ON_OWN_STACK run_plan_listed(void)
{
    top = __builtin_frame_address(0);
    result = tcam_plan_insert_listed(table, words, width, uncounted, rule, rule_words, edition, list, TCAM_WORDS(list), plan, room,
                                     &count, &covered, &refreshed, &spot);
}

ON_OWN_STACK run_plan_delete(void)
{
    top = __builtin_frame_address(0);
    result = tcam_plan_delete(table, words, width, uncounted, 1000, plan, SLOTS, &count, &spot);
}

ON_OWN_STACK run_carry_out(void)
{
    top = __builtin_frame_address(0);
    carried = tcam_carry_out(table, words, width, rule, rule_words, edition, plan, room, &progress);
}

ON_OWN_STACK run_carry_listed(void)
{
    top = __builtin_frame_address(0);
    carried = tcam_carry_out_listed(table, words, width, uncounted, rule, rule_words, edition, list, TCAM_WORDS(list), plan, room,
                                    &progress, &refreshed);
}

ON_OWN_STACK run_save(void)
{
    top = __builtin_frame_address(0);
    result = tcam_save(table, words, width, uncounted, image, sizeof image, &bytes_saved, &spot);
}

ON_OWN_STACK run_load(void)
{
    top = __builtin_frame_address(0);
    result = tcam_load(image, bytes_saved, table, words, width, uncounted, &spot);
}

/* Calls a function with the stack pointer at the end of the painted stack. */
static void run_on_stack(void (*run)(void))
{
    __asm__ volatile("movq %%rsp, %%rbx\n\tmovq %0, %%rsp\n\tcall *%1\n\tmovq %%rbx, %%rsp"
                     :
                     : "r"(stack + STACK_BYTES), "r"(run)
                     : "rax", "rbx", "rcx", "rdx", "rsi", "rdi", "r8", "r9", "r10", "r11", "xmm0", "xmm1", "xmm2", "xmm3",
                       "xmm4", "xmm5", "xmm6", "xmm7", "xmm8", "xmm9", "xmm10", "xmm11", "xmm12", "xmm13", "xmm14", "xmm15",
                       "cc", "memory");
}

/* The bytes that the call used of a stack of this paint. */
static size_t used_of(void (*run)(void), unsigned char paint)
{
    size_t low = 0;
    memset(stack, paint, STACK_BYTES);
    run_on_stack(run);
    while (low < STACK_BYTES && stack[low] == paint)
        low++;
    return (size_t)(top - (stack + low));
}

/*
 * The bytes that the call used: the most of two paints, since a byte may happen to have the paint's value. The table and
 * the progress record are the same for both. A call before them finds C's functions, so that the loader's stack is not counted.
 */
static size_t used(void (*run)(void))
{
    static const unsigned char paints[] = {0, 0xA5, 0x3C};
    static uint64_t made[MOST_WORDS];
    const tcam_progress start = progress;
    size_t most = 0;
    memcpy(made, table, sizeof table);
    for (int round = 0; round < 3; round++) {
        memcpy(table, made, sizeof table);
        progress = start;
        size_t bytes = used_of(run, paints[round]);
        if (round > 0 && bytes > most)
            most = bytes;
    }
    return most;
}

static unsigned long checks, failures;
static int told;

/* The call answered as it should, and took no more than that. */
static void check(int answered, const char *what, size_t bytes, size_t most)
{
    checks++;
    if (told)
        printf("width %u, flag %u, %-50s %6zu bytes, at most %zu\n", (unsigned)width, (unsigned)uncounted, what, bytes, most);
    if (answered && bytes <= most)
        return;
    failures++;
    fprintf(stderr, "stack_test: width %u, flag %u, %s: result %u, count %u, %zu bytes of stack, at most %zu wanted\n",
            (unsigned)width, (unsigned)uncounted, what, (unsigned)result, (unsigned)count, bytes, most);
}

/* A rule that matches every key; rules of different priorities have different actions, so that they are ordered with either flag. */
static void make_rule(uint64_t *record, uint32_t rule_id, uint32_t priority)
{
    static const uint64_t none[TCAM_WIDTH_320];
    tcam_make_record(record, width, rule_id, priority, none, none, priority);
}

/* Every rule depends on all before it, and one slot is empty. */
static void make_chain(uint32_t hole)
{
    memset(table, 0, sizeof table);
    for (uint32_t at = 0; at < SLOTS; at++)
        if (at != hole)
            make_rule(table + TCAM_TABLE_WORDS(width, at), at + 1, 60000 - 2 * at);
}

/* A planned insert without a list, and with one. */
static void try_insert(const char *what, uint32_t hole, uint32_t priority, uint32_t want_count)
{
    char with_list[80];
    make_chain(hole);
    make_rule(rule, 5000, priority);
    room = SLOTS;
    size_t bytes = used(run_plan_insert), most = limit->chain + limit->write * want_count;
    check(result == TCAM_OK && count == want_count, what, bytes, most < limit->plan_insert ? limit->plan_insert : most);
    bytes = used(run_plan_listed), most = limit->chain_listed + limit->write * want_count;
    snprintf(with_list, sizeof with_list, "%s, listed", what);
    check(result == TCAM_OK && count == want_count, with_list, bytes, most < limit->plan_listed ? limit->plan_listed : most);
}

/* One step of a plan of one word, where that write is next, without a list and with one. */
static void try_carry(const char *what, uint32_t word, uint32_t priority, uint64_t want)
{
    make_chain(1023);
    make_rule(rule, 5000, priority);
    plan[0] = word;
    room = 1;
    progress = (tcam_progress){0, 1};
    char with_list[80];
    size_t bytes = used(run_carry_out);
    check(carried == want, what, bytes, limit->carry_out);
    make_chain(1023);
    progress = (tcam_progress){0, 1};
    bytes = used(run_carry_listed);
    snprintf(with_list, sizeof with_list, "%s, listed", what);
    check(carried == want, with_list, bytes, limit->carry_listed);
}

static void measure_lookups(void)
{
    size_t bytes = used(run_lookup);
    check(result == TCAM_OK, "tcam_lookup", bytes, limit->lookup);
    bytes = used(run_slot_record);
    check(result == TCAM_RECORD_WORDS(width), "tcam_slot_record", bytes, limit->slot_record);
}

static void measure_plans(void)
{
    size_t bytes = used(run_plan_delete);
    check(result == TCAM_OK && count == 1, "tcam_plan_delete", bytes, limit->plan_delete);
    try_insert("tcam_plan_insert, 1 write", 1023, 1, 1);
    try_insert("tcam_plan_insert, a rule sent again", 1023, 57956, 1);
    try_insert("tcam_plan_insert, 2 writes", 1023, 57957, 2);
    try_insert("tcam_plan_insert, 3 writes", 1023, 57959, 3);
    try_insert("tcam_plan_insert, 204 writes", 1023, 58361, 204); /* the longest plan that takes no more than one of 1 write */
    try_insert("tcam_plan_insert, 512 writes", 1023, 58977, 512);
    try_insert("tcam_plan_insert, 1,024 writes toward higher slots", 1023, 60001, 1024);
    try_insert("tcam_plan_insert, 1,024 writes toward lower slots", 0, 1, 1024);

    /* a plan that does not fit is not walked: the buffer bounds the stack */
    room = 1023;
    bytes = used(run_plan_insert);
    check(result == TCAM_SHORT && spot == 1024, "tcam_plan_insert, one word short", bytes, limit->plan_insert);
    bytes = used(run_plan_listed);
    check(result == TCAM_SHORT && spot == 1024, "tcam_plan_insert, one word short, listed", bytes, limit->plan_listed);
}

static void measure_writes(void)
{
    try_carry("tcam_carry_out, a copy", 1022u * 65536 + 1023, 1, TCAM_WROTE);
    try_carry("tcam_carry_out, a put-in", 65535u * 65536 + 1023, 1, TCAM_WROTE);
    try_carry("tcam_carry_out, a put-in over an equal rule", 65535u * 65536 + 1022, 57956, TCAM_WROTE);
    try_carry("tcam_carry_out, an emptying", 65534u * 65536 + 1022, 1, TCAM_WROTE);
    try_carry("tcam_carry_out, no fit", 65535u * 65536 + 1022, 1, TCAM_WRITE);
}

static void measure_images(void)
{
    make_chain(5);
    size_t bytes = used(run_save);
    check(result == TCAM_OK && bytes_saved == TCAM_IMAGE_BYTES(width, 1023), "tcam_save", bytes, limit->save);
    bytes = used(run_load);
    check(result == TCAM_OK, "tcam_load", bytes, limit->load);
}

/* No limit at width 2 is more than it may be. */
static void compare_limits(const struct limits *now)
{
    const struct {
        const char *what;
        size_t bytes, once;
    } of_call[] = {
        {"limit of tcam_lookup", now->lookup, once.lookup},
        {"limit of tcam_slot_record", now->slot_record, once.slot_record},
        {"limit of tcam_plan_delete", now->plan_delete, once.plan_delete},
        {"limit of tcam_carry_out", now->carry_out, once.carry_out},
        {"limit of tcam_plan_insert, short plans", now->plan_insert, once.plan_insert},
        {"limit of tcam_plan_insert, 1,024 writes", now->chain + SLOTS * now->write, once.chain + SLOTS * once.write},
        {"limit of tcam_save", now->save, once.save},
        {"limit of tcam_load", now->load, once.load},
    };
    for (size_t index = 0; index < sizeof of_call / sizeof of_call[0]; index++)
        check(1, of_call[index].what, of_call[index].bytes, grown(of_call[index].once));
}

/* Each call at the width of these limits, on a table of this flag. */
static void measure(const struct limits *at_width, uint32_t flag)
{
    limit = at_width;
    width = limit->width;
    uncounted = flag;
    words = TCAM_TABLE_WORDS(width, SLOTS);
    rule_words = TCAM_RECORD_WORDS(width);
    make_chain(1023);
    measure_lookups();
    measure_plans();
    measure_writes();
    measure_images();
    if (width == once.width)
        compare_limits(limit);
}

int main(int argument_count, char **arguments)
{
    size_t page = 4096;
    told = argument_count > 1 && strcmp(arguments[1], "-v") == 0;
    char *mapped = mmap(NULL, STACK_BYTES + page, PROT_NONE, MAP_PRIVATE | MAP_ANONYMOUS, -1, 0);
    if (mapped == MAP_FAILED || mprotect(mapped + page, STACK_BYTES, PROT_READ | PROT_WRITE) != 0) {
        perror("stack_test: pages");
        return 1;
    }
    stack = (unsigned char *)mapped + page;

    for (size_t index = 0; index < sizeof limits / sizeof limits[0]; index++) {
        measure(&limits[index], TCAM_COUNTED);
        measure(&limits[index], TCAM_UNCOUNTED);
    }

    if (failures != 0) {
        fprintf(stderr, "stack_test: %lu of %lu checks failed\n", failures, checks);
        return 1;
    }
    printf("stack_test: %lu checks passed\n", checks);
    return 0;
}
