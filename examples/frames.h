/* What the examples share at any width: frames that are looked up, and what is printed of them, of writes and of refusals.
 * Before it is included, WIDTH is defined as the width of the example's table. */
#ifndef FRAMES_H
#define FRAMES_H

#include <inttypes.h>
#include <stdio.h>
#include <stdlib.h>
#include "tcam.h"

#define RECORD_WORDS TCAM_RECORD_WORDS(WIDTH)

/* a frame, its key, and the reply that it had when it was last looked up: id and action, with id 0 for a miss */
struct frame {
    const char *name;
    uint64_t key[WIDTH];
    uint32_t id, action;
};

/* A refusal, and one of saving or loading, whose spots are bytes. */
static inline void print_refusal(const char *call, uint32_t number, uint32_t spot)
{
    char text[TCAM_SPOT_TEXT];
    printf("%s refused: %s %s\n", call, tcam_cause_name(number), tcam_spot_text(number, spot, text));
}

static inline void print_image_refusal(const char *call, uint32_t number, uint32_t spot)
{
    char text[TCAM_SPOT_TEXT];
    printf("%s refused: %s %s\n", call, tcam_cause_name(number), tcam_image_spot_text(number, spot, text));
}

static inline void stop(const char *call, uint32_t number, uint32_t spot)
{
    print_refusal(call, number, spot);
    exit(1);
}

static inline void print_frame(const struct frame *frame)
{
    if (frame->id == 0)
        printf("    %-18s miss\n", frame->name);
    else
        printf("    %-18s rule %" PRIu32 ", action %" PRIu32 "\n", frame->name, frame->id, frame->action);
}

/* Looks a frame up. The result is 1 where its reply is another than before. */
static inline int look_up(const uint64_t *table, size_t words, struct frame *frame)
{
    struct frame before = *frame;
    uint32_t slot, spot;
    uint32_t number =
        tcam_lookup(table, words, WIDTH, frame->key, TCAM_WORDS(frame->key), &slot, &frame->id, &frame->action, &spot);
    if (number != TCAM_OK)
        stop("lookup", number, spot);
    return frame->id != before.id || frame->action != before.action;
}

/* Looks all frames up and tells which have another reply than before. */
static inline void print_changes(const uint64_t *table, size_t words, struct frame *frames, size_t count)
{
    int changes = 0;
    for (size_t index = 0; index < count; index++) {
        if (look_up(table, words, &frames[index])) {
            changes = 1;
            print_frame(&frames[index]);
        }
    }
    if (!changes)
        printf("    all replies stay\n");
}

/* Looks all frames up and tells each reply. */
static inline void print_replies(const uint64_t *table, size_t words, struct frame *frames, size_t count)
{
    for (size_t index = 0; index < count; index++) {
        look_up(table, words, &frames[index]);
        print_frame(&frames[index]);
    }
}

static inline void print_write(uint32_t word)
{
    uint32_t from = tcam_write_from(word), to = tcam_write_to(word);
    if (from == TCAM_PUT)
        printf("new rule -> slot %" PRIu32 "\n", to);
    else if (from == TCAM_EMPTY)
        printf("empty slot %" PRIu32 "\n", to);
    else
        printf("slot %" PRIu32 " -> slot %" PRIu32 "\n", from, to);
}

/* Carries a plan out, write by write, and tells after each which frames have another reply than before. */
static inline void carry_out_and_tell(uint64_t *table, size_t words, const uint32_t *plan, uint32_t count, const uint64_t *rule,
                                      uint32_t edition, struct frame *frames, size_t frame_count)
{
    tcam_progress progress = {0, count};
    uint64_t result;
    while ((result = tcam_carry_out(table, words, WIDTH, rule, RECORD_WORDS, edition, plan, count, &progress)) == TCAM_WROTE) {
        print_write(plan[progress.done - 1]);
        print_changes(table, words, frames, frame_count);
    }
    if (result != TCAM_FINISHED)
        stop("carrying out", tcam_carry_number(result), tcam_carry_spot(result));
}

/* Takes a rule out of a counted table, and tells which frames have another reply then. A delete puts no rule in. */
static inline void take_out_and_tell(uint64_t *table, size_t words, uint32_t id, struct frame *frames, size_t frame_count)
{
    uint32_t plan[1], count, spot;
    uint32_t number = tcam_plan_delete(table, words, WIDTH, TCAM_COUNTED, id, plan, 1, &count, &spot);
    if (number != TCAM_OK)
        stop("delete", number, spot);
    printf("delete rule %" PRIu32 "\n", id);
    carry_out_and_tell(table, words, plan, count, tcam_no_rule, TCAM_EDITION_13, frames, frame_count);
}

#endif
