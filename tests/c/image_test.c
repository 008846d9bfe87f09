/*
 * Saves tables and loads images as firmware would, at each width, and checks every answer: first cases whose answers are written
 * here, then random tables, whose images and refusals come from a reference that goes byte by byte. Each image is
 * damaged one byte at a time: a load refuses it, or loads a sound table that saves back to the damaged bytes.
 *
 *     image_test [seed [tables]]
 */
#define _DEFAULT_SOURCE /* for mmap without a file */
#include "testing.h"

#define MOST_BYTES TCAM_IMAGE_BYTES(MOST_WIDTH, TCAM_MAX_SLOTS)

/* ---- The reference: byte by byte, in the words of the rules for images ---- */

/* A refusal's number and spot; or 0 and, for a save, the bytes. */
struct told {
    uint32_t number, spot, bytes;
};

#define SAVED(bytes) ((struct told){TCAM_OK, 0, (bytes)})
#define LOADED ((struct told){TCAM_OK, 0, 0})
#define REFUSED(number, spot) ((struct told){(number), (spot), 0})

/* Checks 1 to 4. */
static struct told ref_checks(const uint64_t *table, size_t words)
{
    struct told told = LOADED;
    told.number = table_fault(table, words, 4, &told.spot);
    return told;
}

static uint8_t *ref_put(uint8_t *at, int bytes, uint64_t number)
{
    for (int byte = bytes - 1; byte >= 0; byte--, number /= 256)
        at[byte] = (uint8_t)(number % 256);
    return at + bytes;
}

static uint64_t ref_get(const uint8_t *at, int bytes)
{
    uint64_t number = 0;
    while (bytes-- > 0)
        number = number * 256 + *at++;
    return number;
}

/* Bytes of a body: a word of a value and of a mask is 8 bytes each, rank and action 4 each. */
static uint32_t ref_body(void)
{
    return 8 * width + 8 * width + 4 + 4;
}

/* The image of a table, whatever is in it: how many bytes. */
static uint32_t ref_image(const uint64_t *table, uint32_t slots, uint8_t *image)
{
    uint32_t rules = 0, body = 0;
    for (uint32_t slot = 0; slot < slots; slot++)
        rules += !is_empty(table + SLOTS(slot));
    uint8_t *at = ref_put(ref_put(image, 2, slots), 2, rules);
    for (uint32_t slot = 0; slot < slots; slot++)
        if (!is_empty(table + SLOTS(slot))) {
            at = ref_put(at, 4, id_of(table + SLOTS(slot)));
            at = ref_put(at, 2, slot);
            at = ref_put(at, 4, 4 + 10 * rules + ref_body() * body++);
        }
    for (uint32_t slot = 0; slot < slots; slot++)
        if (!is_empty(table + SLOTS(slot))) {
            const uint64_t *record = table + SLOTS(slot);
            for (uint32_t word = 0; word < 2 * width; word++)
                at = ref_put(at, 8, record[word]);
            at = ref_put(at, 4, rank_of(record));
            at = ref_put(at, 4, tag_of(record) % 4294967296u);
        }
    return (uint32_t)(at - image);
}

static struct told ref_save(const uint64_t *table, size_t words, size_t room, uint8_t *image)
{
    struct told answer = ref_checks(table, words);
    if (answer.number != 0)
        return answer;
    uint32_t bytes = ref_image(table, slots_of(words), image);
    return room < bytes ? REFUSED(11, bytes) : SAVED(bytes);
}

/* The entries of an image of so many rules: 14 at the first wrong field, or 0. */
static struct told ref_entries(const uint8_t *image, uint32_t slots, uint32_t rules)
{
    uint32_t next = 0;
    for (uint32_t rule = 0; rule < rules; rule++) {
        uint32_t at = 4 + 10 * rule, slot = (uint32_t)ref_get(image + at + 4, 2);
        if (ref_get(image + at, 4) == 0)
            return REFUSED(14, at);
        if (slot >= slots || slot < next)
            return REFUSED(14, at + 4);
        if (ref_get(image + at + 6, 4) != 4 + 10 * rules + ref_body() * rule)
            return REFUSED(14, at + 6);
        next = slot + 1;
    }
    return LOADED;
}

/* Loads into `table`, which is all zero: what it holds counts where the answer is 0. */
static struct told ref_load(const uint8_t *image, size_t bytes, uint64_t *table, size_t words)
{
    uint32_t slots = slots_of(words);
    if (slots == 0)
        return REFUSED(1, 0);
    if (bytes < 4 || ref_get(image, 2) != slots)
        return REFUSED(14, 0);
    uint32_t rules = (uint32_t)ref_get(image + 2, 2);
    if (rules > slots || bytes != 4 + (10 + (size_t)ref_body()) * rules)
        return REFUSED(14, 2);
    struct told told = ref_entries(image, slots, rules);
    if (told.number != 0)
        return told;
    for (uint32_t rule = 0; rule < rules; rule++) {
        uint32_t at = 4 + 10 * rules + ref_body() * rule, end = at + 16 * width;
        uint64_t *record = table + SLOTS(ref_get(image + 4 + 10 * rule + 4, 2));
        for (uint32_t word = 0; word < 2 * width; word++)
            record[word] = ref_get(image + at + 8 * word, 8);
        record[2 * width] = ref_get(image + 4 + 10 * rule, 4) * 4294967296u + ref_get(image + end + 4, 4);
        record[2 * width + 1] = ref_get(image + end, 4);
        if (!is_sound(record))
            return REFUSED(14, at);
    }
    return ref_checks(table, words);
}

/* ---- Lent images and cells ---- */

/*
 * An image is a part of a larger buffer, at any address. The bytes before and behind it are marks, and so are the
 * image's own bytes before a save. The pages before and behind the buffer cannot be touched; `shift` moves the image.
 */
#define MARGIN 16

static struct pages image_pages;

static uint8_t mark_of(size_t index)
{
    return (uint8_t)(index * 167 + 13);
}

static uint8_t *lend_image(size_t bytes, unsigned shift)
{
    uint8_t *buffer = (uint8_t *)image_pages.start;
    for (size_t index = 0; index < bytes + 2 * MARGIN; index++)
        buffer[index] = mark_of(index);
    return buffer + shift % MARGIN;
}

/* The buffer's bytes are marks but for `bytes` of them at `image`. */
static void check_marks(const uint8_t *image, size_t bytes, size_t lent)
{
    const uint8_t *buffer = (const uint8_t *)image_pages.start;
    int stay = 1;
    for (size_t index = 0; index < lent + 2 * MARGIN; index++)
        if (buffer + index < image || buffer + index >= image + bytes)
            stay &= buffer[index] == mark_of(index);
    CHECK(stay);
}

enum { BYTES = 1, SPOT = 3, CELLS = 5 };

/* ---- One call, with all that it promises ---- */

static uint8_t wanted[MOST_BYTES];

/*
 * Saves from a lent copy into a lent buffer of `room` bytes. `want` bytes are in `wanted` where it succeeds. During the
 * call no word of the table can be written, and no byte of the buffer where the save is refused.
 */
static void call_save(const uint64_t *table, size_t words, size_t room, unsigned shift, struct told want)
{
    uint32_t cell[CELLS], before[CELLS];
    struct lent lent = lend(table, words, (int)(shift % 2));
    uint8_t *image = lend_image(room, shift);
    mark_cells(cell, before, CELLS);
    protect_table(0);
    protect_pages(&image_pages, want.number == TCAM_OK);
    uint32_t number = tcam_save(lent.table, words, width, uncounted, image, room, &cell[BYTES], &cell[SPOT]);
    protect_pages(&image_pages, 1);
    protect_table(1);
    CHECK(number == want.number);
    check_cell_guards(cell, before, CELLS);
    check_lent(&lent);
    if (want.number == TCAM_OK) {
        CHECK(cell[BYTES] == want.bytes);
        CHECK(cell[SPOT] == before[SPOT]);
        CHECK(memcmp(image, wanted, want.bytes) == 0);
        check_marks(image, want.bytes, room);
    } else {
        CHECK(cell[BYTES] == before[BYTES]);
        CHECK(cell[SPOT] == want.spot);
        check_marks(image, 0, room);
    }
}

static uint64_t scratch[ROOM(MOST_SLOTS)];

/*
 * Loads a lent copy of an image into a lent table with `stood` in it; `loaded` is the table where it succeeds. During
 * the call no byte of the image can be written, and no word of the table where the load is refused: so a load that
 * writes before it has checked ends the program, even if it puts back what stood there.
 */
static void call_load(const uint8_t *bytes, size_t count, const uint64_t *stood, size_t words, unsigned shift, struct told want,
                      const uint64_t *loaded)
{
    uint32_t cell[CELLS], before[CELLS];
    struct lent lent = lend(stood, words, (int)(shift % 2));
    uint8_t *image = lend_image(count, shift);
    memcpy(image, bytes, count);
    mark_cells(cell, before, CELLS);
    protect_pages(&image_pages, 0);
    protect_table(want.number == TCAM_OK);
    uint32_t number = tcam_load(image, count, lent.table, words, width, uncounted, &cell[SPOT]);
    protect_table(1);
    protect_pages(&image_pages, 1);
    CHECK(number == want.number);
    CHECK(cell[BYTES] == before[BYTES]);
    check_cell_guards(cell, before, CELLS);
    CHECK(memcmp(image, bytes, count) == 0);
    check_marks(image, count, count);
    CHECK(cell[SPOT] == (want.number == TCAM_OK ? before[SPOT] : want.spot));
    if (want.number == TCAM_OK)
        lent.original = loaded;
    check_lent(&lent);
}

/* What stands in a table that is loaded over: anything. */
static const uint64_t *rubbish(size_t words)
{
    static uint64_t table[ROOM(MOST_SLOTS)];
    for (size_t index = 0; index < words; index++)
        table[index] = index % 5 == 0 ? ALL : random_word() >> below(64);
    return table;
}

/* ---- Written cases: saving ---- */

static void save_case(int line, const uint64_t *table, size_t words, size_t room, struct told want)
{
    case_line = line;
    if (want.number == TCAM_OK)
        ref_image(table, slots_of(words), wanted);
    for (unsigned shift = 0; shift < 3; shift++)
        call_save(table, words, room, shift, want);
}

#define SAVE_CASE(table, words, room, want) save_case(__LINE__, (table), (words), (room), (want))

/* Three slots, a rule in the first and the last, of which the first and the last word are cared for. */
static uint64_t three_slots[ROOM(3)];

static void make_three_slots(void)
{
    struct rule first = {0x01020304, 300, {0x0A00000000000000u}, {0xFF00000000000000u}, 0xA1A2A3A4};
    struct rule last = {0x00000007, 299, {0}, {0}, 9};
    first.value[width - 1] = 0x0000000000000001u;
    first.mask[width - 1] = 0x0000000000000003u;
    last.mask[width - 1] = 0x8000000000000000u;
    memset(three_slots, 0, sizeof three_slots);
    set_record(three_slots, &first);
    set_record(three_slots + SLOTS(2), &last);
}

/* The bytes of its image as they must be, at each width. */
static const uint8_t image_of_two[] = {
    0x00, 0x03, 0x00, 0x02,
    0x01, 0x02, 0x03, 0x04, 0x00, 0x00, 0x00, 0x00, 0x00, 0x18,
    0x00, 0x00, 0x00, 0x07, 0x00, 0x02, 0x00, 0x00, 0x00, 0x40,
    0x0A, 0, 0, 0, 0, 0, 0, 0, 0, 0, 0, 0, 0, 0, 0, 0x01, 0xFF, 0, 0, 0, 0, 0, 0, 0, 0, 0, 0, 0, 0, 0, 0, 0x03,
    0x00, 0x00, 0x01, 0x2C, 0xA1, 0xA2, 0xA3, 0xA4,
    0, 0, 0, 0, 0, 0, 0, 0, 0, 0, 0, 0, 0, 0, 0, 0, 0, 0, 0, 0, 0, 0, 0, 0, 0x80, 0, 0, 0, 0, 0, 0, 0,
    0x00, 0x00, 0x01, 0x2B, 0x00, 0x00, 0x00, 0x09,
};
static const uint8_t image_of_five[] = {
    0x00, 0x03, 0x00, 0x02,
    0x01, 0x02, 0x03, 0x04, 0x00, 0x00, 0x00, 0x00, 0x00, 0x18,
    0x00, 0x00, 0x00, 0x07, 0x00, 0x02, 0x00, 0x00, 0x00, 0x70,
    0x0A, 0, 0, 0, 0, 0, 0, 0, 0, 0, 0, 0, 0, 0, 0, 0, 0, 0, 0, 0, 0, 0, 0, 0, 0, 0, 0, 0, 0, 0, 0, 0, 0, 0, 0, 0, 0, 0, 0, 0x01,
    0xFF, 0, 0, 0, 0, 0, 0, 0, 0, 0, 0, 0, 0, 0, 0, 0, 0, 0, 0, 0, 0, 0, 0, 0, 0, 0, 0, 0, 0, 0, 0, 0, 0, 0, 0, 0, 0, 0, 0, 0x03,
    0x00, 0x00, 0x01, 0x2C, 0xA1, 0xA2, 0xA3, 0xA4,
    0, 0, 0, 0, 0, 0, 0, 0, 0, 0, 0, 0, 0, 0, 0, 0, 0, 0, 0, 0, 0, 0, 0, 0, 0, 0, 0, 0, 0, 0, 0, 0, 0, 0, 0, 0, 0, 0, 0, 0,
    0, 0, 0, 0, 0, 0, 0, 0, 0, 0, 0, 0, 0, 0, 0, 0, 0, 0, 0, 0, 0, 0, 0, 0, 0, 0, 0, 0, 0, 0, 0, 0, 0x80, 0, 0, 0, 0, 0, 0, 0,
    0x00, 0x00, 0x01, 0x2B, 0x00, 0x00, 0x00, 0x09,
};

static const uint8_t *three_slots_image(void)
{
    return width == 2 ? image_of_two : image_of_five;
}

/* Bytes of an image of two rules, and of three. */
#define TWO (width == 2 ? 104u : 200u)
#define THREE (width == 2 ? 154u : 298u)

/* Id 5 stands twice, in slots 0 and 2; and rule 6 in slot 1 has a higher rank than rule 5 before it. */
static uint64_t twice_and_disordered[ROOM(3)];

static void make_twice_and_disordered(void)
{
    static const uint32_t id[] = {5, 6, 5}, priority[] = {10, 20, 5};
    for (uint32_t slot = 0; slot < 3; slot++) {
        struct rule rule = rule_of(id[slot], priority[slot], "", 1);
        set_record(twice_and_disordered + SLOTS(slot), &rule);
    }
}

static const uint64_t empty[ROOM(TCAM_MAX_SLOTS + 1)];

static void save_images(void)
{
    static const uint8_t empty_image[] = {0x00, 0x01, 0x00, 0x00}, widest_image[] = {0x04, 0x00, 0x00, 0x00};
    HERE;
    CHECK(ref_image(empty, 1, wanted) == 4 && memcmp(wanted, empty_image, 4) == 0);
    CHECK(ref_image(empty, 1024, wanted) == 4 && memcmp(wanted, widest_image, 4) == 0);
    CHECK(sizeof image_of_two == 104 && sizeof image_of_five == 200);
    CHECK(ref_image(three_slots, 3, wanted) == TWO);
    CHECK(memcmp(wanted, three_slots_image(), TWO) == 0);

    SAVE_CASE(empty, SLOTS(1), 4, SAVED(4));
    SAVE_CASE(empty, SLOTS(1), 500, SAVED(4));
    SAVE_CASE(empty, SLOTS(1024), 4, SAVED(4));
    SAVE_CASE(three_slots, SLOTS(3), TWO, SAVED(TWO));
    SAVE_CASE(three_slots, SLOTS(3), TWO + 1, SAVED(TWO));
}

/* 1: no slot, part of a slot, 1,025 slots; a short buffer comes later. */
static void save_lengths(void)
{
    SAVE_CASE(three_slots, 0, TWO, REFUSED(TCAM_SHAPE, 0));
    SAVE_CASE(three_slots, 5, TWO, REFUSED(TCAM_SHAPE, 0));
    SAVE_CASE(three_slots, SLOTS(1) / 2, TWO, REFUSED(TCAM_SHAPE, 0));
    SAVE_CASE(three_slots, SLOTS(3) - 1, 0, REFUSED(TCAM_SHAPE, 0));
    SAVE_CASE(empty, SLOTS(1025), TWO, REFUSED(TCAM_SHAPE, 0));

    /* 11: the bytes needed */
    SAVE_CASE(three_slots, SLOTS(3), TWO - 1, REFUSED(TCAM_SHORT, TWO));
    SAVE_CASE(three_slots, SLOTS(3), 0, REFUSED(TCAM_SHORT, TWO));
    SAVE_CASE(empty, SLOTS(1), 3, REFUSED(TCAM_SHORT, 4));
    SAVE_CASE(empty, SLOTS(1), 0, REFUSED(TCAM_SHORT, 4));
}

/* 2: id 0, a rank without a rule, a value bit outside the mask; the lowest slot. */
static void save_unsound(void)
{
    uint64_t table[ROOM(3)];
    memcpy(table, three_slots, sizeof table);
    table[SLOTS(2) + 2 * width] = 9;
    SAVE_CASE(table, SLOTS(3), TWO, REFUSED(TCAM_RECORD, 2));
    table[SLOTS(1) + 2 * width + 1] = 65536;
    SAVE_CASE(table, SLOTS(3), TWO, REFUSED(TCAM_RECORD, 1));
    table[width - 1] |= 4;
    SAVE_CASE(table, SLOTS(3), 0, REFUSED(TCAM_RECORD, 0));
}

/* 3: copies of one id are not compared by 4; then 4 before 11 */
static void save_disordered(void)
{
    uint64_t table[ROOM(3)], *const last = table + SLOTS(2);
    memcpy(table, three_slots, sizeof table);
    last[2 * width] = TCAM_ID_ACTION(0x01020304, 1);
    last[2 * width + 1] = 400;
    SAVE_CASE(table, SLOTS(3), TWO, REFUSED(TCAM_TWICE, 2));
    last[2 * width] = TCAM_ID_ACTION(8, 1);
    SAVE_CASE(table, SLOTS(3), 0, REFUSED(TCAM_ORDER, 2));
    last[2 * width + 1] = 300;
    SAVE_CASE(table, SLOTS(3), TWO, REFUSED(TCAM_ORDER, 2));
    last[2 * width + 1] = 299;
    SAVE_CASE(table, SLOTS(3), TWO, SAVED(TWO));

    /* 3 before 4, which alone would tell slot 1 */
    SAVE_CASE(twice_and_disordered, SLOTS(3), THREE, REFUSED(TCAM_TWICE, 2));
    SAVE_CASE(twice_and_disordered, SLOTS(3), 0, REFUSED(TCAM_TWICE, 2));
}

/* The tables of this width, for all cases. */
static void make_tables(void)
{
    make_three_slots();
    make_twice_and_disordered();
}

static void save_cases(void)
{
    save_images();
    save_lengths();
    save_unsound();
    save_disordered();
}

/* ---- Written cases: loading ---- */

static uint8_t image[TCAM_IMAGE_BYTES(MOST_WIDTH, 3)]; /* the image of three_slots, but for what a case changes */

static void load_case(int line, size_t bytes, size_t words, struct told want)
{
    case_line = line;
    memset(scratch, 0, sizeof scratch);
    struct told told = ref_load(image, bytes, scratch, words);
    CHECK(told.number == want.number && told.spot == want.spot);
    for (unsigned shift = 0; shift < 3; shift++)
        call_load(image, bytes, rubbish(words), words, shift, want, scratch);
    memcpy(image, three_slots_image(), TWO);
}

#define LOAD_CASE(bytes, words, want) load_case(__LINE__, (bytes), (words), (want))

/* A byte of the image and what stands there in a case. */
struct change {
    uint32_t at;
    uint8_t byte;
};

static void changed_case(int line, struct told want, const struct change *changes, size_t count)
{
    for (size_t index = 0; index < count; index++)
        image[changes[index].at] = changes[index].byte;
    load_case(line, TWO, SLOTS(3), want);
}

#define CHANGED(want, ...) \
    changed_case(__LINE__, want, (struct change[]){__VA_ARGS__}, sizeof((struct change[]){__VA_ARGS__}) / sizeof(struct change))
#define AT(spot) REFUSED(TCAM_IMAGE, spot)

/* Where the parts of body k begin. */
#define BODY(k) (24 + (width == 2 ? 40u : 88u) * (k))
#define MASK(k) (BODY(k) + 8 * width)
#define RANK(k) (BODY(k) + 16 * width)

/* SHAPE, whatever the image; then 14 at offsets 0 and 2: lengths, slots and the number of rules. */
static void load_lengths(void)
{
    LOAD_CASE(TWO, SLOTS(3), LOADED);
    CHECK(memcmp(scratch, three_slots, sizeof three_slots) == 0);
    LOAD_CASE(TWO, 0, REFUSED(TCAM_SHAPE, 0));
    LOAD_CASE(TWO, SLOTS(3) - 1, REFUSED(TCAM_SHAPE, 0));
    LOAD_CASE(0, SLOTS(3) + 1, REFUSED(TCAM_SHAPE, 0));
    LOAD_CASE(TWO, SLOTS(3) / 2, REFUSED(TCAM_SHAPE, 0));
    LOAD_CASE(TWO, SLOTS(1025), REFUSED(TCAM_SHAPE, 0));
    for (size_t bytes = 0; bytes < 4; bytes++)
        LOAD_CASE(bytes, SLOTS(3), AT(0));
    LOAD_CASE(TWO, SLOTS(2), AT(0));
    LOAD_CASE(TWO, SLOTS(4), AT(0));
    CHANGED(AT(0), {0, 1});
    CHANGED(AT(0), {1, 0});
    CHANGED(AT(2), {3, 4});
    CHANGED(AT(2), {2, 1});
    CHANGED(AT(2), {2, 255}, {3, 255});
    LOAD_CASE(TWO - 1, SLOTS(3), AT(2));
    LOAD_CASE(TWO + 1, SLOTS(3), AT(2));
    LOAD_CASE(4, SLOTS(3), AT(2));
    CHANGED(AT(2), {3, 1});
}

/* Each field of each entry of the contents, the first wrong one: id, slot, offset. */
static void load_contents(void)
{
    CHANGED(AT(4), {4, 0}, {5, 0}, {6, 0}, {7, 0});
    CHANGED(AT(8), {9, 3}, {17, 0});
    CHANGED(AT(8), {8, 1});
    CHANGED(AT(10), {13, 0x19});
    CHANGED(AT(10), {10, 1});
    CHANGED(AT(14), {17, 0});
    CHANGED(AT(18), {19, 3});
    CHANGED(AT(18), {19, 0});
    CHANGED(AT(18), {9, 2}, {19, 1});
    CHANGED(AT(20), {23, 0x3F}, {RANK(0) + 1, 1});
    CHANGED(AT(20), {23, width == 2 ? 0x70 : 0x40}); /* the offset that it would have at the other width */
}

/* Each body, at its start, for its value or its rank; then 3 and 4 of the table meant, where the spot is a slot. */
static void load_bodies(void)
{
    CHANGED(AT(BODY(0)), {BODY(0), 0x8A}, {MASK(0), 0x7F});
    CHANGED(AT(BODY(0)), {MASK(0) - 1, 4});
    CHANGED(AT(BODY(0)), {RANK(0) + 1, 1}, {RANK(1), 1});
    CHANGED(AT(BODY(1)), {RANK(1), 1});
    CHANGED(AT(BODY(1)), {BODY(1), 1});
    for (uint32_t byte = 0; byte < 8 * width; byte++) /* a bit of each byte, none of them cared for */
        CHANGED(AT(BODY(1)), {BODY(1) + byte, 0x40});
    CHANGED(REFUSED(TCAM_ORDER, 2), {RANK(1) + 2, 255}, {RANK(1) + 3, 255}, {RANK(1) - 8, 0});
    CHANGED(REFUSED(TCAM_TWICE, 2), {14, 1}, {15, 2}, {16, 3}, {17, 4});
    CHANGED(REFUSED(TCAM_TWICE, 1), {14, 1}, {15, 2}, {16, 3}, {17, 4}, {19, 1}, {RANK(1) + 2, 2});
    CHANGED(REFUSED(TCAM_ORDER, 2), {RANK(1) + 3, 0x2C});
    CHANGED(REFUSED(TCAM_ORDER, 1), {19, 1}, {RANK(1) + 3, 0x2C});
    CHANGED(LOADED, {19, 1});
}

/* Two faults, of which the first in the order of checks is told. */
static void load_two_faults(void)
{
    CHANGED(AT(0), {0, 1}, {2, 1});                                  /* slots and rules */
    CHANGED(AT(14), {14, 0}, {15, 0}, {16, 0}, {17, 0}, {19, 0});    /* id and slot */
    CHANGED(AT(18), {19, 0}, {23, 0x3F});                            /* slot and offset */
    CHANGED(AT(14), {14, 0}, {15, 0}, {16, 0}, {17, 0}, {23, 0x3F}); /* id and offset */

    /* 3 before 4, which alone would tell slot 1 */
    CHECK(ref_image(twice_and_disordered, 3, image) == THREE);
    LOAD_CASE(THREE, SLOTS(3), REFUSED(TCAM_TWICE, 2));
}

static void load_cases(void)
{
    memcpy(image, three_slots_image(), TWO);
    load_lengths();
    load_contents();
    load_bodies();
    load_two_faults();
}

/* ---- Written cases: widths ---- */

/* An image of the other width, for as many slots, is wrong in its number of rules, but for an image without rules. */
static void images_of_other_width(void)
{
    const uint8_t *other = width == 2 ? image_of_five : image_of_two;
    const size_t bytes = width == 2 ? sizeof image_of_five : sizeof image_of_two;
    static const uint8_t no_rules[] = {0x00, 0x03, 0x00, 0x00};
    HERE;
    call_load(other, bytes, rubbish(SLOTS(3)), SLOTS(3), 0, AT(2), NULL);
    call_load(other, bytes, rubbish(SLOTS(4)), SLOTS(4), 1, AT(0), NULL);
    call_load(no_rules, sizeof no_rules, rubbish(SLOTS(3)), SLOTS(3), 2, LOADED, empty);
}

/* Another width is SHAPE, before anything is said of the table, of the image or of the buffer; and nothing is written. */
static void other_widths(void)
{
    static const uint32_t others[] = {0, 1, 3, 4, 6, 7, 10, 65538, 65541, 0x80000002u, UINT32_MAX};
    static uint8_t buffer[TCAM_IMAGE_BYTES(MOST_WIDTH, 3)], before[sizeof buffer];
    uint64_t table[ROOM(3)];
    memset(buffer, 0xA5, sizeof buffer);
    memcpy(before, buffer, sizeof buffer);
    memcpy(table, three_slots, sizeof table);
    for (size_t index = 0; index < COUNT_OF(others); index++)
        for (size_t words = 0; words <= SLOTS(3); words++) {
            uint32_t bytes = 77, spot = 78;
            HERE;
            CHECK(tcam_save(table, words, others[index], uncounted, buffer, words % 2 ? sizeof buffer : 0, &bytes, &spot) ==
                  TCAM_SHAPE);
            CHECK(bytes == 77 && spot == 0 && memcmp(buffer, before, sizeof buffer) == 0);
            spot = 78;
            CHECK(tcam_load(three_slots_image(), words % 2 ? TWO : 3, table, words, others[index], uncounted, &spot) ==
                  TCAM_SHAPE);
            CHECK(spot == 0 && memcmp(table, three_slots, sizeof table) == 0);
        }
}

/* 1,024 rules: the longest image, and the bytes that the header tells of. */
static void longest_image(void)
{
    static uint64_t table[ROOM(TCAM_MAX_SLOTS)];
    const uint32_t bytes = width == 2 ? 51204 : 100356;
    for (uint32_t slot = 0; slot < 1024; slot++) {
        struct rule rule = rule_of(slot + 1, 60000 - slot, "", slot);
        set_record(table + SLOTS(slot), &rule);
    }
    SAVE_CASE(table, SLOTS(1024), bytes, SAVED(bytes));
    SAVE_CASE(table, SLOTS(1024), bytes - 1, REFUSED(TCAM_SHORT, bytes));
    HERE;
    ref_image(table, 1024, wanted);
    call_load(wanted, bytes, rubbish(SLOTS(1024)), SLOTS(1024), 1, LOADED, table);
    call_load(wanted, bytes - 1, rubbish(SLOTS(1024)), SLOTS(1024), 1, AT(2), NULL);
    call_load(wanted, bytes, rubbish(SLOTS(1025)), SLOTS(1025), 1, REFUSED(TCAM_SHAPE, 0), NULL);
}

/* ---- Written cases: ranks ---- */

/* The table's image is loaded; where it is not refused it loads back to the table. And the table is saved, or refused with 2. */
static void rank_case(int line, const uint64_t *table, struct told want)
{
    struct told saved = want.number != TCAM_IMAGE ? want : REFUSED(TCAM_RECORD, want.spot == BODY(0) ? 0 : 2);
    save_case(line, table, SLOTS(3), TWO, want.number == TCAM_OK ? SAVED(TWO) : saved);
    CHECK(ref_image(table, 3, image) == TWO);
    load_case(line, TWO, SLOTS(3), want);
    if (want.number == TCAM_OK)
        CHECK(memcmp(scratch, table, SLOTS(3) * sizeof *table) == 0);
}

#define RANK_CASE(table, want) rank_case(__LINE__, table, want)

/* Rank 65,536 where every bit of the width is cared for; with another mask, and any higher rank, the body is wrong at its start. */
static void exact_ranks(uint32_t slot)
{
    uint64_t table[ROOM(3)] = {0}, *const record = table + SLOTS(slot), *const mask = record + width;
    struct rule exact = rule_of(5, 65536, "", 1), other = rule_of(6, 65535, slot == 0 ? "" : "1", 2);
    const uint32_t body = slot == 0 ? 0 : 1;
    static const uint32_t wrong[] = {65537, 131072, 0x80010000u, UINT32_MAX};
    for (uint32_t word = 0; word < width; word++)
        exact.mask[word] = ALL;
    set_record(record, &exact);
    set_record(table + SLOTS(2 - slot), &other);
    RANK_CASE(table, LOADED);
    CHECK(memcmp(wanted + RANK(body), "\0\1\0\0", 4) == 0);
    for (uint32_t bit = 0; bit < 64 * width; bit++) {
        mask[bit / 64] ^= TOP >> bit % 64;
        RANK_CASE(table, AT(BODY(body)));
        mask[bit / 64] ^= TOP >> bit % 64;
    }
    for (size_t index = 0; index < COUNT_OF(wrong); index++) {
        record[2 * width + 1] = wrong[index];
        RANK_CASE(table, AT(BODY(body)));
    }
    record[2 * width + 1] = 7; /* as under 1.3; below the other rule it is out of order where it overlaps it */
    RANK_CASE(table, slot == 0 ? REFUSED(TCAM_ORDER, 2) : LOADED);
}

static void rank_cases(void)
{
    uint64_t table[ROOM(3)] = {0};
    exact_ranks(0);
    exact_ranks(2);
    for (uint32_t slot = 0; slot < 3; slot += 2) { /* two rules of rank 65,536 for one key */
        struct rule exact = rule_of(5 + slot, 65536, "", 1);
        for (uint32_t word = 0; word < width; word++)
            exact.mask[word] = ALL;
        set_record(table + SLOTS(slot), &exact);
    }
    RANK_CASE(table, REFUSED(TCAM_ORDER, 2));
    table[width - 1] = 1;
    RANK_CASE(table, LOADED);
}

/* ---- Written cases: tables without counters ---- */

/* [1/20 1* a7, 2/30 *1, empty]: with one action it is a table in order if uncounted; with two it is none. */
static void against_rank(uint32_t action)
{
    uint64_t table[ROOM(3)] = {0};
    const struct rule first = rule_of(1, 20, "1*", 7), second = rule_of(2, 30, "*1", action);
    const int in_order = uncounted != TCAM_COUNTED && action == 7;
    set_record(table, &first);
    set_record(table + SLOTS(1), &second);
    SAVE_CASE(table, SLOTS(3), TWO, in_order ? SAVED(TWO) : REFUSED(TCAM_ORDER, 1));
    SAVE_CASE(table, SLOTS(3), 0, in_order ? REFUSED(TCAM_SHORT, TWO) : REFUSED(TCAM_ORDER, 1));
    HERE;
    CHECK(ref_image(table, 3, image) == TWO); /* the flag does not stand in it */
    LOAD_CASE(TWO, SLOTS(3), in_order ? LOADED : REFUSED(TCAM_ORDER, 1));
    if (in_order)
        CHECK(memcmp(scratch, table, SLOTS(3) * sizeof *table) == 0);
}

static void uncounted_cases(void)
{
    against_rank(7);
    against_rank(8);
    for (size_t index = 0; index < COUNT_OF(uncounted_flags); index++) {
        uncounted = uncounted_flags[index];
        against_rank(7);
        for (uint32_t bit = 0; bit < 32; bit++)
            against_rank(7 ^ (uint32_t)1 << bit);
        SAVE_CASE(three_slots, SLOTS(3), TWO, SAVED(TWO)); /* in order for either */
        SAVE_CASE(twice_and_disordered, SLOTS(3), THREE, REFUSED(TCAM_TWICE, 2));
        memcpy(image, three_slots_image(), TWO);
        LOAD_CASE(TWO, SLOTS(3), LOADED);
    }
}

static void width_cases(void)
{
    images_of_other_width();
    other_widths();
    longest_image();
}

/* ---- Made tables ---- */

/* A sound table: of `rules` rules with ranks that fall from slot to slot, in slots at random; the first may be one without
 * wildcards that was given under 1.0. An uncounted one may have any ranks instead, and one action. */
static void make_table(uint64_t *table, uint32_t slots, uint32_t rules)
{
    uint32_t left = rules, rank = 65535;
    int exact = below(2) == 0, one_action = uncounted != TCAM_COUNTED && below(2) == 0;
    memset(table, 0, SLOTS(slots) * sizeof *table);
    for (uint32_t slot = 0; slot < slots; slot++) {
        if (below(slots - slot) >= left)
            continue;
        uint64_t *record = table + SLOTS(slot);
        for (uint32_t word = 0; word < width; word++) {
            record[width + word] = exact ? ALL : below(3) == 0 ? 0 : random_word() >> below(64);
            record[word] = random_word() & record[width + word];
        }
        record[2 * width] = TCAM_ID_ACTION(slot * 4194304 + 1 + below(4194304), one_action ? 7 : random_word());
        rank -= below(2) + (slot == 0 ? 0 : 1);
        if (one_action)
            rank = below(65536);
        record[2 * width + 1] = exact ? 65536 : rank;
        exact = 0;
        left--;
    }
}

/* A load of the image's bytes, as the reference has it; where it succeeds the table saves back to them. */
static int load_and_save(const uint8_t *bytes, size_t count, size_t words, unsigned shift)
{
    memset(scratch, 0, words * sizeof *scratch);
    struct told told = ref_load(bytes, count, scratch, words);
    call_load(bytes, count, rubbish(words), words, shift, told, scratch);
    if (told.number != TCAM_OK)
        return 0;
    CHECK(ref_checks(scratch, words).number == TCAM_OK);
    memcpy(wanted, bytes, count);
    call_save(scratch, words, count + below(3), shift, SAVED((uint32_t)count));
    return 1;
}

static unsigned long damaged_refused, damaged_loaded;

/* Every byte of the image, changed in several ways, one at a time. */
static void damage(const uint8_t *saved, size_t count, size_t words, size_t step)
{
    static uint8_t bytes[MOST_BYTES];
    memcpy(bytes, saved, count);
    for (size_t at = below((uint32_t)step); at < count; at += step) {
        uint8_t changes[] = {0, 1, 255, (uint8_t)(saved[at] + 1), (uint8_t)(saved[at] - 1), (uint8_t)(saved[at] ^ 1u << below(8))};
        for (size_t change = 0; change < sizeof changes; change++) {
            if (changes[change] == saved[at])
                continue;
            bytes[at] = changes[change];
            if (load_and_save(bytes, count, words, (unsigned)at))
                damaged_loaded++;
            else
                damaged_refused++;
        }
        bytes[at] = saved[at];
    }
}

static void made_table(uint32_t slots, uint32_t rules, size_t step)
{
    static uint64_t table[ROOM(TCAM_MAX_SLOTS)];
    static uint8_t saved[MOST_BYTES];
    size_t words = SLOTS(slots);
    make_table(table, slots, rules);
    struct told told = ref_save(table, words, MOST_BYTES, wanted);
    CHECK(told.number == TCAM_OK && told.bytes == TCAM_IMAGE_BYTES(width, rules));
    memcpy(saved, wanted, told.bytes);
    call_save(table, words, told.bytes, below(16), told);
    memcpy(wanted, saved, told.bytes);
    call_save(table, words, told.bytes + 1 + below(100), below(16), told);
    call_save(table, words, told.bytes - 1 - below(4), below(16), REFUSED(TCAM_SHORT, told.bytes));
    call_load(saved, told.bytes, rubbish(words), words, below(16), LOADED, table);
    CHECK(load_and_save(saved, told.bytes, words, below(16)));
    if (told.bytes > 4)
        CHECK(!load_and_save(saved, told.bytes - 1 - below(told.bytes - 4), words, below(16)));
    if (step != 0)
        damage(saved, told.bytes, words, step);
}

static unsigned long tables; /* at each width */

static void made_tables(void)
{
    case_line = 0;
    made_how = "made table";
    damaged_refused = damaged_loaded = 0;
    for (turn = 0; turn < tables; turn++) {
        uint32_t slots = 1 + below(turn % 4 == 0 ? 24 : 6);
        uncounted = turn % 8 < 4 ? TCAM_COUNTED : uncounted_flags[below(COUNT_OF(uncounted_flags))];
        made_table(slots, below(slots + 1), 1);
    }
    uncounted = TCAM_COUNTED;
    made_how = "large table";
    made_table(1024, 1024, 0);
    made_table(1024, 1, 5);
    made_table(1023, 40, 101);
    CHECK(damaged_refused > 0 && damaged_loaded > 0);
}

int main(int count, char **arguments)
{
    static void (*const cases[])(void) = {
        make_tables, save_cases, load_cases, width_cases, rank_cases, uncounted_cases, made_tables,
    };
    tables = begin(count, arguments, 40) / 2;
    open_pages(&image_pages, MOST_BYTES + 4 * MARGIN + 200);
    run_cases(cases, COUNT_OF(cases));
    return verdict("image_test");
}
