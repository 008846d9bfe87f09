/* Saving a table as an image and loading an image in C: entries of ten bytes, bodies of 16 a word and 8, big-endian.
   A load builds the table meant apart, checks it there, and then copies it. */
#include "checks.h"

enum { BODY = 16 * WIDTH + 8 };

static void put_16(uint8_t *at, size_t number)
{
    uint16_t bytes = __builtin_bswap16((uint16_t)number);
    memcpy(at, &bytes, sizeof bytes);
}

static void put_32(uint8_t *at, uint64_t number)
{
    uint32_t bytes = __builtin_bswap32((uint32_t)number);
    memcpy(at, &bytes, sizeof bytes);
}

static void put_64(uint8_t *at, uint64_t number)
{
    uint64_t bytes = __builtin_bswap64(number);
    memcpy(at, &bytes, sizeof bytes);
}

static uint16_t number_16(const uint8_t *at)
{
    uint16_t bytes;
    memcpy(&bytes, at, sizeof bytes);
    return __builtin_bswap16(bytes);
}

static uint32_t number_32(const uint8_t *at)
{
    uint32_t bytes;
    memcpy(&bytes, at, sizeof bytes);
    return __builtin_bswap32(bytes);
}

static uint64_t number_64(const uint8_t *at)
{
    uint64_t bytes;
    memcpy(&bytes, at, sizeof bytes);
    return __builtin_bswap64(bytes);
}

static void put_body(uint8_t *body, const uint64_t *record)
{
    for (size_t word = 0; word < 2 * WIDTH; word++)
        put_64(body + 8 * word, record[word]);
    put_32(body + 16 * WIDTH, record[RANK]);
    put_32(body + 16 * WIDTH + 4, record[OWNER]);
}

static void put_rules(const uint64_t *table, size_t slots, size_t rules, uint8_t *image)
{
    size_t entry = 4, body = 4 + 10 * rules;
    for (size_t slot = 0; slot < slots; slot++) {
        const uint64_t *record = table + slot * WORDS;
        if (id_of(record) == 0)
            continue;
        put_32(image + entry, id_of(record));
        put_16(image + entry + 4, slot);
        put_32(image + entry + 6, body);
        put_body(image + body, record);
        entry += 10;
        body += BODY;
    }
}

uint32_t CALL(save)(const uint64_t *table, size_t words, uint32_t uncounted, uint8_t *image, size_t image_bytes, uint32_t *bytes,
                    uint32_t *spot)
{
    size_t slots = words / WORDS, rules = 0;
    check sound = check_table(table, words, uncounted != 0);
    if (sound.number != OK) {
        *spot = sound.spot;
        return sound.number;
    }
    for (size_t slot = 0; slot < slots; slot++)
        rules += id_of(table + slot * WORDS) != 0;
    if (image_bytes < 4 + (10 + BODY) * rules) {
        *spot = (uint32_t)(4 + (10 + BODY) * rules);
        return SHORT;
    }
    put_16(image, slots);
    put_16(image + 2, rules);
    put_rules(table, slots, rules, image);
    *bytes = (uint32_t)(4 + (10 + BODY) * rules);
    return OK;
}

/* The image's length and head, for a table of so many slots. */
static check check_head(const uint8_t *image, size_t image_bytes, size_t slots)
{
    if (image_bytes < 4 || number_16(image) != slots)
        return fail(IMAGE, 0);
    size_t rules = number_16(image + 2);
    return rules > slots || image_bytes != 4 + (10 + BODY) * rules ? fail(IMAGE, 2) : pass();
}

static check check_entries(const uint8_t *image, size_t slots, size_t rules)
{
    size_t lowest = 0, body = 4 + 10 * rules;
    for (size_t entry = 4; entry < 4 + 10 * rules; entry += 10) {
        size_t slot = number_16(image + entry + 4);
        if (number_32(image + entry) == 0)
            return fail(IMAGE, entry);
        if (slot < lowest || slot >= slots)
            return fail(IMAGE, entry + 4);
        if (number_32(image + entry + 6) != body)
            return fail(IMAGE, entry + 6);
        lowest = slot + 1;
        body += BODY;
    }
    return pass();
}

/* The records that the bodies mean, each sound, into their slots. */
static check fill(const uint8_t *image, size_t rules, uint64_t *table)
{
    const uint8_t *entry = image + 4, *body = image + 4 + 10 * rules;
    for (size_t place = 0; place < rules; place++, entry += 10, body += BODY) {
        uint64_t *record = table + number_16(entry + 4) * WORDS;
        uint64_t last = number_64(body + 16 * WIDTH);
        for (size_t word = 0; word < 2 * WIDTH; word++)
            record[word] = number_64(body + 8 * word);
        record[OWNER] = (uint64_t)number_32(entry) << 32 | (uint32_t)last;
        record[RANK] = last >> 32;
        if (!is_sound(record))
            return fail(IMAGE, (size_t)(body - image));
    }
    return pass();
}

static check load_checked(const uint8_t *image, size_t rules, uint64_t *table, size_t words, bool uncounted)
{
    uint64_t working[SLOTS_MOST * WORDS] = {0};
    uint16_t near[NEAR_MOST];
    check made = fill(image, rules, working);
    if (made.number == OK)
        made = check_pairs(working, words / WORDS, uncounted, near);
    if (made.number == OK)
        memcpy(table, working, words * sizeof *table);
    return made;
}

uint32_t CALL(load)(const uint8_t *image, size_t image_bytes, uint64_t *table, size_t words, uint32_t uncounted, uint32_t *spot)
{
    size_t slots = words / WORDS;
    check made = check_shape(words);
    if (made.number == OK)
        made = check_head(image, image_bytes, slots);
    if (made.number == OK)
        made = check_entries(image, slots, number_16(image + 2));
    if (made.number == OK)
        made = load_checked(image, number_16(image + 2), table, words, uncounted != 0);
    if (made.number != OK)
        *spot = made.spot;
    return made.number;
}
