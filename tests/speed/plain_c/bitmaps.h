/* Maps of slots by bit place and value, and the choice of places. A map's bit says that its slot cares for a place with a value;
   a bit that is not set says nothing, so that a poor choice of places costs time only. */
#ifndef SPEED_BITMAPS_H
#define SPEED_BITMAPS_H

#include "table.h"

/* Row 2 k + v is words 16 (2 k + v) and the 15 after it: the slots that care for place k with value v, a word for each block. */
enum { BITS = 64 * WIDTH, PLACES_MOST = 64, PLACES_FEW = 8, PLACE_WORDS = 32 };

/* Chosen places, how many and as bits of words, with the first row of each by its place. */
typedef struct spread {
    size_t count;
    uint64_t chosen[WIDTH];
    size_t starts[BITS];
} spread;

/* The slots of a block that one of the rows has. Two rows a turn: the loop's own instructions are paid once for both. */
static inline uint64_t apart_in(const uint64_t *maps, const size_t *rows, size_t used, size_t block)
{
    if (used == 0)
        return 0;
    const uint64_t *words = maps + block; /* at the start of a row: its word for the block */
    uint64_t apart = 0;
    size_t k = 0;
    for (; k + 1 < used; k += 2)
        apart |= words[rows[k]] | words[rows[k + 1]];
    if (k < used)
        apart |= words[rows[k]];
    return apart;
}

/* A slot noted in rows. */
static inline void note_rows(uint64_t *maps, const size_t *own, size_t used, size_t slot)
{
    for (size_t k = 0; k < used; k++)
        maps[own[k] + slot / 64] |= (uint64_t)1 << slot % 64;
}

/* The rows of the chosen places of one word that a record cares for, after those of the words before it; how many so far. */
static inline size_t fill_word(const uint64_t *record, size_t word, const spread *picked, size_t *others, size_t *own,
                               size_t used)
{
    for (uint64_t left = record[WIDTH + word] & picked->chosen[word]; left != 0; left &= left - 1) {
        size_t bit = (size_t)__builtin_ctzll(left);
        size_t value = record[word] >> bit & 1;
        size_t row = picked->starts[64 * word + bit];
        others[used] = row + 16 * (1 - value);
        own[used] = row + 16 * value;
        used++;
    }
    return used;
}

/* For each chosen place that a record cares for, the row with the other value and the row with its own; how many. */
static inline size_t fill_rows(const uint64_t *record, const spread *picked, size_t *others, size_t *own)
{
    size_t used = 0;
    if (picked->count == 0)
        return 0;
    for (size_t word = 0; word < WIDTH; word++)
        used = fill_word(record, word, picked, others, own, used);
    return used;
}

/* The bits of a word added to the counts of its 64 places. Bit k of a count stands in plane k: 64 counts are added to at once. */
static inline void count_bits(uint64_t *planes, uint64_t word)
{
    uint64_t carry = word;
    for (size_t k = 0; k < 6; k++) {
        uint64_t both = planes[k] & carry;
        planes[k] ^= carry;
        carry = both;
    }
}

/* The count of one place. */
static inline uint32_t count_at(const uint64_t *planes, size_t bit)
{
    uint32_t count = 0;
    for (size_t k = 0; k < 6; k++)
        count += (uint32_t)(planes[k] >> bit & 1) << k;
    return count;
}

/* How well each place of a word tells apart 32 slots: those with value 1 there times those that care with value 0. At most 256. */
static inline void score_word(const uint64_t *table, size_t slots, size_t word, uint32_t *scores)
{
    uint64_t ones[6] = {0}, zeros[6] = {0};
    uint32_t left = 32;
    for (size_t slot = 0; left > 0 && slot < slots; slot += slots / 32 + 1, left--) {
        const uint64_t *record = table + slot * WORDS;
        count_bits(ones, record[word]);
        count_bits(zeros, record[WIDTH + word] ^ record[word]);
    }
    for (size_t bit = 0; bit < 64; bit++) {
        uint32_t score = count_at(ones, bit) * count_at(zeros, bit);
        scores[bit] = score < 256 ? score : 256;
    }
}

/* Up to 64 places that tell many of a table's rules apart, those of the highest scores first; how many.
   They are taken while more than a hundredth of 2^30 pairs is expected to be left together. */
static inline size_t choose_places(const uint64_t *table, size_t slots, size_t *places)
{
    uint32_t scores[BITS], left = 1u << 30, level = 256;
    size_t count = 0;
    for (size_t word = 0; word < WIDTH; word++)
        score_word(table, slots, word, scores + 64 * word);
    while (level > 0 && left > 10737418 && count < PLACES_MOST) {
        level /= 2;
        for (size_t place = 0; place < BITS; place++)
            if (scores[place] > level && left > 10737418 && count < PLACES_MOST) {
                places[count++] = place;
                left -= left / 1024 * (2 * scores[place]);
                scores[place] = 0;
            }
    }
    return count;
}

static inline spread spread_places(const size_t *places, size_t count)
{
    spread picked = {count, {0}, {0}};
    for (size_t k = 0; k < count; k++) {
        picked.chosen[places[k] / 64] |= (uint64_t)1 << places[k] % 64;
        picked.starts[places[k]] = PLACE_WORDS * k;
    }
    return picked;
}

#endif
