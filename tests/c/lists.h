/*
 * What listed_test.c and clearing_test.c share: the neighbour list of a table by document 02's 2026-10, from all pairs of slots, and lent
 * lists between guards.
 */
#ifndef LISTS_H
#define LISTS_H

#include "testing.h"

#define NO 65535
#define MOST_NUMBERS (2 * MOST_SLOTS)

/* Every pair of slots, the earlier first: from the last pair on the later slot is set, from the first on the earlier. */
static inline void ref_list(const uint64_t *held, uint32_t slots, uint16_t *list)
{
    for (uint32_t place = 0; place < 2 * slots; place++)
        list[place] = NO;
    for (uint32_t earlier = 0; earlier < slots; earlier++)
        for (uint32_t later = earlier + 1; later < slots; later++)
            if (precedes(held + SLOTS(earlier), held + SLOTS(later))) {
                if (list[2 * earlier] == NO)
                    list[2 * earlier] = (uint16_t)later; /* the first that is met is the nearest */
                list[2 * later + 1] = (uint16_t)earlier; /* the last that is met is */
            }
}

/* ---- Lent lists, between a closed page and guards ---- */

#define LIST_GUARDS 16

static struct pages list_pages;

static struct {
    uint16_t *lent, *guards;
    uint16_t guards_before[LIST_GUARDS];
} lists;

static void lend_list(int at_end)
{
    uint16_t *pages = (uint16_t *)(void *)list_pages.start;
    lists.lent = at_end ? pages + list_pages.bytes / sizeof *pages - numbers : pages;
    lists.guards = at_end ? lists.lent - LIST_GUARDS : lists.lent + numbers;
    memcpy(lists.lent, list, numbers * sizeof *list);
    for (int index = 0; index < LIST_GUARDS; index++)
        lists.guards[index] = lists.guards_before[index] = (uint16_t)next_mark();
}

#endif
