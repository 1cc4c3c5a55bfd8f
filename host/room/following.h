/*
 * What the answers tell of the board, which is not for the host to read: values,
 * who has a transaction open, what it has stored unseen, who committed what.
 */
#ifndef CHAFFDANCER_HOST_FOLLOWING_H
#define CHAFFDANCER_HOST_FOLLOWING_H

#include "chaffdancer.h"

struct followed_desk {
    int open;
    uint32_t age;         /* of an idle desk the age that it keeps, 0 for none */
    uint8_t refused[256]; /* items, existing or not, of which the last write was refused */
    uint8_t stored[CHAFFDANCER_ITEMS];
    uint32_t copies[CHAFFDANCER_ITEMS];
};

struct follower {
    uint8_t opening[CHAFFDANCER_TABLE_BYTES]; /* the table as it was opened */
    uint8_t table[CHAFFDANCER_TABLE_BYTES];   /* the same with the present values */
    struct followed_desk desks[CHAFFDANCER_DESKS];
    uint8_t writers[CHAFFDANCER_AGES + 1]; /* the desk of each commit, by its number */
    uint32_t last_age;
};

/* Begins with a freshly opened table. */
void follow_opening(struct follower *follower, const uint8_t table[CHAFFDANCER_TABLE_BYTES]);

/* Goes on with an answer; it is told before, from what was. */
void follow_answer(struct follower *follower, const uint8_t *request,
                   struct chaffdancer_answer answer);

/* Values of 4 bytes each into the rows of a table, and out of them. */
void put_values(uint8_t table[CHAFFDANCER_TABLE_BYTES],
                const uint8_t values[CHAFFDANCER_VALUES_BYTES]);
void get_values(const uint8_t table[CHAFFDANCER_TABLE_BYTES],
                uint8_t values[CHAFFDANCER_VALUES_BYTES]);

/* How many items a desk has stored and not yet committed. */
uint32_t stored_count(const struct followed_desk *desk);

/* The desks with a transaction open, a bit for each; and those with an age, open or idle. */
uint32_t open_desks(const struct follower *follower);
uint32_t aged_desks(const struct follower *follower);

/* A row of a table, its limits and its value. */
static inline const uint8_t *row_of(const uint8_t *table, size_t item)
{
    return table + item * CHAFFDANCER_ROW_BYTES;
}

static inline uint32_t floor_of(const uint8_t *table, size_t item)
{
    return chaffdancer_get_number(row_of(table, item));
}

static inline uint32_t ceiling_of(const uint8_t *table, size_t item)
{
    return chaffdancer_get_number(row_of(table, item) + 4);
}

static inline uint32_t value_of(const uint8_t *table, size_t item)
{
    return chaffdancer_get_number(row_of(table, item) + 8);
}

static inline int is_guarded(const uint8_t *table, size_t item)
{
    return row_of(table, item)[12] == CHAFFDANCER_ITEM_GUARDED;
}

#endif
