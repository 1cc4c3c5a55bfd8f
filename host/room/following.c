#include "room/following.h"

#include <string.h>

void follow_opening(struct follower *follower, const uint8_t table[CHAFFDANCER_TABLE_BYTES])
{
    memset(follower, 0, sizeof *follower);
    memcpy(follower->opening, table, sizeof follower->opening);
    memcpy(follower->table, table, sizeof follower->table);
}

void put_values(uint8_t table[CHAFFDANCER_TABLE_BYTES],
                const uint8_t values[CHAFFDANCER_VALUES_BYTES])
{
    size_t item;
    for (item = 0; item < CHAFFDANCER_ITEMS; item++)
        memcpy(table + item * CHAFFDANCER_ROW_BYTES + 8, values + 4 * item, 4);
}

void get_values(const uint8_t table[CHAFFDANCER_TABLE_BYTES],
                uint8_t values[CHAFFDANCER_VALUES_BYTES])
{
    size_t item;
    for (item = 0; item < CHAFFDANCER_ITEMS; item++)
        memcpy(values + 4 * item, table + item * CHAFFDANCER_ROW_BYTES + 8, 4);
}

static void install(struct follower *follower, const struct followed_desk *desk)
{
    size_t item;
    for (item = 0; item < CHAFFDANCER_ITEMS; item++)
        if (desk->stored[item])
            chaffdancer_put_number(follower->table + item * CHAFFDANCER_ROW_BYTES + 8,
                                   desk->copies[item]);
}

static void begin(struct follower *follower, struct followed_desk *desk, uint32_t age)
{
    desk->open = 1;
    desk->age = age;
    if (age > follower->last_age)
        follower->last_age = age;
}

static void free_desk(struct followed_desk *desk, uint32_t kept_age)
{
    memset(desk, 0, sizeof *desk);
    desk->age = kept_age;
}

static int is_refused_write(const uint8_t *request, const struct chaffdancer_answer *answer)
{
    return request[0] == CHAFFDANCER_REQUEST_WRITE &&
           (answer->reason == CHAFFDANCER_REFUSED_BELOW_FLOOR ||
            answer->reason == CHAFFDANCER_REFUSED_ABOVE_CEILING ||
            answer->reason == CHAFFDANCER_REFUSED_ITEM);
}

void follow_answer(struct follower *follower, const uint8_t *request,
                   struct chaffdancer_answer answer)
{
    struct followed_desk *desk;
    if (answer.desk >= CHAFFDANCER_DESKS)
        return;
    desk = &follower->desks[answer.desk];
    switch (answer.code) {
    case CHAFFDANCER_ANSWER_REFUSED:
        if (is_refused_write(request, &answer))
            desk->refused[request[2]] = 1;
        break;
    case CHAFFDANCER_ANSWER_OPENED:
        begin(follower, desk, answer.first);
        break;
    case CHAFFDANCER_ANSWER_STORED:
        desk->stored[answer.item] = 1;
        desk->refused[answer.item] = 0;
        desk->copies[answer.item] = chaffdancer_get_number(request + 4);
        break;
    case CHAFFDANCER_ANSWER_COMMITTED:
        follower->writers[answer.first] = answer.desk;
        install(follower, desk);
        free_desk(desk, 0);
        break;
    case CHAFFDANCER_ANSWER_ABANDONED:
        free_desk(desk, 0);
        break;
    case CHAFFDANCER_ANSWER_ABORTED:
        free_desk(desk, desk->age);
        break;
    default: /* a value or a wait changes nothing that is followed */
        break;
    }
}

uint32_t stored_count(const struct followed_desk *desk)
{
    uint32_t item, count = 0;
    for (item = 0; item < CHAFFDANCER_ITEMS; item++)
        count += desk->stored[item];
    return count;
}

uint32_t open_desks(const struct follower *follower)
{
    uint32_t desk, set = 0;
    for (desk = 0; desk < CHAFFDANCER_DESKS; desk++)
        if (follower->desks[desk].open)
            set |= 1U << desk;
    return set;
}

uint32_t aged_desks(const struct follower *follower)
{
    uint32_t desk, set = 0;
    for (desk = 0; desk < CHAFFDANCER_DESKS; desk++)
        if (follower->desks[desk].age != 0)
            set |= 1U << desk;
    return set;
}
