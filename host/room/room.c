#include "room/room.h"

#include <string.h>

/* How near the end of ages and of journal the room is, at each of three steps. */
struct nearness {
    uint32_t age;
    uint64_t used;
};

/* From here on the board is turned over when nobody is open or keeps an age. */
static const struct nearness near_enough = {1500, 40000};
/* From here on people are warned. */
static const struct nearness nearer = {1900, 52000};
/* What all desks together can still commit. */
#define BYTES_OF_ALL_DESKS (CHAFFDANCER_DESKS * COMMIT_BYTES_MOST)

/* From here on nobody begins until nobody is open; all who are open still have room to commit. */
static const struct nearness nearest = {1980, CHAFFDANCER_JOURNAL_BYTES - BYTES_OF_ALL_DESKS};

static int has_reached(const struct room *room, struct nearness near)
{
    return room->follower.last_age >= near.age || room->board.used >= near.used;
}

static int64_t open_board(struct room *room, enum cause cause, const uint8_t *table)
{
    int64_t opened = hub_open_journal(&room->board, table, CHAFFDANCER_TABLE_BYTES, room->journal,
                                      sizeof room->journal);
    if (opened != 0)
        return opened;
    if (room->store != NULL && !store_begin_segment(room->store, cause, table, &room->names))
        return 1;
    room->warned = 0;
    follow_opening(&room->follower, table);
    return 0;
}

int64_t room_open(struct room *room, struct store *store, enum cause cause,
                  const uint8_t table[CHAFFDANCER_TABLE_BYTES], const struct names *names)
{
    memset(room, 0, sizeof *room);
    room->store = store;
    room->names = *names;
    return open_board(room, cause, table);
}

/* The disk's room is made sure of first: then a full disk loses nobody's work. */
static enum served sure_of_room(struct room *room)
{
    if (room->store == NULL || store_make_room(room->store))
        return SERVED;
    return room->store->broken ? NOT_SERVED_UNSAFE : NOT_SERVED_NO_DISK;
}

static enum served turn_over(struct room *room)
{
    uint8_t table[CHAFFDANCER_TABLE_BYTES];
    enum served sure = sure_of_room(room);
    if (sure != SERVED)
        return sure;
    memcpy(table, room->follower.table, sizeof table);
    if (open_board(room, CAUSE_TURNOVER, table) != 0)
        return NOT_SERVED_UNSAFE;
    return SERVED_AFTER_TURNING;
}

/* Whether the board may be turned over now, and should be. */
static int is_moment_to_turn(const struct room *room)
{
    if (open_desks(&room->follower) != 0)
        return 0;
    return has_reached(room, nearest) ||
           (has_reached(room, near_enough) && aged_desks(&room->follower) == 0);
}

static int is_new_begin(const struct room *room, const uint8_t *request)
{
    return request[0] == CHAFFDANCER_REQUEST_BEGIN && request[1] < CHAFFDANCER_DESKS &&
           !room->follower.desks[request[1]].open;
}

/* Steps the board; a commit is in the store when this comes back. */
static int step(struct room *room, const uint8_t *request, uint8_t *answer)
{
    uint64_t before = room->board.used;
    hub_step_journal(&room->board, request, answer, room->journal, sizeof room->journal);
    if (room->store == NULL || room->board.used == before)
        return 1;
    return store_add_commit(room->store, request[1], room->journal + before,
                            (size_t)(room->board.used - before)) &&
           store_sync(room->store);
}

static enum served stepped(struct room *room, const uint8_t *request, uint8_t *answer,
                           enum served served)
{
    return step(room, request, answer) ? served : NOT_SERVED_UNSAFE;
}

static enum served serve_begin(struct room *room, const uint8_t *request, uint8_t *answer)
{
    int warning;
    if (is_moment_to_turn(room)) {
        enum served turned = turn_over(room);
        return turned == SERVED_AFTER_TURNING ? stepped(room, request, answer, turned) : turned;
    }
    if (has_reached(room, nearest))
        return NOT_SERVED_HELD;
    warning = has_reached(room, nearer) && !room->warned;
    room->warned |= warning;
    return stepped(room, request, answer, warning ? SERVED_WITH_WARNING : SERVED);
}

enum served room_serve(struct room *room, const uint8_t *request,
                       uint8_t answer[CHAFFDANCER_ANSWER_BYTES])
{
    enum served sure = SERVED;
    if (is_new_begin(room, request))
        return serve_begin(room, request, answer);
    if (request[0] == CHAFFDANCER_REQUEST_END)
        sure = sure_of_room(room);
    if (sure != SERVED)
        return sure;
    return stepped(room, request, answer, SERVED);
}
