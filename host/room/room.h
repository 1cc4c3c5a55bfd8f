/*
 * One room: a board, what the answers tell of it, and its store if it has one.
 * Requests go in one at a time; a commit is in the store before its answer comes
 * out. Near the end of ages or of journal the board is turned over: a fresh one
 * goes on with the same values, in a new segment of the store.
 */
#ifndef CHAFFDANCER_HOST_ROOM_H
#define CHAFFDANCER_HOST_ROOM_H

#include "room/following.h"
#include "store/store.h"

struct room {
    struct store *store; /* null without one */
    struct names names;
    struct follower follower;
    chaffdancer_journaled board;
    uint8_t journal[CHAFFDANCER_JOURNAL_BYTES];
    int warned; /* that begins will be refused soon */
};

/* Opens the board, and a segment for that cause: 0; minus a refusal; or 1 as the store failed. */
int64_t room_open(struct room *room, struct store *store, enum cause cause,
                  const uint8_t table[CHAFFDANCER_TABLE_BYTES], const struct names *names);

enum served {
    SERVED,
    SERVED_WITH_WARNING,  /* as well; and begins will be refused soon, until nobody is open */
    SERVED_AFTER_TURNING, /* as well, on a fresh board */
    NOT_SERVED_HELD,      /* a begin: the board is to be turned over, and others are open */
    NOT_SERVED_NO_DISK,   /* an end, or a begin that would turn the board over: the disk is full */
    NOT_SERVED_UNSAFE     /* the store failed: nothing more may be told */
};

/*
 * Serves a request; the answer counts only where it is served. It is then told,
 * and followed (follow_answer). Where it is not served, nothing was changed.
 */
enum served room_serve(struct room *room, const uint8_t *request,
                       uint8_t answer[CHAFFDANCER_ANSWER_BYTES]);

#endif
