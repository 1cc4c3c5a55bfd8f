/* What the frames of a store come to: its segments, commits, values and names. */
#ifndef CHAFFDANCER_HOST_TRAIL_H
#define CHAFFDANCER_HOST_TRAIL_H

#include "chaffdancer.h"
#include "store/frame.h"
#include "text/names.h"

/* The bytes of the longest commit: all items, and its closing record. */
#define COMMIT_BYTES_MOST ((CHAFFDANCER_ITEMS + 1) * CHAFFDANCER_RECORD_BYTES)

struct trail {
    uint64_t made;     /* when the store was */
    uint32_t slots;    /* that are filled, with the signature's */
    uint32_t segments; /* how many there are */
    uint32_t segment;  /* the number of the last */
    uint8_t cause;     /* of the last segment, and when it was begun */
    uint64_t begun;
    uint8_t first[CHAFFDANCER_TABLE_BYTES];     /* the table of the first segment */
    uint8_t table[CHAFFDANCER_TABLE_BYTES];     /* the one that the last was opened with */
    uint8_t records[CHAFFDANCER_JOURNAL_BYTES]; /* of its commits */
    size_t used;
    uint32_t commits;
    uint64_t all_commits; /* in all segments */
    uint64_t last_commit; /* when the last one was, and its desk; 0 for none */
    uint8_t last_desk;
    struct names names;
    int closed; /* the host before ended in order, at that time, with these desks open */
    uint64_t closed_at;
    uint32_t open_desks; /* a bit for each */
    int unfinished;      /* a frame that never came whole was put away */
    size_t tail;         /* bytes behind the last frame, of one that never came whole */
};

void trail_begin(struct trail *trail);

/* Takes the next frame in: null; or what does not fit, and nothing is taken. */
const char *trail_take(struct trail *trail, const struct frame *frame);

/* The table with the values after the last commit: 1; or 0 if the records do not fit. */
int trail_values(const struct trail *trail, uint8_t table[CHAFFDANCER_TABLE_BYTES]);

/* How many items a commit's records write. */
size_t written_items(const struct frame *commit);

/* One of a commit's records, from 0 on. */
struct chaffdancer_record commit_record(const struct frame *commit, size_t place);

/* The number under which the hub gave the commit. */
uint32_t commit_number(const struct frame *commit);

#endif
