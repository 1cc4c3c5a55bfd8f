/*
 * The store of one room: its opening tables and every commit, on the disk before
 * anybody is told. Only one host at a time has it open to write; anybody may
 * look. No call prints: what went wrong is in the complaint.
 */
#ifndef CHAFFDANCER_HOST_STORE_H
#define CHAFFDANCER_HOST_STORE_H

#include <sys/types.h>

#include "common/complaint.h"
#include "store/trail.h"

enum store_state {
    STORE_WHOLE,
    STORE_UNFINISHED, /* whole, but for a commit at its end that was never told */
    STORE_ABSENT,     /* there is no such file */
    STORE_NONE,       /* the file is something else */
    STORE_DAMAGED,
    STORE_SERVED, /* another host has it open */
    STORE_FAILED  /* the file cannot be opened or read */
};

/* Whether all that was ever told is there. */
static inline int is_readable(enum store_state state)
{
    return state == STORE_WHOLE || state == STORE_UNFINISHED;
}

struct store {
    char *path; /* resolved */
    int file;   /* -1 while there is none */
    uint64_t size;
    uint32_t mark;
    uint32_t slot;     /* where the next frame goes */
    uint32_t previous; /* the checksum that it names */
    uint32_t segment;
    size_t tail;  /* bytes behind the last frame, of one that never came whole */
    int broken;   /* something could not be written: nothing more may be told */
    pid_t holder; /* of the host that has it open, where that is the trouble */
    struct complaint complaint;
};

/*
 * Opens the store for a host, which has it alone until store_close, and reads it
 * through: what it holds is in the trail. STORE_WHOLE and STORE_UNFINISHED: it is
 * ready for a new segment. STORE_ABSENT: its first segment will make the file. Of
 * anything else nothing was changed, and the complaint says what it is.
 */
enum store_state store_open(struct store *store, const char *path, struct trail *trail);

/*
 * Reads a store through and changes nothing, also while a host serves it: then
 * holder is its process (or 0), else -1.
 */
enum store_state store_look(const char *path, struct trail *trail, pid_t *holder,
                            struct complaint *complaint);

/* Begins a segment with this table, safely: 1, or 0. Makes the file if there is none. */
int store_begin_segment(struct store *store, enum cause cause,
                        const uint8_t table[CHAFFDANCER_TABLE_BYTES], const struct names *names);

/* Makes sure that a commit or a segment more has room: 1; or 0, and nothing else is changed. */
int store_make_room(struct store *store);

/*
 * Writes a commit: its records, as the hub gave them. It may be told once
 * store_sync came back with 1. If either gives 0, nothing more may be told.
 */
int store_add_commit(struct store *store, uint32_t desk, const uint8_t *records, size_t length);
int store_sync(struct store *store);

/* Notes that the host ends in order, and which desks had something open: 1, or 0. */
int store_note_closing(struct store *store, uint32_t open_desks);

/* Lets go of the file and its lock. Also due where it could not be opened. */
void store_close(struct store *store);

/*
 * A store that is copied frame by frame into an absent one: the new file is made
 * without a name, with mode and owner of the one like it (or 0600 if that is -1),
 * gets frames with kind, detail, segment, time and body as they are, and its name
 * when all of it is safe: 1, or 0.
 */
int store_make(struct store *store, int like);
int store_add_frame(struct store *store, struct frame *frame);
int store_name(struct store *store);

#endif
