#define _POSIX_C_SOURCE 200809L
#include <errno.h>
#include <stdlib.h>
#include <string.h>
#include <time.h>
#include <unistd.h>

#include "common/memory.h"
#include "store/disk.h"
#include "store/reading.h"
#include "store/store.h"

/* A looker may meet a frame just as it is written; it is whole a moment later. */
#define LOOKS_MOST 20
#define LOOK_PAUSE_NANOSECONDS 5000000L

/* Reads all frames into the trail. */
static enum store_state read_through(struct reading *reading, int file, struct trail *trail)
{
    struct frame frame;
    const char *fault = NULL;
    uint8_t table[CHAFFDANCER_TABLE_BYTES];
    uint64_t place = 0;
    enum found found = reading_begin(reading, file);
    trail_begin(trail);
    trail->made = reading->signature.time;
    while (found == FOUND_FRAME && fault == NULL) {
        place = (uint64_t)reading->slot * SLOT_BYTES;
        found = reading_next(reading, &frame);
        if (found == FOUND_FRAME)
            fault = trail_take(trail, &frame);
    }
    if (fault == NULL && (found == FOUND_END || found == FOUND_UNFINISHED) &&
        (trail->segments == 0 || !trail_values(trail, table)))
        fault = "the records of the last segment do not fit";
    trail->slots = reading->slot;
    trail->tail = found == FOUND_UNFINISHED ? reading->tail : 0;
    if (fault != NULL) {
        complain(&reading->complaint, "%s at byte %llu of %llu", fault, (unsigned long long)place,
                 (unsigned long long)reading->size);
        return STORE_DAMAGED;
    }
    switch (found) {
    case FOUND_END:
        return STORE_WHOLE;
    case FOUND_UNFINISHED:
        return STORE_UNFINISHED;
    case FOUND_NO_STORE:
        return STORE_NONE;
    case FOUND_DAMAGE:
        return STORE_DAMAGED;
    default:
        return STORE_FAILED;
    }
}

static enum store_state open_failed(struct complaint *complaint)
{
    if (errno == ENOENT)
        return STORE_ABSENT;
    if (errno == EINVAL)
        complain(complaint, "it is no regular file");
    else
        complain_of_system(complaint, "it cannot be opened");
    return STORE_FAILED;
}

static enum store_state open_file(struct store *store, const char *path)
{
    store->path = disk_resolve(path);
    if (store->path == NULL) {
        complain_of_system(&store->complaint, "its folder cannot be had");
        return STORE_FAILED;
    }
    store->file = disk_open(store->path, 1);
    if (store->file < 0)
        return open_failed(&store->complaint);
    if (disk_lock(store->file, &store->holder))
        return STORE_WHOLE;
    if (store->holder >= 0)
        return STORE_SERVED;
    complain_of_system(&store->complaint, "it cannot be locked");
    return STORE_FAILED;
}

enum store_state store_open(struct store *store, const char *path, struct trail *trail)
{
    struct reading *reading;
    enum store_state state;
    memset(store, 0, sizeof *store);
    trail_begin(trail);
    store->file = -1;
    store->holder = -1;
    state = open_file(store, path);
    if (state != STORE_WHOLE)
        return state;
    reading = memory_for(1, sizeof *reading);
    state = read_through(reading, store->file, trail);
    store->size = reading->size;
    store->mark = reading->signature.mark;
    store->slot = reading->slot;
    store->previous = reading->previous;
    store->segment = trail->segment;
    store->tail = trail->tail;
    store->complaint = reading->complaint;
    free(reading);
    return state;
}

static enum store_state look_once(const char *path, struct trail *trail, pid_t *holder,
                                  struct complaint *complaint)
{
    struct reading *reading = memory_for(1, sizeof *reading);
    enum store_state state;
    int file = disk_open(path, 0);
    *holder = -1;
    if (file < 0) {
        state = open_failed(complaint);
    } else {
        state = read_through(reading, file, trail);
        *complaint = reading->complaint;
        if (!disk_holder(file, holder))
            *holder = -1;
        close(file);
    }
    free(reading);
    return state;
}

enum store_state store_look(const char *path, struct trail *trail, pid_t *holder,
                            struct complaint *complaint)
{
    struct timespec pause = {0, LOOK_PAUSE_NANOSECONDS};
    enum store_state state;
    int looks = 0;
    char *resolved = disk_resolve(path);
    *holder = -1;
    trail_begin(trail);
    if (resolved == NULL) {
        complain_of_system(complaint, "its folder cannot be had");
        return STORE_FAILED;
    }
    do {
        if (looks > 0)
            (void)nanosleep(&pause, NULL);
        state = look_once(resolved, trail, holder, complaint);
        looks++;
    } while (state == STORE_DAMAGED && *holder >= 0 && looks < LOOKS_MOST);
    free(resolved);
    return state;
}

void store_close(struct store *store)
{
    if (store->file >= 0)
        close(store->file);
    free(store->path);
    store->file = -1;
    store->path = NULL;
}
