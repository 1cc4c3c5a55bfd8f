#define _GNU_SOURCE /* for getrandom */
#include <errno.h>
#include <string.h>
#include <sys/random.h>
#include <time.h>

#include "store/disk.h"
#include "store/store.h"

/* A table with all names fits in a frame. */
typedef char segment_fits[CHAFFDANCER_TABLE_BYTES + NAMES_BYTES_MOST <= FRAME_BODY_MOST ? 1 : -1];

/* The file grows by zeros, so much at a time: a commit then changes no size, and syncs sooner. */
#define GROWTH_BYTES (64 * 1024)

/* Milliseconds since 1970, UTC. */
static uint64_t time_now(void)
{
    struct timespec now;
    if (clock_gettime(CLOCK_REALTIME, &now) != 0)
        return 0;
    return (uint64_t)now.tv_sec * 1000 + (uint64_t)now.tv_nsec / 1000000;
}

static int breaks(struct store *store, const char *what)
{
    store->broken = 1;
    return complain_of_system(&store->complaint, "%s", what);
}

/* Room for so many bytes and, behind them, the empty slot that ends a store. */
static int has_room(const struct store *store, size_t bytes)
{
    return (uint64_t)store->slot * SLOT_BYTES + bytes + SLOT_BYTES <= store->size;
}

static int make_room_for(struct store *store, size_t bytes)
{
    static const uint8_t zeros[GROWTH_BYTES];
    if (store->broken)
        return 0;
    if (store->slot > UINT32_MAX - GROWTH_BYTES)
        return complain(&store->complaint, "the store has come to its end: begin a new one");
    if (has_room(store, bytes))
        return 1;
    if (!disk_write(store->file, store->size, zeros, sizeof zeros))
        return complain_of_system(&store->complaint, "the store cannot grow");
    if (!disk_sync(store->file))
        return breaks(store, "the store cannot be synced");
    store->size += sizeof zeros;
    return 1;
}

int store_make_room(struct store *store)
{
    return make_room_for(store, FRAME_BYTES_MOST);
}

int store_add_frame(struct store *store, struct frame *frame)
{
    uint8_t bytes[FRAME_BYTES_MOST];
    size_t total = frame_bytes(frame->length);
    if (store->broken || !make_room_for(store, total))
        return 0;
    frame->slot = store->slot;
    frame->mark = store->mark;
    frame->previous = store->previous;
    frame_put(bytes, frame);
    if (!disk_write(store->file, (uint64_t)store->slot * SLOT_BYTES, bytes, total))
        return breaks(store, "the store cannot be written");
    store->slot += (uint32_t)(total / SLOT_BYTES);
    store->previous = frame->sum;
    return 1;
}

static struct frame frame_now(const struct store *store, enum frame_kind kind, uint32_t detail,
                              const uint8_t *body, size_t length)
{
    struct frame frame;
    memset(&frame, 0, sizeof frame);
    frame.kind = (uint8_t)kind;
    frame.detail = (uint8_t)detail;
    frame.segment = store->segment;
    frame.time = time_now();
    frame.body = body;
    frame.length = length;
    return frame;
}

/* A host that was moved away from its file's name would keep a trail that nobody finds. */
int store_sync(struct store *store)
{
    if (store->broken)
        return 0;
    if (!disk_sync(store->file))
        return breaks(store, "the store cannot be synced");
    if (!disk_is_at(store->file, store->path)) {
        store->broken = 1;
        return complain(&store->complaint, "%s is no longer the store that was opened",
                        store->path);
    }
    return 1;
}

int store_add_commit(struct store *store, uint32_t desk, const uint8_t *records, size_t length)
{
    struct frame frame = frame_now(store, FRAME_COMMIT, desk, records, length);
    return store_add_frame(store, &frame);
}

int store_note_closing(struct store *store, uint32_t open_desks)
{
    uint8_t body[2];
    struct frame frame;
    put_number(body, sizeof body, open_desks);
    frame = frame_now(store, FRAME_CLOSED, 0, body, sizeof body);
    return store_add_frame(store, &frame) && store_sync(store);
}

/*
 * What is left of a frame that never came whole is put into one of its own, and
 * kept so. Its place is zeroed first: a new frame that is torn in its turn must
 * not be mixed with it.
 */
static int put_unfinished_away(struct store *store)
{
    static const uint8_t zeros[FRAME_BYTES_MOST];
    uint8_t left[FRAME_BYTES_MOST];
    struct frame frame;
    uint64_t place = (uint64_t)store->slot * SLOT_BYTES;
    size_t length = store->tail;
    if (length == 0)
        return 1;
    if (disk_read(store->file, place, left, length) != (ssize_t)length)
        return breaks(store, "the store cannot be read");
    if (!disk_write(store->file, place, zeros, length) || !disk_sync(store->file))
        return breaks(store, "the store cannot be written");
    frame = frame_now(store, FRAME_UNFINISHED, 0, left,
                      length < FRAME_BODY_MOST ? length : FRAME_BODY_MOST);
    store->tail = 0;
    return store_add_frame(store, &frame) && store_sync(store);
}

static int draw_mark(struct store *store)
{
    ssize_t count;
    do
        count = getrandom(&store->mark, sizeof store->mark, 0);
    while (count < 0 && errno == EINTR);
    return count == (ssize_t)sizeof store->mark;
}

int store_make(struct store *store, int like)
{
    uint8_t bytes[SLOT_BYTES];
    struct signature signature;
    store->file = disk_make(store->path, like);
    if (store->file < 0)
        return breaks(store, "no file can be made there");
    if (!disk_lock(store->file, &store->holder) || !draw_mark(store))
        return breaks(store, "the new store cannot be locked and marked");
    signature.mark = store->mark;
    signature.time = time_now();
    signature_put(bytes, &signature);
    store->slot = 1;
    store->previous = signature.sum;
    if (!disk_write(store->file, 0, bytes, sizeof bytes))
        return breaks(store, "the new store cannot be written");
    store->size = sizeof bytes;
    return 1;
}

int store_name(struct store *store)
{
    if (store->broken)
        return 0;
    return disk_name(store->file, store->path) ||
           breaks(store, "the new store cannot be given its name");
}

static int add_segment(struct store *store, enum cause cause, const uint8_t *table,
                       const struct names *names)
{
    uint8_t body[CHAFFDANCER_TABLE_BYTES + NAMES_BYTES_MOST];
    struct frame frame;
    memcpy(body, table, CHAFFDANCER_TABLE_BYTES);
    if (store->segment == UINT32_MAX)
        return complain(&store->complaint, "the store has come to its last segment");
    frame = frame_now(store, FRAME_SEGMENT, cause, body,
                      CHAFFDANCER_TABLE_BYTES + names_put(names, body + CHAFFDANCER_TABLE_BYTES));
    frame.segment++;
    if (!store_add_frame(store, &frame))
        return 0;
    store->segment = frame.segment;
    return 1;
}

int store_begin_segment(struct store *store, enum cause cause,
                        const uint8_t table[CHAFFDANCER_TABLE_BYTES], const struct names *names)
{
    if (store->file < 0)
        return store_make(store, -1) && add_segment(store, cause, table, names) &&
               store_name(store);
    return put_unfinished_away(store) && add_segment(store, cause, table, names) &&
           store_sync(store);
}
