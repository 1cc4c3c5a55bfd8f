#include "audit/salvage.h"

#include <stdlib.h>
#include <string.h>
#include <unistd.h>

#include "audit/log_form.h"
#include "common/memory.h"
#include "common/statuses.h"
#include "store/disk.h"
#include "store/mending.h"
#include "store/reading.h"
#include "store/store.h"
#include "words/restoring.h"
#include "words/saying.h"

typedef unsigned long long shown;

struct salvage {
    struct reading reading; /* the old store */
    struct store copy;      /* the new one */
    struct trail trail;     /* what the new one holds */
    uint32_t first_segment; /* segments before this one are not wanted */
    uint32_t slot;          /* that is looked at */
    uint32_t unreadable;    /* the first slot of a stretch that cannot be read; 0 for none */
    uint64_t left_out;      /* commits, and stretches of bytes */
};

static int fails(struct salvage *salvage)
{
    say_line(stderr, "chaffdancer-host: %s: %s",
             salvage->copy.path == NULL ? "the new store" : salvage->copy.path,
             salvage->copy.complaint.text);
    return 0;
}

/* Tells the stretch that ends here, if there is one. */
static void end_unreadable(struct salvage *salvage)
{
    if (salvage->unreadable == 0)
        return;
    say_line(stdout, "Left out: bytes %llu to %llu cannot be read.",
             (shown)salvage->unreadable * SLOT_BYTES, (shown)salvage->slot * SLOT_BYTES - 1);
    salvage->unreadable = 0;
    salvage->left_out++;
}

static void tell_mended(struct salvage *salvage)
{
    say_line(stdout, "Mended: one bit of the %s at byte %llu, set right by its checksum.",
             salvage->slot == 0 ? "signature" : "frame", (shown)salvage->slot * SLOT_BYTES);
}

/* A commit whose segment or predecessor is lost: its values are told, to be typed again. */
static void leave_commit_out(struct salvage *salvage, const struct frame *frame)
{
    if (frame->length < CHAFFDANCER_RECORD_BYTES || frame->detail >= CHAFFDANCER_DESKS)
        return;
    say_line(stdout, "Left out: a commit of segment %llu, as something before it is lost:",
             (shown)frame->segment);
    tell_commit(&salvage->trail.names, commit_number(frame), frame);
    salvage->left_out++;
}

/* A segment that does not go on from the one before is marked as such in the copy. */
static const char *take_frame(struct salvage *salvage, struct frame *frame)
{
    const char *fault = trail_take(&salvage->trail, frame);
    if (fault != NULL && frame->kind == FRAME_SEGMENT) {
        frame->detail = CAUSE_SALVAGE;
        fault = trail_take(&salvage->trail, frame);
    }
    return fault;
}

/* Takes a readable frame over where it fits: 1; or 0 if the new store cannot be written. */
static int copy_frame(struct salvage *salvage, struct frame *frame)
{
    if (frame->segment < salvage->first_segment)
        return 1;
    if (take_frame(salvage, frame) != NULL) {
        if (frame->kind == FRAME_COMMIT)
            leave_commit_out(salvage, frame);
        return 1;
    }
    return store_add_frame(&salvage->copy, frame) ? 1 : fails(salvage);
}

/* The frame that stands at the slot, mended if need be: 1; or 0 if there is none. */
static int find_frame(struct salvage *salvage, uint8_t bytes[FRAME_BYTES_MOST], size_t length,
                      struct frame *frame)
{
    int right, mended = 0;
    if (all_zero(bytes, length < SLOT_BYTES ? length : SLOT_BYTES))
        return 0;
    right = length >= SLOT_BYTES && frame_get_header(bytes, frame) &&
            frame_bytes(frame->length) <= length && frame_body_is_right(bytes, frame);
    if (!right)
        right = mended = mend_frame(bytes, length, frame);
    if (!right || frame->slot != salvage->slot || frame->mark != salvage->reading.signature.mark)
        return 0;
    end_unreadable(salvage);
    if (mended)
        tell_mended(salvage);
    return 1;
}

/* What can be read from the slot on, up to a frame's length: where the disk fails, slot by slot. */
static size_t read_slots(struct salvage *salvage, uint8_t bytes[FRAME_BYTES_MOST])
{
    uint64_t place = (uint64_t)salvage->slot * SLOT_BYTES;
    size_t length;
    ssize_t count;
    const uint8_t *there = reading_bytes(&salvage->reading, place, FRAME_BYTES_MOST, &length);
    if (there != NULL) {
        memcpy(bytes, there, length);
        return length;
    }
    length = 0;
    do {
        count = disk_read(salvage->reading.file, place + length, bytes + length, SLOT_BYTES);
        if (count > 0)
            length += (size_t)count;
    } while (count == SLOT_BYTES && length < FRAME_BYTES_MOST);
    return length;
}

/* Goes on behind the frame at the slot, or to the next slot: 1, or 0. */
static int copy_slot(struct salvage *salvage)
{
    uint8_t bytes[FRAME_BYTES_MOST];
    struct frame frame;
    size_t length = read_slots(salvage, bytes);
    uint32_t slots = 1;
    if (find_frame(salvage, bytes, length, &frame)) {
        slots = (uint32_t)(frame_bytes(frame.length) / SLOT_BYTES);
        if (!copy_frame(salvage, &frame))
            return 0;
    } else if (length > 0 && all_zero(bytes, length < SLOT_BYTES ? length : SLOT_BYTES)) {
        end_unreadable(salvage);
    } else if (salvage->unreadable == 0) {
        salvage->unreadable = salvage->slot;
    }
    salvage->slot += slots;
    return 1;
}

/* The mark of a store whose signature is lost: that of the first header that is right. */
static int find_mark(struct salvage *salvage)
{
    uint8_t bytes[FRAME_BYTES_MOST];
    struct frame frame;
    uint32_t slots = (uint32_t)(salvage->reading.size / SLOT_BYTES);
    for (salvage->slot = 1; salvage->slot < slots; salvage->slot++)
        if (read_slots(salvage, bytes) >= SLOT_BYTES && frame_get_header(bytes, &frame) &&
            frame.slot == salvage->slot) {
            salvage->reading.signature.mark = frame.mark;
            return 1;
        }
    return 0;
}

/* Reads the signature, as far as there is one: 1; or 0 if nothing here is a store's. */
static int begin_reading(struct salvage *salvage, int file)
{
    uint8_t bytes[SLOT_BYTES];
    struct signature *signature = &salvage->reading.signature;
    int is_there = disk_read(file, 0, bytes, sizeof bytes) == (ssize_t)sizeof bytes;
    if (reading_begin(&salvage->reading, file) == FOUND_FRAME ||
        (is_there && signature_get(bytes, signature)))
        return 1;
    if (is_there && mend_signature(bytes, signature)) {
        tell_mended(salvage);
        return 1;
    }
    if (!find_mark(salvage))
        return 0;
    say_line(stdout, "Left out: the signature cannot be read.");
    salvage->left_out++;
    return 1;
}

static int copy_slots(struct salvage *salvage, int file, uint32_t end)
{
    if (!store_make(&salvage->copy, file))
        return fails(salvage);
    for (salvage->slot = 1; salvage->slot < end;)
        if (!copy_slot(salvage))
            return 0;
    end_unreadable(salvage);
    return 1;
}

static int finish(struct salvage *salvage, const char *from, const char *to)
{
    if (salvage->trail.segments == 0) {
        say_line(stderr, "chaffdancer-host: %s: nothing can be had of it, and no store was made",
                 from);
        return STATUS_DAMAGED;
    }
    if (!store_name(&salvage->copy)) {
        fails(salvage);
        return STATUS_NOT_WRITTEN;
    }
    say_line(stdout, "Written to %s: %llu commit%s in %llu segment%s.", to,
             (shown)salvage->trail.all_commits, salvage->trail.all_commits == 1 ? "" : "s",
             (shown)salvage->trail.segments, salvage->trail.segments == 1 ? "" : "s");
    if (salvage->left_out == 0)
        say_line(stdout, "Nothing was left out.");
    return salvage->left_out == 0 ? STATUS_SERVED : STATUS_DAMAGED;
}

/* The new store must not be there yet. */
static int prepare_copy(struct salvage *salvage, const char *to)
{
    enum store_state state = store_open(&salvage->copy, to, &salvage->trail);
    trail_begin(&salvage->trail);
    if (state == STORE_ABSENT)
        return 1;
    if (state == STORE_FAILED)
        return fails(salvage);
    say_line(stderr, "chaffdancer-host: %s: it is there already, and was left as it is", to);
    return 0;
}

static int copy_opened(struct salvage *salvage, int file, const char *from, const char *to,
                       uint32_t end)
{
    pid_t holder;
    if (disk_holder(file, &holder))
        return tell_unusable(from, STORE_SERVED, holder, &salvage->reading.complaint);
    if (!begin_reading(salvage, file))
        return tell_unusable(from, STORE_NONE, -1, &salvage->reading.complaint);
    if (!prepare_copy(salvage, to))
        return STATUS_STOPPED;
    if (end == 0)
        end = (uint32_t)((salvage->reading.size + SLOT_BYTES - 1) / SLOT_BYTES);
    if (!copy_slots(salvage, file, end))
        return STATUS_NOT_WRITTEN;
    return finish(salvage, from, to);
}

/* Copies from a segment on, up to a slot, or to the file's end where that is 0. */
static int copy_store(const char *from, const char *to, uint32_t first_segment, uint32_t end)
{
    struct salvage *salvage = memory_for(1, sizeof *salvage);
    struct complaint complaint;
    int status = STATUS_STOPPED, file = -1;
    char *resolved = disk_resolve(from);
    salvage->copy.file = -1;
    salvage->first_segment = first_segment;
    if (resolved != NULL)
        file = disk_open(resolved, 0);
    if (file < 0) {
        complain_of_system(&complaint, "it cannot be opened");
        tell_unusable(from, STORE_FAILED, -1, &complaint);
    } else {
        status = copy_opened(salvage, file, from, to, end);
        close(file);
    }
    store_close(&salvage->copy);
    free(resolved);
    free(salvage);
    return status;
}

/* Of a store that is whole, what never came whole behind its last frame is no loss. */
int salvage_store(const char *from, const char *to)
{
    struct trail *trail = memory_for(1, sizeof *trail);
    struct complaint complaint;
    pid_t holder;
    enum store_state state = store_look(from, trail, &holder, &complaint);
    size_t tail = trail->tail;
    uint32_t end = is_readable(state) ? trail->slots : 0;
    free(trail);
    tell_unfinished(tail);
    return copy_store(from, to, 0, end);
}

int keep_segments(const char *from, const char *to, uint32_t count)
{
    struct trail *trail = memory_for(1, sizeof *trail);
    struct complaint complaint;
    pid_t holder;
    enum store_state state = store_look(from, trail, &holder, &complaint);
    uint32_t first = trail->segment > count ? trail->segment - count + 1 : 0, end = trail->slots;
    free(trail);
    if (!is_readable(state))
        return tell_unusable(from, state, holder, &complaint);
    return copy_store(from, to, first, end);
}
