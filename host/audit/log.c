#include <stdlib.h>
#include <unistd.h>

#include "audit/audit.h"
#include "common/memory.h"
#include "common/statuses.h"
#include "store/disk.h"
#include "store/reading.h"
#include "store/store.h"
#include "words/restoring.h"
#include "words/saying.h"

static void print_frame(const struct log_form *form, const struct trail *trail,
                        const struct frame *frame)
{
    if (frame->kind == FRAME_SEGMENT)
        form->segment(trail);
    else if (frame->kind == FRAME_COMMIT)
        form->commit(trail, frame);
    else if (frame->kind == FRAME_CLOSED)
        form->closed(trail);
    else
        form->unfinished(frame);
}

/* Prints the frames up to a slot: those that were looked at and found right. */
static int print_log(const char *path, uint32_t slots, const struct log_form *form)
{
    struct reading *reading = memory_for(1, sizeof *reading);
    struct trail *trail = memory_for(1, sizeof *trail);
    struct frame frame;
    char *resolved = disk_resolve(path);
    int file = resolved == NULL ? -1 : disk_open(resolved, 0);
    int right = file >= 0 && reading_begin(reading, file) == FOUND_FRAME;
    form->first();
    while (right && reading->slot < slots) {
        right = reading_next(reading, &frame) == FOUND_FRAME && trail_take(trail, &frame) == NULL;
        if (right)
            print_frame(form, trail, &frame);
    }
    form->last();
    if (file >= 0)
        close(file);
    free(resolved);
    free(trail);
    free(reading);
    return right;
}

int look_at_log(const char *path, const struct log_form *form)
{
    struct trail *trail = memory_for(1, sizeof *trail);
    struct complaint complaint;
    pid_t holder;
    enum store_state state = store_look(path, trail, &holder, &complaint);
    int status = STATUS_SERVED;
    if (!is_readable(state))
        status = tell_unusable(path, state, holder, &complaint);
    if (state == STORE_DAMAGED || is_readable(state))
        if (!print_log(path, trail->slots, form) && status == STATUS_SERVED) {
            say_line(stderr, "chaffdancer-host: %s: it was changed while it was read", path);
            status = STATUS_STOPPED;
        }
    free(trail);
    return status;
}
