#include "store/trail.h"

#include <string.h>

void trail_begin(struct trail *trail)
{
    memset(trail, 0, sizeof *trail);
}

int trail_values(const struct trail *trail, uint8_t table[CHAFFDANCER_TABLE_BYTES])
{
    memcpy(table, trail->table, CHAFFDANCER_TABLE_BYTES);
    return hub_restart(table, CHAFFDANCER_TABLE_BYTES, trail->records, trail->used) ==
           (int64_t)trail->commits;
}

size_t written_items(const struct frame *commit)
{
    return commit->length / CHAFFDANCER_RECORD_BYTES - 1;
}

struct chaffdancer_record commit_record(const struct frame *commit, size_t place)
{
    return chaffdancer_get_record(commit->body + place * CHAFFDANCER_RECORD_BYTES);
}

uint32_t commit_number(const struct frame *commit)
{
    return commit_record(commit, written_items(commit)).number;
}

static int is_right_table(const uint8_t *table)
{
    uint8_t copy[CHAFFDANCER_TABLE_BYTES];
    memcpy(copy, table, sizeof copy);
    return hub_restart(copy, sizeof copy, NULL, 0) == 0;
}

/* A segment goes on from the values of the one before; only a salvage may leave a gap. */
static const char *segment_fault(const struct trail *trail, const struct frame *frame)
{
    uint8_t values[CHAFFDANCER_TABLE_BYTES];
    if (frame->length < CHAFFDANCER_TABLE_BYTES || !is_right_table(frame->body))
        return "the table of a segment is wrong";
    if (frame->detail < CAUSE_NEW || frame->detail > CAUSE_SALVAGE)
        return "a segment has no known cause";
    if (trail->segments == 0)
        return frame->segment == 0 ? "a segment has no number" : NULL;
    if (frame->segment <= trail->segment ||
        (frame->segment > trail->segment + 1 && frame->detail != CAUSE_SALVAGE))
        return "a segment is missing";
    if (!trail_values(trail, values))
        return "the records of a segment do not fit";
    if (frame->detail != CAUSE_SALVAGE && memcmp(values, frame->body, sizeof values) != 0)
        return "a segment does not begin with the values of the one before";
    return NULL;
}

static const char *take_segment(struct trail *trail, const struct frame *frame)
{
    struct names names;
    const char *fault = segment_fault(trail, frame);
    if (fault != NULL)
        return fault;
    if (!names_get(&names, frame->body + CHAFFDANCER_TABLE_BYTES,
                   frame->length - CHAFFDANCER_TABLE_BYTES))
        return "the names of a segment are wrong";
    if (trail->segments == 0)
        memcpy(trail->first, frame->body, sizeof trail->first);
    trail->segments++;
    trail->segment = frame->segment;
    trail->cause = frame->detail;
    trail->begun = frame->time;
    memcpy(trail->table, frame->body, sizeof trail->table);
    memset(trail->records, 0, sizeof trail->records);
    trail->used = 0;
    trail->commits = 0;
    trail->names = names;
    trail->closed = 0;
    trail->unfinished = 0;
    return NULL;
}

/* Whether the bytes are records of one commit with this number, its closing one at the end. */
static int is_commit(const struct frame *frame, uint32_t number)
{
    struct chaffdancer_record closing;
    if (frame->length < CHAFFDANCER_RECORD_BYTES || frame->length > COMMIT_BYTES_MOST ||
        frame->length % CHAFFDANCER_RECORD_BYTES != 0)
        return 0;
    closing = commit_record(frame, written_items(frame));
    return closing.kind == CHAFFDANCER_RECORD_CLOSING && closing.number == number &&
           closing.value == written_items(frame);
}

static const char *take_commit(struct trail *trail, const struct frame *frame)
{
    if (frame->detail >= CHAFFDANCER_DESKS || !is_commit(frame, trail->commits + 1) ||
        trail->used + frame->length > sizeof trail->records)
        return "a commit is missing, or its records do not fit";
    memcpy(trail->records + trail->used, frame->body, frame->length);
    trail->used += frame->length;
    trail->commits++;
    trail->all_commits++;
    trail->last_commit = frame->time;
    trail->last_desk = frame->detail;
    return NULL;
}

static const char *take_closed(struct trail *trail, const struct frame *frame)
{
    if (frame->detail != 0 || frame->length != 2)
        return "a closing frame has another form";
    trail->closed = 1;
    trail->closed_at = frame->time;
    trail->open_desks = (uint32_t)get_number(frame->body, 2);
    return NULL;
}

/* What never came whole may stand anywhere in a segment; behind it nothing else goes on. */
static const char *take_unfinished(struct trail *trail, const struct frame *frame)
{
    if (frame->detail != 0)
        return "an unfinished frame has another form";
    trail->unfinished = 1;
    return NULL;
}

const char *trail_take(struct trail *trail, const struct frame *frame)
{
    if (frame->kind == FRAME_SEGMENT)
        return take_segment(trail, frame);
    if (trail->segments == 0 || frame->segment != trail->segment)
        return "a frame stands in no segment";
    if (frame->kind == FRAME_UNFINISHED)
        return take_unfinished(trail, frame);
    if (trail->closed || trail->unfinished)
        return "a frame stands behind the end of its segment";
    if (frame->kind == FRAME_COMMIT)
        return take_commit(trail, frame);
    if (frame->kind == FRAME_CLOSED)
        return take_closed(trail, frame);
    return "a frame is of no known kind";
}
