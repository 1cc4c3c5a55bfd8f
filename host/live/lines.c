#include <errno.h>
#include <stdlib.h>
#include <string.h>

#include "common/memory.h"
#include "common/statuses.h"
#include "live/live.h"
#include "live/state.h"
#include "words/telling.h"

static int serve_entry(struct live *live, const struct entry *entry)
{
    int status = 0;
    switch (entry->kind) {
    case ENTRY_HEADING:
        take_heading(live, entry->heading);
        return 0;
    case ENTRY_REQUEST:
        if (!live->opened)
            status = open_board(live);
        return status != 0 ? status : serve_request(live, entry->request);
    case ENTRY_WRONG:
        return take_wrong_line(live, entry->desk, live->reader.wrong.text);
    default:
        return 0;
    }
}

/* What nobody hears is not told: the room then stops. */
static int flush_told(int status)
{
    return fflush(stdout) != 0 && status == 0 ? STATUS_STOPPED : status;
}

static int serve_line(struct live *live, struct text line)
{
    struct entry entry = reader_take_line(&live->reader, line);
    return flush_told(serve_entry(live, &entry));
}

static int skip_line(struct live *live, const char *what)
{
    live->reader.line++;
    return flush_told(take_wrong_line(live, -1, what));
}

/* The room ends in order: what is still open is told, and noted in the store. */
static int end_in_order(struct live *live)
{
    int status = live->opened ? 0 : open_board(live);
    if (status != 0)
        return status;
    blank_line(live);
    tell_result(&live->reader.names, &live->room.follower);
    if (live->with_store && !store_note_closing(&live->store, open_desks(&live->room.follower)))
        return tell_store_failure(live, STATUS_NOT_WRITTEN);
    return 0;
}

static int end_of_lines(struct live *live, enum line_state state)
{
    int failed = 0, status;
    if (state == LINE_FAILED) {
        fprintf(stderr, "%s: %s\n", live->source->name, strerror(errno));
        failed = STATUS_STOPPED;
    }
    if (state == LINE_LAST_CUT)
        failed = skip_line(live, "it has no newline, so it may be cut");
    /* Told to end, or failed, before anything was asked for: no store is made of half a table. */
    if (!live->opened && state != LINE_NONE)
        return failed;
    status = end_in_order(live);
    return status != 0 ? status : failed;
}

static int serve_lines(struct live *live)
{
    struct text line;
    enum line_state state;
    int status = 0;
    for (;;) {
        state = source_take_line(live->source, &line);
        if (state == LINE_READ)
            status = serve_line(live, line);
        else if (state == LINE_TOO_LONG)
            status = skip_line(live, "it is longer than 4,096 bytes");
        else
            return end_of_lines(live, state);
        if (status != 0)
            return status;
    }
}

int serve_live(struct source *source, const char *store_path)
{
    struct live *live = memory_for(1, sizeof *live);
    int status = 0;
    live->source = source;
    live->with_store = store_path != NULL;
    live->store.file = -1;
    reader_begin(&live->reader);
    if (live->with_store)
        status = flush_told(open_store(live, store_path));
    if (status == 0)
        status = serve_lines(live);
    store_close(&live->store);
    free(live);
    return status;
}
