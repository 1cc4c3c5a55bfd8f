#include "common/statuses.h"
#include "live/state.h"
#include "words/restoring.h"
#include "words/telling.h"

int tell_store_failure(struct live *live, int status)
{
    say_line(stderr, "chaffdancer-host: %s: %s", live->store.path, live->store.complaint.text);
    return status;
}

/* What the script says of limits and kinds has no force over a store. */
static void tell_row_left_out(const struct live *live, uint32_t item)
{
    char of_item[NAME_SHOWN_BYTES];
    const struct row *row = reader_row(&live->reader, item);
    const uint8_t *table = live->trail.table;
    uint32_t kind = row_of(table, item)[12];
    if (row == NULL || (row->floor == floor_of(table, item) &&
                        row->ceiling == ceiling_of(table, item) && row->kind == kind))
        return;
    say_line(stdout, "%s: line %lu of the script is left out, the store has %lu to %lu, %s",
             item_name(&live->reader.names, item, of_item), (unsigned long)row->line,
             (unsigned long)floor_of(table, item), (unsigned long)ceiling_of(table, item),
             is_guarded(table, item) ? "guarded" : "open");
}

static int open_restored(struct live *live)
{
    uint8_t table[CHAFFDANCER_TABLE_BYTES];
    uint32_t item;
    for (item = 0; item < CHAFFDANCER_ITEMS; item++)
        tell_row_left_out(live, item);
    if (!trail_values(&live->trail, table) ||
        room_open(&live->room, &live->store, CAUSE_RESTART, table, &live->reader.names) != 0)
        return tell_store_failure(live, STATUS_NOT_WRITTEN);
    return 0;
}

static int open_new(struct live *live)
{
    uint8_t table[CHAFFDANCER_TABLE_BYTES];
    size_t lines[CHAFFDANCER_ITEMS];
    uint32_t item;
    int64_t opened;
    if (!reader_fill_table(&live->reader, table)) {
        say_line(stderr, "%s:%lu: %s", live->source->name, (unsigned long)live->reader.line,
                 live->reader.wrong.text);
        return STATUS_STOPPED;
    }
    opened = room_open(&live->room, live->with_store ? &live->store : NULL, CAUSE_NEW, table,
                       &live->reader.names);
    if (opened > 0)
        return tell_store_failure(live, STATUS_STOPPED);
    for (item = 0; item < CHAFFDANCER_ITEMS; item++)
        lines[item] = reader_row(&live->reader, item)->line;
    if (opened < 0)
        tell_refused_run(table, &live->reader.names, lines, -opened);
    return opened < 0 ? STATUS_REFUSED : 0;
}

int open_board(struct live *live)
{
    int status = live->restored ? open_restored(live) : open_new(live);
    live->opened = status == 0;
    if (status == 0) {
        blank_line(live);
        if (tell_names(&live->reader.names))
            live->above = ABOVE_WORDS;
        blank_line(live);
        tell_kept_headings(live);
    }
    return status;
}

int open_store(struct live *live, const char *path)
{
    enum store_state state = store_open(&live->store, path, &live->trail);
    live->restored = is_readable(state);
    if (state == STORE_ABSENT)
        return 0;
    if (!live->restored)
        return tell_unusable(path, state, live->store.holder, &live->store.complaint);
    live->reader.names = live->trail.names;
    tell_restored(&live->trail);
    live->above = ABOVE_WORDS;
    return 0;
}
