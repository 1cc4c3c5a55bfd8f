#include "audit/audit.h"

#include <stdlib.h>

#include "common/memory.h"
#include "common/statuses.h"
#include "room/following.h"
#include "store/store.h"
#include "words/restoring.h"
#include "words/telling.h"

typedef unsigned long shown;

static void tell_who_serves(pid_t holder, const struct trail *trail)
{
    if (holder > 0)
        printf("A host serves it now, process %ld.\n", (long)holder);
    else if (holder == 0)
        printf("A host serves it now.\n");
    else
        tell_ending(trail);
}

static void tell_rows(const struct trail *trail, const uint8_t *table)
{
    uint32_t item;
    printf("\nitem      value      floor    ceiling kind    name\n");
    for (item = 0; item < CHAFFDANCER_ITEMS; item++) {
        const char *kind = is_guarded(table, item) ? "guarded" : "open";
        printf("%4lu %10lu %10lu %10lu ", (shown)item, (shown)value_of(table, item),
               (shown)floor_of(table, item), (shown)ceiling_of(table, item));
        if (trail->names.items[item][0] == '\0')
            printf("%s\n", kind);
        else
            printf("%-7s %s\n", kind, trail->names.items[item]);
    }
}

static void tell_board(const struct trail *trail, pid_t holder)
{
    char at[MOMENT_BYTES], of_desk[NAME_SHOWN_BYTES];
    uint8_t table[CHAFFDANCER_TABLE_BYTES];
    say_line(stdout, "A store made at %s: %llu commit%s in %lu segment%s.", moment(trail->made, at),
             (unsigned long long)trail->all_commits, trail->all_commits == 1 ? "" : "s",
             (shown)trail->segments, trail->segments == 1 ? "" : "s");
    say_line(stdout, "Segment %lu was begun at %s %s and has %lu commit%s.", (shown)trail->segment,
             moment(trail->begun, at), cause_words(trail->cause), (shown)trail->commits,
             trail->commits == 1 ? "" : "s");
    if (trail->all_commits > 0)
        say_line(stdout, "The last commit was at %s, by %s.", moment(trail->last_commit, at),
                 desk_name(&trail->names, trail->last_desk, of_desk));
    tell_who_serves(holder, trail);
    tell_unfinished(trail->tail);
    if (trail_values(trail, table))
        tell_rows(trail, table);
}

int look_at_board(const char *path)
{
    struct trail *trail = memory_for(1, sizeof *trail);
    struct complaint complaint;
    pid_t holder;
    enum store_state state = store_look(path, trail, &holder, &complaint);
    int status = STATUS_SERVED;
    if (is_readable(state))
        tell_board(trail, holder);
    else
        status = tell_unusable(path, state, holder, &complaint);
    free(trail);
    return status;
}
