#include "words/restoring.h"

#include "common/statuses.h"
#include "words/telling.h"

const char *cause_words(uint8_t cause)
{
    static const char *const words[] = {"as a new store", "after a restart", "by a turnover",
                                        "by a salvage"};
    return cause >= CAUSE_NEW && cause <= CAUSE_SALVAGE ? words[cause - CAUSE_NEW]
                                                        : "for no known cause";
}

static const char *plural(uint64_t count)
{
    return count == 1 ? "" : "s";
}

static void say_open_desks(struct saying *saying, const struct trail *trail)
{
    char of_desk[NAME_SHOWN_BYTES];
    uint32_t desk, told = 0;
    for (desk = 0; desk < CHAFFDANCER_DESKS; desk++)
        if ((trail->open_desks >> desk & 1U) != 0)
            say(saying, "%s%s", told++ == 0 ? "" : ", ", desk_name(&trail->names, desk, of_desk));
}

void tell_ending(const struct trail *trail)
{
    char at[MOMENT_BYTES];
    struct saying saying;
    saying_begin(&saying);
    if (!trail->closed) {
        say(&saying, "Its last host did not end in order. All commits that it told are here; "
                     "what was open then is gone.");
    } else if (trail->open_desks == 0) {
        say(&saying, "Its host ended in order at %s, with nothing open.",
            moment(trail->closed_at, at));
    } else {
        say(&saying,
            "Its host ended in order at %s. Open then, and gone: ", moment(trail->closed_at, at));
        say_open_desks(&saying, trail);
        say(&saying, ".");
    }
    saying_print(&saying, stdout);
}

void tell_unfinished(size_t bytes)
{
    if (bytes > 0)
        say_line(stdout,
                 "At its end are %lu bytes of a commit or segment that was being written: it "
                 "never came whole, so it was never told.",
                 (unsigned long)bytes);
}

void tell_restored(const struct trail *trail)
{
    char at[MOMENT_BYTES];
    uint8_t table[CHAFFDANCER_TABLE_BYTES];
    struct saying saying;
    saying_begin(&saying);
    say(&saying, "Restored: %llu commit%s in %lu segment%s", (unsigned long long)trail->all_commits,
        plural(trail->all_commits), (unsigned long)trail->segments, plural(trail->segments));
    if (trail->all_commits > 0)
        say(&saying, ", the last at %s", moment(trail->last_commit, at));
    say(&saying, ".");
    saying_print(&saying, stdout);
    if (trail_values(trail, table))
        tell_changes(&trail->names, trail->first, table);
    tell_ending(trail);
    tell_unfinished(trail->tail);
}

int tell_unusable(const char *path, enum store_state state, pid_t holder,
                  const struct complaint *complaint)
{
    switch (state) {
    case STORE_ABSENT:
        say_line(stderr, "chaffdancer-host: %s: there is no such file", path);
        return STATUS_STOPPED;
    case STORE_SERVED:
        if (holder > 0)
            say_line(stderr, "chaffdancer-host: %s: another host serves it, process %ld", path,
                     (long)holder);
        else
            say_line(stderr, "chaffdancer-host: %s: another host serves it", path);
        return STATUS_HELD;
    case STORE_DAMAGED:
        say_line(stderr, "chaffdancer-host: %s: damaged: %s", path, complaint->text);
        say_line(stderr,
                 "It was left as it is. chaffdancer-host --salvage %s NEW writes what can "
                 "be had to a new store.",
                 path);
        return STATUS_DAMAGED;
    case STORE_NONE:
        say_line(stderr, "chaffdancer-host: %s: %s, and was left as it is", path, complaint->text);
        return STATUS_DAMAGED;
    default:
        say_line(stderr, "chaffdancer-host: %s: %s", path, complaint->text);
        return STATUS_STOPPED;
    }
}
