#include "common/statuses.h"
#include "live/state.h"
#include "words/telling.h"

static void tell_turning(struct live *live)
{
    blank_line(live);
    say_line(stdout, "The board was turned over, with nobody open: ages and numbers begin at 1 "
                     "again, and every value stands.");
}

static void tell_not_served(struct live *live, const uint8_t *request, const char *why)
{
    char of_desk[NAME_SHOWN_BYTES];
    say(&live->saying, "%s %s: not served: %s", desk_name(&live->reader.names, request[1], of_desk),
        request[0] == CHAFFDANCER_REQUEST_BEGIN ? "begins" : "ends", why);
    saying_print(&live->saying, stdout);
}

static int tell_unsafe(struct live *live, const uint8_t *request)
{
    say_line(stderr,
             "chaffdancer-host: what desk %lu asked for last is not told: if it was a commit, a "
             "restart may find it or not",
             (unsigned long)request[1]);
    return tell_store_failure(live, STATUS_NOT_WRITTEN);
}

static void tell_and_follow(struct live *live, const uint8_t *request, const uint8_t *answer)
{
    say_answered(&live->saying, &live->reader.names, &live->room.follower, request, answer);
    saying_print(&live->saying, stdout);
    follow_answer(&live->room.follower, request, chaffdancer_get_answer(answer));
}

/* A commit is told once it is safe in the store, and not before. */
int serve_request(struct live *live, const uint8_t *request)
{
    uint8_t answer[CHAFFDANCER_ANSWER_BYTES];
    enum served served = room_serve(&live->room, request, answer);
    if (served == NOT_SERVED_UNSAFE)
        return tell_unsafe(live, request);
    if (served == SERVED_AFTER_TURNING)
        tell_turning(live);
    if (served == NOT_SERVED_HELD)
        tell_not_served(live, request,
                        "the board is turned over as soon as nobody is open; ask again then");
    else if (served == NOT_SERVED_NO_DISK)
        tell_not_served(live, request,
                        "the disk has no room for the store; nothing was changed, ask again when "
                        "it has");
    else
        tell_and_follow(live, request, answer);
    if (served == SERVED_WITH_WARNING)
        say_line(stdout, "Soon nobody can begin until all have ended: the board is near its end "
                         "and is to be turned over.");
    live->above = ABOVE_WORDS;
    return 0;
}

/* In a live room a wrong line is answered, to its desk where it names one. */
static void answer_wrong_line(struct live *live, int desk, const char *what)
{
    char of_desk[NAME_SHOWN_BYTES];
    if (desk >= 0)
        say(&live->saying, "%s: ", desk_name(&live->reader.names, (uint32_t)desk, of_desk));
    say(&live->saying, "line %lu is not served: %s", (unsigned long)live->reader.line, what);
    saying_print(&live->saying, stdout);
    live->above = ABOVE_WORDS;
}

/* Before the board is open a wrong line may be a row: to go on would open another table. */
int take_wrong_line(struct live *live, int desk, const char *what)
{
    if (live->opened) {
        answer_wrong_line(live, desk, what);
        return 0;
    }
    say_line(stderr, "%s:%lu: %s", live->source->name, (unsigned long)live->reader.line, what);
    return STATUS_STOPPED;
}
