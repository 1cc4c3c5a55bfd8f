#include "words/telling.h"

/* printf has no form for uint32_t in all compilers; unsigned long holds it. */
typedef unsigned long shown;

static void say_request(struct saying *saying, const struct names *names, const uint8_t *request)
{
    char of_desk[NAME_SHOWN_BYTES], of_item[NAME_SHOWN_BYTES];
    const char *desk = desk_name(names, request[1], of_desk);
    const char *item = item_name(names, request[2], of_item);
    switch (request[0]) {
    case CHAFFDANCER_REQUEST_BEGIN:
        say(saying, "%s begins: ", desk);
        break;
    case CHAFFDANCER_REQUEST_READ:
        say(saying, "%s reads %s: ", desk, item);
        break;
    case CHAFFDANCER_REQUEST_WRITE:
        say(saying, "%s writes %lu to %s: ", desk, (shown)chaffdancer_get_number(request + 4),
            item);
        break;
    case CHAFFDANCER_REQUEST_END:
        say(saying, "%s ends: ", desk);
        break;
    default:
        say(saying, "%s abandons: ", desk);
        break;
    }
}

static void say_refusal(struct saying *saying, const struct names *names,
                        const struct follower *follower, const uint8_t *request, shown refusal)
{
    char of_desk[NAME_SHOWN_BYTES], of_item[NAME_SHOWN_BYTES];
    const char *desk = desk_name(names, request[1], of_desk);
    const char *item = item_name(names, request[2], of_item);
    say(saying, "refused %lu, ", refusal);
    switch (refusal) {
    case CHAFFDANCER_REFUSED_DESK:
        say(saying, "there is no %s, the last is 15", desk);
        break;
    case CHAFFDANCER_REFUSED_ALREADY_OPEN:
        say(saying, "%s has a transaction open already", desk);
        break;
    case CHAFFDANCER_REFUSED_NONE_OPEN:
        say(saying, "%s has no transaction open", desk);
        break;
    case CHAFFDANCER_REFUSED_ITEM:
        say(saying, "there is no %s, the last is 63", item);
        break;
    case CHAFFDANCER_REFUSED_BELOW_FLOOR:
        say(saying, "below the floor of %s (%lu)", item,
            (shown)floor_of(follower->table, request[2]));
        break;
    case CHAFFDANCER_REFUSED_ABOVE_CEILING:
        say(saying, "above the ceiling of %s (%lu)", item,
            (shown)ceiling_of(follower->table, request[2]));
        break;
    case CHAFFDANCER_REFUSED_AGES_GIVEN:
        say(saying, "all 2,000 ages have been given, and %s keeps none", desk);
        break;
    default: /* 15; 1 and 3 speak of malformed requests, and a script makes none */
        say(saying, "%s", chaffdancer_refused_text((unsigned)refusal));
        break;
    }
}

static void say_abort(struct saying *saying, const struct names *names,
                      const struct follower *follower, const struct chaffdancer_answer *answer)
{
    char of_item[NAME_SHOWN_BYTES], of_other[NAME_SHOWN_BYTES], of_desk[NAME_SHOWN_BYTES];
    const char *item = item_name(names, answer->item, of_item);
    switch (answer->reason) {
    case CHAFFDANCER_ABORTED_OVERWRITTEN:
        say(saying, "aborted, overwritten: %s was written by %s, number %lu", item,
            desk_name(names,
                      answer->first <= CHAFFDANCER_AGES ? follower->writers[answer->first] : 0,
                      of_other),
            (shown)answer->first);
        break;
    case CHAFFDANCER_ABORTED_TOO_OLD:
        say(saying, "aborted, too old: more than 16 commits since its start at %lu",
            (shown)answer->first);
        break;
    default:
        say(saying, "aborted, must yield to %s, which holds %s and is older",
            desk_name(names, answer->first, of_other), item);
        break;
    }
    say(saying, "; %s keeps its age", desk_name(names, answer->desk, of_desk));
}

static uint32_t refused_count(const struct followed_desk *desk)
{
    uint32_t item, count = 0;
    for (item = 0; item < sizeof desk->refused; item++)
        count += desk->refused[item];
    return count;
}

/* A write that was refused may have been what the whole transaction was for. */
static void say_refused_items(struct saying *saying, const struct names *names,
                              const struct followed_desk *desk)
{
    char of_item[NAME_SHOWN_BYTES];
    uint32_t item, told = 0, count = refused_count(desk);
    for (item = 0; item < sizeof desk->refused; item++)
        if (desk->refused[item])
            say(saying, "%s%s", told++ == 0 ? (count == 1 ? "the write to " : "writes to ") : ", ",
                item_name(names, item, of_item));
    say(saying, count == 1 ? " was refused" : " were refused");
}

static void say_committed(struct saying *saying, const struct names *names,
                          const struct followed_desk *desk, shown number)
{
    int nothing = stored_count(desk) == 0, refused = refused_count(desk) > 0;
    say(saying, "committed as number %lu%s", number, nothing ? ", with nothing written" : "");
    if (!refused)
        return;
    say(saying, nothing ? ": " : "; ");
    say_refused_items(saying, names, desk);
}

static void say_answer(struct saying *saying, const struct names *names,
                       const struct follower *follower, const uint8_t *request,
                       const struct chaffdancer_answer *answer)
{
    char of_item[NAME_SHOWN_BYTES], of_other[NAME_SHOWN_BYTES];
    const char *item = item_name(names, answer->item, of_item);
    switch (answer->code) {
    case CHAFFDANCER_ANSWER_REFUSED:
        say_refusal(saying, names, follower, request, answer->reason);
        break;
    case CHAFFDANCER_ANSWER_OPENED:
        say(saying, "opened, age %lu, start %lu", (shown)answer->first, (shown)answer->second);
        break;
    case CHAFFDANCER_ANSWER_VALUE:
        say(saying, "%lu", (shown)answer->first);
        break;
    case CHAFFDANCER_ANSWER_STORED:
        say(saying, "stored, unseen by others");
        break;
    case CHAFFDANCER_ANSWER_WAIT:
        say(saying, "wait and ask again: %s holds %s and is younger",
            desk_name(names, answer->first, of_other), item);
        break;
    case CHAFFDANCER_ANSWER_COMMITTED:
        say_committed(saying, names, &follower->desks[answer->desk], answer->first);
        break;
    case CHAFFDANCER_ANSWER_ABANDONED:
        say(saying, "abandoned, nothing was changed");
        break;
    default:
        say_abort(saying, names, follower, answer);
        break;
    }
}

void say_answered(struct saying *saying, const struct names *names, const struct follower *follower,
                  const uint8_t *request, const uint8_t *answer)
{
    struct chaffdancer_answer told = chaffdancer_get_answer(answer);
    say_request(saying, names, request);
    say_answer(saying, names, follower, request, &told);
}
