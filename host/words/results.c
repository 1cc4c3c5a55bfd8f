#define _POSIX_C_SOURCE 200809L /* for gmtime_r */
#include <string.h>
#include <time.h>

#include "words/telling.h"

typedef unsigned long shown;

const char *moment(uint64_t milliseconds, char shown_moment[MOMENT_BYTES])
{
    time_t seconds = (time_t)(milliseconds / 1000);
    struct tm parts;
    if (milliseconds / 1000 > 253402300799ULL || gmtime_r(&seconds, &parts) == NULL ||
        strftime(shown_moment, MOMENT_BYTES, "%Y-%m-%d %H:%M:%S UTC", &parts) == 0)
        snprintf(shown_moment, MOMENT_BYTES, "no known time");
    return shown_moment;
}

void tell_heading(struct text text, int after_answer)
{
    if (after_answer)
        putchar('\n');
    say_line(stdout, "%.*s", (int)text.length, text.length == 0 ? "" : text.start);
}

static int tell_names_of(const char *what, const char (*names)[NAME_BYTES_MOST + 1], uint32_t count)
{
    struct saying saying;
    uint32_t number;
    saying_begin(&saying);
    for (number = 0; number < count; number++)
        if (names[number][0] != '\0')
            say(&saying, "%s%lu %s", saying.length == 0 ? what : ", ", (shown)number,
                names[number]);
    if (saying.length == 0)
        return 0;
    say(&saying, ".");
    saying_print(&saying, stdout);
    return 1;
}

int tell_names(const struct names *names)
{
    int told = tell_names_of("Desks: ", names->desks, CHAFFDANCER_DESKS);
    return tell_names_of("Items: ", names->items, CHAFFDANCER_ITEMS) || told;
}

void tell_changes(const struct names *names, const uint8_t *before, const uint8_t *after)
{
    char of_item[NAME_SHOWN_BYTES];
    uint32_t item;
    for (item = 0; item < CHAFFDANCER_ITEMS; item++)
        if (value_of(before, item) != value_of(after, item))
            say_line(stdout, "%s: %lu -> %lu", item_name(names, item, of_item),
                     (shown)value_of(before, item), (shown)value_of(after, item));
}

static void tell_open_desk(const struct names *names, const struct followed_desk *open,
                           uint32_t desk)
{
    char of_desk[NAME_SHOWN_BYTES], of_item[NAME_SHOWN_BYTES];
    struct saying saying;
    uint32_t item, told = 0;
    saying_begin(&saying);
    say(&saying, "%s, age %lu: ", desk_name(names, desk, of_desk), (shown)open->age);
    for (item = 0; item < CHAFFDANCER_ITEMS; item++)
        if (open->stored[item])
            say(&saying, "%s%s = %lu", told++ == 0 ? "" : ", ", item_name(names, item, of_item),
                (shown)open->copies[item]);
    say(&saying, told == 0 ? "nothing written" : ", not committed");
    saying_print(&saying, stdout);
}

void tell_open_desks(const struct names *names, const struct follower *follower)
{
    uint32_t desk;
    if (open_desks(follower) == 0)
        return;
    printf("\nStill open, and seen by nobody else:\n");
    for (desk = 0; desk < CHAFFDANCER_DESKS; desk++)
        if (follower->desks[desk].open)
            tell_open_desk(names, &follower->desks[desk], desk);
}

void tell_result(const struct names *names, const struct follower *follower)
{
    printf("What changed on the board:\n");
    tell_changes(names, follower->opening, follower->table);
    if (memcmp(follower->opening, follower->table, sizeof follower->table) == 0)
        printf("no item changed\n");
    tell_open_desks(names, follower);
}

/* Tells the headings that stand before a request, from the given one on. */
static size_t tell_headings(const struct script *script, size_t heading, size_t request)
{
    size_t next = heading;
    while (next < script->heading_count && script->headings[next].before == request) {
        tell_heading(script->headings[next].text, next == heading && request > 0);
        next++;
    }
    return next;
}

void tell_served(const struct script *script, const uint8_t *answers,
                 const uint8_t values[CHAFFDANCER_VALUES_BYTES])
{
    struct follower follower;
    struct saying saying;
    size_t place, heading = 0;
    follow_opening(&follower, script->table);
    saying_begin(&saying);
    if (tell_names(&script->names))
        putchar('\n');
    for (place = 0; place < script->request_count; place++) {
        const uint8_t *request = script_request(script, place);
        const uint8_t *answer = answers + place * CHAFFDANCER_ANSWER_BYTES;
        heading = tell_headings(script, heading, place);
        say_answered(&saying, &script->names, &follower, request, answer);
        saying_print(&saying, stdout);
        follow_answer(&follower, request, chaffdancer_get_answer(answer));
    }
    heading = tell_headings(script, heading, place);
    put_values(follower.table, values);
    if (place > 0 || heading > 0)
        putchar('\n');
    tell_result(&script->names, &follower);
}

/* The hub says only that the table is wrong; the host can look which rows are. */
static void tell_wrong_rows(const uint8_t *table, const struct names *names,
                            const size_t *table_lines)
{
    char of_item[NAME_SHOWN_BYTES];
    uint32_t item;
    for (item = 0; item < CHAFFDANCER_ITEMS; item++) {
        shown floor = floor_of(table, item), ceiling = ceiling_of(table, item),
              value = value_of(table, item);
        if (value < floor || value > ceiling)
            say_line(stdout, "%s (line %lu): the value %lu is not from %lu to %lu",
                     item_name(names, item, of_item), (shown)table_lines[item], value, floor,
                     ceiling);
    }
}

void tell_refused_run(const uint8_t *table, const struct names *names, const size_t *table_lines,
                      int64_t refusal)
{
    if (refusal == CHAFFDANCER_REFUSED_TABLE) {
        printf("refused 10, the opening table is wrong\n");
        tell_wrong_rows(table, names, table_lines);
    } else if (refusal == CHAFFDANCER_REFUSED_TOO_MANY) {
        printf("refused 14, more than 4,096 requests in a run\n");
    } else {
        printf("refused %lu, the host lent wrong buffers\n", (shown)refusal);
    }
}
