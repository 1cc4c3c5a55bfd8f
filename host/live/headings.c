#include <string.h>

#include "live/state.h"
#include "words/telling.h"

void blank_line(struct live *live)
{
    if (live->above != ABOVE_BLANK)
        putchar('\n');
    live->above = ABOVE_BLANK;
}

void tell_kept_headings(struct live *live)
{
    struct text rest, line;
    rest.start = live->headings;
    rest.length = live->headings_length;
    while (text_take_line(&rest, &line))
        tell_heading(line, 0);
    if (live->headings_length > 0)
        live->above = ABOVE_HEADING;
    live->headings_length = 0;
}

static void keep_heading(struct live *live, struct text heading)
{
    if (live->headings_length + heading.length + 1 > sizeof live->headings)
        tell_kept_headings(live);
    memcpy(live->headings + live->headings_length, heading.start, heading.length);
    live->headings_length += heading.length;
    live->headings[live->headings_length++] = '\n';
}

void take_heading(struct live *live, struct text heading)
{
    if (!live->opened) {
        keep_heading(live, heading);
        return;
    }
    tell_heading(heading, live->above == ABOVE_WORDS);
    live->above = ABOVE_HEADING;
}
