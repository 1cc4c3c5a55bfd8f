#include "script/script.h"

#include <stdio.h>
#include <stdlib.h>
#include <string.h>

#include "common/memory.h"

/* A file that is no script at all shall not fill the screen. */
#define WRONG_LINES_TOLD 20

static void tell_wrong(const char *name, const struct reader *reader, size_t wrong_lines)
{
    if (wrong_lines > WRONG_LINES_TOLD + 1)
        return;
    fprintf(stderr, "%s:%lu: %s\n", name, (unsigned long)reader->line,
            wrong_lines <= WRONG_LINES_TOLD
                ? reader->wrong.text
                : "wrong too, and from here on wrong lines are not told");
}

static void add_request(struct script *script, const uint8_t *request)
{
    size_t count = script->request_count;
    script->requests = memory_for_one_more(script->requests, count, CHAFFDANCER_REQUEST_BYTES);
    memcpy(script->requests + count * CHAFFDANCER_REQUEST_BYTES, request,
           CHAFFDANCER_REQUEST_BYTES);
    script->request_count = count + 1;
}

static void add_heading(struct script *script, struct text text)
{
    struct heading heading;
    heading.before = script->request_count;
    heading.text = text;
    script->headings = memory_for_one_more(script->headings, script->heading_count, sizeof heading);
    script->headings[script->heading_count] = heading;
    script->heading_count++;
}

static int fill_table(struct script *script, struct reader *reader)
{
    uint32_t item;
    if (!reader_fill_table(reader, script->table))
        return 0;
    for (item = 0; item < CHAFFDANCER_ITEMS; item++)
        script->table_lines[item] = reader_row(reader, item)->line;
    script->names = reader->names;
    return 1;
}

int script_read(struct script *script, const char *name, struct text text)
{
    struct reader reader;
    struct text line;
    size_t wrong_lines = 0;
    memset(script, 0, sizeof *script);
    reader_begin(&reader);
    while (text_take_line(&text, &line)) {
        struct entry entry = reader_take_line(&reader, line);
        if (entry.kind == ENTRY_WRONG)
            tell_wrong(name, &reader, ++wrong_lines);
        else if (entry.kind == ENTRY_REQUEST)
            add_request(script, entry.request);
        else if (entry.kind == ENTRY_HEADING)
            add_heading(script, entry.heading);
    }
    /* After a wrong line, a row that is missing may be no fault of its own. */
    if (wrong_lines == 0 && !fill_table(script, &reader))
        tell_wrong(name, &reader, ++wrong_lines);
    return wrong_lines == 0;
}

void script_free(struct script *script)
{
    free(script->requests);
    free(script->headings);
    memset(script, 0, sizeof *script);
}
