/* Scripts: an opening table, names, requests, and headings to be printed among them. */
#ifndef CHAFFDANCER_HOST_SCRIPT_H
#define CHAFFDANCER_HOST_SCRIPT_H

#include "chaffdancer.h"
#include "common/complaint.h"
#include "text/line.h"
#include "text/names.h"

/* A row of the table as a line gave it. */
struct row {
    size_t line; /* 0 while no line gave it */
    uint32_t floor, ceiling, value, kind;
};

/* A script that is being read, line by line. */
struct reader {
    size_t line; /* the number of the last line taken */
    int opened;  /* there was a request: the lines of table and names are over */
    struct row rows[CHAFFDANCER_ITEMS];
    struct row others;
    struct names names;
    struct complaint wrong; /* what is wrong with the last line */
};

/* What a line was. */
enum entry_kind { ENTRY_NOTHING, ENTRY_HEADING, ENTRY_ROW, ENTRY_NAME, ENTRY_REQUEST, ENTRY_WRONG };

struct entry {
    enum entry_kind kind;
    struct text heading;
    uint8_t request[CHAFFDANCER_REQUEST_BYTES];
    int desk; /* of a wrong line: the desk that it names, or -1 */
};

void reader_begin(struct reader *reader);

/* Takes the next line in; a heading lies in the text lent. */
struct entry reader_take_line(struct reader *reader, struct text line);

/* The row that the lines so far give an item, or null. */
const struct row *reader_row(const struct reader *reader, uint32_t item);

/* Puts the rows into a table: 1; or 0 if one is missing, and that is what is wrong. */
int reader_fill_table(struct reader *reader, uint8_t table[CHAFFDANCER_TABLE_BYTES]);

/* A whole script. */
struct heading {
    size_t before; /* how many requests stand before it */
    struct text text;
};

struct script {
    uint8_t table[CHAFFDANCER_TABLE_BYTES];
    size_t table_lines[CHAFFDANCER_ITEMS]; /* the line that each item's row is from */
    struct names names;
    uint8_t *requests;
    size_t request_count;
    struct heading *headings;
    size_t heading_count;
};

/*
 * Reads a whole script. 1 if all lines are right; else 0, and the wrong lines are told
 * on standard error. The headings lie in the text lent, which must outlive them.
 * Either way script_free is due.
 */
int script_read(struct script *script, const char *name, struct text text);

void script_free(struct script *script);

static inline const uint8_t *script_request(const struct script *script, size_t place)
{
    return script->requests + place * CHAFFDANCER_REQUEST_BYTES;
}

#endif
