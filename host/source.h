/* Lines as they come, from a file, a pipe or a text in memory. */
#ifndef CHAFFDANCER_HOST_SOURCE_H
#define CHAFFDANCER_HOST_SOURCE_H

#include "text/line.h"

#define LINE_BYTES_MOST 4096

struct source {
    const char *name;
    int file;          /* -1 for a text in memory */
    int whole;         /* a regular file or a text: its last line needs no newline */
    int ended;         /* nothing more comes */
    struct text rest;  /* of a text in memory */
    size_t start, end; /* what is in the buffer and was not yet given */
    char buffer[2 * LINE_BYTES_MOST];
};

/* Opens a file by its path, or standard input where that is null or "-": 1; or 0, and errno. */
int source_open(struct source *source, const char *path);
void source_of_text(struct source *source, const char *name, struct text text);
void source_close(struct source *source);

enum line_state {
    LINE_READ,
    LINE_LAST_CUT, /* the last one, of a pipe, without its newline: it may have been longer */
    LINE_TOO_LONG, /* it was left out, to its newline */
    LINE_NONE,
    LINE_STOPPED, /* a signal asked the host to end */
    LINE_FAILED   /* and errno says why */
};

/* The next line, without its newline; it lies in the source until the next call. */
enum line_state source_take_line(struct source *source, struct text *line);

/* From now on SIGINT, SIGTERM and SIGHUP end the lines; SIGPIPE and SIGXFSZ end nothing: 1, or 0.
 */
int source_heed_signals(void);

#endif
