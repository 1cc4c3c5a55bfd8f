/* A live room: what its parts share. */
#ifndef CHAFFDANCER_HOST_LIVE_STATE_H
#define CHAFFDANCER_HOST_LIVE_STATE_H

#include "room/room.h"
#include "script/script.h"
#include "source.h"
#include "words/saying.h"

/* What stands above the next line. */
enum above { ABOVE_BLANK, ABOVE_WORDS, ABOVE_HEADING };

struct live {
    struct source *source;
    struct reader reader;
    struct store store;
    struct trail trail; /* what the store held when it was opened */
    int restored;       /* the table is the store's, not the script's */
    struct room room;
    int with_store;
    int opened; /* the board is open, and the lines of table and names are over */
    enum above above;
    struct saying saying;
    /* Headings before the first request, each with its newline: names are told before them. */
    char headings[2 * LINE_BYTES_MOST];
    size_t headings_length;
};

/* opening.c */

/* 0 if there is no store yet or it can be gone on from, else the status to end with. */
int open_store(struct live *live, const char *path);

/* The lines of table and names are over: 0 and the board is open, or the status to end with. */
int open_board(struct live *live);

/* Tells what the store complains of; gives the status back. */
int tell_store_failure(struct live *live, int status);

/* headings.c */

void take_heading(struct live *live, struct text heading);

/* Those that came before the board was open. */
void tell_kept_headings(struct live *live);

/* A blank line, unless there is one or nothing was told. */
void blank_line(struct live *live);

/* answering.c: 0, or the status to end with */

int serve_request(struct live *live, const uint8_t *request);
int take_wrong_line(struct live *live, int desk, const char *what);

#endif
