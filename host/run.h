/* A whole run on a fresh board: of a script, told in words, or of bytes, told in numbers. */
#ifndef CHAFFDANCER_HOST_RUN_H
#define CHAFFDANCER_HOST_RUN_H

#include "text/line.h"

/* Serves a script, with hub_run or, by_steps, request by request: the exit status. */
int run_script(const char *name, struct text text, int by_steps);

/*
 * Serves an opening table of 1,024 bytes and the requests behind it, and prints
 * the lines of the program chaffdancer: the exit status.
 */
int run_bytes(struct text bytes);

#endif
