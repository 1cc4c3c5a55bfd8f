/* A room served line by line, as the lines come, with a store or without. */
#ifndef CHAFFDANCER_HOST_LIVE_H
#define CHAFFDANCER_HOST_LIVE_H

#include "source.h"

/* The path of the store may be null. Gives the exit status. */
int serve_live(struct source *source, const char *store_path);

#endif
