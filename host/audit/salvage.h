/* What can be had of a store, written to a new one. */
#ifndef CHAFFDANCER_HOST_SALVAGE_H
#define CHAFFDANCER_HOST_SALVAGE_H

#include <stdint.h>

/* All that is readable of a store, damaged or not, and in words what is not: the exit status. */
int salvage_store(const char *from, const char *to);

/* The last so many segments of a store that is whole: the exit status. */
int keep_segments(const char *from, const char *to, uint32_t count);

#endif
