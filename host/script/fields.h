/* The fields of a script's lines, and what is wrong with one. */
#ifndef CHAFFDANCER_HOST_FIELDS_H
#define CHAFFDANCER_HOST_FIELDS_H

#include "common/complaint.h"
#include "text/line.h"

/* 1 and the field, or 0 and the complaint says what is wrong with it. */
int read_number(struct complaint *wrong, struct text word, const char *what, uint32_t most,
                uint32_t *number);
int read_kind(struct complaint *wrong, struct text word, uint32_t *kind);

#endif
