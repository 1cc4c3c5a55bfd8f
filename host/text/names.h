/* The names that people give to items and desks. */
#ifndef CHAFFDANCER_HOST_NAMES_H
#define CHAFFDANCER_HOST_NAMES_H

#include "chaffdancer.h"
#include "text/line.h"

#define NAME_BYTES_MOST 32

/* An empty name is none. */
struct names {
    char items[CHAFFDANCER_ITEMS][NAME_BYTES_MOST + 1];
    char desks[CHAFFDANCER_DESKS][NAME_BYTES_MOST + 1];
};

#define NAME_SHOWN_BYTES (NAME_BYTES_MOST + 16)

/* The name, or "item 7" and "desk 3" where there is none; in a text that is lent. */
const char *item_name(const struct names *names, uint32_t item, char shown[NAME_SHOWN_BYTES]);
const char *desk_name(const struct names *names, uint32_t desk, char shown[NAME_SHOWN_BYTES]);

/* What is wrong with a name, in words; null if nothing is. */
const char *name_fault(struct text name);

/* Whether another item, or another desk, has the name already. */
int name_is_taken(const struct names *names, int of_desk, uint32_t number, struct text name);

void name_put(struct names *names, int of_desk, uint32_t number, struct text name);

/* Names as bytes: for each a 1 (item) or 2 (desk), its number, its length, its bytes. */
#define NAMES_BYTES_MOST ((CHAFFDANCER_ITEMS + CHAFFDANCER_DESKS) * (3 + NAME_BYTES_MOST))
size_t names_put(const struct names *names, uint8_t bytes[NAMES_BYTES_MOST]);
/* 1; or 0 if the bytes are no names, and these stay as they were. */
int names_get(struct names *names, const uint8_t *bytes, size_t length);

#endif
