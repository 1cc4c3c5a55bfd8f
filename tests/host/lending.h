/*
 * Buffers of exactly the length asked for. The library is not compiled with the
 * sanitizer, so malloc's memory alone would not show each step over an edge:
 * the other two lenders place the buffer against a page that nobody may touch.
 */
#ifndef CHAFFDANCER_TESTS_LENDING_H
#define CHAFFDANCER_TESTS_LENDING_H

#include <stddef.h>
#include <stdint.h>

struct lender {
    const char *name;
    void *(*lend)(size_t length);
    void (*take_back)(void *buffer, size_t length);
};

#define LENDERS 3
extern const struct lender lenders[LENDERS];

#endif
