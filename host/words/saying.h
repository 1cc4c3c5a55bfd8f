/* A line of words that is put together piece by piece and printed in 80 columns. */
#ifndef CHAFFDANCER_HOST_SAYING_H
#define CHAFFDANCER_HOST_SAYING_H

#include <stddef.h>
#include <stdio.h>

#define SAYING_COLUMNS 80

/* What is too long for it is cut; nothing that the host says is. */
struct saying {
    char text[8192];
    size_t length;
};

void saying_begin(struct saying *saying);
void say(struct saying *saying, const char *form, ...) __attribute__((format(printf, 2, 3)));

/* Prints it, broken at blanks, each further line four columns in; then it is empty. */
void saying_print(struct saying *saying, FILE *file);

/* All in one. */
void say_line(FILE *file, const char *form, ...) __attribute__((format(printf, 2, 3)));

#endif
