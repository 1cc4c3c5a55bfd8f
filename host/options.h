/* What the arguments ask for. */
#ifndef CHAFFDANCER_HOST_OPTIONS_H
#define CHAFFDANCER_HOST_OPTIONS_H

#include "audit/log_form.h"

enum mode {
    SERVE_RUN,
    SERVE_STEPS,
    SERVE_LIVE,
    BOARD,
    LOG,
    SALVAGE,
    KEEP,
    IMPORT,
    BYTES,
    VERSION,
    HELP
};

struct options {
    enum mode mode;
    int word; /* which of the words in options.c gave the mode; 0 for none */
    int spring;
    const char *store;
    uint32_t keep;
    const struct log_form *form;
    const char *paths[2];
    int path_count;
};

/* 1, or 0 if an argument is wrong. */
int read_options(struct options *options, int count, char **arguments);

#endif
