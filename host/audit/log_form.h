/* The forms in which the log of a store is printed. */
#ifndef CHAFFDANCER_HOST_LOG_FORM_H
#define CHAFFDANCER_HOST_LOG_FORM_H

#include "store/trail.h"

/* What is printed before all, for each frame once the trail has taken it, and behind all. */
struct log_form {
    void (*first)(void);
    void (*segment)(const struct trail *trail);
    void (*commit)(const struct trail *trail, const struct frame *frame);
    void (*closed)(const struct trail *trail);
    void (*unfinished)(const struct frame *frame);
    void (*last)(void);
};

extern const struct log_form log_in_words, log_as_script, log_as_sql;

/* Who committed which values, and when. */
void tell_commit(const struct names *names, uint32_t number, const struct frame *frame);

#endif
