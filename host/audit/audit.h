/* Looking at a store, which changes nothing in it; also beside a host that serves it. */
#ifndef CHAFFDANCER_HOST_AUDIT_H
#define CHAFFDANCER_HOST_AUDIT_H

#include "audit/log_form.h"

/* The values, commits and times of a store: the exit status. */
int look_at_board(const char *path);

/* Who committed what and when, in one of the forms: the exit status. */
int look_at_log(const char *path, const struct log_form *form);

#endif
