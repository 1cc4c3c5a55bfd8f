/* What the hub answered, in words; lines of standard output have 80 columns at most. */
#ifndef CHAFFDANCER_HOST_TELLING_H
#define CHAFFDANCER_HOST_TELLING_H

#include "room/following.h"
#include "script/script.h"
#include "words/saying.h"

/* A request and its answer, told from what was followed before the answer. */
void say_answered(struct saying *saying, const struct names *names, const struct follower *follower,
                  const uint8_t *request, const uint8_t *answer);

/* Who is who: 1; or 0 if nobody has a name. */
int tell_names(const struct names *names);

void tell_heading(struct text text, int after_answer);

/* What a whole run came to: the items that changed, and what is still open. */
void tell_changes(const struct names *names, const uint8_t *before, const uint8_t *after);
void tell_open_desks(const struct names *names, const struct follower *follower);
void tell_result(const struct names *names, const struct follower *follower);

/* Every heading, every request with its answer, and what it came to by the hub's final values. */
void tell_served(const struct script *script, const uint8_t *answers,
                 const uint8_t values[CHAFFDANCER_VALUES_BYTES]);

/* Why a whole run was refused; table_lines may be null. */
void tell_refused_run(const uint8_t *table, const struct names *names, const size_t *table_lines,
                      int64_t refusal);

/* The moment in words, as 2026-11-16 09:30:05 UTC. */
#define MOMENT_BYTES 32
const char *moment(uint64_t milliseconds, char shown[MOMENT_BYTES]);

#endif
