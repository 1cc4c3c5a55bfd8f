/* What a store holds, in words. */
#ifndef CHAFFDANCER_HOST_RESTORING_H
#define CHAFFDANCER_HOST_RESTORING_H

#include "store/store.h"

/* What a host goes on from. */
void tell_restored(const struct trail *trail);

/* How the host of the last segment ended. */
void tell_ending(const struct trail *trail);

/* Why a store cannot be used, on standard error; gives the exit status. */
int tell_unusable(const char *path, enum store_state state, pid_t holder,
                  const struct complaint *complaint);

/* What a frame that was never finished left behind. */
void tell_unfinished(size_t bytes);

/* Why a segment was begun. */
const char *cause_words(uint8_t cause);

#endif
