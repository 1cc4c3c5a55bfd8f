/*
 * The system calls that a store makes. A call that fails leaves its reason in
 * errno; nothing is told here.
 */
#ifndef CHAFFDANCER_HOST_DISK_H
#define CHAFFDANCER_HOST_DISK_H

#include <stddef.h>
#include <stdint.h>
#include <sys/types.h>

/*
 * The path with every symbolic link in it resolved, to be freed; of a file that
 * is not there, its folder's. Null if there is no such folder.
 */
char *disk_resolve(const char *path);

/* Opens a regular file that is there: its descriptor, or -1 (EINVAL if it is no file). */
int disk_open(const char *path, int writable);

/* How many bytes the file has: 1, or 0. */
int disk_size(int file, uint64_t *size);

/* Reads up to so many bytes, fewer only at the file's end: how many, or -1. */
ssize_t disk_read(int file, uint64_t place, uint8_t *bytes, size_t length);

/* Writes all bytes: 1, or 0. They are safe only after disk_sync. */
int disk_write(int file, uint64_t place, const uint8_t *bytes, size_t length);
int disk_sync(int file);

/*
 * A new file without a name, in the folder of the path, so that whoever looks
 * finds all of it under the path or nothing. It gets the mode and the owner of
 * the file like it, or 0600 if that is -1.
 */
int disk_make(const char *path, int like);
/* Gives it its name, safely: 1, or 0; never in the place of another file. */
int disk_name(int file, const char *path);

/* Whether the path still leads to this file. */
int disk_is_at(int file, const char *path);

/*
 * Takes the lock of whoever serves the file, for as long as it is open: 1; or 0,
 * and holder is the process that has it (0 if that cannot be seen, -1 if nobody
 * has it and something else failed). It lies on the file, not on its name.
 */
int disk_lock(int file, pid_t *holder);

/* Who has that lock: 1 and the process (or 0), or 0 if nobody has. */
int disk_holder(int file, pid_t *holder);

#endif
