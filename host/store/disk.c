#define _GNU_SOURCE /* for O_TMPFILE and locks that belong to an open file */
#include "store/disk.h"

#include <errno.h>
#include <fcntl.h>
#include <limits.h>
#include <stdio.h>
#include <stdlib.h>
#include <string.h>
#include <sys/stat.h>
#include <unistd.h>

#include "common/memory.h"

/* The bytes of a store that its lock lies on; who holds it is seen at the second. */
#define LOCK_PLACE 0
#define HOLDER_PLACE 1

static char *copy_of(const char *text, size_t length)
{
    char *copy = memory_for(length + 1, 1);
    memcpy(copy, text, length);
    return copy;
}

/* The folder in which the file stands, as it is written in the path. */
static char *folder_of(const char *path)
{
    const char *last = strrchr(path, '/');
    if (last == NULL)
        return copy_of(".", 1);
    return copy_of(path, last == path ? 1 : (size_t)(last - path));
}

static char *in_folder(const char *folder, const char *path)
{
    const char *last = strrchr(path, '/'), *name = last == NULL ? path : last + 1;
    size_t length = strlen(folder) + 1 + strlen(name);
    char *joined;
    if (name[0] == '\0') {
        errno = EISDIR;
        return NULL;
    }
    joined = memory_for(length + 1, 1);
    snprintf(joined, length + 1, "%s/%s", strcmp(folder, "/") == 0 ? "" : folder, name);
    return joined;
}

char *disk_resolve(const char *path)
{
    char *whole = realpath(path, NULL), *folder, *resolved;
    if (whole != NULL || errno != ENOENT)
        return whole;
    folder = folder_of(path);
    resolved = realpath(folder, NULL);
    whole = resolved == NULL ? NULL : in_folder(resolved, path);
    free(folder);
    free(resolved);
    return whole;
}

static int is_regular(int file)
{
    struct stat about;
    if (fstat(file, &about) != 0)
        return 0;
    if (S_ISREG(about.st_mode))
        return 1;
    errno = S_ISDIR(about.st_mode) ? EISDIR : EINVAL;
    return 0;
}

static int close_failed(int file)
{
    int number = errno;
    close(file);
    errno = number;
    return -1;
}

/* Without O_NONBLOCK the opening of a named pipe would wait for its other end. */
int disk_open(const char *path, int writable)
{
    int file =
        open(path, (writable ? O_RDWR : O_RDONLY) | O_NOFOLLOW | O_NONBLOCK | O_NOCTTY | O_CLOEXEC);
    if (file >= 0 && !is_regular(file))
        return close_failed(file);
    return file;
}

int disk_size(int file, uint64_t *size)
{
    struct stat about;
    if (fstat(file, &about) != 0)
        return 0;
    *size = (uint64_t)about.st_size;
    return 1;
}

ssize_t disk_read(int file, uint64_t place, uint8_t *bytes, size_t length)
{
    size_t done = 0;
    while (done < length) {
        ssize_t count = pread(file, bytes + done, length - done, (off_t)(place + done));
        if (count < 0 && errno == EINTR)
            continue;
        if (count < 0)
            return -1;
        if (count == 0)
            break;
        done += (size_t)count;
    }
    return (ssize_t)done;
}

int disk_write(int file, uint64_t place, const uint8_t *bytes, size_t length)
{
    while (length > 0) {
        ssize_t count = pwrite(file, bytes, length, (off_t)place);
        if (count < 0 && errno == EINTR)
            continue;
        if (count < 0)
            return 0;
        bytes += count;
        place += (uint64_t)count;
        length -= (size_t)count;
    }
    return 1;
}

/* A sync that failed may have dropped what it was to write: it is never tried again. */
int disk_sync(int file)
{
    return fdatasync(file) == 0;
}

static int keeps_mode_and_owner(int file, int like)
{
    struct stat about;
    if (like < 0)
        return 1;
    return fstat(like, &about) == 0 && fchown(file, about.st_uid, about.st_gid) == 0 &&
           fchmod(file, about.st_mode & 07777) == 0;
}

int disk_make(const char *path, int like)
{
    char *folder = folder_of(path);
    int file = open(folder, O_RDWR | O_TMPFILE | O_CLOEXEC, 0600);
    free(folder);
    if (file >= 0 && !keeps_mode_and_owner(file, like))
        return close_failed(file);
    return file;
}

/* A name is safe once the folder is. */
static int sync_folder(const char *path)
{
    char *folder = folder_of(path);
    int file = open(folder, O_RDONLY | O_DIRECTORY | O_CLOEXEC);
    int right = file >= 0 && fsync(file) == 0;
    free(folder);
    if (file >= 0 && !right)
        close_failed(file);
    else if (file >= 0)
        close(file);
    return right;
}

int disk_name(int file, const char *path)
{
    char unnamed[64];
    snprintf(unnamed, sizeof unnamed, "/proc/self/fd/%d", file);
    return fsync(file) == 0 && linkat(AT_FDCWD, unnamed, AT_FDCWD, path, AT_SYMLINK_FOLLOW) == 0 &&
           sync_folder(path);
}

int disk_is_at(int file, const char *path)
{
    struct stat mine, there;
    return fstat(file, &mine) == 0 && lstat(path, &there) == 0 && mine.st_dev == there.st_dev &&
           mine.st_ino == there.st_ino;
}

static struct flock lock_at(off_t place)
{
    struct flock lock;
    memset(&lock, 0, sizeof lock);
    lock.l_type = F_WRLCK;
    lock.l_whence = SEEK_SET;
    lock.l_start = place;
    lock.l_len = 1;
    return lock;
}

int disk_holder(int file, pid_t *holder)
{
    struct flock lock = lock_at(LOCK_PLACE), who = lock_at(HOLDER_PLACE);
    *holder = 0;
    if (fcntl(file, F_OFD_GETLK, &lock) != 0 || lock.l_type == F_UNLCK)
        return 0;
    if (fcntl(file, F_GETLK, &who) == 0 && who.l_type != F_UNLCK && who.l_pid > 0)
        *holder = who.l_pid;
    return 1;
}

/*
 * The first lock belongs to the open file: no other file that the process closes
 * can lose it. The second, of the process, only tells others who it is.
 */
int disk_lock(int file, pid_t *holder)
{
    struct flock lock = lock_at(LOCK_PLACE), who = lock_at(HOLDER_PLACE);
    int number;
    if (fcntl(file, F_OFD_SETLK, &lock) == 0) {
        (void)fcntl(file, F_SETLK, &who);
        return 1;
    }
    number = errno;
    if (!disk_holder(file, holder))
        *holder = number == EAGAIN || number == EACCES ? 0 : -1;
    errno = number;
    return 0;
}
