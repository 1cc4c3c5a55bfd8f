/*
 * Preloaded before the host: at one call of its disk something goes wrong.
 * CHAFFDANCER_FAULT is CALL:TURN:HOW, such as fdatasync:3:EIO. With sector:BYTE:EIO
 * the sector in which that byte stands can never be read.
 */
#define _GNU_SOURCE
#include <errno.h>
#include <fcntl.h>
#include <signal.h>
#include <stdarg.h>
#include <stdio.h>
#include <stdlib.h>
#include <string.h>
#include <sys/syscall.h>
#include <unistd.h>

static const struct {
    const char *name;
    int number;
} errors[] = {{"EIO", EIO}, {"ENOSPC", ENOSPC}, {"EROFS", EROFS}, {"EDQUOT", EDQUOT}};

/* How this turn of the call goes wrong; an empty word where it does not. */
static const char *how_now(const char *call, int *turns)
{
    static char how[32];
    char wanted[32];
    int turn;
    const char *fault = getenv("CHAFFDANCER_FAULT");
    (*turns)++;
    if (fault == NULL || sscanf(fault, "%31[^:]:%d:%31s", wanted, &turn, how) != 3)
        return "";
    return strcmp(call, wanted) == 0 && turn == *turns ? how : "";
}

static int fails(const char *how)
{
    size_t place;
    for (place = 0; place < sizeof errors / sizeof errors[0]; place++)
        if (strcmp(how, errors[place].name) == 0) {
            errno = errors[place].number;
            return 1;
        }
    return 0;
}

int fsync(int file)
{
    static int turns;
    return fails(how_now("fsync", &turns)) ? -1 : (int)syscall(SYS_fsync, file);
}

int fdatasync(int file)
{
    static int turns;
    return fails(how_now("fdatasync", &turns)) ? -1 : (int)syscall(SYS_fdatasync, file);
}

int linkat(int from_folder, const char *from, int to_folder, const char *to, int flags)
{
    static int turns;
    if (fails(how_now("linkat", &turns)))
        return -1;
    return (int)syscall(SYS_linkat, from_folder, from, to_folder, to, flags);
}

int open(const char *path, int flags, ...)
{
    static int turns;
    va_list rest;
    mode_t mode;
    va_start(rest, flags);
    mode = (flags & (O_CREAT | __O_TMPFILE)) != 0 ? va_arg(rest, mode_t) : 0;
    va_end(rest);
    if (fails(how_now("open", &turns)))
        return -1;
    return (int)syscall(SYS_openat, AT_FDCWD, path, flags, mode);
}

/* What a call of open without a mode becomes where the compiler checks such calls. */
int __open_2(const char *path, int flags)
{
    return open(path, flags);
}

/* Whether the stretch has a byte of the sector that cannot be read; up to it all is well. */
static size_t readable(size_t length, off_t place)
{
    long byte;
    const char *fault = getenv("CHAFFDANCER_FAULT");
    off_t sector;
    if (fault == NULL || sscanf(fault, "sector:%ld:", &byte) != 1)
        return length;
    sector = byte / 512 * 512;
    if (place + (off_t)length <= sector || place >= sector + 512)
        return length;
    return place < sector ? (size_t)(sector - place) : 0;
}

ssize_t pread(int file, void *bytes, size_t length, off_t place)
{
    static int turns;
    const char *how = how_now("pread", &turns);
    if (fails(how))
        return -1;
    if (length > 0 && readable(length, place) == 0) {
        errno = EIO;
        return -1;
    }
    length = readable(length, place);
    if (strcmp(how, "interrupted") == 0) {
        errno = EINTR;
        return -1;
    }
    return syscall(SYS_pread64, file, bytes, strcmp(how, "short") == 0 ? 1 : length, place);
}

/* The bytes that are not in the sector of the last one, or all. */
static size_t without_last_sector(size_t length, off_t place)
{
    size_t in_last = ((size_t)place + length - 1) % 512 + 1;
    return in_last < length ? length - in_last : 0;
}

ssize_t pwrite(int file, const void *bytes, size_t length, off_t place)
{
    static int turns;
    const char *how = how_now("pwrite", &turns);
    if (fails(how))
        return -1;
    if (strcmp(how, "interrupted") == 0) {
        errno = EINTR;
        return -1;
    }
    if (strcmp(how, "short") == 0)
        return syscall(SYS_pwrite64, file, bytes, 1, place);
    if (strcmp(how, "torn") == 0) {
        syscall(SYS_pwrite64, file, bytes, without_last_sector(length, place), place);
        raise(SIGKILL);
    }
    if (strcmp(how, "half") == 0) {
        syscall(SYS_pwrite64, file, bytes, length / 2 + 1, place);
        raise(SIGKILL);
    }
    return syscall(SYS_pwrite64, file, bytes, length, place);
}
