#define _GNU_SOURCE /* for ppoll */
#include "source.h"

#include <errno.h>
#include <fcntl.h>
#include <poll.h>
#include <signal.h>
#include <string.h>
#include <sys/stat.h>
#include <unistd.h>

static volatile sig_atomic_t asked_to_stop;

static void stop(int signal_number)
{
    (void)signal_number;
    asked_to_stop = 1;
}

/* The signals come only while the source waits for bytes, so that none is missed. */
int source_heed_signals(void)
{
    static const int ends[] = {SIGINT, SIGTERM, SIGHUP};
    struct sigaction action;
    sigset_t blocked;
    size_t place;
    memset(&action, 0, sizeof action);
    sigemptyset(&action.sa_mask);
    sigemptyset(&blocked);
    action.sa_handler = stop;
    for (place = 0; place < sizeof ends / sizeof ends[0]; place++)
        if (sigaddset(&blocked, ends[place]) != 0 || sigaction(ends[place], &action, NULL) != 0)
            return 0;
    action.sa_handler = SIG_IGN; /* a write to nobody, or too far, then fails and is seen */
    return sigaction(SIGPIPE, &action, NULL) == 0 && sigaction(SIGXFSZ, &action, NULL) == 0 &&
           sigprocmask(SIG_BLOCK, &blocked, NULL) == 0;
}

int source_open(struct source *source, const char *path)
{
    struct stat about;
    memset(source, 0, sizeof *source);
    source->name = "standard input";
    if (path != NULL && strcmp(path, "-") != 0) {
        source->name = path;
        source->file = open(path, O_RDONLY | O_CLOEXEC);
    }
    if (source->file < 0 || fstat(source->file, &about) != 0)
        return 0;
    source->whole = S_ISREG(about.st_mode);
    return 1;
}

void source_of_text(struct source *source, const char *name, struct text text)
{
    memset(source, 0, sizeof *source);
    source->name = name;
    source->file = -1;
    source->whole = 1;
    source->rest = text;
}

void source_close(struct source *source)
{
    if (source->file > STDERR_FILENO)
        close(source->file);
    source->file = -1;
}

/* Like read, but a signal to end comes before whatever is there to be read. */
static ssize_t read_file(struct source *source, char *bytes, size_t length)
{
    struct pollfd waiting;
    sigset_t none;
    waiting.fd = source->file;
    waiting.events = POLLIN;
    sigemptyset(&none);
    if (ppoll(&waiting, 1, NULL, &none) < 0)
        return -1;
    return read(source->file, bytes, length);
}

static ssize_t read_text(struct source *source, char *bytes, size_t length)
{
    if (length > source->rest.length)
        length = source->rest.length;
    memcpy(bytes, source->rest.start, length);
    source->rest.start += length;
    source->rest.length -= length;
    return (ssize_t)length;
}

/* More bytes behind those in the buffer: LINE_READ; or why there are none. */
static enum line_state fill(struct source *source)
{
    ssize_t count;
    size_t room;
    memmove(source->buffer, source->buffer + source->start, source->end - source->start);
    source->end -= source->start;
    source->start = 0;
    room = sizeof source->buffer - source->end;
    do {
        if (asked_to_stop)
            return LINE_STOPPED;
        count = source->file < 0 ? read_text(source, source->buffer + source->end, room)
                                 : read_file(source, source->buffer + source->end, room);
    } while (count < 0 && errno == EINTR);
    if (count < 0)
        return LINE_FAILED;
    source->ended = count == 0;
    source->end += (size_t)count;
    return LINE_READ;
}

static struct text pending(const struct source *source)
{
    struct text text;
    text.start = source->buffer + source->start;
    text.length = source->end - source->start;
    return text;
}

/* Leaves out what is there, up to the newline of a line that is too long. */
static enum line_state leave_out(struct source *source)
{
    enum line_state state = LINE_READ;
    const char *newline = NULL;
    while (state == LINE_READ && newline == NULL && !source->ended) {
        source->start = source->end;
        state = fill(source);
        newline = memchr(source->buffer, '\n', source->end);
    }
    source->start = newline == NULL ? source->end : (size_t)(newline + 1 - source->buffer);
    return state == LINE_READ ? LINE_TOO_LONG : state;
}

static enum line_state take_last(struct source *source, struct text *line)
{
    *line = pending(source);
    source->start = source->end;
    if (line->length == 0)
        return LINE_NONE;
    return source->whole ? LINE_READ : LINE_LAST_CUT;
}

enum line_state source_take_line(struct source *source, struct text *line)
{
    enum line_state state = LINE_READ;
    while (state == LINE_READ) {
        const char *newline;
        *line = pending(source);
        newline = memchr(line->start, '\n', line->length);
        if (newline != NULL) {
            line->length = (size_t)(newline - line->start);
            source->start += line->length + 1;
            return line->length > LINE_BYTES_MOST ? LINE_TOO_LONG : LINE_READ;
        }
        if (line->length > LINE_BYTES_MOST)
            return leave_out(source);
        if (source->ended)
            return take_last(source, line);
        state = fill(source);
    }
    return state;
}
