/* The host: looks at its arguments, and does one thing. statuses.h has the exit statuses. */
#define _POSIX_C_SOURCE 200809L
#include <errno.h>
#include <stdio.h>
#include <stdlib.h>
#include <string.h>
#include <unistd.h>

#include "audit/audit.h"
#include "audit/importing.h"
#include "audit/salvage.h"
#include "chaffdancer.h"
#include "common/memory.h"
#include "common/statuses.h"
#include "descriptors.h"
#include "help.h"
#include "live/live.h"
#include "options.h"
#include "run.h"
#include "spring.h"

#define SCRIPT_BYTES_MOST (16UL * 1024 * 1024)

/* Reads all of a file; 0 if it cannot, and then it is told why. */
static int read_all(struct source *source, char **bytes, size_t *length)
{
    ssize_t count;
    *length = 0;
    *bytes = memory_for(SCRIPT_BYTES_MOST + 1, 1);
    do {
        count = read(source->file, *bytes + *length, SCRIPT_BYTES_MOST + 1 - *length);
        if (count > 0)
            *length += (size_t)count;
    } while (count > 0 || (count < 0 && errno == EINTR));
    if (count == 0 && *length <= SCRIPT_BYTES_MOST)
        return 1;
    if (count < 0)
        fprintf(stderr, "%s: %s\n", source->name, strerror(errno));
    else
        fprintf(stderr, "%s: longer than %lu bytes\n", source->name, SCRIPT_BYTES_MOST);
    return 0;
}

static int run_text(const struct options *options, const char *name, struct text text)
{
    if (options->mode == BYTES)
        return run_bytes(text);
    return run_script(name, text, options->mode == SERVE_STEPS);
}

static int run_source(const struct options *options, struct source *source)
{
    struct text text;
    char *bytes;
    int status = STATUS_STOPPED;
    if (read_all(source, &bytes, &text.length)) {
        text.start = bytes;
        status = run_text(options, source->name, text);
    }
    free(bytes);
    return status;
}

static int serve_source(const struct options *options, struct source *source)
{
    if (options->mode != SERVE_LIVE)
        return run_source(options, source);
    if (!source_heed_signals()) {
        perror("chaffdancer-host: signals");
        return STATUS_STOPPED;
    }
    return serve_live(source, options->store);
}

static int serve_spring(const struct options *options, struct source *source)
{
    struct text text;
    text.start = spring_session;
    text.length = spring_session_length;
    if (options->mode != SERVE_LIVE)
        return run_text(options, "spring session", text);
    source_of_text(source, "spring session", text);
    return serve_source(options, source);
}

static int serve(const struct options *options)
{
    struct source *source = memory_for(1, sizeof *source);
    int status = STATUS_STOPPED;
    if (options->spring) {
        status = serve_spring(options, source);
    } else if (source_open(source, options->paths[0])) {
        status = serve_source(options, source);
    } else {
        fprintf(stderr, "%s: %s\n", source->name, strerror(errno));
    }
    source_close(source);
    free(source);
    return status;
}

static int do_chosen(const struct options *options)
{
    switch (options->mode) {
    case BOARD:
        return look_at_board(options->paths[0]);
    case LOG:
        return look_at_log(options->paths[0], options->form);
    case SALVAGE:
        return salvage_store(options->paths[0], options->paths[1]);
    case KEEP:
        return keep_segments(options->paths[0], options->paths[1], options->keep);
    case IMPORT:
        return import_journal(options->paths[0], options->paths[1]);
    case VERSION:
        printf("chaffdancer-host %s\n", chaffdancer_version());
        return STATUS_SERVED;
    case HELP:
        fputs(help, stdout);
        return STATUS_SERVED;
    default:
        return serve(options);
    }
}

/* An answer that did not reach the reader is no success. */
static int finish(int status)
{
    if (fflush(stdout) != 0 || ferror(stdout)) {
        perror("standard output");
        return status == STATUS_SERVED ? STATUS_STOPPED : status;
    }
    return status;
}

int main(int count, char **arguments)
{
    struct options options;
    int output_is_open;
    if (!descriptors_fill(&output_is_open) || !output_is_open) {
        fputs("chaffdancer-host: standard output is closed, so nothing is done\n", stderr);
        return STATUS_STOPPED;
    }
    if (strcmp(chaffdancer_version(), CHAFFDANCER_VERSION) != 0) {
        fprintf(stderr, "chaffdancer-host: made for version %s, and the library is %s\n",
                CHAFFDANCER_VERSION, chaffdancer_version());
        return STATUS_STOPPED;
    }
    if (!read_options(&options, count, arguments)) {
        fputs("chaffdancer-host: wrong arguments; chaffdancer-host --help tells them\n", stderr);
        return STATUS_STOPPED;
    }
    return finish(do_chosen(&options));
}
