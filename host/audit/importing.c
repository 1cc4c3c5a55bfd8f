#include "audit/importing.h"

#include <stdlib.h>
#include <string.h>
#include <unistd.h>

#include "common/memory.h"
#include "common/statuses.h"
#include "store/disk.h"
#include "store/store.h"
#include "words/restoring.h"
#include "words/telling.h"

#define FILE_BYTES_MOST (CHAFFDANCER_TABLE_BYTES + CHAFFDANCER_JOURNAL_BYTES)

static ssize_t read_file(const char *path, uint8_t bytes[FILE_BYTES_MOST])
{
    char *resolved = disk_resolve(path);
    int file = resolved == NULL ? -1 : disk_open(resolved, 0);
    ssize_t count = file < 0 ? -1 : disk_read(file, 0, bytes, FILE_BYTES_MOST);
    if (file >= 0)
        close(file);
    free(resolved);
    return count;
}

/* Makes the store, with a host's first segment and nothing else. */
static int make_store(const char *path, const uint8_t table[CHAFFDANCER_TABLE_BYTES])
{
    struct trail *trail = memory_for(1, sizeof *trail);
    struct store store;
    struct names names;
    int status = STATUS_SERVED;
    enum store_state state = store_open(&store, path, trail);
    memset(&names, 0, sizeof names);
    if (state != STORE_ABSENT) {
        say_line(stderr, "chaffdancer-host: %s: it is there already, and was left as it is", path);
        status = STATUS_STOPPED;
    } else if (!store_begin_segment(&store, CAUSE_NEW, table, &names) ||
               !store_note_closing(&store, 0)) {
        status = tell_unusable(path, STORE_FAILED, -1, &store.complaint);
    }
    store_close(&store);
    free(trail);
    return status;
}

int import_journal(const char *from, const char *to)
{
    static const struct names no_names;
    uint8_t *bytes = memory_for(FILE_BYTES_MOST, 1), table[CHAFFDANCER_TABLE_BYTES];
    ssize_t count = read_file(from, bytes);
    int64_t commits = -1;
    int status = STATUS_DAMAGED;
    if (count >= CHAFFDANCER_TABLE_BYTES) {
        memcpy(table, bytes, sizeof table);
        commits =
            hub_restart(table, sizeof table, bytes + sizeof table, (size_t)count - sizeof table);
    }
    if (commits < 0)
        say_line(stderr, "chaffdancer-host: %s: it is no journal file that can be read", from);
    else
        status = make_store(to, table);
    if (commits >= 0 && status == STATUS_SERVED) {
        say_line(stdout, "Written to %s: the values after %lld commit%s.", to, (long long)commits,
                 commits == 1 ? "" : "s");
        tell_changes(&no_names, bytes, table);
        say_line(stdout, "Such a file has no checksums: compare the values with what is known.");
    }
    free(bytes);
    return status;
}
