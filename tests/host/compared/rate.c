/*
 * Commits a second, each synced before the next: this host's store, and SQLite with
 * a row for each commit and one for their count. rate FOLDER COUNT. Run by hand,
 * linked with -lsqlite3; docs/DECISIONS.md has what it printed.
 */
#define _POSIX_C_SOURCE 200809L
#include <sqlite3.h>
#include <stdio.h>
#include <stdlib.h>
#include <string.h>
#include <time.h>
#include <unistd.h>

#include "room/room.h"
#include "store/checksum.h"

static char path[4096];

static void must(int right, const char *what)
{
    if (right)
        return;
    fprintf(stderr, "%s\n", what);
    exit(1);
}

static double seconds(void)
{
    struct timespec now;
    must(clock_gettime(CLOCK_MONOTONIC, &now) == 0, "no clock");
    return (double)now.tv_sec + (double)now.tv_nsec / 1e9;
}

static void remove_files(void)
{
    static const char *const endings[] = {"", "-wal", "-shm", "-journal"};
    char name[sizeof path + 16];
    size_t place;
    for (place = 0; place < sizeof endings / sizeof endings[0]; place++) {
        snprintf(name, sizeof name, "%s%s", path, endings[place]);
        unlink(name);
    }
}

static void ask(struct room *room, const uint8_t *request)
{
    uint8_t answer[CHAFFDANCER_ANSWER_BYTES];
    must(room_serve(room, request, answer) <= SERVED_AFTER_TURNING && answer[0] != 0, "not served");
    follow_answer(&room->follower, request, chaffdancer_get_answer(answer));
}

static void commit_to_store(uint32_t count)
{
    static struct room room;
    static struct trail trail;
    static const struct names names;
    struct store store;
    uint8_t table[CHAFFDANCER_TABLE_BYTES], request[CHAFFDANCER_REQUEST_BYTES];
    uint32_t place;
    for (place = 0; place < CHAFFDANCER_ITEMS; place++)
        chaffdancer_put_row(table, place, 0, UINT32_MAX, 0, CHAFFDANCER_ITEM_OPEN);
    must(store_open(&store, path, &trail) == STORE_ABSENT &&
             room_open(&room, &store, CAUSE_NEW, table, &names) == 0,
         "no store");
    for (place = 0; place < count; place++) {
        chaffdancer_begin(request, place % CHAFFDANCER_DESKS);
        ask(&room, request);
        chaffdancer_write(request, place % CHAFFDANCER_DESKS, place % CHAFFDANCER_ITEMS, place);
        ask(&room, request);
        chaffdancer_end(request, place % CHAFFDANCER_DESKS);
        ask(&room, request);
    }
    store_close(&store);
}

static void run(sqlite3 *store, const char *statements)
{
    must(sqlite3_exec(store, statements, NULL, NULL, NULL) == SQLITE_OK, sqlite3_errmsg(store));
}

static sqlite3_stmt *prepared(sqlite3 *store, const char *statement)
{
    sqlite3_stmt *made;
    must(sqlite3_prepare_v2(store, statement, -1, &made, NULL) == SQLITE_OK, sqlite3_errmsg(store));
    return made;
}

static void do_one(sqlite3_stmt *statement)
{
    int result = sqlite3_step(statement);
    must(result == SQLITE_DONE || result == SQLITE_ROW, "a statement failed");
    sqlite3_reset(statement);
}

static void commit_to_sqlite(uint32_t count, const char *pragmas, int checkpoints)
{
    sqlite3 *store;
    sqlite3_stmt *begin, *insert, *update, *commit, *checkpoint;
    uint8_t records[16] = {1};
    uint32_t place;
    must(sqlite3_open(path, &store) == SQLITE_OK, "no database");
    run(store, pragmas);
    run(store, "CREATE TABLE commits(place INTEGER PRIMARY KEY, desk, time, records, sum);"
               "CREATE TABLE head(one INTEGER PRIMARY KEY, commits, sum);"
               "INSERT INTO head VALUES(1, 0, 0)");
    begin = prepared(store, "BEGIN IMMEDIATE");
    insert = prepared(store, "INSERT INTO commits VALUES(?, 3, 0, ?, ?)");
    update = prepared(store, "UPDATE head SET commits = ?, sum = ? WHERE one = 1");
    commit = prepared(store, "COMMIT");
    checkpoint = prepared(store, "PRAGMA wal_checkpoint(TRUNCATE)");
    for (place = 1; place <= count; place++) {
        chaffdancer_put_number(records + 4, place);
        do_one(begin);
        sqlite3_bind_int64(insert, 1, place);
        sqlite3_bind_blob(insert, 2, records, sizeof records, SQLITE_STATIC);
        sqlite3_bind_int64(insert, 3, checksum(records, sizeof records));
        do_one(insert);
        sqlite3_bind_int64(update, 1, place);
        sqlite3_bind_int64(update, 2, checksum(records, sizeof records));
        do_one(update);
        do_one(commit);
        if (checkpoints)
            do_one(checkpoint);
    }
}

static const struct way {
    const char *name, *pragmas;
    int checkpoints;
} ways[] = {
    {"the store", NULL, 0},
    {"SQLite, WAL", "PRAGMA journal_mode=WAL; PRAGMA synchronous=FULL", 0},
    {"SQLite, WAL, a checkpoint for each", "PRAGMA journal_mode=WAL; PRAGMA synchronous=FULL", 1},
    {"SQLite, rollback journal", "PRAGMA journal_mode=DELETE; PRAGMA synchronous=FULL", 0},
};

int main(int count, char **arguments)
{
    uint32_t commits = count == 3 ? (uint32_t)strtoul(arguments[2], NULL, 10) : 0;
    size_t place;
    must(commits > 0, "usage: rate FOLDER COUNT");
    snprintf(path, sizeof path, "%s/rate", arguments[1]);
    for (place = 0; place < sizeof ways / sizeof ways[0]; place++) {
        double start;
        remove_files();
        start = seconds();
        if (ways[place].pragmas == NULL)
            commit_to_store(commits);
        else
            commit_to_sqlite(commits, ways[place].pragmas, ways[place].checkpoints);
        printf("%-36s %8.0f commits a second\n", ways[place].name, commits / (seconds() - start));
    }
    remove_files();
    return 0;
}
