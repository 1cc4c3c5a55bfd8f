/*
 * Stores with every bit flipped, cut after every byte, torn at every sector, and
 * put together from pieces: what is damaged is never taken for whole.
 * damage FOLDER STRIDE takes every bit and cut where something stands, and every
 * STRIDEth in the zeros far behind it.
 */
#define _POSIX_C_SOURCE 200809L
#include <fcntl.h>
#include <stdio.h>
#include <stdlib.h>
#include <string.h>
#include <unistd.h>

#include "room/room.h"
#include "store/checksum.h"
#include "store/store.h"

#define SECTOR 512

/* The bytes of a store, and what it comes to. */
struct sample {
    const char *name;
    uint8_t *bytes;
    size_t size, filled; /* where its frames end */
    enum store_state state;
    uint64_t commits;
    uint8_t values[CHAFFDANCER_TABLE_BYTES];
};

static char path[4096];
static size_t stride;
static struct trail trail;
static struct complaint complaint;

static void must(int right, const char *what)
{
    if (right)
        return;
    printf("FAILED  damage: %s: %s\n", what, complaint.text);
    exit(1);
}

static void put_file(const uint8_t *bytes, size_t size)
{
    int file = open(path, O_WRONLY | O_CREAT | O_TRUNC, 0600);
    must(file >= 0 && pwrite(file, bytes, size, 0) == (ssize_t)size && close(file) == 0,
         "a file cannot be written");
}

static void put_byte(size_t place, uint8_t byte)
{
    int file = open(path, O_WRONLY);
    must(file >= 0 && pwrite(file, &byte, 1, (off_t)place) == 1 && close(file) == 0,
         "a byte cannot be written");
}

static enum store_state look(void)
{
    pid_t holder;
    return store_look(path, &trail, &holder, &complaint);
}

static int comes_to(const struct sample *sample)
{
    uint8_t values[CHAFFDANCER_TABLE_BYTES];
    return trail.all_commits == sample->commits && trail_values(&trail, values) &&
           memcmp(values, sample->values, sizeof values) == 0;
}

static void ask(struct room *room, uint32_t kind, uint32_t desk, uint32_t item, uint32_t value)
{
    uint8_t request[CHAFFDANCER_REQUEST_BYTES], answer[CHAFFDANCER_ANSWER_BYTES];
    chaffdancer_put_request(request, kind, desk, item, value);
    must(room_serve(room, request, answer) <= SERVED_AFTER_TURNING && answer[0] != 0,
         "a request is not served");
    follow_answer(&room->follower, request, chaffdancer_get_answer(answer));
}

static void commit(struct room *room, uint32_t desk, uint32_t first, uint32_t count, uint32_t value)
{
    uint32_t item;
    ask(room, CHAFFDANCER_REQUEST_BEGIN, desk, 0, 0);
    for (item = first; item < first + count; item++)
        ask(room, CHAFFDANCER_REQUEST_WRITE, desk, item, value);
    ask(room, CHAFFDANCER_REQUEST_END, desk, 0, 0);
}

/* A segment, its commits, and perhaps the note that it was closed. */
static void serve_segment(uint32_t value, int closing)
{
    static struct room room;
    struct store store;
    struct names names;
    uint8_t table[CHAFFDANCER_TABLE_BYTES];
    uint32_t item;
    enum store_state state = store_open(&store, path, &trail);
    memset(&names, 0, sizeof names);
    strcpy(names.items[0], "haemoglobin");
    strcpy(names.desks[3], "release");
    for (item = 0; item < CHAFFDANCER_ITEMS; item++)
        chaffdancer_put_row(table, item, 0, 4000000000U, item, item == 1);
    must(state == STORE_ABSENT || (is_readable(state) && trail_values(&trail, table)),
         "a store cannot be opened");
    must(room_open(&room, &store, state == STORE_ABSENT ? CAUSE_NEW : CAUSE_RESTART, table,
                   &names) == 0,
         "a room cannot be opened");
    commit(&room, 3, 0, 1, value);
    commit(&room, 15, 0, 64, value + 1);
    commit(&room, 0, 5, 0, 0);
    commit(&room, 4, 7, 3, 0);
    must(!closing || store_note_closing(&store, 5), "a store cannot be closed");
    store_close(&store);
}

static size_t size_of_file(void)
{
    int file = open(path, O_RDONLY);
    off_t size = lseek(file, 0, SEEK_END);
    must(file >= 0 && size > 0 && close(file) == 0, "a file has no size");
    return (size_t)size;
}

static void take_sample(struct sample *sample, const char *name, enum store_state state)
{
    int file = open(path, O_RDONLY);
    sample->name = name;
    sample->size = size_of_file();
    sample->bytes = malloc(sample->size);
    must(file >= 0 && sample->bytes != NULL &&
             pread(file, sample->bytes, sample->size, 0) == (ssize_t)sample->size,
         "a file cannot be read");
    close(file);
    must(look() == state, "a sample is not what it should be");
    sample->state = state;
    sample->filled = (size_t)trail.slots * SLOT_BYTES;
    sample->commits = trail.all_commits;
    must(trail_values(&trail, sample->values), "a sample has no values");
}

/* The bytes of the last frame with those from some byte on never written. */
static void tear(const struct sample *whole, size_t place)
{
    put_file(whole->bytes, whole->size);
    for (; place < whole->filled; place++)
        put_byte(place, 0);
}

/* A store as a host left it that was killed, one that was closed, one with a torn segment. */
static void make_samples(struct sample *killed, struct sample *closed, struct sample *torn)
{
    unlink(path);
    serve_segment(1000, 1);
    serve_segment(2000, 0);
    take_sample(killed, "killed", STORE_WHOLE);
    serve_segment(3000, 1);
    take_sample(closed, "closed", STORE_WHOLE);
    tear(closed, killed->filled - killed->filled % SECTOR + SECTOR);
    take_sample(torn, "torn", STORE_UNFINISHED);
}

/* Where nothing stands but zeros, a flipped bit is taken for a commit that never came whole. */
static void flip_every_bit(const struct sample *sample)
{
    size_t bit, seen = 0, harmless = 0;
    put_file(sample->bytes, sample->size);
    for (bit = 0; bit < 8 * sample->size; bit += bit / 8 < sample->filled + 4096 ? 1 : stride) {
        int readable;
        put_byte(bit / 8, sample->bytes[bit / 8] ^ (uint8_t)(1U << bit % 8));
        readable = is_readable(look());
        if (readable && (bit / 8 < sample->filled || !comes_to(sample))) {
            printf("FAILED  damage: %s: bit %lu is not seen\n", sample->name, (unsigned long)bit);
            return;
        }
        harmless += readable ? 1U : 0U;
        seen += readable ? 0U : 1U;
        put_byte(bit / 8, sample->bytes[bit / 8]);
    }
    printf("passed  damage: %s: every bit flipped, %lu seen, %lu in zeros and harmless\n",
           sample->name, (unsigned long)seen, (unsigned long)harmless);
}

static void cut_everywhere(const struct sample *sample)
{
    size_t length, seen = 0, harmless = 0;
    for (length = 0; length < sample->size; length += length < sample->filled + 4096 ? 1 : stride) {
        int readable;
        put_file(sample->bytes, length);
        readable = is_readable(look());
        if (readable && (length < sample->filled + SLOT_BYTES || !comes_to(sample))) {
            printf("FAILED  damage: %s: a cut after %lu bytes is not seen\n", sample->name,
                   (unsigned long)length);
            return;
        }
        harmless += readable ? 1U : 0U;
        seen += readable ? 0U : 1U;
    }
    printf("passed  damage: %s: cut after every byte, %lu seen, %lu in zeros and harmless\n",
           sample->name, (unsigned long)seen, (unsigned long)harmless);
}

/*
 * The last commit and no more came up to some byte: it is never taken for whole,
 * and where the byte is a sector's first it is told apart from damage.
 */
static void tear_everywhere(const struct sample *before, const struct sample *after)
{
    size_t place;
    for (place = before->filled; place < after->filled; place++) {
        enum store_state state;
        tear(after, place);
        state = look();
        if ((state != STORE_DAMAGED && (!is_readable(state) || !comes_to(before))) ||
            (place % SECTOR == 0 && state == STORE_DAMAGED) ||
            (place == before->filled && state != STORE_WHOLE)) {
            printf("FAILED  damage: torn at byte %lu: %s\n", (unsigned long)place, complaint.text);
            return;
        }
    }
    printf("passed  damage: a commit torn at each of its %lu bytes\n",
           (unsigned long)(after->filled - before->filled));
}

static uint64_t next_random(uint64_t *state)
{
    *state ^= *state << 13;
    *state ^= *state >> 7;
    *state ^= *state << 17;
    return *state;
}

/* Zeros in the place of the sectors of the last commit that the choice leaves out. */
static void leave_sectors_out(const struct sample *before, const struct sample *after,
                              uint32_t choice)
{
    size_t place;
    put_file(after->bytes, after->size);
    for (place = before->filled; place < after->filled; place++)
        if ((choice >> (place / SECTOR - before->filled / SECTOR) & 1U) == 0)
            put_byte(place, 0);
}

/* The sectors of a commit come in any order: each choice of those that came. */
static void tear_sectors(const struct sample *before, const struct sample *after)
{
    uint32_t sectors = (uint32_t)((after->filled - 1) / SECTOR - before->filled / SECTOR) + 1;
    uint32_t choice, all = (1U << sectors) - 1;
    for (choice = 0; choice <= all; choice++) {
        enum store_state wanted = choice == 0 || choice == all ? STORE_WHOLE : STORE_UNFINISHED;
        leave_sectors_out(before, after, choice);
        if (look() != wanted || !comes_to(choice == all ? after : before)) {
            printf("FAILED  damage: sectors %lu of a commit at byte %lu: %s\n",
                   (unsigned long)choice, (unsigned long)before->filled, complaint.text);
            return;
        }
    }
    printf("passed  damage: a commit at byte %lu of whose %lu sectors only some came\n",
           (unsigned long)before->filled, (unsigned long)sectors);
}

/* A commit of all items behind so many small ones, so that it lies over sectors in each way. */
static void tear_large_commit(uint32_t small_ones)
{
    static struct room room;
    struct sample before, after;
    struct store store;
    struct names names;
    uint8_t table[CHAFFDANCER_TABLE_BYTES];
    uint32_t item;
    memset(&names, 0, sizeof names);
    for (item = 0; item < CHAFFDANCER_ITEMS; item++)
        chaffdancer_put_row(table, item, 0, 4000000000U, item, 0);
    unlink(path);
    must(store_open(&store, path, &trail) == STORE_ABSENT &&
             room_open(&room, &store, CAUSE_NEW, table, &names) == 0,
         "a room cannot be opened");
    for (item = 0; item < small_ones; item++)
        commit(&room, 2, 0, 1, item);
    take_sample(&before, "before", STORE_WHOLE);
    commit(&room, 2, 0, 64, 77);
    take_sample(&after, "after", STORE_WHOLE);
    store_close(&store);
    tear_sectors(&before, &after);
    tear_everywhere(&before, &after);
    free(before.bytes);
    free(after.bytes);
}

/* Random bytes over a random stretch. */
static void overwrite_at_random(const struct sample *sample)
{
    uint64_t state = 88172645463325252ULL;
    size_t round;
    for (round = 0; round < 20000; round++) {
        uint8_t *bytes = malloc(sample->size);
        size_t start = next_random(&state) % sample->filled, length = next_random(&state) % 300, at;
        must(bytes != NULL, "no memory");
        memcpy(bytes, sample->bytes, sample->size);
        for (at = start; at < start + length && at < sample->size; at++)
            bytes[at] = next_random(&state) % 4 == 0 ? 0 : (uint8_t)next_random(&state);
        put_file(bytes, sample->size);
        if (is_readable(look()) && !comes_to(sample)) {
            printf("FAILED  damage: %lu bytes at %lu are taken for right\n", (unsigned long)length,
                   (unsigned long)start);
            return;
        }
        free(bytes);
    }
    printf("passed  damage: %lu stretches of random bytes\n", (unsigned long)round);
}

static int is_refused(const uint8_t *bytes, size_t size)
{
    put_file(bytes, size);
    return look() == STORE_DAMAGED;
}

/* What stood elsewhere, earlier, or in another store is not taken. */
static void mix_stores(const struct sample *one)
{
    struct sample other;
    uint8_t *mixed = malloc(one->size);
    size_t slot, refused = 0, tried = 0;
    must(mixed != NULL, "no memory");
    unlink(path);
    serve_segment(1000, 1);
    serve_segment(2000, 0);
    take_sample(&other, "other", STORE_WHOLE);
    for (slot = SLOT_BYTES; slot < one->filled; slot += SLOT_BYTES, tried += 2) {
        memcpy(mixed, one->bytes, one->size); /* a slot of another store with the same requests */
        memcpy(mixed + slot, other.bytes + slot, SLOT_BYTES);
        refused += memcmp(one->bytes + slot, other.bytes + slot, SLOT_BYTES) == 0 ||
                   is_refused(mixed, one->size);
        memcpy(mixed, one->bytes, one->size); /* the slot before it, once more */
        memcpy(mixed + slot, one->bytes + slot - SLOT_BYTES, SLOT_BYTES);
        refused += memcmp(one->bytes + slot, one->bytes + slot - SLOT_BYTES, SLOT_BYTES) == 0 ||
                   is_refused(mixed, one->size);
    }
    for (slot = SLOT_BYTES; slot < one->filled; slot += SLOT_BYTES, tried++) {
        memcpy(mixed, other.bytes, one->size); /* from some slot on the other store */
        memcpy(mixed, one->bytes, slot);
        refused += memcmp(mixed, one->bytes, one->size) == 0 || is_refused(mixed, one->size);
    }
    if (refused == tried)
        printf("passed  damage: %lu mixtures of two stores\n", (unsigned long)tried);
    else
        printf("FAILED  damage: %lu of %lu mixtures of two stores are taken\n",
               (unsigned long)(tried - refused), (unsigned long)tried);
    free(mixed);
    free(other.bytes);
}

/* One store that went on in two ways, as if from a backup: no piece of one is taken for the other.
 */
static void mix_histories(const struct sample *before)
{
    struct sample one, other;
    uint8_t *mixed = malloc(before->size);
    size_t slot, refused = 0, tried = 0;
    must(mixed != NULL, "no memory");
    put_file(before->bytes, before->size);
    serve_segment(5000, 0);
    take_sample(&one, "one", STORE_WHOLE);
    put_file(before->bytes, before->size);
    serve_segment(6000, 0);
    take_sample(&other, "other", STORE_WHOLE);
    for (slot = before->filled + SLOT_BYTES; slot < one.filled; slot += SLOT_BYTES, tried++) {
        memcpy(mixed, other.bytes, one.size);
        memcpy(mixed, one.bytes, slot);
        /* Two segments that were begun in one millisecond are the same. */
        refused += memcmp(mixed, one.bytes, one.size) == 0 ||
                   memcmp(mixed, other.bytes, one.size) == 0 || is_refused(mixed, one.size);
    }
    printf("%s  damage: %lu mixtures of two histories of one store\n",
           refused == tried && tried > 10 ? "passed" : "FAILED", (unsigned long)tried);
    free(mixed);
    free(one.bytes);
    free(other.bytes);
}

/* Published values of CRC-32C. */
static void check_checksum(void)
{
    uint8_t bytes[32];
    size_t place;
    int right = checksum((const uint8_t *)"123456789", 9) == 0xE3069283U;
    memset(bytes, 0, sizeof bytes);
    right = right && checksum(bytes, 32) == 0x8A9136AAU;
    memset(bytes, 255, sizeof bytes);
    right = right && checksum(bytes, 32) == 0x62A8AB43U;
    for (place = 0; place < 32; place++)
        bytes[place] = (uint8_t)place;
    right = right && checksum(bytes, 32) == 0x46DD794EU;
    printf("%s  damage: CRC-32C of known texts\n", right ? "passed" : "FAILED");
}

int main(int count, char **arguments)
{
    struct sample killed, closed, torn;
    uint32_t small_ones;
    if (count != 3 || (stride = strtoul(arguments[2], NULL, 10)) == 0)
        return 2;
    snprintf(path, sizeof path, "%s/damaged", arguments[1]);
    check_checksum();
    make_samples(&killed, &closed, &torn);
    flip_every_bit(&killed);
    flip_every_bit(&closed);
    flip_every_bit(&torn);
    cut_everywhere(&killed);
    cut_everywhere(&closed);
    for (small_ones = 0; small_ones < 8; small_ones++)
        tear_large_commit(small_ones);
    overwrite_at_random(&killed);
    overwrite_at_random(&closed);
    mix_stores(&killed);
    mix_histories(&killed);
    free(killed.bytes);
    free(closed.bytes);
    free(torn.bytes);
    unlink(path);
    return 0;
}
