/*
 * chaffdancer.h: the transaction hub of a blood-donor room, called from C.
 *
 * Sixteen desks (0 to 15) share one board of sixty-four items (0 to 63).
 * Each item holds a whole number from 0 to 4,294,967,295 and has a floor, a
 * ceiling and a kind, open or guarded, all fixed when the board is opened.
 * A desk begins a transaction, reads and writes items, and ends or abandons
 * it. Until it commits, what it has written is its own copy, unseen by others.
 *
 *   - Open items are never locked. If a transaction has read an open item and
 *     another, after this one began, has committed a write to it, the end is
 *     answered "aborted, overwritten".
 *   - Guarded items are locked: read by many or written by one. A desk that
 *     meets a lock is told to wait if it is older than all others who hold it,
 *     else it is aborted and must yield. It is told for whom: of these others,
 *     for the oldest. There is no queue: who waits asks again.
 *
 * Older and younger go by age. A begin gives the desk the next age, 1, 2, 3 and
 * on, and the desk has it until it commits or abandons: when it is aborted it
 * keeps the age, and its next begin takes it again. So the order of ages is the
 * order of first begins since a desk last committed or abandoned. The oldest
 * has the lowest age, and no two desks have the same. The oldest of the open
 * desks never has to yield, and nobody yields to a desk that first began later.
 *
 * There are two doors. hub_run serves a whole list of requests on a fresh
 * board and supposes nothing of what it is lent. hub_open and hub_step serve
 * one request at a time on a board that the host keeps. Each of them has a
 * twin that also writes a journal of the commits, from which hub_restart
 * brings the values back after a crash.
 *
 *     uint8_t table[CHAFFDANCER_TABLE_BYTES];
 *     uint8_t request[CHAFFDANCER_REQUEST_BYTES];
 *     uint8_t bytes[CHAFFDANCER_ANSWER_BYTES];
 *     struct chaffdancer_answer answer;
 *     chaffdancer_board board;
 *     uint32_t item;
 *
 *     for (item = 0; item < CHAFFDANCER_ITEMS; item++)
 *         chaffdancer_put_row(table, item, 0, 1000, 0, CHAFFDANCER_ITEM_OPEN);
 *     if (hub_open(&board, table, sizeof table) != 0)
 *         return 1;
 *     chaffdancer_begin(request, 3);
 *     hub_step(&board, request, bytes);
 *     answer = chaffdancer_get_answer(bytes);
 *     if (answer.code == CHAFFDANCER_ANSWER_OPENED)
 *         printf("desk 3 has age %lu\n", (unsigned long)answer.first);
 *
 * The same with a journal. table is the table that the file begins with, and
 * journal holds the bytes that follow it there, then zeros (at first none);
 * save_new and append are the host's own, and come back only when the bytes
 * are safe on the disk.
 *
 *     static uint8_t journal[CHAFFDANCER_JOURNAL_BYTES];
 *     static chaffdancer_journaled room;
 *     uint64_t before;
 *
 *     if (hub_restart(table, sizeof table, journal, sizeof journal) < 0)
 *         return 1;
 *     save_new(table, sizeof table);
 *     if (hub_open_journal(&room, table, sizeof table, journal, sizeof journal) != 0)
 *         return 1;
 *     while (next_request(request)) {
 *         before = room.used;
 *         hub_step_journal(&room, request, bytes, journal, sizeof journal);
 *         if (room.used > before)
 *             append(journal + before, room.used - before);
 *         show(bytes);
 *     }
 *
 * Link with libchaffdancer (pkg-config --libs chaffdancer), which has all calls.
 * Its parts may be linked by themselves: libhub.a, and for the calls with a
 * journal and hub_restart libhub_journal.a (x86-64 Linux). The library
 * allocates nothing, keeps nothing between calls, does no input or output and
 * never exits. It takes about 38 KB of stack, with a journal about 35 KB.
 *
 * RULES FOR ALL CALLS
 *   Buffers   The buffers lent to one call (a board is one too) must not
 *             overlap each other. A length is the length of the buffer lent.
 *   Null      A null pointer is allowed for a buffer of length 0, nowhere else.
 *   Alignment Byte buffers may stand anywhere. A board stands at a multiple of
 *             8, as every chaffdancer_board variable and malloc's memory does.
 *   Threads   One call at a time for each board. Different boards, and runs
 *             with different output buffers, are independent. Nobody may
 *             change a lent buffer while the call lasts.
 *
 * RULES FOR A HOST WITH A JOURNAL
 *   Sync      An answer "committed" is a promise. Before it is shown to anyone,
 *             the new bytes of the journal must be on the disk: written and
 *             synced (fdatasync). If that fails, do not show it, and stop.
 *   Buffer    Lend every hub_step_journal the buffer that hub_open_journal was
 *             lent, with its length, as the call before left it. What is said
 *             of a restart holds for no other, and nothing tests it.
 *   Table     A journal tells the changes since its opening table; keep both
 *             together. After a restart the table has the new values, the
 *             journal is empty, and the next restart takes that table: put both
 *             on the disk as one, before the first request.
 *   Damage    hub_restart sees what does not fit. A changed value that is within
 *             its limits fits: keep a checksum over the table and each commit.
 *   One host  Two hosts that write one file lose each other's commits: lock it.
 *   chaffdancer-host --store does all of this; chaffdancer-store(5) tells how.
 *
 * RECORDS (all numbers low byte first, no headers, no padding)
 *
 *   request, 8 bytes         answer, 12 bytes          table row, 16 bytes
 *   byte  field              byte   field              byte    field
 *   0     kind, 1 to 5       0      code, 0 to 7       0-3     floor
 *   1     desk               1      desk as requested  4-7     ceiling
 *   2     item               2      item               8-11    value at opening
 *   3     zero               3      reason             12      kind, 0 or 1
 *   4-7   value              4-7    first number       13-15   zero
 *                            8-11   second number
 *
 *   journal record, 8 bytes
 *   byte  of an item written         closing a commit
 *   0     1                          2
 *   1     item                       0
 *   2-3   number of the commit       number of the commit
 *   4-7   value                      how many items it has written
 *
 *   In a request, fields that its kind does not use are zero:
 *     begin, end, abandon   kind, desk
 *     read                  kind, desk, item
 *     write                 kind, desk, item, value
 *
 *   In an answer, fields in which nothing is said are zero:
 *     0 refused     reason: a refusal, 1 to 9 or 15; the request changed nothing
 *     1 opened      first: the age, after an abort the one that was kept;
 *                   second: the start number, that of the last commit
 *     2 value       item; first: its value
 *     3 stored      item
 *     4 wait        item; first: the desk waited for; ask again later, the
 *                   transaction stays open
 *     5 committed   first: the transaction's number
 *     6 abandoned   the transaction and its age are gone, nothing else changed
 *     7 aborted     the transaction is gone, the desk keeps its age: begin
 *                   again; reason:
 *       1 overwritten   item; first: number of the commit that wrote it
 *       2 too old       first: the start number; it has read open items, and
 *                       more than 16 commits came after its start, whatever
 *                       its age
 *       3 yield         item; first: the desk yielded to
 *
 *   Wait and yield name a desk that holds the item: for a read, the other desk
 *   that has written it; for a write, of all others that have read or written
 *   it, the oldest. That one is younger than the desk that is told to wait, and
 *   older than the desk that must yield. It is always named: in these two
 *   answers a first number of 0 is desk 0.
 *
 *   The opening table is 64 rows, that of item 0 first: 1,024 bytes. It is
 *   right if in each row floor <= value <= ceiling, the kind is 0 or 1 and the
 *   last three bytes are zero.
 *   Final values are 64 numbers of 4 bytes, that of item 0 first: 256 bytes.
 *
 *   A journal has, for each commit, a record of each item that it wrote, items
 *   ascending, and then its closing record. Commits are numbered 1, 2, 3 and on.
 *   Behind the last record a journal is zero, as it was when it was opened. It
 *   may be of any length, but the hub uses 65,536 bytes of it at most and never
 *   touches the others. A commit of n items takes 8 * (n + 1) bytes. If these do
 *   not all fit, the end is refused with 15 and none is written; first comes the
 *   question whether it may commit at all, so an end that must be aborted is
 *   aborted, room or none. Refused, the desk keeps its transaction: it may end
 *   again (but a journal never gets more room) or abandon. A host makes room by
 *   a restart.
 */
#ifndef CHAFFDANCER_H
#define CHAFFDANCER_H

#include <stddef.h>
#include <stdint.h>

/* The version of this header; chaffdancer_version() has that of the library. */
#define CHAFFDANCER_VERSION "1.0.0"

/* How many there are. */
#define CHAFFDANCER_DESKS 16
#define CHAFFDANCER_ITEMS 64
#define CHAFFDANCER_RUN_REQUESTS 4096 /* the most in one hub_run */
#define CHAFFDANCER_AGES 2000         /* the last age given; no board has more commits */
#define CHAFFDANCER_KEPT_SETS 16      /* more commits since the start: too old */

/* Lengths in bytes. */
#define CHAFFDANCER_REQUEST_BYTES 8
#define CHAFFDANCER_ANSWER_BYTES 12
#define CHAFFDANCER_ROW_BYTES 16
#define CHAFFDANCER_TABLE_BYTES 1024
#define CHAFFDANCER_VALUES_BYTES 256
#define CHAFFDANCER_RECORD_BYTES 8      /* of a journal */
#define CHAFFDANCER_JOURNAL_BYTES 65536 /* the most of a journal that is used */
#define CHAFFDANCER_BOARD_BYTES 5648
#define CHAFFDANCER_JOURNALED_BYTES 5656
#define CHAFFDANCER_BOARD_ALIGNMENT 8

/* Kinds of request: byte 0 of a request. */
#define CHAFFDANCER_REQUEST_BEGIN 1
#define CHAFFDANCER_REQUEST_READ 2
#define CHAFFDANCER_REQUEST_WRITE 3
#define CHAFFDANCER_REQUEST_END 4
#define CHAFFDANCER_REQUEST_ABANDON 5

/* Kinds of item: byte 12 of a table row. */
#define CHAFFDANCER_ITEM_OPEN 0
#define CHAFFDANCER_ITEM_GUARDED 1

/* Codes: byte 0 of an answer. */
#define CHAFFDANCER_ANSWER_REFUSED 0
#define CHAFFDANCER_ANSWER_OPENED 1
#define CHAFFDANCER_ANSWER_VALUE 2
#define CHAFFDANCER_ANSWER_STORED 3
#define CHAFFDANCER_ANSWER_WAIT 4
#define CHAFFDANCER_ANSWER_COMMITTED 5
#define CHAFFDANCER_ANSWER_ABANDONED 6
#define CHAFFDANCER_ANSWER_ABORTED 7

/* Kinds of journal record: its byte 0. */
#define CHAFFDANCER_RECORD_WRITTEN 1
#define CHAFFDANCER_RECORD_CLOSING 2

/* Reasons of an aborted answer: its byte 3. */
#define CHAFFDANCER_ABORTED_OVERWRITTEN 1
#define CHAFFDANCER_ABORTED_TOO_OLD 2
#define CHAFFDANCER_ABORTED_YIELD 3

/* Refusals of one request: byte 3 of a refused answer, tested in this order. */
#define CHAFFDANCER_REFUSED_KIND 1          /* kind not 1 to 5 */
#define CHAFFDANCER_REFUSED_DESK 2          /* desk above 15 */
#define CHAFFDANCER_REFUSED_UNUSED_FIELD 3  /* unused field not zero */
#define CHAFFDANCER_REFUSED_ALREADY_OPEN 4  /* begin, with one open */
#define CHAFFDANCER_REFUSED_NONE_OPEN 5     /* no begin, with none open */
#define CHAFFDANCER_REFUSED_ITEM 6          /* item above 63 */
#define CHAFFDANCER_REFUSED_BELOW_FLOOR 7   /* written value below the floor */
#define CHAFFDANCER_REFUSED_ABOVE_CEILING 8 /* written value above the ceiling */
#define CHAFFDANCER_REFUSED_AGES_GIVEN 9    /* begin with no age kept, all 2,000 given */

/* Only with a journal: at an end, tested after its validation. */
#define CHAFFDANCER_REFUSED_NO_ROOM 15 /* the journal is too full for this commit */

/* Refusals of a whole call: returned as minus this number. */
#define CHAFFDANCER_REFUSED_TABLE 10           /* opening table wrong */
#define CHAFFDANCER_REFUSED_REQUESTS_LENGTH 11 /* not a multiple of 8 */
#define CHAFFDANCER_REFUSED_ANSWERS_LENGTH 12  /* below 12 for each request */
#define CHAFFDANCER_REFUSED_VALUES_LENGTH 13   /* below 256 */
#define CHAFFDANCER_REFUSED_TOO_MANY 14        /* more than 4,096 requests */

/*
 * A board between two calls. Its bytes are the hub's own: the host gives them
 * a place and lends them, and neither reads them nor writes them. A board holds
 * no pointers, so it may be moved or copied whole.
 */
typedef struct chaffdancer_board {
    uint64_t bytes_of_the_hub[CHAFFDANCER_BOARD_BYTES / 8];
} chaffdancer_board;

/*
 * A board with a journal. The host may read used, which counts the bytes of the
 * journal that hold records, and writes nothing here either.
 */
typedef struct chaffdancer_journaled {
    chaffdancer_board board;
    uint64_t used;
} chaffdancer_journaled;

#if defined(__cplusplus) && __cplusplus >= 201103L
#define CHAFFDANCER_ASSERT(name, condition) static_assert(condition, #name)
#elif !defined(__cplusplus) && defined(__STDC_VERSION__) && __STDC_VERSION__ >= 201112L
#define CHAFFDANCER_ASSERT(name, condition) _Static_assert(condition, #name)
#else
#define CHAFFDANCER_ASSERT(name, condition) typedef char name[(condition) ? 1 : -1]
#endif

/* A char and then a board: the board's place tells its alignment, also in C99. */
struct chaffdancer_board_after_char {
    char first;
    chaffdancer_board board;
};

CHAFFDANCER_ASSERT(chaffdancer_board_has_its_size,
                   sizeof(chaffdancer_board) == CHAFFDANCER_BOARD_BYTES);
CHAFFDANCER_ASSERT(chaffdancer_board_has_its_alignment,
                   offsetof(struct chaffdancer_board_after_char, board) ==
                       CHAFFDANCER_BOARD_ALIGNMENT);
CHAFFDANCER_ASSERT(chaffdancer_journaled_has_its_size,
                   sizeof(chaffdancer_journaled) == CHAFFDANCER_JOURNALED_BYTES);
CHAFFDANCER_ASSERT(chaffdancer_used_has_its_place,
                   offsetof(chaffdancer_journaled, used) == CHAFFDANCER_BOARD_BYTES);
CHAFFDANCER_ASSERT(chaffdancer_lengths_have_64_bits, sizeof(size_t) == 8);
#undef CHAFFDANCER_ASSERT

/* A result that is not looked at, or a null board, is worth a warning. */
#if defined(__GNUC__)
#define CHAFFDANCER_RESULT_MATTERS __attribute__((warn_unused_result))
#define CHAFFDANCER_NOT_NULL(...) __attribute__((nonnull(__VA_ARGS__)))
#else
#define CHAFFDANCER_RESULT_MATTERS
#define CHAFFDANCER_NOT_NULL(...)
#endif

#ifdef __cplusplus
extern "C" {
#endif

/*
 * hub_run: serve a list of requests on a fresh board.
 *
 *   table     the opening table; right only if it is of 1,024 bytes
 *   requests  records of 8 bytes, at most 4,096
 *   answers   filled with a record of 12 bytes for each request, in their order
 *   values    filled with the 256 bytes of the final values
 *
 * Returns the count of answers (0 for no requests), or minus a refusal number,
 * tested in this order:
 *   -10  the opening table is wrong
 *   -11  requests_length is not a multiple of 8
 *   -14  there are more than 4,096 requests
 *   -12  answers_length is below 12 for each request
 *   -13  values_length is below 256
 *
 * A refused run writes nothing. Otherwise bytes of answers beyond the last
 * answer, and bytes of values beyond 256, keep what they had. A refusal of one
 * request (1 to 9) is an answer like others, and the run goes on.
 */
CHAFFDANCER_RESULT_MATTERS
int64_t hub_run(const uint8_t *table, size_t table_length, const uint8_t *requests,
                size_t requests_length, uint8_t *answers, size_t answers_length, uint8_t *values,
                size_t values_length);

/*
 * hub_open: open a board, or open it again, with nothing of its past left.
 *
 * Returns 0, and the board is freshly opened; what its bytes were before does
 * not matter. Or returns -10 as the table is wrong, and the board's bytes stay
 * as they were.
 */
CHAFFDANCER_RESULT_MATTERS
CHAFFDANCER_NOT_NULL(1)
int64_t hub_open(chaffdancer_board *board, const uint8_t *table, size_t table_length);

/*
 * hub_step: serve one request.
 *
 *   board    one that hub_open filled and that only hub_step changed since; this
 *            is the host's side of the bargain, and nothing tests it
 *   request  any 8 bytes
 *   answer   all 12 bytes are written
 *
 * The answers are those that hub_run gives to the same requests on the same
 * table; only, there is no limit on their count.
 */
CHAFFDANCER_NOT_NULL(1, 2, 3)
void hub_step(chaffdancer_board *board, const uint8_t request[CHAFFDANCER_REQUEST_BYTES],
              uint8_t answer[CHAFFDANCER_ANSWER_BYTES]);

/*
 * hub_run_journal: as hub_run, and each commit adds its records to the journal.
 *
 *   journal  of any length, also 0; zeroed first, up to its 65,536th byte
 *
 * Returns what hub_run returns, with the same refusals in the same order; a
 * refused run writes nothing, the journal included. Refusal 15 is an answer
 * like others. Each request adds one record at most, so a journal as long as
 * the requests always has room: the answers and values are then hub_run's.
 */
CHAFFDANCER_RESULT_MATTERS
int64_t hub_run_journal(const uint8_t *table, size_t table_length, const uint8_t *requests,
                        size_t requests_length, uint8_t *answers, size_t answers_length,
                        uint8_t *values, size_t values_length, uint8_t *journal,
                        size_t journal_length);

/*
 * hub_open_journal: open a board with an empty journal.
 *
 * Returns 0: the board is freshly opened, used is 0, and the journal is zeroed
 * up to its 65,536th byte. Or returns -10 as the table is wrong, and the bytes
 * of board and journal stay as they were.
 */
CHAFFDANCER_RESULT_MATTERS
CHAFFDANCER_NOT_NULL(1)
int64_t hub_open_journal(chaffdancer_journaled *board, const uint8_t *table, size_t table_length,
                         uint8_t *journal, size_t journal_length);

/*
 * hub_step_journal: serve one request; a commit adds its records.
 *
 *   board    one that hub_open_journal filled and that only hub_step_journal
 *            changed since
 *   journal  the buffer of the call before, as that call left it
 *
 * Answers as hub_step does, but for refusal 15. If the answer is "committed",
 * the bytes of the journal from the old value of used to the new one are its
 * records: they go to the disk before the answer goes to the desk. Any other
 * answer leaves the journal as it was.
 */
CHAFFDANCER_NOT_NULL(1, 2, 3)
void hub_step_journal(chaffdancer_journaled *board,
                      const uint8_t request[CHAFFDANCER_REQUEST_BYTES],
                      uint8_t answer[CHAFFDANCER_ANSWER_BYTES], uint8_t *journal,
                      size_t journal_length);

/*
 * hub_restart: the values after the last whole commit.
 *
 *   table    the opening table of the journal; the values in its rows are
 *            replaced, and nothing else in it
 *   journal  what is left of the journal: cut after any byte, or damaged
 *
 * Returns how many commits are whole, from number 1 on; or -10 as the table is
 * wrong, and writes nothing. The reading stops at the first record that does
 * not fit: one of another form or cut short, a number out of turn, items that
 * do not ascend, an item above 63, a value outside its limits, a wrong count,
 * or zeros. A commit counts from the last byte of its closing record on, and
 * whatever follows the last that counts changes nothing.
 */
CHAFFDANCER_RESULT_MATTERS
int64_t hub_restart(uint8_t *table, size_t table_length, const uint8_t *journal,
                    size_t journal_length);

/*
 * In libchaffdancer, and not in libhub.a: the version of the library, to be
 * compared with CHAFFDANCER_VERSION; and texts for the numbers in an answer, in
 * English, never null, "unknown" for a number that means nothing.
 *   chaffdancer_code_text     of a code, 0 to 7
 *   chaffdancer_aborted_text  of the reason of an aborted answer, 1 to 3
 *   chaffdancer_refused_text  of a refusal, 1 to 15: the reason of a refused
 *                             answer, or what a call returned, made positive
 */
const char *chaffdancer_version(void);
const char *chaffdancer_code_text(unsigned code);
const char *chaffdancer_aborted_text(unsigned reason);
const char *chaffdancer_refused_text(unsigned refusal);

#ifdef __cplusplus
}
#endif

/*
 * Helpers that put records together and take them apart, byte by byte. They ask
 * nothing of the hub, and may be left unused.
 */

/* A number of 4 bytes, low byte first. */
static inline void chaffdancer_put_number(uint8_t bytes[4], uint32_t number)
{
    bytes[0] = (uint8_t)(number & 255U);
    bytes[1] = (uint8_t)((number >> 8) & 255U);
    bytes[2] = (uint8_t)((number >> 16) & 255U);
    bytes[3] = (uint8_t)((number >> 24) & 255U);
}

static inline uint32_t chaffdancer_get_number(const uint8_t bytes[4])
{
    return (uint32_t)bytes[0] | ((uint32_t)bytes[1] << 8) | ((uint32_t)bytes[2] << 16) |
           ((uint32_t)bytes[3] << 24);
}

/*
 * A desk, item or kind that does not fit in a byte becomes 255, which the hub
 * refuses. If it were cut to a byte, desk 256 would pass for desk 0.
 */
static inline uint8_t chaffdancer_to_byte(uint32_t number)
{
    return (uint8_t)(number > 255U ? 255U : number);
}

static inline void chaffdancer_put_request(uint8_t request[CHAFFDANCER_REQUEST_BYTES],
                                           uint32_t kind, uint32_t desk, uint32_t item,
                                           uint32_t value)
{
    request[0] = chaffdancer_to_byte(kind);
    request[1] = chaffdancer_to_byte(desk);
    request[2] = chaffdancer_to_byte(item);
    request[3] = 0;
    chaffdancer_put_number(request + 4, value);
}

/* The five requests. Each fills all 8 bytes; hub_run or hub_step then serves them. */
static inline void chaffdancer_begin(uint8_t request[CHAFFDANCER_REQUEST_BYTES], uint32_t desk)
{
    chaffdancer_put_request(request, CHAFFDANCER_REQUEST_BEGIN, desk, 0, 0);
}

static inline void chaffdancer_read(uint8_t request[CHAFFDANCER_REQUEST_BYTES], uint32_t desk,
                                    uint32_t item)
{
    chaffdancer_put_request(request, CHAFFDANCER_REQUEST_READ, desk, item, 0);
}

static inline void chaffdancer_write(uint8_t request[CHAFFDANCER_REQUEST_BYTES], uint32_t desk,
                                     uint32_t item, uint32_t value)
{
    chaffdancer_put_request(request, CHAFFDANCER_REQUEST_WRITE, desk, item, value);
}

static inline void chaffdancer_end(uint8_t request[CHAFFDANCER_REQUEST_BYTES], uint32_t desk)
{
    chaffdancer_put_request(request, CHAFFDANCER_REQUEST_END, desk, 0, 0);
}

static inline void chaffdancer_abandon(uint8_t request[CHAFFDANCER_REQUEST_BYTES], uint32_t desk)
{
    chaffdancer_put_request(request, CHAFFDANCER_REQUEST_ABANDON, desk, 0, 0);
}

/* An answer's fields; which of them say something is in the table above. */
struct chaffdancer_answer {
    uint8_t code; /* CHAFFDANCER_ANSWER_... */
    uint8_t desk; /* as it stood in the request */
    uint8_t item;
    uint8_t reason; /* CHAFFDANCER_REFUSED_... or CHAFFDANCER_ABORTED_... */
    uint32_t first;
    uint32_t second;
};

static inline struct chaffdancer_answer
chaffdancer_get_answer(const uint8_t bytes[CHAFFDANCER_ANSWER_BYTES])
{
    struct chaffdancer_answer answer;
    answer.code = bytes[0];
    answer.desk = bytes[1];
    answer.item = bytes[2];
    answer.reason = bytes[3];
    answer.first = chaffdancer_get_number(bytes + 4);
    answer.second = chaffdancer_get_number(bytes + 8);
    return answer;
}

/* A journal record's fields. */
struct chaffdancer_record {
    uint8_t kind;    /* CHAFFDANCER_RECORD_... */
    uint8_t item;    /* 0 in a closing record */
    uint16_t number; /* of the commit */
    uint32_t value;  /* in a closing record how many items the commit has written */
};

static inline struct chaffdancer_record
chaffdancer_get_record(const uint8_t bytes[CHAFFDANCER_RECORD_BYTES])
{
    struct chaffdancer_record record;
    record.kind = bytes[0];
    record.item = bytes[1];
    record.number = (uint16_t)(bytes[2] | (bytes[3] << 8));
    record.value = chaffdancer_get_number(bytes + 4);
    return record;
}

/* Puts one row into the opening table: 1; or 0 for an item above 63, and nothing is put. */
static inline int chaffdancer_put_row(uint8_t table[CHAFFDANCER_TABLE_BYTES], uint32_t item,
                                      uint32_t floor, uint32_t ceiling, uint32_t value,
                                      uint32_t kind)
{
    uint8_t *row;
    if (item >= CHAFFDANCER_ITEMS)
        return 0;
    row = table + (size_t)item * CHAFFDANCER_ROW_BYTES;
    chaffdancer_put_number(row, floor);
    chaffdancer_put_number(row + 4, ceiling);
    chaffdancer_put_number(row + 8, value);
    row[12] = chaffdancer_to_byte(kind);
    row[13] = 0;
    row[14] = 0;
    row[15] = 0;
    return 1;
}

/* The final value of an item; 0 for an item above 63, which has none. */
static inline uint32_t chaffdancer_get_value(const uint8_t values[CHAFFDANCER_VALUES_BYTES],
                                             uint32_t item)
{
    return item < CHAFFDANCER_ITEMS ? chaffdancer_get_number(values + (size_t)item * 4) : 0;
}

#endif
