/* The calls with a journal, on buffers of exactly the length said. */
#include <string.h>

#include "chaffdancer.h"
#include "example.h"
#include "lending.h"

#define EXAMPLE_RECORDS 16 /* bytes: one commit of one item */

static const uint8_t example_records[EXAMPLE_RECORDS] = {1, 0, 1, 0, 115, 0, 0, 0,
                                                         2, 0, 1, 0, 1,   0, 0, 0};

/* Without room neither end commits, and desk 1 has its transaction still. */
static const uint32_t answers_without_room[EXAMPLE_REQUESTS][6] = {
    {0, 1, 0, 0, 1, 0},  {1, 1, 0, 0, 2, 0}, {0, 2, 0, 0, 140, 0}, {1, 3, 0, 0, 0, 0},
    {1, 0, 0, 15, 0, 0}, {0, 3, 1, 0, 0, 0}, {0, 0, 0, 15, 0, 0},  {1, 0, 0, 8, 0, 0},
    {1, 0, 0, 4, 0, 0},  {1, 0, 0, 8, 0, 0},
};

static size_t at_most(size_t length, size_t most)
{
    return length < most ? length : most;
}

/* The journal after the example: its records if there is room, zeros, and what is out of reach. */
static int journal_is_right(const uint8_t *journal, size_t length)
{
    size_t within = at_most(length, CHAFFDANCER_JOURNAL_BYTES);
    size_t used = length < EXAMPLE_RECORDS ? 0 : EXAMPLE_RECORDS;
    return memcmp(journal, example_records, used) == 0 &&
           all_bytes_are(journal + used, within - used, 0) &&
           all_bytes_are(journal + within, length - within, FILLER);
}

static int answers_are_right(const uint8_t *answers, size_t journal_length)
{
    size_t place;
    int right = 1;
    for (place = 0; place < EXAMPLE_REQUESTS; place++)
        right = right && answer_is(answers + 12 * place, journal_length < EXAMPLE_RECORDS
                                                             ? answers_without_room[place]
                                                             : example_answers[place]);
    return right;
}

/* The whole example with a journal of this length, all buffers lent. */
static int example_runs(const struct lender *lender, size_t length)
{
    uint8_t *table = lender->lend(1024), *requests = lender->lend(80), *answers = lender->lend(120);
    uint8_t *values = lender->lend(256), *journal = lender->lend(length);
    int right;
    put_example_table(table);
    put_example_requests(requests);
    memset(journal, FILLER, length);
    right = hub_run_journal(table, 1024, requests, 80, answers, 120, values, 256, journal,
                            length) == EXAMPLE_REQUESTS &&
            answers_are_right(answers, length) && journal_is_right(journal, length) &&
            chaffdancer_get_value(values, 0) == (length < EXAMPLE_RECORDS ? 140U : 115U);
    lender->take_back(table, 1024);
    lender->take_back(requests, 80);
    lender->take_back(answers, 120);
    lender->take_back(values, 256);
    lender->take_back(journal, length);
    return right;
}

static const size_t lengths[] = {0, 1, 7, 8, 15, 16, 17, 24, 4096, 65535, 65536, 65537, 70000};

static int every_length(const struct lender *lender, int (*passes)(const struct lender *, size_t))
{
    size_t place;
    for (place = 0; place < sizeof lengths / sizeof lengths[0]; place++)
        if (!passes(lender, lengths[place]))
            return 0;
    return 1;
}

static int runs(const struct lender *lender)
{
    return every_length(lender, example_runs);
}

/* The example in single steps, on a board that is lent too. */
static int example_steps(const struct lender *lender, size_t length)
{
    uint8_t table[CHAFFDANCER_TABLE_BYTES], requests[80], answers[120];
    chaffdancer_journaled *board = lender->lend(sizeof *board);
    uint8_t *journal = lender->lend(length);
    size_t place;
    int right;
    put_example_table(table);
    put_example_requests(requests);
    memset(board, FILLER, sizeof *board);
    memset(journal, FILLER, length);
    right = hub_open_journal(board, table, sizeof table, journal, length) == 0 && board->used == 0;
    for (place = 0; place < EXAMPLE_REQUESTS; place++)
        hub_step_journal(board, requests + 8 * place, answers + 12 * place, journal, length);
    right = right && answers_are_right(answers, length) && journal_is_right(journal, length) &&
            board->used == (length < EXAMPLE_RECORDS ? 0 : EXAMPLE_RECORDS);
    lender->take_back(board, sizeof *board);
    lender->take_back(journal, length);
    return right;
}

static int steps(const struct lender *lender)
{
    return every_length(lender, example_steps);
}

/* The journal of the example, cut to this length or with zeros behind it. */
static int restart_of(const struct lender *lender, size_t length)
{
    uint8_t *table = lender->lend(1024), *journal = lender->lend(length);
    uint8_t wanted[CHAFFDANCER_TABLE_BYTES];
    int64_t commits = length < EXAMPLE_RECORDS ? 0 : 1;
    int right;
    put_example_table(table);
    put_example_table(wanted);
    wanted[8] = commits == 0 ? 140 : 115;
    memset(journal, 0, length);
    memcpy(journal, example_records, at_most(length, EXAMPLE_RECORDS));
    right = hub_restart(table, 1024, journal, length) == commits &&
            memcmp(table, wanted, sizeof wanted) == 0;
    lender->take_back(table, 1024);
    lender->take_back(journal, length);
    return right;
}

static int restarts(const struct lender *lender)
{
    return every_length(lender, restart_of);
}

static int every_cut(const struct lender *lender)
{
    size_t length;
    for (length = 0; length <= EXAMPLE_RECORDS; length++)
        if (!restart_of(lender, length))
            return 0;
    return 1;
}

/* A journal full of records that go on past its limit: the last is number 8,192. */
static int full_journal(const struct lender *lender)
{
    size_t length = CHAFFDANCER_JOURNAL_BYTES + 80, place;
    uint8_t *table = lender->lend(1024), *journal = lender->lend(length);
    int right;
    put_example_table(table);
    memset(journal, 0, length);
    for (place = 0; place < length / 8; place++) {
        journal[8 * place] = CHAFFDANCER_RECORD_CLOSING;
        journal[8 * place + 2] = (uint8_t)((place + 1) & 255);
        journal[8 * place + 3] = (uint8_t)((place + 1) >> 8);
    }
    right = chaffdancer_get_record(journal + 8 * 599).number == 600 &&
            hub_restart(table, 1024, journal, length) == 8192 &&
            hub_restart(table, 1024, journal, CHAFFDANCER_JOURNAL_BYTES) == 8192 &&
            hub_restart(table, 1024, journal, CHAFFDANCER_JOURNAL_BYTES - 1) == 8191;
    lender->take_back(table, 1024);
    lender->take_back(journal, length);
    return right;
}

static int wrong_tables_keep_all(const struct lender *lender)
{
    static const size_t table_lengths[] = {0, 1, 1023, 1025};
    chaffdancer_journaled *board = lender->lend(sizeof *board);
    uint8_t *journal = lender->lend(100);
    size_t place;
    int right = 1;
    memset(board, FILLER, sizeof *board);
    memset(journal, FILLER, 100);
    for (place = 0; place < sizeof table_lengths / sizeof table_lengths[0]; place++) {
        size_t length = table_lengths[place];
        uint8_t *table = lender->lend(length);
        memset(table, 0, length);
        right = right && hub_open_journal(board, table, length, journal, 100) == -10 &&
                hub_restart(table, length, journal, 100) == -10 && all_bytes_are(table, length, 0);
        lender->take_back(table, length);
    }
    right = right && all_bytes_are((const uint8_t *)board, sizeof *board, FILLER) &&
            all_bytes_are(journal, 100, FILLER);
    lender->take_back(board, sizeof *board);
    lender->take_back(journal, 100);
    return right;
}

/* Lengths of requests, answers and values; what is returned. */
static const struct {
    size_t requests, answers, values;
    int64_t result;
} refused_runs[] = {
    {7, 0, 0, -11}, {32776, 0, 0, -14}, {8, 11, 256, -12}, {8, 12, 255, -13}, {0, 0, 0, -13},
};

static int refused_runs_write_nothing(const struct lender *lender)
{
    static uint8_t requests[32776], answers[12], values[256];
    uint8_t table[CHAFFDANCER_TABLE_BYTES], *journal = lender->lend(100);
    size_t place;
    int right = 1;
    put_example_table(table);
    memset(journal, FILLER, 100);
    for (place = 0; place < sizeof refused_runs / sizeof refused_runs[0]; place++)
        right = right && hub_run_journal(table, sizeof table, requests,
                                         refused_runs[place].requests, answers,
                                         refused_runs[place].answers, values,
                                         refused_runs[place].values, journal,
                                         100) == refused_runs[place].result;
    right = right && all_bytes_are(journal, 100, FILLER) && all_bytes_are(answers, 12, 0) &&
            all_bytes_are(values, 256, 0);
    lender->take_back(journal, 100);
    return right;
}

static int null_of_length_zero(const struct lender *lender)
{
    uint8_t *table = lender->lend(1024), *values = lender->lend(256);
    uint8_t request[8], answer[12];
    chaffdancer_journaled *board = lender->lend(sizeof *board);
    int right;
    put_example_table(table);
    chaffdancer_begin(request, 3);
    right = hub_run_journal(NULL, 0, NULL, 0, NULL, 0, NULL, 0, NULL, 0) == -10 &&
            hub_run_journal(table, 1024, NULL, 0, NULL, 0, values, 256, NULL, 0) == 0 &&
            hub_restart(NULL, 0, NULL, 0) == -10 && hub_restart(table, 1024, NULL, 0) == 0 &&
            hub_open_journal(board, NULL, 0, NULL, 0) == -10 &&
            hub_open_journal(board, table, 1024, NULL, 0) == 0;
    hub_step_journal(board, request, answer, NULL, 0);
    right = right && answer[0] == CHAFFDANCER_ANSWER_OPENED;
    chaffdancer_end(request, 3);
    hub_step_journal(board, request, answer, NULL, 0);
    right = right && answer[0] == 0 && answer[3] == CHAFFDANCER_REFUSED_NO_ROOM;
    lender->take_back(table, 1024);
    lender->take_back(values, 256);
    lender->take_back(board, sizeof *board);
    return right;
}

static const struct check checks[] = {
    {"runs with journals of every kind of length", runs},
    {"steps with journals of every kind of length", steps},
    {"restarts from journals of every kind of length", restarts},
    {"restarts from every cut", every_cut},
    {"a restart from a full journal", full_journal},
    {"wrong tables leave board, table and journal", wrong_tables_keep_all},
    {"refused runs write nothing", refused_runs_write_nothing},
    {"null is allowed for length 0", null_of_length_zero},
};

int main(void)
{
    run_checks("exact journals", checks, sizeof checks / sizeof checks[0]);
    return 0;
}
