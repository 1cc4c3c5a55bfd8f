/* The library called with buffers of exactly the right length, and wrong ones. */
#include <string.h>

#include "chaffdancer.h"
#include "example.h"
#include "lending.h"

struct buffers {
    const struct lender *lender;
    uint8_t *table, *requests, *answers, *values;
    size_t table_length, requests_length, answers_length, values_length;
};

static int final_values_are(const uint8_t *values, uint32_t item_0)
{
    return chaffdancer_get_value(values, 0) == item_0 && all_bytes_are(values + 4, 252, 0);
}

static struct buffers lend_buffers(const struct lender *lender, size_t table_length,
                                   size_t requests_length, size_t answers_length,
                                   size_t values_length)
{
    uint8_t table[CHAFFDANCER_TABLE_BYTES];
    struct buffers lent;
    lent.lender = lender;
    lent.table_length = table_length;
    lent.requests_length = requests_length;
    lent.answers_length = answers_length;
    lent.values_length = values_length;
    lent.table = lender->lend(table_length);
    lent.requests = lender->lend(requests_length);
    lent.answers = lender->lend(answers_length);
    lent.values = lender->lend(values_length);
    put_example_table(table);
    memset(lent.table, 0, table_length);
    memcpy(lent.table, table, table_length < sizeof table ? table_length : sizeof table);
    memset(lent.requests, 0, requests_length);
    memset(lent.answers, FILLER, answers_length);
    memset(lent.values, FILLER, values_length);
    return lent;
}

static int64_t run(const struct buffers *lent)
{
    return hub_run(lent->table, lent->table_length, lent->requests, lent->requests_length,
                   lent->answers, lent->answers_length, lent->values, lent->values_length);
}

static int take_back(const struct buffers *lent, int passed)
{
    lent->lender->take_back(lent->table, lent->table_length);
    lent->lender->take_back(lent->requests, lent->requests_length);
    lent->lender->take_back(lent->answers, lent->answers_length);
    lent->lender->take_back(lent->values, lent->values_length);
    return passed;
}

/* The first requests of the example, in buffers longer than needed by beyond. */
static int example_runs(const struct lender *lender, size_t count, size_t beyond)
{
    uint8_t requests[EXAMPLE_REQUESTS * CHAFFDANCER_REQUEST_BYTES];
    struct buffers lent = lend_buffers(lender, 1024, 8 * count, 12 * count + beyond, 256 + beyond);
    size_t place;
    int passed;
    put_example_requests(requests);
    memcpy(lent.requests, requests, 8 * count);
    passed = run(&lent) == (int64_t)count && final_values_are(lent.values, count < 5 ? 140 : 115);
    for (place = 0; place < count; place++)
        passed = passed && answer_is(lent.answers + 12 * place, example_answers[place]);
    passed = passed && all_bytes_are(lent.answers + 12 * count, beyond, FILLER) &&
             all_bytes_are(lent.values + 256, beyond, FILLER);
    return take_back(&lent, passed);
}

static int no_requests(const struct lender *lender)
{
    return example_runs(lender, 0, 0);
}

static int one_request(const struct lender *lender)
{
    return example_runs(lender, 1, 0);
}

static int five_requests(const struct lender *lender)
{
    return example_runs(lender, 5, 0);
}

static int whole_example(const struct lender *lender)
{
    return example_runs(lender, EXAMPLE_REQUESTS, 0);
}

static int bytes_beyond(const struct lender *lender)
{
    return example_runs(lender, 5, 7) && example_runs(lender, 0, 1);
}

/* Begin and end, 2,048 times: the ages are used up after 2,000. */
static int most_requests(const struct lender *lender)
{
    size_t count = CHAFFDANCER_RUN_REQUESTS;
    struct buffers lent = lend_buffers(lender, 1024, 8 * count, 12 * count, 256);
    uint32_t pair;
    int passed;
    for (pair = 0; pair < count / 2; pair++) {
        chaffdancer_begin(lent.requests + 16 * pair, 7);
        chaffdancer_end(lent.requests + 16 * pair + 8, 7);
    }
    passed = run(&lent) == (int64_t)count && final_values_are(lent.values, 140);
    for (pair = 0; pair < count / 2; pair++) {
        int served = pair < CHAFFDANCER_AGES;
        const uint32_t opened[6] = {7, 1, 0, 0, pair + 1, pair};
        const uint32_t committed[6] = {7, 5, 0, 0, pair + 1, 0};
        const uint32_t no_age[6] = {7, 0, 0, 9, 0, 0}, none_open[6] = {7, 0, 0, 5, 0, 0};
        passed = passed && answer_is(lent.answers + 24 * pair, served ? opened : no_age) &&
                 answer_is(lent.answers + 24 * pair + 12, served ? committed : none_open);
    }
    return take_back(&lent, passed);
}

/* Desk 0 must yield to desk 1, keeps its age, waits for desk 1 and is served. */
static int age_is_kept(const struct lender *lender)
{
    static const uint32_t answers[14][6] = {
        {1, 1, 0, 0, 1, 0}, {1, 3, 1, 0, 0, 0}, {0, 1, 0, 0, 2, 0}, {0, 7, 1, 3, 1, 0},
        {1, 5, 0, 0, 1, 0}, {0, 0, 0, 5, 0, 0}, {0, 0, 0, 5, 0, 0}, {1, 1, 0, 0, 3, 1},
        {1, 3, 1, 0, 0, 0}, {0, 1, 0, 0, 2, 1}, {0, 4, 1, 0, 1, 0}, {1, 5, 0, 0, 2, 0},
        {0, 3, 1, 0, 0, 0}, {0, 5, 0, 0, 3, 0},
    };
    struct buffers lent = lend_buffers(lender, 1024, 8 * 14, 12 * 14, 256);
    size_t round, place;
    int passed;
    for (round = 0; round < 2; round++) {
        uint8_t *requests = lent.requests + 56 * round;
        chaffdancer_begin(requests, 1);
        chaffdancer_write(requests + 8, 1, 1, 1);
        chaffdancer_begin(requests + 16, 0);
        chaffdancer_write(requests + 24, 0, 1, 1);
        chaffdancer_end(requests + 32, 1);
        chaffdancer_write(requests + 40, 0, 1, 1);
        chaffdancer_end(requests + 48, 0);
    }
    passed = run(&lent) == 14 && chaffdancer_get_value(lent.values, 1) == 1;
    for (place = 0; place < 14; place++)
        passed = passed && answer_is(lent.answers + 12 * place, answers[place]);
    return take_back(&lent, passed);
}

/* Lengths of table, requests, answers and values; what is returned. */
static const struct refused_run {
    size_t table, requests, answers, values;
    int64_t result;
} refused_runs[] = {
    {0, 0, 0, 0, -10},        {1023, 8, 12, 256, -10},  {1025, 8, 12, 256, -10},
    {1023, 7, 0, 0, -10},     {1024, 7, 12, 256, -11},  {1024, 9, 24, 256, -11},
    {1024, 32777, 0, 0, -11}, {1024, 32776, 0, 0, -14}, {1024, 32776, 49164, 256, -14},
    {1024, 8, 11, 256, -12},  {1024, 8, 0, 0, -12},     {1024, 32768, 49151, 256, -12},
    {1024, 8, 12, 255, -13},  {1024, 0, 0, 0, -13},
};

static int refused_runs_write_nothing(const struct lender *lender)
{
    size_t place;
    int passed = 1;
    for (place = 0; place < sizeof refused_runs / sizeof refused_runs[0]; place++) {
        const struct refused_run *row = &refused_runs[place];
        struct buffers lent =
            lend_buffers(lender, row->table, row->requests, row->answers, row->values);
        int right = run(&lent) == row->result &&
                    all_bytes_are(lent.answers, row->answers, FILLER) &&
                    all_bytes_are(lent.values, row->values, FILLER);
        passed = take_back(&lent, right) && passed;
    }
    return passed;
}

static int null_of_length_zero(const struct lender *lender)
{
    struct buffers lent = lend_buffers(lender, 1024, 0, 0, 256);
    int passed = hub_run(NULL, 0, NULL, 0, NULL, 0, NULL, 0) == -10 &&
                 hub_run(lent.table, 1024, NULL, 0, NULL, 0, NULL, 0) == -13 &&
                 hub_run(lent.table, 1024, NULL, 0, NULL, 0, lent.values, 256) == 0 &&
                 final_values_are(lent.values, 140);
    return take_back(&lent, passed);
}

/* A byte of the table, and what makes the table wrong in that place. */
static const struct wrong_byte {
    size_t place;
    uint8_t byte;
} wrong_bytes[] = {
    {0, 141}, {4, 139}, {3, 1},    {11, 1},     {12, 2},
    {13, 1},  {14, 1},  {15, 128}, {1020, 255}, {1023, 1},
};

/* The hub's own bytes are compared here, and not understood. */
static int wrong_table_leaves_board(const struct lender *lender)
{
    chaffdancer_board *board = lender->lend(sizeof *board);
    struct buffers lent = lend_buffers(lender, 1024, 0, 0, 256);
    size_t place;
    int passed;
    memset(board, FILLER, sizeof *board);
    passed = hub_open(board, lent.table, 1023) == -10 && hub_open(board, NULL, 0) == -10;
    for (place = 0; place < sizeof wrong_bytes / sizeof wrong_bytes[0]; place++) {
        uint8_t *byte = lent.table + wrong_bytes[place].place, right = *byte;
        *byte = wrong_bytes[place].byte;
        passed = passed && hub_open(board, lent.table, 1024) == -10 && run(&lent) == -10;
        *byte = right;
    }
    passed = passed && all_bytes_are((const uint8_t *)board, sizeof *board, FILLER) &&
             all_bytes_are(lent.values, 256, FILLER) && hub_open(board, lent.table, 1024) == 0;
    lender->take_back(board, sizeof *board);
    return take_back(&lent, passed);
}

/* The example in single steps; the request and the answer are lent alone too. */
static int example_steps(const struct lender *lender, chaffdancer_board *board)
{
    uint8_t requests[EXAMPLE_REQUESTS * CHAFFDANCER_REQUEST_BYTES];
    uint8_t *request = lender->lend(8), *answer = lender->lend(12);
    size_t place;
    int passed = 1;
    put_example_requests(requests);
    for (place = 0; place < EXAMPLE_REQUESTS; place++) {
        memcpy(request, requests + 8 * place, 8);
        memset(answer, FILLER, 12);
        hub_step(board, request, answer);
        passed = passed && answer_is(answer, example_answers[place]);
    }
    lender->take_back(request, 8);
    lender->take_back(answer, 12);
    return passed;
}

/* The example leaves a desk with an open transaction and one with a kept age. */
static int board_is_opened_again(const struct lender *lender)
{
    uint8_t table[CHAFFDANCER_TABLE_BYTES];
    chaffdancer_board *board = lender->lend(sizeof *board), fresh;
    int passed;
    put_example_table(table);
    memset(board, FILLER, sizeof *board);
    passed = hub_open(board, table, sizeof table) == 0;
    fresh = *board;
    passed = passed && example_steps(lender, board) && hub_open(board, table, sizeof table) == 0 &&
             memcmp(board, &fresh, sizeof fresh) == 0 && example_steps(lender, &fresh) &&
             example_steps(lender, board) && memcmp(board, &fresh, sizeof fresh) == 0;
    lender->take_back(board, sizeof *board);
    return passed;
}

/* Requests that no helper makes: refused, and the board is as it was. */
static int any_eight_bytes(const struct lender *lender)
{
    static const struct {
        uint8_t request[8];
        uint32_t answer[6];
    } rows[] = {
        {{0, 0, 0, 0, 0, 0, 0, 0}, {0, 0, 0, 1, 0, 0}},
        {{6, 1, 0, 0, 0, 0, 0, 0}, {1, 0, 0, 1, 0, 0}},
        {{255, 255, 255, 255, 255, 255, 255, 255}, {255, 0, 0, 1, 0, 0}},
        {{1, 16, 0, 1, 0, 0, 0, 0}, {16, 0, 0, 2, 0, 0}},
        {{1, 0, 0, 1, 0, 0, 0, 0}, {0, 0, 0, 3, 0, 0}},
        {{2, 0, 1, 0, 0, 0, 0, 1}, {0, 0, 0, 3, 0, 0}},
        {{5, 15, 1, 0, 0, 0, 0, 0}, {15, 0, 0, 3, 0, 0}},
        {{3, 15, 255, 0, 255, 255, 255, 255}, {15, 0, 0, 5, 0, 0}},
    };
    uint8_t table[CHAFFDANCER_TABLE_BYTES], answer[CHAFFDANCER_ANSWER_BYTES];
    chaffdancer_board *board = lender->lend(sizeof *board), before;
    size_t place;
    int passed;
    put_example_table(table);
    passed = hub_open(board, table, sizeof table) == 0;
    before = *board;
    for (place = 0; place < sizeof rows / sizeof rows[0]; place++) {
        hub_step(board, rows[place].request, answer);
        passed = passed && answer_is(answer, rows[place].answer) &&
                 memcmp(board, &before, sizeof before) == 0;
    }
    lender->take_back(board, sizeof *board);
    return passed;
}

static int helpers_put_bytes(const struct lender *lender)
{
    static const uint8_t write[8] = {3, 2, 63, 0, 0x12, 0xEF, 0xCD, 0xAB};
    static const uint8_t far_desk[8] = {4, 255, 0, 0, 0, 0, 0, 0};
    uint8_t *request = lender->lend(8), *table = lender->lend(1024);
    int passed;
    memset(table, FILLER, 1024);
    chaffdancer_write(request, 2, 63, 0xABCDEF12U);
    passed = memcmp(request, write, 8) == 0 && chaffdancer_get_number(request + 4) == 0xABCDEF12U;
    chaffdancer_end(request, 256);
    passed = passed && memcmp(request, far_desk, 8) == 0 &&
             !chaffdancer_put_row(table, 64, 0, 0, 0, 0) && all_bytes_are(table, 1024, FILLER) &&
             chaffdancer_put_row(table, 63, 0, 0, 0, 256) && table[1020] == 255 &&
             all_bytes_are(table, 1008, FILLER) && chaffdancer_get_value(table, 64) == 0;
    lender->take_back(request, 8);
    lender->take_back(table, 1024);
    return passed;
}

static const struct check checks[] = {
    {"helpers put the right bytes", helpers_put_bytes},
    {"run of no requests", no_requests},
    {"run of one request", one_request},
    {"run of five requests", five_requests},
    {"run of the whole example", whole_example},
    {"run of 4,096 requests", most_requests},
    {"an aborted desk begins again with its age", age_is_kept},
    {"bytes beyond answers and values are kept", bytes_beyond},
    {"refused runs write nothing", refused_runs_write_nothing},
    {"null is allowed for length 0", null_of_length_zero},
    {"wrong tables leave the board as it was", wrong_table_leaves_board},
    {"steps of the example, and the board opened again", board_is_opened_again},
    {"any eight bytes are answered", any_eight_bytes},
};

int main(void)
{
    run_checks("exact buffers", checks, sizeof checks / sizeof checks[0]);
    return 0;
}
