#include "example.h"

#include <stdio.h>

#include "chaffdancer.h"

/* desk, code, item, reason, first, second */
const uint32_t example_answers[EXAMPLE_REQUESTS][6] = {
    {0, 1, 0, 0, 1, 0}, {1, 1, 0, 0, 2, 0}, {0, 2, 0, 0, 140, 0}, {1, 3, 0, 0, 0, 0},
    {1, 5, 0, 0, 1, 0}, {0, 3, 1, 0, 0, 0}, {0, 7, 0, 1, 1, 0},   {1, 0, 0, 5, 0, 0},
    {1, 1, 0, 0, 3, 1}, {1, 0, 0, 8, 0, 0},
};

void put_example_requests(uint8_t requests[EXAMPLE_REQUESTS * CHAFFDANCER_REQUEST_BYTES])
{
    chaffdancer_begin(requests, 0);
    chaffdancer_begin(requests + 8, 1);
    chaffdancer_read(requests + 16, 0, 0);
    chaffdancer_write(requests + 24, 1, 0, 115);
    chaffdancer_end(requests + 32, 1);
    chaffdancer_write(requests + 40, 0, 1, 1);
    chaffdancer_end(requests + 48, 0);
    chaffdancer_write(requests + 56, 1, 0, 1150);
    chaffdancer_begin(requests + 64, 1);
    chaffdancer_write(requests + 72, 1, 0, 1150);
}

void put_example_table(uint8_t table[CHAFFDANCER_TABLE_BYTES])
{
    uint32_t item;
    chaffdancer_put_row(table, 0, 30, 250, 140, CHAFFDANCER_ITEM_OPEN);
    chaffdancer_put_row(table, 1, 0, 1, 0, CHAFFDANCER_ITEM_GUARDED);
    for (item = 2; item < CHAFFDANCER_ITEMS; item++)
        chaffdancer_put_row(table, item, 0, 1000, 0, CHAFFDANCER_ITEM_OPEN);
}

int all_bytes_are(const uint8_t *bytes, size_t length, uint8_t byte)
{
    size_t place;
    for (place = 0; place < length; place++)
        if (bytes[place] != byte)
            return 0;
    return 1;
}

int answer_is(const uint8_t *bytes, const uint32_t expected[6])
{
    struct chaffdancer_answer answer = chaffdancer_get_answer(bytes);
    return answer.desk == expected[0] && answer.code == expected[1] && answer.item == expected[2] &&
           answer.reason == expected[3] && answer.first == expected[4] &&
           answer.second == expected[5];
}

static const char *failing_lender(const struct check *check)
{
    const char *failing = NULL;
    size_t lender;
    for (lender = 0; lender < LENDERS; lender++)
        if (!check->passes(&lenders[lender]))
            failing = lenders[lender].name;
    return failing;
}

void run_checks(const char *subject, const struct check *checks, size_t count)
{
    size_t place;
    for (place = 0; place < count; place++) {
        const char *failing = failing_lender(&checks[place]);
        if (failing == NULL)
            printf("passed  %s: %s\n", subject, checks[place].name);
        else
            printf("FAILED  %s: %s (%s)\n", subject, checks[place].name, failing);
        fflush(stdout);
    }
}
