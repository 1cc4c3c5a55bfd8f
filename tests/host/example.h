/* The worked example in bytes, and checks that every lender's buffers go through. */
#ifndef CHAFFDANCER_TESTS_EXAMPLE_H
#define CHAFFDANCER_TESTS_EXAMPLE_H

#include "chaffdancer.h"
#include "lending.h"

#define EXAMPLE_REQUESTS 10
#define FILLER 0xA5

/* desk, code, item, reason, first, second */
extern const uint32_t example_answers[EXAMPLE_REQUESTS][6];

void put_example_requests(uint8_t requests[EXAMPLE_REQUESTS * CHAFFDANCER_REQUEST_BYTES]);
void put_example_table(uint8_t table[CHAFFDANCER_TABLE_BYTES]);

int all_bytes_are(const uint8_t *bytes, size_t length, uint8_t byte);
int answer_is(const uint8_t *bytes, const uint32_t expected[6]);

struct check {
    const char *name;
    int (*passes)(const struct lender *lender);
};

/* Prints a line for each check: passed, or failed and with whose buffers. */
void run_checks(const char *subject, const struct check *checks, size_t count);

#endif
