#include "run.h"

#include <stdio.h>
#include <stdlib.h>

#include "common/memory.h"
#include "common/statuses.h"
#include "room/following.h"
#include "words/telling.h"

static int64_t serve_whole(const uint8_t *table, size_t table_length, const uint8_t *requests,
                           size_t length, uint8_t *answers, uint8_t *values)
{
    size_t room = length / CHAFFDANCER_REQUEST_BYTES * CHAFFDANCER_ANSWER_BYTES;
    return hub_run(table, table_length, requests, length, answers, room, values,
                   CHAFFDANCER_VALUES_BYTES);
}

static int64_t serve_by_steps(const struct script *script, uint8_t *answers, uint8_t *values)
{
    chaffdancer_board board;
    struct follower follower;
    size_t place;
    int64_t opened = hub_open(&board, script->table, sizeof script->table);
    if (opened != 0)
        return opened;
    /* Single steps know no limit; a script is a run, whichever way it is served. */
    if (script->request_count > CHAFFDANCER_RUN_REQUESTS)
        return -CHAFFDANCER_REFUSED_TOO_MANY;
    follow_opening(&follower, script->table);
    for (place = 0; place < script->request_count; place++) {
        const uint8_t *request = script_request(script, place);
        uint8_t *answer = answers + place * CHAFFDANCER_ANSWER_BYTES;
        hub_step(&board, request, answer);
        follow_answer(&follower, request, chaffdancer_get_answer(answer));
    }
    get_values(follower.table, values);
    return (int64_t)script->request_count;
}

static int serve(const struct script *script, int by_steps)
{
    uint8_t values[CHAFFDANCER_VALUES_BYTES];
    uint8_t *answers = memory_for(script->request_count, CHAFFDANCER_ANSWER_BYTES);
    int64_t result =
        by_steps ? serve_by_steps(script, answers, values)
                 : serve_whole(script->table, sizeof script->table, script->requests,
                               script->request_count * CHAFFDANCER_REQUEST_BYTES, answers, values);
    if (result < 0)
        tell_refused_run(script->table, &script->names, script->table_lines, -result);
    else
        tell_served(script, answers, values);
    free(answers);
    return result < 0 ? STATUS_REFUSED : STATUS_SERVED;
}

int run_script(const char *name, struct text text, int by_steps)
{
    struct script script;
    int status = STATUS_STOPPED;
    if (script_read(&script, name, text))
        status = serve(&script, by_steps);
    script_free(&script);
    return status;
}

static void print_answers(const uint8_t *answers, int64_t count)
{
    for (; count > 0; count--, answers += CHAFFDANCER_ANSWER_BYTES) {
        struct chaffdancer_answer answer = chaffdancer_get_answer(answers);
        printf("%u %u %u %u %lu %lu\n", answer.desk, answer.code, answer.item, answer.reason,
               (unsigned long)answer.first, (unsigned long)answer.second);
    }
}

static void print_finals(const uint8_t *table, const uint8_t *values)
{
    uint32_t item;
    for (item = 0; item < CHAFFDANCER_ITEMS; item++)
        if (value_of(table, item) != chaffdancer_get_value(values, item))
            printf("final %lu %lu\n", (unsigned long)item,
                   (unsigned long)chaffdancer_get_value(values, item));
}

int run_bytes(struct text bytes)
{
    const uint8_t *table = (const uint8_t *)bytes.start;
    size_t table_length =
        bytes.length < CHAFFDANCER_TABLE_BYTES ? bytes.length : CHAFFDANCER_TABLE_BYTES;
    size_t length = bytes.length - table_length;
    uint8_t values[CHAFFDANCER_VALUES_BYTES];
    uint8_t *answers = memory_for(length / CHAFFDANCER_REQUEST_BYTES, CHAFFDANCER_ANSWER_BYTES);
    int64_t count = serve_whole(table, table_length, table + table_length, length, answers, values);
    if (count < 0)
        printf("refused %lld\n", (long long)-count);
    else
        print_answers(answers, count);
    if (count >= 0)
        print_finals(table, values);
    free(answers);
    return count < 0 ? STATUS_REFUSED : STATUS_SERVED;
}
