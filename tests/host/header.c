/* Uses all of the header, as C and as C++: what does not compile here is wrong there. */
#include "chaffdancer.h"
#include "chaffdancer.h" /* twice does no harm */

int use_header(chaffdancer_board *board, uint8_t *table, uint8_t *request, uint8_t *answer,
               uint8_t *values);
int use_journal(chaffdancer_journaled *board, uint8_t *table, uint8_t *request, uint8_t *answer,
                uint8_t *values);
int names_differ(int number);

int use_header(chaffdancer_board *board, uint8_t *table, uint8_t *request, uint8_t *answer,
               uint8_t *values)
{
    struct chaffdancer_answer told;
    if (!chaffdancer_put_row(table, 0, 30, 250, 140, CHAFFDANCER_ITEM_GUARDED))
        return 1;
    if (hub_open(board, table, CHAFFDANCER_TABLE_BYTES) != 0)
        return 1;
    chaffdancer_begin(request, 0);
    chaffdancer_read(request, 0, 0);
    chaffdancer_write(request, 0, 0, 115);
    chaffdancer_end(request, 0);
    chaffdancer_abandon(request, 0);
    hub_step(board, request, answer);
    told = chaffdancer_get_answer(answer);
    if (hub_run(table, CHAFFDANCER_TABLE_BYTES, request, CHAFFDANCER_REQUEST_BYTES, answer,
                CHAFFDANCER_ANSWER_BYTES, values, CHAFFDANCER_VALUES_BYTES) != 1)
        return 1;
    return chaffdancer_get_value(values, 0) == told.first;
}

int use_journal(chaffdancer_journaled *board, uint8_t *table, uint8_t *request, uint8_t *answer,
                uint8_t *values)
{
    static uint8_t journal[CHAFFDANCER_JOURNAL_BYTES];
    struct chaffdancer_record record;
    if (hub_run_journal(table, CHAFFDANCER_TABLE_BYTES, request, CHAFFDANCER_REQUEST_BYTES, answer,
                        CHAFFDANCER_ANSWER_BYTES, values, CHAFFDANCER_VALUES_BYTES, journal,
                        sizeof journal) != 1)
        return 1;
    if (hub_restart(table, CHAFFDANCER_TABLE_BYTES, journal, sizeof journal) != 0)
        return 1;
    if (hub_open_journal(board, table, CHAFFDANCER_TABLE_BYTES, journal, sizeof journal) != 0)
        return 1;
    hub_step_journal(board, request, answer, journal, sizeof journal);
    record = chaffdancer_get_record(journal);
    return record.kind + record.item + record.number == 0 && record.value == board->used;
}

/* A switch takes no number twice. */
int names_differ(int number)
{
    switch (number) {
    case CHAFFDANCER_REFUSED_KIND:
    case CHAFFDANCER_REFUSED_DESK:
    case CHAFFDANCER_REFUSED_UNUSED_FIELD:
    case CHAFFDANCER_REFUSED_ALREADY_OPEN:
    case CHAFFDANCER_REFUSED_NONE_OPEN:
    case CHAFFDANCER_REFUSED_ITEM:
    case CHAFFDANCER_REFUSED_BELOW_FLOOR:
    case CHAFFDANCER_REFUSED_ABOVE_CEILING:
    case CHAFFDANCER_REFUSED_AGES_GIVEN:
    case CHAFFDANCER_REFUSED_TABLE:
    case CHAFFDANCER_REFUSED_REQUESTS_LENGTH:
    case CHAFFDANCER_REFUSED_ANSWERS_LENGTH:
    case CHAFFDANCER_REFUSED_VALUES_LENGTH:
    case CHAFFDANCER_REFUSED_TOO_MANY:
    case CHAFFDANCER_REFUSED_NO_ROOM:
        return 1;
    default:
        break;
    }
    switch (number) {
    case CHAFFDANCER_ANSWER_REFUSED:
    case CHAFFDANCER_ANSWER_OPENED:
    case CHAFFDANCER_ANSWER_VALUE:
    case CHAFFDANCER_ANSWER_STORED:
    case CHAFFDANCER_ANSWER_WAIT:
    case CHAFFDANCER_ANSWER_COMMITTED:
    case CHAFFDANCER_ANSWER_ABANDONED:
    case CHAFFDANCER_ANSWER_ABORTED:
        return 1;
    default:
        break;
    }
    switch (number) {
    case CHAFFDANCER_REQUEST_BEGIN:
    case CHAFFDANCER_REQUEST_READ:
    case CHAFFDANCER_REQUEST_WRITE:
    case CHAFFDANCER_REQUEST_END:
    case CHAFFDANCER_REQUEST_ABANDON:
        return 1;
    default:
        break;
    }
    switch (number) {
    case CHAFFDANCER_RECORD_WRITTEN:
    case CHAFFDANCER_RECORD_CLOSING:
        return 1;
    default:
        break;
    }
    switch (number) {
    case CHAFFDANCER_ABORTED_OVERWRITTEN:
    case CHAFFDANCER_ABORTED_TOO_OLD:
    case CHAFFDANCER_ABORTED_YIELD:
        return 1;
    default:
        return CHAFFDANCER_ITEM_OPEN == CHAFFDANCER_ITEM_GUARDED;
    }
}
