/* The part of libchaffdancer that is not proved: its version, and its codes in words. */
#include "chaffdancer.h"

const char *chaffdancer_version(void)
{
    return CHAFFDANCER_VERSION;
}

static const char *word_at(const char *const *words, size_t count, unsigned number)
{
    return number < count && words[number] != NULL ? words[number] : "unknown";
}

#define COUNT_OF(array) (sizeof(array) / sizeof(array)[0])

const char *chaffdancer_code_text(unsigned code)
{
    static const char *const words[] = {
        "refused", "opened", "value", "stored", "wait", "committed", "abandoned", "aborted",
    };
    return word_at(words, COUNT_OF(words), code);
}

const char *chaffdancer_aborted_text(unsigned reason)
{
    static const char *const words[] = {
        NULL,
        "overwritten: an open item that was read has been written since the start",
        "too old: more than 16 commits since the start",
        "must yield: an older desk holds the item",
    };
    return word_at(words, COUNT_OF(words), reason);
}

const char *chaffdancer_refused_text(unsigned refusal)
{
    static const char *const words[] = {
        NULL,
        "the kind is not 1 to 5",
        "there is no such desk, the last is 15",
        "an unused field is not zero",
        "the desk has a transaction open already",
        "the desk has no transaction open",
        "there is no such item, the last is 63",
        "below the floor of the item",
        "above the ceiling of the item",
        "all 2,000 ages have been given, and the desk keeps none",
        "the opening table is wrong",
        "the requests are not a multiple of 8 bytes",
        "the answers buffer is shorter than 12 bytes for each request",
        "the values buffer is shorter than 256 bytes",
        "more than 4,096 requests in a run",
        "the journal has no room for this commit, and the transaction stays open",
    };
    return word_at(words, COUNT_OF(words), refusal);
}
