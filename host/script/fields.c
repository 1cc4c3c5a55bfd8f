#include "script/fields.h"

#include "chaffdancer.h"

int read_number(struct complaint *wrong, struct text word, const char *what, uint32_t most,
                uint32_t *number)
{
    char shown[SHOWN_LENGTH + 1];
    enum number_state state = text_number(word, number);
    text_show(word, shown);
    if (state == NUMBER_NOT_DIGITS)
        return complain(wrong, "the %s is not a whole number: %s", what, shown);
    if (state == NUMBER_TOO_LARGE || *number > most)
        return complain(wrong, "the %s is above %lu: %s", what, (unsigned long)most, shown);
    return 1;
}

int read_kind(struct complaint *wrong, struct text word, uint32_t *kind)
{
    char shown[SHOWN_LENGTH + 1];
    if (text_equals(word, "open")) {
        *kind = CHAFFDANCER_ITEM_OPEN;
        return 1;
    }
    if (text_equals(word, "guarded")) {
        *kind = CHAFFDANCER_ITEM_GUARDED;
        return 1;
    }
    text_show(word, shown);
    return complain(wrong, "the kind is neither open nor guarded: %s", shown);
}
