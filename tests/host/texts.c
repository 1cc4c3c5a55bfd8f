/* The version and the texts of the library: one for each number that the header names. */
#include <stdio.h>
#include <string.h>

#include "chaffdancer.h"

typedef const char *text_of(unsigned number);

/* Texts from a number to another, all different, and "unknown" on both sides. */
static int texts_are(text_of *text, unsigned first, unsigned last)
{
    unsigned number, other;
    for (number = first; number <= last; number++) {
        if (strlen(text(number)) < 4 || strcmp(text(number), "unknown") == 0)
            return 0;
        for (other = first; other < number; other++)
            if (strcmp(text(number), text(other)) == 0)
                return 0;
    }
    return strcmp(text(last + 1), "unknown") == 0 && strcmp(text(0xFFFFFFFFU), "unknown") == 0 &&
           (first == 0 || strcmp(text(first - 1), "unknown") == 0);
}

static void tell(const char *name, int right)
{
    printf("%s  texts: %s\n", right ? "passed" : "FAILED", name);
}

int main(void)
{
    tell("the version is the header's", strcmp(chaffdancer_version(), CHAFFDANCER_VERSION) == 0);
    tell("codes",
         texts_are(chaffdancer_code_text, CHAFFDANCER_ANSWER_REFUSED, CHAFFDANCER_ANSWER_ABORTED));
    tell("reasons of an abort", texts_are(chaffdancer_aborted_text, CHAFFDANCER_ABORTED_OVERWRITTEN,
                                          CHAFFDANCER_ABORTED_YIELD));
    tell("refusals", texts_are(chaffdancer_refused_text, CHAFFDANCER_REFUSED_KIND,
                               CHAFFDANCER_REFUSED_NO_ROOM));
    return 0;
}
