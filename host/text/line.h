/* Lines of a script, their words and numbers. */
#ifndef CHAFFDANCER_HOST_LINE_H
#define CHAFFDANCER_HOST_LINE_H

#include <stddef.h>
#include <stdint.h>

/* A stretch of a longer text, with no zero byte at its end. */
struct text {
    const char *start;
    size_t length;
};

/* One more than any right line has, so that a word too many is seen. */
#define LINE_WORDS 6

struct line {
    size_t count;
    struct text words[LINE_WORDS];
    struct text from_fourth; /* from the fourth word to the end or a comment: a name */
};

enum number_state { NUMBER_RIGHT, NUMBER_NOT_DIGITS, NUMBER_TOO_LARGE };

#define SHOWN_LENGTH 32

/* Takes the next line off the text, without its newline; 0 if no line is left. */
int text_take_line(struct text *rest, struct text *line);

/* Splits a line into its words, up to a comment or the line's end. */
struct line line_split(struct text text);

int text_equals(struct text text, const char *expected);
int text_begins_with(struct text text, const char *expected);

/* Whether the first character is a decimal digit. */
int text_begins_with_digit(struct text text);

/* The text of a heading, which is a line that begins with "##"; else 0. */
int text_take_heading(struct text line, struct text *heading);

/* Reads decimal digits alone. */
enum number_state text_number(struct text text, uint32_t *number);

/* A short copy that is safe to print, whatever bytes the script has. */
void text_show(struct text text, char shown[SHOWN_LENGTH + 1]);

#endif
