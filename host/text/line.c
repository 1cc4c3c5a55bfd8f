#include "text/line.h"

#include <string.h>

static int is_blank(char character)
{
    return character == ' ' || character == '\t' || character == '\r';
}

static int is_digit(char character)
{
    return character >= '0' && character <= '9';
}

static struct text skip(struct text text, size_t count)
{
    text.start += count;
    text.length -= count;
    return text;
}

static struct text skip_blanks(struct text text)
{
    while (text.length > 0 && is_blank(text.start[0]))
        text = skip(text, 1);
    return text;
}

int text_take_line(struct text *rest, struct text *line)
{
    const char *newline;
    if (rest->length == 0)
        return 0;
    newline = memchr(rest->start, '\n', rest->length);
    line->start = rest->start;
    line->length = newline == NULL ? rest->length : (size_t)(newline - rest->start);
    *rest = skip(*rest, newline == NULL ? line->length : line->length + 1);
    return 1;
}

static struct text without_comment(struct text text)
{
    const char *comment = memchr(text.start, '#', text.length);
    if (comment != NULL)
        text.length = (size_t)(comment - text.start);
    while (text.length > 0 && is_blank(text.start[text.length - 1]))
        text.length--;
    return text;
}

static size_t word_length(struct text text)
{
    size_t length = 0;
    while (length < text.length && !is_blank(text.start[length]))
        length++;
    return length;
}

struct line line_split(struct text text)
{
    struct line line;
    memset(&line, 0, sizeof line);
    text = skip_blanks(without_comment(text));
    while (line.count < LINE_WORDS && text.length > 0) {
        struct text word = text;
        if (line.count == 3)
            line.from_fourth = text;
        word.length = word_length(text);
        line.words[line.count] = word;
        line.count++;
        text = skip_blanks(skip(text, word.length));
    }
    return line;
}

int text_equals(struct text text, const char *expected)
{
    size_t length = strlen(expected);
    return text.length == length && memcmp(text.start, expected, length) == 0;
}

int text_begins_with(struct text text, const char *expected)
{
    size_t length = strlen(expected);
    return text.length >= length && memcmp(text.start, expected, length) == 0;
}

int text_begins_with_digit(struct text text)
{
    return text.length > 0 && is_digit(text.start[0]);
}

int text_take_heading(struct text line, struct text *heading)
{
    if (line.length < 2 || line.start[0] != '#' || line.start[1] != '#')
        return 0;
    line = skip_blanks(skip(line, 2));
    while (line.length > 0 && is_blank(line.start[line.length - 1]))
        line.length--;
    *heading = line;
    return 1;
}

enum number_state text_number(struct text text, uint32_t *number)
{
    uint64_t sum = 0;
    size_t place;
    for (place = 0; place < text.length; place++)
        if (!is_digit(text.start[place]))
            return NUMBER_NOT_DIGITS;
    for (place = 0; place < text.length; place++) {
        sum = 10 * sum + (uint64_t)(text.start[place] - '0');
        if (sum > UINT32_MAX)
            return NUMBER_TOO_LARGE;
    }
    *number = (uint32_t)sum;
    return NUMBER_RIGHT;
}

void text_show(struct text text, char shown[SHOWN_LENGTH + 1])
{
    size_t length = text.length < SHOWN_LENGTH ? text.length : SHOWN_LENGTH;
    size_t place;
    for (place = 0; place < length; place++) {
        char character = text.start[place];
        shown[place] = character >= ' ' && character <= '~' ? character : '?';
    }
    shown[length] = '\0';
}
