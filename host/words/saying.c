#include "words/saying.h"

#include <stdarg.h>
#include <string.h>

#define INDENT "    "

void saying_begin(struct saying *saying)
{
    saying->length = 0;
    saying->text[0] = '\0';
}

/* What a script or a path brings in must not steer the terminal. */
static int is_control(char byte)
{
    return ((unsigned char)byte < ' ') || byte == 127;
}

static void add(struct saying *saying, const char *form, va_list values)
{
    size_t room = sizeof saying->text - saying->length;
    int count = vsnprintf(saying->text + saying->length, room, form, values);
    size_t end = saying->length;
    if (count > 0)
        end += (size_t)count < room ? (size_t)count : room - 1;
    for (; saying->length < end; saying->length++)
        if (is_control(saying->text[saying->length]))
            saying->text[saying->length] = '?';
}

void say(struct saying *saying, const char *form, ...)
{
    va_list values;
    va_start(values, form);
    add(saying, form, values);
    va_end(values);
}

/* A byte of UTF-8 that goes on with a character takes no column of its own. */
static int takes_column(char byte)
{
    return ((unsigned char)byte & 0xC0U) != 0x80;
}

/* A number stays with the word before it: "desk 3" is never broken. */
static int may_break(const char *text)
{
    return text[0] == ' ' && !(text[1] >= '0' && text[1] <= '9');
}

/* How many bytes of the text fit in so many columns; a word that is longer stays whole. */
static size_t fitting(const char *text, size_t columns)
{
    size_t indent = strspn(text, " "), place, used = 0, blank = 0;
    for (place = 0; text[place] != '\0'; place++) {
        if (place > indent && may_break(text + place))
            blank = place;
        used += takes_column(text[place]) ? 1U : 0U;
        if (used > columns && blank > 0)
            return blank;
    }
    return place;
}

void saying_print(struct saying *saying, FILE *file)
{
    const char *rest = saying->text;
    size_t columns = SAYING_COLUMNS, count;
    do {
        count = fitting(rest, columns);
        fprintf(file, "%s%.*s\n", columns == SAYING_COLUMNS ? "" : INDENT, (int)count, rest);
        rest += count;
        while (*rest == ' ')
            rest++;
        columns = SAYING_COLUMNS - strlen(INDENT);
    } while (*rest != '\0');
    saying_begin(saying);
}

void say_line(FILE *file, const char *form, ...)
{
    struct saying saying;
    va_list values;
    saying_begin(&saying);
    va_start(values, form);
    add(&saying, form, values);
    va_end(values);
    saying_print(&saying, file);
}
