#include <string.h>

#include "script/fields.h"
#include "script/script.h"

void reader_begin(struct reader *reader)
{
    memset(reader, 0, sizeof *reader);
}

/* The first word has told which row this is: an item's, or that of all others. */
static int read_row(struct reader *reader, const struct line *line, struct row *row)
{
    struct complaint *wrong = &reader->wrong;
    struct row new_row;
    new_row.line = reader->line;
    if (line->count != 5)
        return complain(wrong, "a table line has five fields: item (or default), floor, ceiling, "
                               "value, open or guarded");
    if (!read_number(wrong, line->words[1], "floor", UINT32_MAX, &new_row.floor) ||
        !read_number(wrong, line->words[2], "ceiling", UINT32_MAX, &new_row.ceiling) ||
        !read_number(wrong, line->words[3], "value", UINT32_MAX, &new_row.value) ||
        !read_kind(wrong, line->words[4], &new_row.kind))
        return 0;
    if (row->line != 0)
        return complain(wrong, "this row stands in line %lu already", (unsigned long)row->line);
    if (reader->opened)
        return complain(wrong, "a table line comes before the first request");
    *row = new_row;
    return 1;
}

static int read_item_row(struct reader *reader, const struct line *line)
{
    uint32_t item;
    if (!read_number(&reader->wrong, line->words[0], "item of a table line", CHAFFDANCER_ITEMS - 1,
                     &item))
        return 0;
    return read_row(reader, line, &reader->rows[item]);
}

static int read_name(struct reader *reader, const struct line *line)
{
    struct complaint *wrong = &reader->wrong;
    int of_desk = line->count > 1 && text_equals(line->words[1], "desk");
    const char *fault;
    uint32_t number;
    if (line->count < 4 || (!of_desk && !text_equals(line->words[1], "item")))
        return complain(wrong, "a name line has the form: name item ITEM NAME, or name desk DESK "
                               "NAME");
    if (!read_number(wrong, line->words[2], of_desk ? "desk" : "item",
                     of_desk ? CHAFFDANCER_DESKS - 1 : CHAFFDANCER_ITEMS - 1, &number))
        return 0;
    fault = name_fault(line->from_fourth);
    if (fault != NULL)
        return complain(wrong, "%s", fault);
    if (reader->opened)
        return complain(wrong, "a name line comes before the first request");
    if (name_is_taken(&reader->names, of_desk, number, line->from_fourth))
        return complain(wrong, "another %s has this name", of_desk ? "desk" : "item");
    name_put(&reader->names, of_desk, number, line->from_fourth);
    return 1;
}

static const struct request_form {
    const char *word;
    uint32_t kind;
    size_t count;
    const char *form;
} request_forms[] = {
    {"begin", CHAFFDANCER_REQUEST_BEGIN, 2, "begin DESK"},
    {"read", CHAFFDANCER_REQUEST_READ, 3, "read DESK ITEM"},
    {"write", CHAFFDANCER_REQUEST_WRITE, 4, "write DESK ITEM VALUE"},
    {"end", CHAFFDANCER_REQUEST_END, 2, "end DESK"},
    {"abandon", CHAFFDANCER_REQUEST_ABANDON, 2, "abandon DESK"},
};

static const struct request_form *request_form(struct text word)
{
    size_t place;
    for (place = 0; place < sizeof request_forms / sizeof request_forms[0]; place++)
        if (text_equals(word, request_forms[place].word))
            return &request_forms[place];
    return NULL;
}

/* Desks and items that do not exist may be asked for: the hub refuses them. */
static int read_request(struct reader *reader, const struct line *line,
                        const struct request_form *form, struct entry *entry)
{
    struct complaint *wrong = &reader->wrong;
    uint32_t desk, item = 0, value = 0;
    if (line->count >= 2 && text_number(line->words[1], &desk) == NUMBER_RIGHT &&
        desk < CHAFFDANCER_DESKS)
        entry->desk = (int)desk;
    if (line->count != form->count)
        return complain(wrong, "this request has the form: %s", form->form);
    if (!read_number(wrong, line->words[1], "desk", 255, &desk))
        return 0;
    if (form->count > 2 && !read_number(wrong, line->words[2], "item", 255, &item))
        return 0;
    if (form->count > 3 && !read_number(wrong, line->words[3], "value", UINT32_MAX, &value))
        return 0;
    chaffdancer_put_request(entry->request, form->kind, desk, item, value);
    reader->opened = 1;
    return 1;
}

static enum entry_kind kind_if(int right, enum entry_kind kind)
{
    return right ? kind : ENTRY_WRONG;
}

static enum entry_kind read_words(struct reader *reader, const struct line *line,
                                  struct entry *entry)
{
    char shown[SHOWN_LENGTH + 1];
    const struct request_form *form = request_form(line->words[0]);
    if (form != NULL)
        return kind_if(read_request(reader, line, form, entry), ENTRY_REQUEST);
    if (text_begins_with_digit(line->words[0]))
        return kind_if(read_item_row(reader, line), ENTRY_ROW);
    if (text_equals(line->words[0], "default"))
        return kind_if(read_row(reader, line, &reader->others), ENTRY_ROW);
    if (text_equals(line->words[0], "name"))
        return kind_if(read_name(reader, line), ENTRY_NAME);
    text_show(line->words[0], shown);
    complain(&reader->wrong,
             "not an item's number, default, name, begin, read, write, end or abandon: %s", shown);
    return ENTRY_WRONG;
}

struct entry reader_take_line(struct reader *reader, struct text text)
{
    struct entry entry;
    struct line line = line_split(text);
    memset(&entry, 0, sizeof entry);
    entry.desk = -1;
    reader->line++;
    if (text_take_heading(text, &entry.heading))
        entry.kind = ENTRY_HEADING;
    else if (line.count > 0)
        entry.kind = read_words(reader, &line, &entry);
    return entry;
}

const struct row *reader_row(const struct reader *reader, uint32_t item)
{
    const struct row *row = &reader->rows[item];
    if (row->line == 0)
        row = &reader->others;
    return row->line == 0 ? NULL : row;
}

int reader_fill_table(struct reader *reader, uint8_t table[CHAFFDANCER_TABLE_BYTES])
{
    uint32_t item;
    for (item = 0; item < CHAFFDANCER_ITEMS; item++) {
        const struct row *row = reader_row(reader, item);
        if (row == NULL)
            return complain(&reader->wrong, "no line for item %lu so far, and no default line",
                            (unsigned long)item);
        chaffdancer_put_row(table, item, row->floor, row->ceiling, row->value, row->kind);
    }
    return 1;
}
