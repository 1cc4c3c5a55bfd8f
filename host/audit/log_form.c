#include "audit/log_form.h"

#include "room/following.h"
#include "words/restoring.h"
#include "words/telling.h"

typedef unsigned long shown;

static void nothing(void)
{
}

static void words_of_segment(const struct trail *trail)
{
    char at[MOMENT_BYTES];
    printf("%sSegment %lu, begun at %s %s.\n", trail->segments == 1 ? "" : "\n",
           (shown)trail->segment, moment(trail->begun, at), cause_words(trail->cause));
}

void tell_commit(const struct names *names, uint32_t number, const struct frame *frame)
{
    char at[MOMENT_BYTES], of_desk[NAME_SHOWN_BYTES], of_item[NAME_SHOWN_BYTES];
    struct saying saying;
    size_t place;
    saying_begin(&saying);
    say(&saying, "%s, number %lu, %s: ", moment(frame->time, at), (shown)number,
        desk_name(names, frame->detail, of_desk));
    if (written_items(frame) == 0)
        say(&saying, "nothing written");
    for (place = 0; place < written_items(frame); place++) {
        struct chaffdancer_record record = commit_record(frame, place);
        say(&saying, "%s%s = %lu", place == 0 ? "" : ", ", item_name(names, record.item, of_item),
            (shown)record.value);
    }
    saying_print(&saying, stdout);
}

static void words_of_commit(const struct trail *trail, const struct frame *frame)
{
    tell_commit(&trail->names, trail->commits, frame);
}

/* The first segment's table opens the script; the others begin with what the script comes to. */
static void script_of_segment(const struct trail *trail)
{
    char at[MOMENT_BYTES];
    uint32_t item, desk;
    if (trail->segments > 1) {
        printf("\n## Segment %lu, begun at %s %s.\n", (shown)trail->segment,
               moment(trail->begun, at), cause_words(trail->cause));
        return;
    }
    printf("# Segment %lu, begun at %s %s.\n", (shown)trail->segment, moment(trail->begun, at),
           cause_words(trail->cause));
    for (item = 0; item < CHAFFDANCER_ITEMS; item++)
        printf("%lu %lu %lu %lu %s\n", (shown)item, (shown)floor_of(trail->table, item),
               (shown)ceiling_of(trail->table, item), (shown)value_of(trail->table, item),
               is_guarded(trail->table, item) ? "guarded" : "open");
    for (item = 0; item < CHAFFDANCER_ITEMS; item++)
        if (trail->names.items[item][0] != '\0')
            printf("name item %lu %s\n", (shown)item, trail->names.items[item]);
    for (desk = 0; desk < CHAFFDANCER_DESKS; desk++)
        if (trail->names.desks[desk][0] != '\0')
            printf("name desk %lu %s\n", (shown)desk, trail->names.desks[desk]);
}

static void script_of_commit(const struct trail *trail, const struct frame *frame)
{
    char at[MOMENT_BYTES];
    shown desk = frame->detail;
    size_t place;
    printf("begin %lu # number %lu, %s\n", desk, (shown)trail->commits, moment(frame->time, at));
    for (place = 0; place < written_items(frame); place++) {
        struct chaffdancer_record record = commit_record(frame, place);
        printf("write %lu %lu %lu\n", desk, (shown)record.item, (shown)record.value);
    }
    printf("end %lu\n", desk);
}

static void words_of_unfinished(const struct frame *frame)
{
    tell_unfinished(frame->length);
}

static void no_closing(const struct trail *trail)
{
    (void)trail;
}

static void no_unfinished(const struct frame *frame)
{
    (void)frame;
}

static void sql_first(void)
{
    printf("BEGIN;\n"
           "CREATE TABLE segments(segment INTEGER PRIMARY KEY, milliseconds INTEGER, cause TEXT);\n"
           "CREATE TABLE rows(segment INTEGER, item INTEGER, floor INTEGER, ceiling INTEGER,\n"
           "  value INTEGER, kind TEXT, PRIMARY KEY(segment, item));\n"
           "CREATE TABLE names(segment INTEGER, what TEXT, number INTEGER, name TEXT);\n"
           "CREATE TABLE commits(segment INTEGER, number INTEGER, desk INTEGER,\n"
           "  milliseconds INTEGER, PRIMARY KEY(segment, number));\n"
           "CREATE TABLE writes(segment INTEGER, number INTEGER, item INTEGER, value INTEGER,\n"
           "  PRIMARY KEY(segment, number, item));\n");
}

static void sql_last(void)
{
    printf("COMMIT;\n");
}

/* A name in quotes, each quote in it twice. */
static void sql_of_name(const struct trail *trail, const char *what, uint32_t number,
                        const char *name)
{
    if (name[0] == '\0')
        return;
    printf("INSERT INTO names VALUES(%lu,'%s',%lu,'", (shown)trail->segment, what, (shown)number);
    for (; *name != '\0'; name++)
        printf(*name == '\'' ? "''" : "%c", *name);
    printf("');\n");
}

static void sql_of_segment(const struct trail *trail)
{
    uint32_t item, desk;
    printf("INSERT INTO segments VALUES(%lu,%llu,'%s');\n", (shown)trail->segment,
           (unsigned long long)trail->begun, cause_words(trail->cause));
    for (item = 0; item < CHAFFDANCER_ITEMS; item++)
        printf("INSERT INTO rows VALUES(%lu,%lu,%lu,%lu,%lu,'%s');\n", (shown)trail->segment,
               (shown)item, (shown)floor_of(trail->table, item),
               (shown)ceiling_of(trail->table, item), (shown)value_of(trail->table, item),
               is_guarded(trail->table, item) ? "guarded" : "open");
    for (item = 0; item < CHAFFDANCER_ITEMS; item++)
        sql_of_name(trail, "item", item, trail->names.items[item]);
    for (desk = 0; desk < CHAFFDANCER_DESKS; desk++)
        sql_of_name(trail, "desk", desk, trail->names.desks[desk]);
}

static void sql_of_commit(const struct trail *trail, const struct frame *frame)
{
    size_t place;
    printf("INSERT INTO commits VALUES(%lu,%lu,%u,%llu);\n", (shown)trail->segment,
           (shown)trail->commits, frame->detail, (unsigned long long)frame->time);
    for (place = 0; place < written_items(frame); place++) {
        struct chaffdancer_record record = commit_record(frame, place);
        printf("INSERT INTO writes VALUES(%lu,%lu,%u,%lu);\n", (shown)trail->segment,
               (shown)trail->commits, record.item, (shown)record.value);
    }
}

const struct log_form log_in_words = {nothing,     words_of_segment,    words_of_commit,
                                      tell_ending, words_of_unfinished, nothing};
const struct log_form log_as_script = {nothing,    script_of_segment, script_of_commit,
                                       no_closing, no_unfinished,     nothing};
const struct log_form log_as_sql = {sql_first,  sql_of_segment, sql_of_commit,
                                    no_closing, no_unfinished,  sql_last};
