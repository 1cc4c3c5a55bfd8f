#include "options.h"

#include <string.h>

/* What stands right behind the word. */
enum behind { NOTHING, STORE_PATH, COUNT };

static const struct mode_word {
    const char *word;
    enum mode mode;
    enum behind behind;
    int least, most; /* how many paths go with it */
} mode_words[] = {
    {"", SERVE_RUN, NOTHING, 0, 1},
    {"--steps", SERVE_STEPS, NOTHING, 0, 1},
    {"--live", SERVE_LIVE, NOTHING, 0, 1},
    {"--store", SERVE_LIVE, STORE_PATH, 0, 1},
    {"--journal", SERVE_LIVE, STORE_PATH, 0, 1},
    {"--board", BOARD, NOTHING, 1, 1},
    {"--log", LOG, NOTHING, 1, 1},
    {"--salvage", SALVAGE, NOTHING, 2, 2},
    {"--keep", KEEP, COUNT, 2, 2},
    {"--import", IMPORT, NOTHING, 2, 2},
    {"--bytes", BYTES, NOTHING, 0, 1},
    {"--version", VERSION, NOTHING, 0, 0},
    {"--help", HELP, NOTHING, 0, 0},
};

static const struct mode_word *mode_word(const char *argument)
{
    size_t place;
    for (place = 1; place < sizeof mode_words / sizeof mode_words[0]; place++)
        if (strcmp(argument, mode_words[place].word) == 0)
            return &mode_words[place];
    return NULL;
}

static const struct log_form *log_form(const char *word)
{
    if (strcmp(word, "words") == 0)
        return &log_in_words;
    if (strcmp(word, "script") == 0)
        return &log_as_script;
    return strcmp(word, "sql") == 0 ? &log_as_sql : NULL;
}

/* A count from 1 on; 0 for anything else. */
static uint32_t count_of(const char *word)
{
    struct text text;
    uint32_t count;
    text.start = word;
    text.length = strlen(word);
    return text.length > 0 && text_number(text, &count) == NUMBER_RIGHT ? count : 0;
}

/* The word behind an option; null if there is none, or another option. */
static const char *word_behind(int count, char **arguments, int *place)
{
    if (*place + 1 >= count || arguments[*place + 1][0] == '-')
        return NULL;
    return arguments[++*place];
}

static int read_mode(struct options *options, const struct mode_word *word, int count,
                     char **arguments, int *place)
{
    const char *behind;
    if (options->word != 0)
        return 0;
    options->word = (int)(word - mode_words);
    options->mode = word->mode;
    if (word->behind == NOTHING)
        return 1;
    behind = word_behind(count, arguments, place);
    if (behind == NULL)
        return 0;
    if (word->behind == STORE_PATH)
        options->store = behind;
    else
        options->keep = count_of(behind);
    return options->store != NULL || options->keep > 0;
}

static int read_argument(struct options *options, int count, char **arguments, int *place)
{
    const char *argument = arguments[*place], *behind;
    const struct mode_word *word = mode_word(argument);
    if (word != NULL)
        return read_mode(options, word, count, arguments, place);
    if (strcmp(argument, "--spring") == 0) {
        options->spring = 1;
        return 1;
    }
    if (strcmp(argument, "--as") == 0) {
        behind = word_behind(count, arguments, place);
        options->form = behind == NULL ? NULL : log_form(behind);
        return options->form != NULL && options->mode == LOG;
    }
    if ((argument[0] == '-' && argument[1] != '\0') || options->path_count == 2)
        return 0;
    options->paths[options->path_count++] = argument;
    return 1;
}

/* The spring session stands for a script. */
static int may_have_spring(const struct options *options)
{
    return options->path_count == 0 &&
           (options->mode == SERVE_RUN || options->mode == SERVE_STEPS ||
            options->mode == SERVE_LIVE);
}

int read_options(struct options *options, int count, char **arguments)
{
    const struct mode_word *word;
    int place;
    memset(options, 0, sizeof *options);
    options->form = &log_in_words;
    for (place = 1; place < count; place++)
        if (!read_argument(options, count, arguments, &place))
            return 0;
    word = &mode_words[options->word];
    if (options->spring && !may_have_spring(options))
        return 0;
    return options->path_count >= word->least && options->path_count <= word->most;
}
