#define _POSIX_C_SOURCE 200809L
#include "options.h"

#include "memory.h"
#include "words.h"

#include <stdio.h>
#include <stdlib.h>
#include <string.h>
#include <unistd.h>

enum { DEFAULT_COLUMNS = 80, LEAST_COLUMNS = 20 };

/* The words of the command line that are left. */
struct Line {
    char **words;
    int left;
};

/* Says what is wrong with a word, and answers false. */
static bool wrong(const char *word, const char *what)
{
    fprintf(stderr, "takecut: %s: %s; see takecut --help\n", word, what);
    return false;
}

/* The value of an option: behind = in its own word, or the next word; NULL where there is none. */
static const char *value_of(struct Line *line, const char *equals)
{
    if (equals != NULL) {
        return equals + 1;
    }
    if (line->left < 2) {
        return NULL;
    }
    line->words++;
    line->left--;
    return line->words[0];
}

/* An option whose value is a number above 0. */
static bool number_option(struct Line *line, const char *equals, uint32_t *number)
{
    const char *name = line->words[0];
    const char *value = value_of(line, equals);
    if (value == NULL || !words_number(value, number) || *number == 0) {
        return wrong(name, "wants a whole number above 0");
    }
    return true;
}

/* The option -e. */
static bool command_option(struct Line *line, struct Options *options)
{
    const char *command = value_of(line, NULL);
    if (command == NULL) {
        return wrong(line->words[0], "wants a command");
    }
    options->commands =
        memory_grow(options->commands, options->command_count + 1, sizeof *options->commands);
    options->commands[options->command_count++] = command;
    return true;
}

/* The option without a value of a name, or NULL. */
static bool *switch_of(struct Options *options, const char *word)
{
    const struct {
        const char *name;
        bool *place;
    } switches[] = {{"--ascii", &options->ascii},     {"--progress", &options->progress},
                    {"--help", &options->help},       {"-h", &options->help},
                    {"--version", &options->version}};
    for (size_t i = 0; i < sizeof switches / sizeof *switches; i++) {
        if (strcmp(word, switches[i].name) == 0) {
            return switches[i].place;
        }
    }
    return NULL;
}

/* The option with a number of a name, or NULL. */
static uint32_t *number_of(struct Options *options, const char *word, size_t length)
{
    const struct {
        const char *name;
        uint32_t *place;
    } numbers[] = {{"--ticks", &options->ticks},
                   {"--shortest", &options->shortest},
                   {"--columns", &options->columns}};
    for (size_t i = 0; i < sizeof numbers / sizeof *numbers; i++) {
        if (strlen(numbers[i].name) == length && memcmp(word, numbers[i].name, length) == 0) {
            return numbers[i].place;
        }
    }
    return NULL;
}

/* A word that is no option: the script. */
static bool script_word(const char *word, struct Options *options)
{
    if (word[0] == '-' && word[1] != '\0') {
        return wrong(word, "there is no such option");
    }
    if (options->script != NULL) {
        return wrong(word, "only one script can be given");
    }
    options->script = word;
    return true;
}

/* The next word, with its value where it has one. */
static bool word_read(struct Line *line, struct Options *options)
{
    const char *word = line->words[0];
    const char *equals = strchr(word, '=');
    size_t length = equals == NULL ? strlen(word) : (size_t)(equals - word);
    bool *place = switch_of(options, word);
    uint32_t *number = number_of(options, word, length);
    if (place != NULL) {
        *place = true;
        return true;
    }
    if (number != NULL) {
        return number_option(line, equals, number);
    }
    return strcmp(word, "-e") == 0 ? command_option(line, options) : script_word(word, options);
}

bool options_read(int count, char **words, struct Options *options)
{
    struct Line line = {words + 1, count - 1};
    const char *columns = getenv("COLUMNS");
    memset(options, 0, sizeof *options);
    options->progress = isatty(STDERR_FILENO);
    if (columns == NULL || !words_number(columns, &options->columns) || options->columns == 0) {
        options->columns = DEFAULT_COLUMNS;
    }
    while (line.left > 0) {
        if (!word_read(&line, options)) {
            return false;
        }
        line.words++;
        line.left--;
    }
    if (options->columns < LEAST_COLUMNS) {
        options->columns = LEAST_COLUMNS;
    }
    if (options->script != NULL && options->command_count > 0) {
        return wrong(options->script, "a script and -e cannot be given together");
    }
    return true;
}

void options_free(struct Options *options)
{
    free(options->commands);
}
