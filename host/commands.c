#include "commands.h"

#include "progress.h"
#include "words.h"

#include <string.h>

/* Lists the commands. */
static enum Status command_help(struct Host *host, char **words, size_t count)
{
    (void)host;
    (void)words;
    (void)count;
    commands_help(stdout);
    return STATUS_DONE;
}

/* Ends the reading of commands. */
static enum Status command_quit(struct Host *host, char **words, size_t count)
{
    (void)words;
    (void)count;
    host->quit = true;
    return STATUS_DONE;
}

const struct Command COMMANDS[] = {
    {"load", "NAME FILE", "the recording of a .mid file", 3, 3, false, command_load},
    {"lay", "NAME BEATS [LANE START END VELOCITY]...", "a recording from notes; lane = channel x 128 + key",
     3, SIZE_MAX, false, command_lay},
    {"write", "NAME FILE", "the take as a .mid file", 3, 3, false, command_write},
    {"split", "NAME BEAT LEFT RIGHT", "the beats before BEAT, and the others", 5, 5, false, command_split},
    {"join", "FIRST SECOND RESULT", "the second take behind the first", 4, 4, false, command_join},
    {"cut", "NAME FROM TO RESULT", "the take without beats FROM to TO - 1", 5, 5, false, command_cut},
    {"insert", "NAME BEAT OTHER RESULT [FROM TO]", "the other take, or its beats FROM to TO - 1, before BEAT",
     5, 7, false, command_insert},
    {"copy", "NAME RESULT", "the take under another name", 3, 3, false, command_copy},
    {"drop", "NAME", "forget the take", 2, 2, false, command_drop},
    {"takes", "", "list the takes", 1, 1, true, command_takes},
    {"notes", "NAME", "list the take's notes", 2, 2, true, command_notes},
    {"cells", "NAME", "list the take's cells, its edit memory", 2, 2, true, command_cells},
    {"same", "FIRST SECOND", "refused unless the takes are equal, edit memory included", 3, 3, false, command_same},
    {"roll", "NAME", "show the take as a piano roll", 2, 2, true, command_roll},
    {"picture", "NAME FILE", "the take as an SVG picture", 3, 3, false, command_picture},
    {"help", "", "list the commands", 1, 1, true, command_help},
    {"quit", "", "leave", 1, 1, false, command_quit},
    {NULL, NULL, NULL, 0, 0, false, NULL},
};

void commands_help(FILE *out)
{
    for (const struct Command *command = COMMANDS; command->name != NULL; command++) {
        int left = 40 - (int)strlen(command->name);
        if ((int)strlen(command->arguments) >= left) {
            fprintf(out, "  %s %s\n  %41s", command->name, command->arguments, "");
        } else {
            fprintf(out, "  %s %-*s", command->name, left, command->arguments);
        }
        fprintf(out, "%s\n", command->does);
    }
}

/* The command of a name, or NULL. */
static const struct Command *find(const char *name)
{
    const struct Command *command = COMMANDS;
    while (command->name != NULL && strcmp(command->name, name) != 0) {
        command++;
    }
    return command->name == NULL ? NULL : command;
}

/* Carries out a command whose words are parted. */
static enum Status run_words(struct Host *host, struct Words *words)
{
    if (words->count == 0) {
        return STATUS_DONE;
    }
    const struct Command *command = find(words->word[0]);
    if (command == NULL) {
        return complain(host, STATUS_USAGE, "there is no such command; 'help' lists them");
    }
    if (words->count < command->least || words->count > command->most) {
        return complain(host, STATUS_USAGE, "the command is: %s %s", command->name,
                        command->arguments);
    }
    if (command->shows) {
        progress_clear();
    }
    return command->run(host, words->word, words->count);
}

enum Status command_run(struct Host *host, const char *line)
{
    struct Words words;
    enum Status status;
    if (words_of(line, &words)) {
        status = run_words(host, &words);
    } else {
        status = complain(host, STATUS_USAGE, "a quote is not closed");
    }
    words_free(&words);
    return status;
}

struct Take *named(struct Host *host, const char *name)
{
    struct Take *take = takes_find(host, name);
    if (take == NULL) {
        complain(host, STATUS_REFUSED, "there is no take named '%s'", name);
    }
    return take;
}
