/* The commands. */
#ifndef COMMANDS_H
#define COMMANDS_H

#include "takes.h"

/* A command: how many words it may have, its own name among them, and what it does. */
struct Command {
    const char *name;
    const char *arguments;
    const char *does;
    size_t least;
    size_t most;
    bool shows; /* something on standard output */
    enum Status (*run)(struct Host *host, char **words, size_t count);
};

/* All commands; the last has no name. */
extern const struct Command COMMANDS[];

/* Carries out one line; an empty one does nothing. */
enum Status command_run(struct Host *host, const char *line);

/* Commands that change takes. */
enum Status command_load(struct Host *host, char **words, size_t count);
enum Status command_lay(struct Host *host, char **words, size_t count);
enum Status command_split(struct Host *host, char **words, size_t count);
enum Status command_join(struct Host *host, char **words, size_t count);
enum Status command_cut(struct Host *host, char **words, size_t count);
enum Status command_insert(struct Host *host, char **words, size_t count);
enum Status command_copy(struct Host *host, char **words, size_t count);
enum Status command_drop(struct Host *host, char **words, size_t count);

/* Commands that show takes or write them. */
enum Status command_write(struct Host *host, char **words, size_t count);
enum Status command_takes(struct Host *host, char **words, size_t count);
enum Status command_notes(struct Host *host, char **words, size_t count);
enum Status command_cells(struct Host *host, char **words, size_t count);
enum Status command_roll(struct Host *host, char **words, size_t count);
enum Status command_picture(struct Host *host, char **words, size_t count);
enum Status command_same(struct Host *host, char **words, size_t count);

/* Prints every command with what it does. */
void commands_help(FILE *out);

/* The take of a name; without one it says so. */
struct Take *named(struct Host *host, const char *name);

#endif
