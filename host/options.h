/* What the command line asks for. */
#ifndef OPTIONS_H
#define OPTIONS_H

#include <stdbool.h>
#include <stddef.h>
#include <stdint.h>

struct Options {
    uint32_t ticks;    /* to the beat; 0: those of the first file */
    uint32_t shortest; /* piece kept, in ticks; 0: an eighth of the beat */
    uint32_t columns;  /* of the terminal */
    bool ascii;
    bool progress;
    bool help;
    bool version;
    const char **commands; /* of -e, in order */
    size_t command_count;
    const char *script; /* NULL: standard input, where there is no -e */
};

/* Reads the command line; false where it is not understood, which it has said then. */
bool options_read(int count, char **words, struct Options *options);

void options_free(struct Options *options);

#endif
