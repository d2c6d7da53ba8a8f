/* A command's words. */
#ifndef WORDS_H
#define WORDS_H

#include <stdbool.h>
#include <stddef.h>
#include <stdint.h>

/* The words of a line: blanks part them, quotes and a backslash keep blanks, # begins a remark. */
struct Words {
    char **word;
    size_t count;
    char *text; /* what the words point into */
};

/* The words of a line; false where a quote is not closed. To be freed in both cases. */
bool words_of(const char *line, struct Words *words);

void words_free(struct Words *words);

/* A decimal number of 32 bits, whole; false otherwise. */
bool words_number(const char *word, uint32_t *number);

#endif
