#include "words.h"

#include "memory.h"

#include <stdlib.h>
#include <string.h>

/* Carriage returns too: scripts may come from another system. */
static bool blank(char byte)
{
    return byte == ' ' || byte == '\t' || byte == '\r' || byte == '\n';
}

/* Copies one word from in to out without its quotes; NULL where a quote is not closed. */
static const char *copy_word(const char *in, char **out)
{
    char quote = '\0';
    for (; *in != '\0' && (quote != '\0' || !blank(*in)); in++) {
        if (*in == '\\' && quote != '\'' && in[1] != '\0') {
            *(*out)++ = *++in;
        } else if (quote == '\0' && (*in == '"' || *in == '\'')) {
            quote = *in;
        } else if (*in == quote) {
            quote = '\0';
        } else {
            *(*out)++ = *in;
        }
    }
    *(*out)++ = '\0';
    return quote == '\0' ? in : NULL;
}

bool words_of(const char *line, struct Words *words)
{
    size_t room = 0;
    words->count = 0;
    words->word = NULL;
    words->text = memory_new(2 * strlen(line) + 1, 1);
    char *out = words->text;
    while (line != NULL) {
        while (blank(*line)) {
            line++;
        }
        if (*line == '\0' || *line == '#') {
            return true;
        }
        if (words->count == room) {
            room = room == 0 ? 8 : 2 * room;
            words->word = memory_grow(words->word, room, sizeof *words->word);
        }
        words->word[words->count++] = out;
        line = copy_word(line, &out);
    }
    return false;
}

void words_free(struct Words *words)
{
    free(words->word);
    free(words->text);
}

bool words_number(const char *word, uint32_t *number)
{
    uint64_t value = 0;
    if (*word == '\0') {
        return false;
    }
    for (; *word != '\0'; word++) {
        if (*word < '0' || *word > '9') {
            return false;
        }
        value = value * 10 + (uint64_t)(*word - '0');
        if (value > UINT32_MAX) {
            return false;
        }
    }
    *number = (uint32_t)value;
    return true;
}
