#include "takes.h"

#include "memory.h"
#include "messages.h"
#include "progress.h"

#include <stdarg.h>
#include <stdlib.h>
#include <string.h>

struct Take *takes_find(struct Host *host, const char *name)
{
    for (size_t i = 0; i < host->count; i++) {
        if (strcmp(host->takes[i].name, name) == 0) {
            return &host->takes[i];
        }
    }
    return NULL;
}

void takes_put(struct Host *host, const char *name, uint32_t shelf)
{
    struct Take *take = takes_find(host, name);
    if (take != NULL) {
        session_release(&host->session, take->shelf);
        take->shelf = shelf;
        return;
    }
    host->takes = memory_grow(host->takes, host->count + 1, sizeof *host->takes);
    host->takes[host->count++] = (struct Take){memory_text(name), shelf};
}

void takes_drop(struct Host *host, struct Take *take)
{
    session_release(&host->session, take->shelf);
    free(take->name);
    size_t behind = (size_t)(host->takes + host->count - take) - 1;
    memmove(take, take + 1, behind * sizeof *take);
    host->count--;
}

void takes_end(struct Host *host)
{
    while (host->count > 0) {
        takes_drop(host, &host->takes[host->count - 1]);
    }
    free(host->takes);
    host->takes = NULL;
    session_close(&host->session);
}

enum { SHOWN_LINE = 60 };

/* Prints so many bytes of a text, without control characters, which would disturb a terminal. */
static void put_plain(const char *text, size_t bytes)
{
    for (; *text != '\0' && bytes > 0; text++, bytes--) {
        fputc((unsigned char)*text < ' ' || *text == 0x7F ? '?' : *text, stderr);
    }
}

/* Which command a message is about: the beginning of its line. */
static void put_place(const struct Host *host)
{
    fprintf(stderr, "%s: ", host->place);
    if (strlen(host->line) > SHOWN_LINE) {
        put_plain(host->line, SHOWN_LINE - 3);
        fputs("...", stderr);
    } else {
        put_plain(host->line, SHOWN_LINE);
    }
    fputs(": ", stderr);
}

enum Status complain(const struct Host *host, enum Status status, const char *form, ...)
{
    va_list values;
    va_start(values, form);
    int bytes = vsnprintf(NULL, 0, form, values);
    va_end(values);
    char *text = memory_new((size_t)bytes + 1, 1);
    va_start(values, form);
    vsnprintf(text, (size_t)bytes + 1, form, values);
    va_end(values);
    progress_clear();
    fflush(stdout);
    fputs("takecut: ", stderr);
    if (host->place != NULL) {
        put_place(host);
    }
    put_plain(text, (size_t)bytes);
    fputc('\n', stderr);
    free(text);
    return status;
}

enum Status complain_number(const struct Host *host, uint32_t number)
{
    enum Status status = number == HOST_NO_MEMORY ? STATUS_TROUBLE : STATUS_REFUSED;
    return complain(host, status, "%s", message_number(number));
}
