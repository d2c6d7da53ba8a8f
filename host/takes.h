/* The host: a session whose shelves hold takes with names, and what its commands need. */
#ifndef TAKES_H
#define TAKES_H

#include "options.h"
#include "session.h"
#include "status.h"

#include <stdio.h>

struct Take {
    char *name;
    uint32_t shelf;
};

/* The host. Place and line say in messages which command is being carried out. */
struct Host {
    struct Session session;
    struct Take *takes;
    size_t count;
    const struct Options *options;
    const char *place;
    const char *line;
    bool quit;
};

/* The take of a name, or NULL. */
struct Take *takes_find(struct Host *host, const char *name);

/* Gives a shelf's take a name. An earlier take of that name is dropped. */
void takes_put(struct Host *host, const char *name, uint32_t shelf);

/* Drops a take and gives its shelf back. */
void takes_drop(struct Host *host, struct Take *take);

/* Drops all takes and the session. */
void takes_end(struct Host *host);

/* Says on standard error what is wrong with the command, and answers the status. */
enum Status complain(const struct Host *host, enum Status status, const char *form, ...);

/* The same for a number, with its sentence. */
enum Status complain_number(const struct Host *host, uint32_t number);

#endif
