/* How a command or the whole program ends; the values are the exit statuses. */
#ifndef STATUS_H
#define STATUS_H

enum Status {
    STATUS_DONE = 0,
    STATUS_REFUSED = 1, /* a command was refused */
    STATUS_USAGE = 2,   /* an option or a command that is not understood */
    STATUS_TROUBLE = 3  /* a file could not be read or written, or memory ran out */
};

#endif
