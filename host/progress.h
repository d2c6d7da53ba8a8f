/* How far long work is, on standard error. */
#ifndef PROGRESS_H
#define PROGRESS_H

#include <stdbool.h>
#include <stddef.h>

/* Whether progress is shown at all. */
void progress_start(bool shown);

/* So many commands are done; of a total of 0 it is not known how many there are. */
void progress_commands(size_t done, size_t total);

/* So many bytes of a file are read. */
void progress_reading(const char *path, size_t bytes);

/* Takes the line away, before something else is printed. */
void progress_clear(void);

/* The end of the work: the last count, or on a terminal nothing. */
void progress_end(size_t done, size_t total);

#endif
