#define _POSIX_C_SOURCE 200809L
#include "progress.h"

#include <stdio.h>
#include <time.h>
#include <unistd.h>

enum { TURNS_PER_SECOND = 4 };

static bool on;
static bool terminal;
static bool standing; /* a line of progress stands on the terminal */
static struct timespec last;

void progress_start(bool shown)
{
    on = shown;
    terminal = isatty(STDERR_FILENO);
    clock_gettime(CLOCK_MONOTONIC, &last);
}

/* Whether enough time has passed for another line. */
static bool due(void)
{
    struct timespec now;
    if (!on || clock_gettime(CLOCK_MONOTONIC, &now) != 0) {
        return false;
    }
    long turn = 1000000000L / TURNS_PER_SECOND;
    if (now.tv_sec - last.tv_sec < 2 &&
        (now.tv_sec - last.tv_sec) * 1000000000L + now.tv_nsec - last.tv_nsec < turn) {
        return false;
    }
    last = now;
    return true;
}

/* Ends a line of progress: on a terminal the next one is written over it. */
static void stand(void)
{
    fputs(terminal ? "\r" : "\n", stderr);
    fflush(stderr);
    standing = terminal;
}

/* How many commands are done. */
static void print_count(size_t done, size_t total)
{
    if (total > 0) {
        fprintf(stderr, "%zu of %zu commands", done, total);
    } else {
        fprintf(stderr, "%zu commands", done);
    }
}

void progress_commands(size_t done, size_t total)
{
    if (due()) {
        progress_clear();
        print_count(done, total);
        stand();
    }
}

void progress_reading(const char *path, size_t bytes)
{
    if (due()) {
        progress_clear();
        fprintf(stderr, "%s: %zu bytes read", path, bytes);
        stand();
    }
}

void progress_clear(void)
{
    if (standing) {
        fputs("\r\033[K", stderr);
        fflush(stderr);
        standing = false;
    }
}

void progress_end(size_t done, size_t total)
{
    progress_clear();
    if (on && !terminal) {
        print_count(done, total);
        fputc('\n', stderr);
    }
}
