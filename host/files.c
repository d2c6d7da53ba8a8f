#define _POSIX_C_SOURCE 200809L
#define _XOPEN_SOURCE 700
#include "files.h"

#include <errno.h>
#include <fcntl.h>
#include <stdio.h>
#include <stdlib.h>
#include <string.h>
#include <sys/stat.h>
#include <unistd.h>

enum { FIRST_ROOM = 1 << 16 };

/* Fills the block to its room or to the file's end. */
static bool fill(int file, uint8_t *bytes, size_t room, size_t *count)
{
    while (*count < room) {
        ssize_t got = read(file, bytes + *count, room - *count);
        if (got < 0 && errno != EINTR) {
            return false;
        }
        if (got == 0) {
            return true;
        }
        *count += got > 0 ? (size_t)got : 0;
    }
    return true;
}

/* The rest of an open file. */
static bool read_all(int file, const char *path, FilesProgress progress, uint8_t **bytes,
                     size_t *count)
{
    size_t room = FIRST_ROOM;
    for (;;) {
        uint8_t *larger = realloc(*bytes, room);
        if (larger == NULL || !fill(file, larger, room, count)) {
            *bytes = larger == NULL ? *bytes : larger;
            return false;
        }
        *bytes = larger;
        if (*count < room) {
            return true;
        }
        if (progress != NULL) {
            progress(path, *count);
        }
        room *= 2;
    }
}

bool files_read(const char *path, FilesProgress progress, uint8_t **bytes, size_t *count)
{
    *bytes = NULL;
    *count = 0;
    int file = open(path, O_RDONLY);
    if (file < 0) {
        return false;
    }
    bool whole = read_all(file, path, progress, bytes, count);
    int why = errno;
    close(file);
    if (!whole) {
        free(*bytes);
        *bytes = NULL;
        errno = why;
    }
    return whole;
}

/* Writes all bytes and closes the file. */
static bool put_all(int file, const uint8_t *bytes, size_t count, bool keep)
{
    int why = 0;
    while (count > 0 && why == 0) {
        ssize_t put = write(file, bytes, count);
        if (put >= 0) {
            bytes += put;
            count -= (size_t)put;
        } else if (errno != EINTR) {
            why = errno;
        }
    }
    if (why == 0 && keep && fsync(file) != 0 && errno != EINVAL) {
        why = errno;
    }
    if (close(file) != 0 && why == 0) {
        why = errno;
    }
    errno = why;
    return why == 0;
}

/* What a new file may be read and written by. */
static mode_t new_mode(void)
{
    mode_t mask = umask(0);
    umask(mask);
    return 0666 & ~mask;
}

/* Writes the file under the other name, then gives it its own. */
static bool replace(const char *path, char *other, mode_t mode, const void *bytes, size_t count)
{
    int file = mkstemp(other);
    if (file < 0) {
        return false;
    }
    bool written = put_all(file, bytes, count, true);
    if (written && chmod(other, mode) == 0 && rename(other, path) == 0) {
        return true;
    }
    int why = errno;
    unlink(other);
    errno = why;
    return false;
}

/* The file beside which the other name stands: the one that a link leads to. */
static bool replace_beside(const char *path, mode_t mode, const void *bytes, size_t count)
{
    enum { RANDOM = 6 }; /* letters that mkstemp replaces, each an X */
    size_t length = strlen(path);
    char *other = malloc(length + 1 + RANDOM + 1);
    if (other == NULL) {
        errno = ENOMEM;
        return false;
    }
    memcpy(other, path, length);
    other[length] = '.';
    memset(other + length + 1, 'X', RANDOM);
    other[length + 1 + RANDOM] = '\0';
    bool written = replace(path, other, mode, bytes, count);
    int why = errno;
    free(other);
    errno = why;
    return written;
}

bool files_write(const char *path, const void *bytes, size_t count)
{
    struct stat old;
    if (stat(path, &old) != 0) {
        return errno == ENOENT && replace_beside(path, new_mode(), bytes, count);
    }
    if (!S_ISREG(old.st_mode)) {
        /* A device or a pipe: it has no other name to come from. */
        int file = open(path, O_WRONLY);
        return file >= 0 && put_all(file, bytes, count, false);
    }
    if (access(path, W_OK) != 0) {
        return false;
    }
    char *real = realpath(path, NULL);
    if (real == NULL) {
        return false;
    }
    bool written = replace_beside(real, old.st_mode & 07777, bytes, count);
    int why = errno;
    free(real);
    errno = why;
    return written;
}
