/* Files read whole and written whole. */
#ifndef FILES_H
#define FILES_H

#include <stdbool.h>
#include <stddef.h>
#include <stdint.h>

/* Called while a file is read, with the bytes so far. */
typedef void (*FilesProgress)(const char *path, size_t bytes);

/* Reads a whole file into a block that the caller frees. On false errno says why. */
bool files_read(const char *path, FilesProgress progress, uint8_t **bytes, size_t *count);

/* Writes a whole file, under another name first: on false the old file is as it was, and errno says why. */
bool files_write(const char *path, const void *bytes, size_t count);

#endif
