#include "memory.h"

#include "status.h"

#include <stdint.h>
#include <stdio.h>
#include <stdlib.h>
#include <string.h>

/* Without memory there is no name or line to go on with. */
static void *checked(void *block)
{
    if (block == NULL) {
        fputs("takecut: memory ran out\n", stderr);
        exit(STATUS_TROUBLE);
    }
    return block;
}

void *memory_grow(void *block, size_t items, size_t size)
{
    if (items > SIZE_MAX / size) {
        checked(NULL);
    }
    return checked(realloc(block, items == 0 ? size : items * size));
}

void *memory_new(size_t items, size_t size)
{
    return memory_grow(NULL, items, size);
}

char *memory_text(const char *text)
{
    size_t bytes = strlen(text) + 1;
    return memcpy(memory_new(bytes, 1), text, bytes);
}
