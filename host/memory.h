/* Memory for names, lines and lists, checked: where there is none the program ends. */
#ifndef MEMORY_H
#define MEMORY_H

#include <stddef.h>

/* A block of so many items; without memory the program says so and ends with status 3. */
void *memory_new(size_t items, size_t size);

/* The same block with room for so many items. */
void *memory_grow(void *block, size_t items, size_t size);

/* A copy of a text. */
char *memory_text(const char *text);

#endif
