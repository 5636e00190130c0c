/* Memory in cache lines of its own. */
#ifndef ELLTREE_MAP_MEMORY_H
#define ELLTREE_MAP_MEMORY_H
#include <stddef.h>

/* Two cache lines, since processors fetch lines in pairs. */
#define LINE 128

/* Memory that begins at a line and is all zeros, or null. */
static void *new_lines(size_t size);
/* Frees such memory, if it is not null. */
static void free_lines(void *at);

#endif
