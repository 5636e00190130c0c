/* Memory in cache lines of its own, by malloc and free alone: a program may replace these, and need not replace any other function with them. */
#include "memory.h"
#include <stdint.h>
#include <stdlib.h>
#include <string.h>

/* Memory that begins at a line and is all zeros, or null. The block that it lies in is noted in front of it. */
static void *new_lines(size_t size) {
    char *block = malloc(size + sizeof block + LINE), *at;
    if (!block)
        return NULL;
    at = block + sizeof block;
    at += (LINE - (uintptr_t)at % LINE) % LINE;
    memcpy(at - sizeof block, &block, sizeof block);
    memset(at, 0, size);
    return at;
}

static void free_lines(void *at) {
    char *block = NULL;
    if (at)
        memcpy(&block, (char *)at - sizeof block, sizeof block);
    free(block);
}
