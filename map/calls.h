/* What all calls of a map share. */
#ifndef ELLTREE_MAP_CALLS_H
#define ELLTREE_MAP_CALLS_H
#include "parts.h"

/* Whether there is a map, and it is of this process. */
static int32_t check_map(const struct elltree_map *map);
/* The same, and whether the key is one that a call may change. */
static int32_t check(const struct elltree_map *map, uint64_t key);
/* Writes what a call tells, if the caller wants it. */
static void tell(uint64_t *out, uint64_t number);

/* A word for the thread sanitizer, which stands for a key, and for some others. */
static uint64_t *order_of(struct elltree_map *map, uint64_t key);
/* Tells the thread sanitizer that this thread has seen all of these words. */
static void see_all(struct elltree_map *map);

#endif
