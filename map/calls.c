/* What all calls of a map share. */
#include "calls.h"
#include "lifetime.h"
#include "order.h"

/* Whether there is a map, and it is of this process. */
static inline int32_t check_map(const struct elltree_map *map) {
    if (__builtin_expect(!map, 0))
        return ELLTREE_NULL;
    return __builtin_expect(is_of_parent(map), 0) ? ELLTREE_FORKED : ELLTREE_YES;
}

/* The same, and whether the key is one that a call may change. */
static inline int32_t check(const struct elltree_map *map, uint64_t key) {
    const int32_t code = check_map(map);
    return code == ELLTREE_YES && key > ELLTREE_KEY_MAX ? ELLTREE_BAD_KEY : code;
}

/* Writes what a call tells, if the caller wants it. */
static inline void tell(uint64_t *out, uint64_t number) {
    if (out)
        *out = number;
}

/* A word for the thread sanitizer, which stands for a key, and for some others. */
static uint64_t *order_of(struct elltree_map *map, uint64_t key) { return &map->orders[key % ORDERS]; }

static inline void see_all(struct elltree_map *map) {
    for (uint64_t i = 0; i < ORDERS && __builtin_expect(__tsan_acquire != NULL, 0); i++)
        seen(&map->orders[i]);
}
