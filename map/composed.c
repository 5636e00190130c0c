/* Calls of a map that are made of its other calls. They hold no place between those, so that no renewal waits for them. */
#include "calls.h"

/* The call takes effect at the get that finds the key, or at the insert that adds it: whatever came before has changed nothing. It begins anew only
   if another thread has added the key after the get, and taken it away before the next one. */
int32_t elltree_map_get_or_insert(struct elltree_map *map, uint64_t key, uint64_t value, uint64_t *there) {
    uint64_t found = value;
    int32_t got, added = ELLTREE_NO;
    do {
        got = elltree_map_get(map, key, &found);
        if (got == ELLTREE_NO)
            added = elltree_map_insert(map, key, value);
    } while (got == ELLTREE_NO && added == ELLTREE_NO);
    if (got < 0 || added < 0)
        return got < 0 ? got : added;
    tell(there, found); /* a get that finds no key has written nothing */
    return added;
}

typedef int32_t find_key(struct elltree_map *map, uint64_t key, uint64_t *found, uint64_t *value);

/* Takes away the first pair that is found from a key on and that no other thread takes first. A key that another thread has taken was absent then, so
   the search goes on behind it, and each key that it has passed was absent at a moment of the call. */
static int32_t pop(struct elltree_map *map, find_key *find, find_key *find_behind, uint64_t from, uint64_t *key, uint64_t *value) {
    uint64_t at = from, taken = 0;
    int32_t found = find(map, from, &at, NULL), code = found;
    while (found == ELLTREE_YES && (code = elltree_map_remove(map, at, &taken)) == ELLTREE_NO)
        found = code = find_behind(map, at, &at, NULL);
    if (code != ELLTREE_YES)
        return code;
    tell(key, at);
    tell(value, taken);
    return code;
}

int32_t elltree_map_pop_first(struct elltree_map *map, uint64_t *key, uint64_t *value) {
    return pop(map, elltree_map_next_at_least, elltree_map_next_after, 0, key, value);
}

int32_t elltree_map_pop_last(struct elltree_map *map, uint64_t *key, uint64_t *value) {
    return pop(map, elltree_map_last_at_most, elltree_map_last_before, ELLTREE_KEY_MAX, key, value);
}
