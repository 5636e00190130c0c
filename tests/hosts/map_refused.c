/* Each allocation of a map is refused in turn, when it is made and when it renews itself: the call is answered by ELLTREE_NO_MEMORY, and the map
   is as it was and goes on; or, as the library can do without some memory, the call succeeds. No other call asks for memory. Linked with
   --wrap=malloc and --wrap=realloc: it asks in no other way. */
#include "elltree_map.h"
#include <stdio.h>

static long asked, refuse_at = -1;

void *__real_malloc(size_t size);
void *__real_realloc(void *at, size_t size);
void *__wrap_malloc(size_t size) { return ++asked == refuse_at ? NULL : __real_malloc(size); }
void *__wrap_realloc(void *at, size_t size) { return ++asked == refuse_at ? NULL : __real_realloc(at, size); }

enum { KEYS = 100, MOST = 400, CARDS = 1 };
static struct elltree_pair start[MOST];
static struct elltree_map *map;

static int32_t make(void) {
    struct elltree_map_settings settings = ELLTREE_MAP_SETTINGS;
    settings.cards = CARDS;
    settings.calls = 4;
    return elltree_map_from_sorted(&map, start, KEYS, &settings, sizeof settings);
}

/* Whether the map has so many of the pairs, and nothing else. */
static long lacks(size_t keys) {
    static struct elltree_pair out[MOST];
    size_t count = 0;
    long wrong = elltree_map_pairs(map, out, MOST, &count) != ELLTREE_YES || count != keys;
    for (size_t i = 0; i < count; i++)
        wrong += out[i].key != start[i].key || out[i].value != start[i].value;
    return wrong;
}

/* Makes maps, refusing each allocation. */
static long make_refused(void) {
    long wrong = 0, refused = 0, at = 0;
    int32_t said;
    do {
        map = NULL;
        refuse_at = ++at, asked = 0;
        said = make();
        refuse_at = -1;
        wrong += said == ELLTREE_YES ? lacks(KEYS) : said != ELLTREE_NO_MEMORY || map;
        refused += said == ELLTREE_NO_MEMORY;
        elltree_map_free(map);
    } while (asked >= at);
    printf("new: %ld allocations, %ld of them needed, %ld wrong\n", at - 1, refused, wrong);
    return wrong + (refused < 5);
}

/* Adds keys to a new map, which has too few cards for them: the first call that asks for memory needs it, and its answer is told, and how often it
   asked. The map has the keys that were added before, and goes on. */
static int32_t add_until_renewed(long at, long *asked_then, long *wrong) {
    size_t keys = KEYS;
    int32_t said = ELLTREE_YES;
    *wrong += make() != ELLTREE_YES;
    refuse_at = at, asked = 0;
    while (said == ELLTREE_YES && !asked && keys < MOST) {
        said = elltree_map_insert(map, start[keys].key, start[keys].value);
        keys += said == ELLTREE_YES;
    }
    refuse_at = -1;
    *asked_then = asked;
    *wrong += (said != ELLTREE_YES && said != ELLTREE_NO_MEMORY) + lacks(keys) + !asked;
    for (; keys < MOST; keys++)
        *wrong += elltree_map_insert(map, start[keys].key, start[keys].value) != ELLTREE_YES;
    *wrong += lacks(MOST) + (elltree_map_free(map) != ELLTREE_YES);
    return said;
}

static long add_refused(void) {
    long wrong = 0, refused = 0, at = 0, asked_then;
    do
        refused += add_until_renewed(++at, &asked_then, &wrong) == ELLTREE_NO_MEMORY;
    while (asked_then >= at && at < 1000);
    printf("added keys: %ld allocations, %ld of them needed, %ld wrong\n", at - 1, refused, wrong);
    return wrong + (refused < 3) + (asked_then >= at);
}

/* The same of a renewal that the caller asks for. */
static long renew_refused(void) {
    long wrong = make() != ELLTREE_YES, refused = 0, at = 0;
    int32_t said;
    do {
        refuse_at = ++at, asked = 0;
        said = elltree_map_renew(map);
        refuse_at = -1;
        wrong += (said != ELLTREE_YES && said != ELLTREE_NO_MEMORY) + lacks(KEYS);
        refused += said == ELLTREE_NO_MEMORY;
    } while (asked >= at && at < 1000);
    printf("renewal: %ld allocations, %ld of them needed, %ld wrong\n", at - 1, refused, wrong);
    return wrong + (refused < 3) + (asked >= at) + (elltree_map_free(map) != ELLTREE_YES);
}

int main(void) {
    long wrong = 0;
    for (uint64_t i = 0; i < MOST; i++)
        start[i] = (struct elltree_pair){i * 3, i};
    wrong += make_refused() + add_refused() + renew_refused();
    printf("%ld wrong\n", wrong);
    return wrong != 0;
}
