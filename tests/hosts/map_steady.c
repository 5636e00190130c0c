/* A map whose keys come and go in one range is renewed hardly ever, however many changes there are, and takes no more memory but for a few megabytes:
   its trees take their cards back. One thread makes millions of changes at random and knows each answer, and then four do so, each with keys of its
   own, and then 64, for which the map may have more cards until it is renewed. Then the memory of a map of many keys that came in random order,
   when each of them has been changed many times; and how often a map is renewed while it is filled, in order or not. */
#include "elltree_map.h"
#include <malloc.h>
#include <pthread.h>
#include <stdio.h>
#include <stdlib.h>

#ifndef CHANGES
#define CHANGES 3000000
#endif
enum { KEYS = 10000, THREADS = 4, ALONE = 12, TOGETHER = 100, BUSY = 5000000, CARDS_A_KEY = 3, CARDS_LEAST = 512 };
enum { CROWD = 64, CARDS_CROWDED = 262144, MANY = 200000, BYTES_FILLED = 300, BYTES_CHANGED = 350, BYTES_IN_ORDER = 230 };
enum { KEYS_A_RENEWAL = 1700 };

static struct elltree_map *map;
static uint64_t value_of[2 * KEYS]; /* of each key, of which half are present, and 0 where it is absent */

static uint64_t next(uint64_t *seed) { return *seed ^= *seed << 13, *seed ^= *seed >> 7, *seed ^= *seed << 17; }

/* Bytes that the allocator has given out. The library keeps up to four blocks for the next tree, of up to 2 MB each. */
static long memory(void) {
    const struct mallinfo2 info = mallinfo2();
    return (long)(info.uordblks + info.hblkhd);
}

static struct elltree_map_counters counts(void) {
    struct elltree_map_counters counts = {0, 0, 0, 0, 0, 0, 0};
    if (elltree_map_counts(map, &counts, sizeof counts) != ELLTREE_YES)
        abort();
    return counts;
}

/* Changes that a thread makes, of keys that leave its number as a remainder. */
struct changer {
    uint64_t number, count, seed;
    long changes, wrong;
};

/* A key that is absent comes, and one that is present goes, gets another value, or is exchanged. */
static void change(struct changer *c, uint64_t key, uint64_t value, uint64_t kind) {
    const uint64_t was = value_of[key];
    uint64_t told = was;
    if (!was) {
        value_of[key] = value;
        c->wrong += kind ? elltree_map_put(map, key, value, &told) != ELLTREE_NO || told : elltree_map_insert(map, key, value) != ELLTREE_YES;
    } else if (kind < 2) {
        value_of[key] = 0;
        c->wrong += elltree_map_remove(map, key, &told) != ELLTREE_YES || told != was;
    } else {
        value_of[key] = value;
        c->wrong += kind == 2 ? elltree_map_put(map, key, value, &told) != ELLTREE_YES || told != was
                              : elltree_map_compare_exchange(map, key, &told, value) != ELLTREE_YES;
    }
}

static void *change_all(void *given) {
    struct changer *c = given;
    for (long i = 0; i < c->changes; i++) {
        const uint64_t random = next(&c->seed) >> 10, key = random % (2 * KEYS / c->count) * c->count + c->number;
        change(c, key, (uint64_t)i + 1, value_of[key] ? random >> 40 & 3 : random >> 40 & 1);
    }
    return NULL;
}

/* Whether the map has exactly the keys that it is to have. */
static long lacks(void) {
    static struct elltree_pair out[2 * KEYS];
    size_t count = 0, at = 0;
    long wrong = elltree_map_pairs(map, out, 2 * KEYS, &count) != ELLTREE_YES;
    for (uint64_t key = 0; key < 2 * KEYS; key++)
        if (value_of[key] && at < count)
            wrong += out[at].key != key || out[at++].value != value_of[key];
        else
            wrong += value_of[key] != 0;
    return wrong + (at != count);
}

static long change_in_threads(uint64_t count, long changes) {
    struct changer changers[CROWD];
    pthread_t threads[CROWD];
    long wrong = 0;
    for (uint64_t t = 0; t < count; t++) {
        changers[t] = (struct changer){t, count, 88172645463325252u + t * 7919, changes / (long)count, 0};
        pthread_create(&threads[t], NULL, change_all, &changers[t]);
    }
    for (uint64_t t = 0; t < count; t++) {
        pthread_join(threads[t], NULL);
        wrong += changers[t].wrong;
    }
    return wrong + lacks();
}

static uint64_t present(void) {
    uint64_t keys = 0;
    for (uint64_t key = 0; key < 2 * KEYS; key++)
        keys += value_of[key] != 0;
    return keys;
}

/* How many cards the keys that are present need at most, if no call holds any back. */
static uint64_t needed(void) { return CARDS_A_KEY * present() + CARDS_LEAST * counts().sections; }

/* More threads than a machine is likely to have processors, of which some stand still in calls. */
static long crowd(void) {
    const uint64_t renewals = counts().renewals;
    const long wrong = change_in_threads(CROWD, CHANGES);
    printf("%d threads: %llu renewals, %llu cards\n", CROWD, (unsigned long long)(counts().renewals - renewals), (unsigned long long)counts().cards);
    return wrong + (counts().renewals - renewals > TOGETHER) + (counts().cards > CARDS_CROWDED + needed());
}

/* Sections of a small map get more cards while they are busy, and others where threads were stopped in a call. A renewal takes them back. */
static long steady(void) {
    long wrong = elltree_map_new(&map) != ELLTREE_YES, before = memory(), first, last;
    uint64_t grown, alone;
    wrong += change_in_threads(1, CHANGES / 10);
    first = memory() - before;
    grown = counts().renewals;
    wrong += change_in_threads(1, CHANGES);
    last = memory() - before;
    alone = counts().renewals - grown;
    printf("%d changes by one thread: %llu renewals before, %llu during these, %ld kB and then %ld\n", CHANGES, (unsigned long long)grown,
           (unsigned long long)alone, first / 1000, last / 1000);
    wrong += alone > ALONE || last > first / 4 * 5 + BUSY;
    grown = counts().renewals;
    wrong += change_in_threads(THREADS, CHANGES);
    printf("%d threads: %llu renewals, %ld kB, %llu cards\n", THREADS, (unsigned long long)(counts().renewals - grown), (memory() - before) / 1000,
           (unsigned long long)counts().cards);
    wrong += counts().renewals - grown > TOGETHER;
    wrong += crowd();
    wrong += elltree_map_renew(map) != ELLTREE_YES || counts().cards > needed();
    printf("renewed: %ld kB, %llu cards\n", (memory() - before) / 1000, (unsigned long long)counts().cards);
    return wrong + (elltree_map_free(map) != ELLTREE_YES);
}

/* Keys in random order. */
static uint64_t keys[MANY];

static void shuffle(void) {
    uint64_t seed = 9973;
    for (uint64_t i = 0; i < MANY; i++) {
        const uint64_t at = (next(&seed) >> 10) % (i + 1);
        keys[i] = keys[at];
        keys[at] = 50 * i;
    }
}

/* Has a map of many keys, which came in random order, and changes them: it gives each of them other values, or they come and go, so that half of them
   are present. */
static long change_many(int come_and_go) {
    uint64_t seed = 88172645463325252u;
    size_t present = 0;
    long before = memory(), full, wrong = elltree_map_new(&map) != ELLTREE_YES;
    for (uint64_t i = 0; i < MANY; i++)
        wrong += elltree_map_insert(map, keys[i], i) != ELLTREE_YES;
    full = (memory() - before) / MANY;
    for (int i = 0; i < CHANGES / 3 * 2; i++) {
        const uint64_t random = next(&seed) >> 10, key = keys[random % MANY];
        if (!come_and_go)
            wrong += elltree_map_put(map, key, random, NULL) != ELLTREE_YES;
        else if (random >> 40 & 1)
            wrong += elltree_map_insert(map, key, random) < 0;
        else
            wrong += elltree_map_delete(map, key) < 0;
    }
    wrong += elltree_map_len(map, &present) != ELLTREE_YES;
    printf("%d keys: %ld bytes each; then %zu, %ld; %llu sections, %llu renewals, %llu cards\n", MANY, full, present,
           (memory() - before) / (long)present, (unsigned long long)counts().sections, (unsigned long long)counts().renewals,
           (unsigned long long)counts().cards);
    if (!come_and_go)
        wrong += full > BYTES_FILLED || (memory() - before) / MANY > BYTES_CHANGED || present != MANY;
    return wrong + (elltree_map_free(map) != ELLTREE_YES);
}

/* Fills a map with keys in this order. A section is parted when it has twice as many keys as it began with, and not renewed before that; and where keys
   come in order, those that they leave behind keep few cards. */
static long fill(const char *order, uint64_t (*key_at)(uint64_t), int is_in_order) {
    long bytes, before = memory(), wrong = elltree_map_new(&map) != ELLTREE_YES;
    for (uint64_t i = 0; i < MANY; i++)
        wrong += elltree_map_insert(map, key_at(i), i) != ELLTREE_YES;
    bytes = (memory() - before) / MANY;
    printf("%s: %llu renewals, %ld bytes a key\n", order, (unsigned long long)counts().renewals, bytes);
    wrong += counts().renewals > MANY / KEYS_A_RENEWAL || bytes > (is_in_order ? BYTES_IN_ORDER : BYTES_FILLED);
    return wrong + (elltree_map_free(map) != ELLTREE_YES);
}

static uint64_t ascending(uint64_t i) { return i; }
static uint64_t descending(uint64_t i) { return MANY - i; }
static uint64_t shuffled(uint64_t i) { return keys[i]; }

int main(void) {
    long wrong;
    shuffle();
    wrong = fill("ascending", ascending, 1) + fill("descending", descending, 1) + fill("shuffled", shuffled, 0);
    wrong += change_many(0) + change_many(1) + steady();
    printf("%ld wrong\n", wrong);
    return wrong != 0;
}
