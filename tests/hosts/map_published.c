/* Threads hand objects to each other through a map: one writes to an object and stores its address as the value of a key, and another one gets the
   value, or takes it, and reads the object, by each call that tells a value. What a thread did before it stored a value has happened before what
   another does after it read that value: the thread sanitizer finds nothing, also where a renewal lies between the two, though the library was
   compiled without it. */
#include "elltree_map.h"
#include <pthread.h>
#include <sched.h>
#include <stdio.h>
#include <stdlib.h>

enum { OBJECTS = 3000, WAYS = 6, CARDS = 100, BUSY = 1000000, RENEWALS = 60 };

struct object {
    uint64_t number, content;
};

static struct elltree_map *map;
static int is_over;

/* A third thread, which renews the map all the time. */
static void *renew(void *given) {
    while (!__atomic_load_n(&is_over, __ATOMIC_RELAXED))
        *(long *)given += elltree_map_renew(map) != ELLTREE_YES;
    return NULL;
}

static uint64_t renewals(void) {
    struct elltree_map_counters counts = {0, 0, 0, 0, 0, 0, 0};
    return elltree_map_counts(map, &counts, sizeof counts) == ELLTREE_YES ? counts.renewals : 0;
}

/* Stores objects, no faster than the map is renewed. */
static void *store(void *given) {
    long *wrong = given;
    uint64_t was;
    for (uint64_t i = 1; i <= OBJECTS; i++) {
        struct object *it = malloc(sizeof *it);
        if (!it)
            abort();
        it->number = i;
        it->content = i * 3;
        *wrong += elltree_map_put(map, i, (uint64_t)(uintptr_t)it, &was) != ELLTREE_NO;
        *wrong += elltree_map_put(map, BUSY + i % 50, i, &was) < 0; /* a key that many changes are on */
        while (renewals() < i * RENEWALS / OBJECTS)
            sched_yield();
    }
    return NULL;
}

/* Waits for the value of a key, by one call that tells values or another. */
static uint64_t read_value(uint64_t key) {
    struct elltree_pair pair = {0, 0};
    uint64_t value = 0, following, found = 0;
    size_t count = 0;
    switch (key % WAYS) {
    case 0:
        return elltree_map_get(map, key, &value) == ELLTREE_YES ? value : 0;
    case 1:
        return elltree_map_next_at_least(map, key, &found, &value) == ELLTREE_YES && found == key ? value : 0;
    case 2:
        return elltree_map_last_at_most(map, key, &found, &value) == ELLTREE_YES && found == key ? value : 0;
    case 3:
        return elltree_map_range(map, key, key + 1, &pair, 1, &count, &following) == ELLTREE_YES && count ? pair.value : 0;
    case 4:
        return elltree_map_fetch_add(map, key, 0, &value) == ELLTREE_YES ? value : 0;
    default: /* an exchange that finds another value, once the key is there */
        return elltree_map_compare_exchange(map, key, &value, 0) == ELLTREE_OTHER_VALUE ? value : 0;
    }
}

static void *take(void *given) {
    long *wrong = given;
    for (uint64_t i = 1; i <= OBJECTS; i++) {
        uint64_t value = 0, taken = 0;
        struct object *it;
        while (!value)
            value = read_value(i);
        it = (struct object *)(uintptr_t)value; /* NOLINT: the value is the address of an object */
        *wrong += it->number != i || it->content != i * 3;
        *wrong += elltree_map_remove(map, i, &taken) != ELLTREE_YES || taken != value;
        free(it);
    }
    return NULL;
}

int main(void) {
    struct elltree_map_settings settings = ELLTREE_MAP_SETTINGS;
    pthread_t threads[2], renewing;
    long wrong[3] = {0, 0, 0}, all = 0;
    settings.cards = CARDS;
    all += elltree_map_from_sorted(&map, NULL, 0, &settings, sizeof settings) != ELLTREE_YES;
    pthread_create(&renewing, NULL, renew, &wrong[2]);
    pthread_create(&threads[0], NULL, store, &wrong[0]);
    pthread_create(&threads[1], NULL, take, &wrong[1]);
    pthread_join(threads[0], NULL);
    pthread_join(threads[1], NULL);
    __atomic_store_n(&is_over, 1, __ATOMIC_RELAXED);
    pthread_join(renewing, NULL);
    all += wrong[0] + wrong[1] + wrong[2];
    printf("%d objects, %llu renewals, %ld wrong\n", OBJECTS, (unsigned long long)renewals(), all);
    all += elltree_map_free(map) != ELLTREE_YES;
    return all != 0;
}
