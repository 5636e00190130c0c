/* A map that has more cards than its keys need takes no more memory for that once its keys become many: its sections are parted, and what they had left
   over is not given to each heir. A section has many cards since a crowd of threads has changed a few keys, or since the caller has asked for them.
   Then one thread adds keys in random order, or four do in order, faster than heirs are made. */
#include "elltree_map.h"
#include <malloc.h>
#include <pthread.h>
#include <stdatomic.h>
#include <stdbool.h>
#include <stdio.h>
#include <stdlib.h>
#include <time.h>

enum { FEW = 1000, CROWD = 64, THREADS = 4, CROWDED = 100000, SECONDS = 3, MANY = 100000, ASKED_FOR = 200000, PARTS = 20, BYTES_A_KEY = 1000 };

static struct elltree_map *map;
static atomic_bool is_over;
static atomic_long refused;
static _Atomic uint64_t next_key;

/* Bytes that the allocator has given out. */
static long memory(void) {
    const struct mallinfo2 info = mallinfo2();
    return (long)(info.uordblks + info.hblkhd);
}

static uint64_t cards(void) {
    struct elltree_map_counters counts = {0, 0, 0, 0, 0, 0, 0};
    if (elltree_map_counts(map, &counts, sizeof counts) != ELLTREE_YES)
        abort();
    return counts.cards;
}

/* Different keys in no order, below 2^63. */
static uint64_t scattered(uint64_t i) {
    i = (i + 1) * UINT64_C(0x9e3779b97f4a7c15);
    i = (i ^ i >> 30) * UINT64_C(0xbf58476d1ce4e5b9);
    return (i ^ i >> 27) >> 1;
}

/* Keys in order, above these. */
static uint64_t in_order(uint64_t i) { return (UINT64_C(1) << 63) + i; }

/* How many of these keys lack their numbers as values. */
static long lacks(uint64_t (*key_at)(uint64_t), uint64_t first, uint64_t upto) {
    uint64_t value;
    long lacking = 0;
    for (uint64_t i = first; i < upto; i++)
        lacking += elltree_map_get(map, key_at(i), &value) != ELLTREE_YES || value != i;
    return lacking;
}

static long insert_from_to(uint64_t first, uint64_t upto) {
    long wrong = 0;
    for (uint64_t i = first; i < upto; i++)
        wrong += elltree_map_insert(map, scattered(i), i) != ELLTREE_YES;
    return wrong;
}

static void *change_few(void *given) {
    uint64_t seed = 88172645463325252u + (uint64_t)(uintptr_t)given * 7919, was;
    while (!is_over) {
        seed ^= seed << 13, seed ^= seed >> 7, seed ^= seed << 17;
        refused += elltree_map_put(map, scattered((seed >> 8) % FEW), seed, &was) != ELLTREE_YES;
    }
    return NULL;
}

/* Threads change few keys, until the map has got many cards for that, or for some seconds. */
static long crowd(void) {
    const struct timespec while_ = {0, 10000000};
    const time_t end = time(NULL) + SECONDS;
    pthread_t threads[CROWD];
    long wrong = insert_from_to(0, FEW);
    is_over = false;
    for (uintptr_t t = 0; t < CROWD; t++)
        pthread_create(&threads[t], NULL, change_few, (void *)t);
    while (cards() < CROWDED && time(NULL) < end)
        nanosleep(&while_, NULL);
    is_over = true;
    for (int t = 0; t < CROWD; t++)
        pthread_join(threads[t], NULL);
    printf("a crowd: %llu cards; ", (unsigned long long)cards());
    return wrong + refused;
}

/* Adds keys up to this number, as long as the map takes no more memory than that allows. */
static long grow_to(uint64_t first, uint64_t upto, long before) {
    const long room = memory() - before; /* that it took beforehand */
    long wrong = 0;
    uint64_t from = first;
    for (uint64_t part = 1; part <= PARTS && memory() - before <= room + BYTES_A_KEY * (long)from; part++) {
        const uint64_t end = first + (upto - first) * part / PARTS;
        wrong += insert_from_to(from, end);
        from = end;
    }
    printf("%llu keys, %ld bytes a key, %llu cards\n", (unsigned long long)from, (memory() - before) / (long)from, (unsigned long long)cards());
    return wrong + lacks(scattered, first, from) + (from != upto) + (memory() - before > BYTES_A_KEY * (long)from);
}

static void *add_in_order(void *given) {
    uint64_t key;
    (void)given;
    while ((key = next_key++) < MANY)
        refused += elltree_map_insert(map, in_order(key), key) != ELLTREE_YES;
    return NULL;
}

/* Threads add keys above all others, one after the other. */
static long add_together(long before) {
    pthread_t threads[THREADS];
    next_key = 0;
    for (int t = 0; t < THREADS; t++)
        pthread_create(&threads[t], NULL, add_in_order, NULL);
    for (int t = 0; t < THREADS; t++)
        pthread_join(threads[t], NULL);
    printf("%d keys, %ld bytes a key, %llu cards\n", FEW + MANY, (memory() - before) / (FEW + MANY), (unsigned long long)cards());
    return refused + lacks(in_order, 0, MANY) + (memory() - before > BYTES_A_KEY * (long)(FEW + MANY));
}

static long after_a_crowd(int in_order) {
    const long before = memory();
    long wrong = elltree_map_new(&map) != ELLTREE_YES;
    wrong += crowd();
    wrong += in_order ? add_together(before) : grow_to(FEW, MANY, before);
    return wrong + (elltree_map_free(map) != ELLTREE_YES);
}

static long with_cards_asked_for(void) {
    struct elltree_map_settings settings = ELLTREE_MAP_SETTINGS;
    const long before = memory();
    long wrong;
    settings.cards = ASKED_FOR;
    wrong = elltree_map_from_sorted(&map, NULL, 0, &settings, sizeof settings) != ELLTREE_YES;
    printf("asked for: %llu cards; ", (unsigned long long)cards());
    wrong += cards() < ASKED_FOR;
    wrong += grow_to(0, ASKED_FOR, before);
    return wrong + (elltree_map_free(map) != ELLTREE_YES);
}

int main(void) {
    const long wrong = after_a_crowd(0) + with_cards_asked_for() + after_a_crowd(1);
    printf("%ld wrong\n", wrong);
    return wrong != 0;
}
