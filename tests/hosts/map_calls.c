/* Calls of a map that are made of others, and what all calls do without a pointer to write to, and with keys that are too great. Threads that get or
   insert the same keys agree on the value of each, and one of them adds it; beside threads that take keys away, each value that is told was inserted.
   Threads that take a key away with their own value alone exclude each other by it. Threads that empty a map from both ends get each pair once, in
   order, and threads that empty one while another fills it get each pair once. The map renews itself meanwhile. Callers may know fewer settings and
   counters than the library, or more. */
#define _GNU_SOURCE
#include "elltree_map.h"
#include <pthread.h>
#include <stdio.h>
#include <stdlib.h>
#include <string.h>

#ifndef KEYS
#define KEYS 30000
#endif
enum { THREADS = 6, CARDS = 3000, FEW = 4 };

static struct elltree_map *map;
static unsigned char times_told[KEYS]; /* how often each pair was taken */

struct worker {
    uint64_t number, seed, told[KEYS];
    long added, taken, wrong;
};
static struct worker workers[THREADS];

static uint64_t next(uint64_t *seed) { return *seed ^= *seed << 13, *seed ^= *seed >> 7, *seed ^= *seed << 17; }

static long make_map(const struct elltree_pair *pairs, size_t count) {
    struct elltree_map_settings settings = ELLTREE_MAP_SETTINGS;
    settings.cards = CARDS;
    return elltree_map_from_sorted(&map, pairs, count, &settings, sizeof settings) != ELLTREE_YES;
}

static long end_map(const char *what, long wrong) {
    struct elltree_map_counters counts = {0, 0, 0, 0, 0, 0, 0};
    wrong += elltree_map_counts(map, &counts, sizeof counts) != ELLTREE_YES;
    printf("%s: %llu sections, %llu renewals, %ld wrong\n", what, (unsigned long long)counts.sections, (unsigned long long)counts.renewals, wrong);
    elltree_map_free(map);
    return wrong;
}

/* Runs the threads, each on its worker, and returns what went wrong. */
static long run_threads(void *(*work)(void *)) {
    pthread_t running[THREADS];
    long wrong = 0;
    memset(workers, 0, sizeof workers);
    memset(times_told, 0, sizeof times_told);
    for (uint64_t t = 0; t < THREADS; t++) {
        workers[t].number = t;
        workers[t].seed = 88172645463325252u + t * 7919;
        pthread_create(&running[t], NULL, work, &workers[t]);
    }
    for (int t = 0; t < THREADS; t++) {
        pthread_join(running[t], NULL);
        wrong += workers[t].wrong;
    }
    return wrong;
}

/* Threads that get or insert. */

/* A value that tells its key and the thread that inserted it. */
static uint64_t value_of(uint64_t key, const struct worker *w) { return key * THREADS + w->number; }

static void *get_or_insert_all(void *given) {
    struct worker *w = given;
    for (uint64_t key = 0; key < KEYS; key++) {
        const int32_t said = elltree_map_get_or_insert(map, key, value_of(key, w), &w->told[key]);
        w->added += said == ELLTREE_YES;
        w->wrong += said < 0 || (said == ELLTREE_YES) != (w->told[key] == value_of(key, w));
    }
    return NULL;
}

static long agree(void) {
    long wrong = make_map(NULL, 0), added = 0;
    wrong += run_threads(get_or_insert_all);
    for (int t = 0; t < THREADS; t++) {
        added += workers[t].added;
        for (uint64_t key = 0; key < KEYS; key++)
            wrong += workers[t].told[key] != workers[0].told[key];
    }
    return end_map("get or insert", wrong + (added != KEYS));
}

static void *insert_and_take(void *given) {
    struct worker *w = given;
    for (long i = 0; i < KEYS; i++) {
        const uint64_t key = next(&w->seed) >> 20 & (FEW - 1);
        uint64_t told = 0;
        int32_t said;
        if (next(&w->seed) >> 30 & 1) {
            said = elltree_map_get_or_insert(map, key, value_of(key, w), &told);
            w->added += said == ELLTREE_YES;
            w->wrong += said < 0 || told / THREADS != key || (said == ELLTREE_YES && told != value_of(key, w));
        } else {
            said = elltree_map_remove(map, key, &told);
            w->taken += said == ELLTREE_YES;
            w->wrong += said < 0 || (said == ELLTREE_YES && told / THREADS != key);
        }
    }
    return NULL;
}

static long come_and_go(void) {
    long wrong = make_map(NULL, 0), added = 0;
    size_t left = 0;
    wrong += run_threads(insert_and_take);
    for (int t = 0; t < THREADS; t++)
        added += workers[t].added - workers[t].taken;
    wrong += elltree_map_len(map, &left) != ELLTREE_YES || (long)left != added;
    return end_map("keys that come and go", wrong);
}

/* Each key is a lock, which a thread has while its value is there. */

static int inside[FEW];

static void *lock_and_unlock(void *given) {
    struct worker *w = given;
    for (long i = 0; i < KEYS; i++) {
        const uint64_t key = next(&w->seed) >> 20 & (FEW - 1);
        uint64_t told = 0;
        int32_t said = elltree_map_get_or_insert(map, key, value_of(key, w), NULL);
        if (said == ELLTREE_YES) {
            w->wrong += __atomic_add_fetch(&inside[key], 1, __ATOMIC_SEQ_CST) != 1;
            __atomic_sub_fetch(&inside[key], 1, __ATOMIC_SEQ_CST);
            w->wrong += elltree_map_remove_if(map, key, value_of(key, w), &told) != ELLTREE_YES || told != 0;
            w->taken++;
        } else {
            said = elltree_map_remove_if(map, key, value_of(key, w), &told);
            w->wrong += said != ELLTREE_NO && (said != ELLTREE_OTHER_VALUE || told / THREADS != key || told == value_of(key, w));
        }
    }
    return NULL;
}

static long locks(void) {
    long wrong = make_map(NULL, 0), taken = 0;
    wrong += run_threads(lock_and_unlock);
    for (int t = 0; t < THREADS; t++)
        taken += workers[t].taken;
    wrong += elltree_map_is_empty(map) != ELLTREE_YES || taken == 0;
    return end_map("keys as locks", wrong);
}

/* Threads that empty a map. */

/* Notes a pair that was taken: its value is that of its key. */
static void note(struct worker *w, uint64_t key, uint64_t value) {
    w->taken++;
    w->wrong += key >= KEYS || value != key * 3;
    if (key < KEYS)
        __atomic_add_fetch(&times_told[key], 1, __ATOMIC_SEQ_CST);
}

static long each_once(void) {
    long wrong = 0, taken = 0;
    for (int t = 0; t < THREADS; t++)
        taken += workers[t].taken;
    for (int key = 0; key < KEYS; key++)
        wrong += times_told[key] != 1;
    return wrong + (taken != KEYS) + (elltree_map_is_empty(map) != ELLTREE_YES);
}

/* Takes pairs from one end until there are none. */
static void *empty(void *given) {
    struct worker *w = given;
    uint64_t key = 0, value = 0, last = 0;
    int32_t said;
    while ((said = w->number % 2 ? elltree_map_pop_last(map, &key, &value) : elltree_map_pop_first(map, &key, &value)) == ELLTREE_YES) {
        w->wrong += w->taken && (w->number % 2 ? key >= last : key <= last);
        note(w, last = key, value);
    }
    w->wrong += said != ELLTREE_NO;
    return NULL;
}

static long from_both_ends(void) {
    static struct elltree_pair pairs[KEYS];
    long wrong;
    for (uint64_t key = 0; key < KEYS; key++)
        pairs[key] = (struct elltree_pair){key, key * 3};
    wrong = make_map(pairs, KEYS);
    wrong += run_threads(empty);
    return end_map("pops from both ends", wrong + each_once());
}

/* Whether the first thread has added all of its keys. */
static int is_filled;

/* The first thread adds ascending keys, and the others take the first ones. */
static void *fill_or_empty(void *given) {
    struct worker *w = given;
    uint64_t key = 0, value = 0;
    int32_t said = ELLTREE_NO;
    for (uint64_t i = 0; i < KEYS && !w->number; i++)
        w->wrong += elltree_map_insert(map, i, i * 3) != ELLTREE_YES;
    if (!w->number)
        __atomic_store_n(&is_filled, 1, __ATOMIC_SEQ_CST);
    while (said == ELLTREE_YES || !__atomic_load_n(&is_filled, __ATOMIC_SEQ_CST)) {
        said = elltree_map_pop_first(map, &key, &value);
        w->wrong += said < 0;
        if (said == ELLTREE_YES)
            note(w, key, value);
    }
    return NULL;
}

static long queue(void) {
    long wrong = make_map(NULL, 0);
    wrong += run_threads(fill_or_empty);
    empty(&workers[0]); /* a pop that began before the last keys were there may have told that there are none */
    return end_map("a queue", wrong + workers[0].wrong + each_once());
}

/* One thread. */

static long answers(void) {
    const struct elltree_pair pairs[] = {{0, 5}, {2, 20}, {4, 40}, {ELLTREE_KEY_MAX, 60}};
    uint64_t key = 0, value = 0;
    long wrong = make_map(pairs, 4);
    wrong += elltree_map_get_or_insert(map, 2, 21, &value) != ELLTREE_NO || value != 20;
    wrong += elltree_map_get_or_insert(map, 3, 30, &value) != ELLTREE_YES || value != 30;
    wrong += elltree_map_get_or_insert(map, 3, 31, NULL) != ELLTREE_NO || elltree_map_get_or_insert(map, 9, 90, NULL) != ELLTREE_YES;
    wrong += elltree_map_pop_first(map, &key, &value) != ELLTREE_YES || key != 0 || value != 5;
    wrong += elltree_map_pop_last(map, &key, &value) != ELLTREE_YES || key != ELLTREE_KEY_MAX || value != 60;
    wrong += elltree_map_pop_last(map, NULL, &value) != ELLTREE_YES || value != 90;
    wrong += elltree_map_pop_first(map, &key, NULL) != ELLTREE_YES || key != 2;
    wrong += elltree_map_pop_first(map, NULL, NULL) != ELLTREE_YES || elltree_map_pop_last(map, &key, &value) != ELLTREE_YES || key != 4;
    wrong += elltree_map_pop_first(map, &key, &value) != ELLTREE_NO || elltree_map_pop_last(map, &key, &value) != ELLTREE_NO || key != 4;
    wrong += elltree_map_insert(map, 5, 50) != ELLTREE_YES || elltree_map_remove_if(map, 6, 50, &value) != ELLTREE_NO;
    value = 7;
    wrong += elltree_map_remove_if(map, 5, 51, &value) != ELLTREE_OTHER_VALUE || value != 50 || elltree_map_get(map, 5, NULL) != ELLTREE_YES;
    wrong += elltree_map_remove_if(map, 5, 51, NULL) != ELLTREE_OTHER_VALUE || elltree_map_remove_if(map, 5, 50, NULL) != ELLTREE_YES;
    wrong += elltree_map_is_empty(map) != ELLTREE_YES || elltree_map_remove_if(NULL, 5, 50, &value) != ELLTREE_NULL;
    wrong += elltree_map_get_or_insert(NULL, 1, 1, &value) != ELLTREE_NULL || elltree_map_pop_first(NULL, &key, &value) != ELLTREE_NULL;
    wrong += elltree_map_pop_last(NULL, &key, &value) != ELLTREE_NULL;
    return end_map("answers", wrong);
}

static uint64_t one_more(uint64_t value, void *context) { return value + (context == NULL); }

/* Each call without what it tells. */
static long unwanted(void) {
    const struct elltree_pair pairs[] = {{2, 20}, {4, 40}};
    struct elltree_pair out[4];
    uint64_t value = 0;
    long wrong = make_map(NULL, 0);
    wrong += elltree_map_extend(map, pairs, 2, NULL) != ELLTREE_YES;
    wrong += elltree_map_get(map, 2, NULL) != ELLTREE_YES || elltree_map_get(map, 3, NULL) != ELLTREE_NO;
    wrong += elltree_map_put(map, 2, 22, NULL) != ELLTREE_YES || elltree_map_put(map, 3, 30, NULL) != ELLTREE_NO;
    wrong += elltree_map_fetch_add(map, 2, 1, NULL) != ELLTREE_YES || elltree_map_update(map, 2, one_more, NULL, NULL) != ELLTREE_YES;
    wrong += elltree_map_get(map, 2, &value) != ELLTREE_YES || value != 24;
    wrong += elltree_map_remove(map, 3, NULL) != ELLTREE_YES || elltree_map_remove(map, 3, NULL) != ELLTREE_NO;
    wrong += elltree_map_range(map, 0, UINT64_MAX, out, 4, NULL, NULL) != ELLTREE_YES || out[0].value != 24 || out[1].key != 4;
    wrong += elltree_map_next_at_least(map, 3, NULL, &value) != ELLTREE_YES || value != 40;
    wrong += elltree_map_next_after(map, 2, &value, NULL) != ELLTREE_YES || value != 4 || elltree_map_next_after(map, 4, NULL, NULL) != ELLTREE_NO;
    wrong += elltree_map_last_at_most(map, 3, NULL, &value) != ELLTREE_YES || value != 24;
    wrong += elltree_map_last_before(map, 4, &value, NULL) != ELLTREE_YES || value != 2 || elltree_map_last_before(map, 2, NULL, NULL) != ELLTREE_NO;
    wrong += elltree_map_first(map, NULL, NULL) != ELLTREE_YES || elltree_map_last(map, NULL, NULL) != ELLTREE_YES;
    wrong += elltree_map_len(map, NULL) != ELLTREE_YES || elltree_map_counts(map, NULL, 0) != ELLTREE_YES;
    wrong += elltree_map_pairs(map, out, 4, NULL) != ELLTREE_YES || elltree_map_pairs(map, out, 1, NULL) != ELLTREE_NO_ROOM;
    wrong += elltree_map_len(NULL, NULL) != ELLTREE_NULL || elltree_map_counts(NULL, NULL, 0) != ELLTREE_NULL;
    return end_map("what nobody wants", wrong);
}

/* A key that is too great is absent to a call that reads, and refused by one that changes keys. */
static long above(uint64_t key) {
    const struct elltree_pair pairs[] = {{2, 20}, {ELLTREE_KEY_MAX, 60}}, too_great = {key, 1};
    struct elltree_pair out[2];
    uint64_t value = 7, found = 7;
    size_t count = 7, done = 7;
    long wrong = make_map(pairs, 2);
    wrong += elltree_map_get(map, key, &value) != ELLTREE_NO || elltree_map_next_at_least(map, key, &found, &value) != ELLTREE_NO;
    wrong += elltree_map_next_after(map, key, &found, &value) != ELLTREE_NO || value != 7 || found != 7;
    wrong += elltree_map_last_at_most(map, key, &found, &value) != ELLTREE_YES || found != ELLTREE_KEY_MAX;
    wrong += elltree_map_last_before(map, key, &found, &value) != ELLTREE_YES || found != ELLTREE_KEY_MAX;
    wrong += elltree_map_range(map, key, UINT64_MAX, out, 2, &count, &found) != ELLTREE_YES || count != 0 || found != UINT64_MAX;
    wrong += elltree_map_insert(map, key, 1) != ELLTREE_BAD_KEY || elltree_map_put(map, key, 1, &value) != ELLTREE_BAD_KEY;
    wrong += elltree_map_remove(map, key, &value) != ELLTREE_BAD_KEY || elltree_map_delete(map, key) != ELLTREE_BAD_KEY;
    wrong += elltree_map_compare_exchange(map, key, &value, 1) != ELLTREE_BAD_KEY || elltree_map_fetch_add(map, key, 1, &value) != ELLTREE_BAD_KEY;
    wrong += elltree_map_update(map, key, one_more, NULL, &value) != ELLTREE_BAD_KEY || elltree_map_remove_if(map, key, 1, &value) != ELLTREE_BAD_KEY;
    wrong += elltree_map_get_or_insert(map, key, 1, &value) != ELLTREE_BAD_KEY || value != 60;
    wrong += elltree_map_extend(map, &too_great, 1, &done) != ELLTREE_BAD_KEY || done != 0;
    return end_map("a key that is too great", wrong);
}

/* Where a caller's counters are: the library writes to no byte in front of them or behind them. */
enum { KNOWN = sizeof(struct elltree_map_counters), MORE = 32, GUARD = 0xA5 };

/* How many bytes are not as they should be, after a call with counters of this size: members that both know are those of the map, those that the
   library does not know are 0, and nothing is written to what surrounds them. A size may end within a member. */
static long miscounted(const struct elltree_map_counters *counts, size_t size) {
    static _Alignas(16) unsigned char out[MORE + KNOWN + MORE + MORE];
    const unsigned char *right = (const unsigned char *)counts;
    long wrong;
    memset(out, GUARD, sizeof out);
    wrong = elltree_map_counts(map, (void *)(out + MORE), size) != ELLTREE_YES;
    for (size_t i = 0; i < sizeof out; i++) {
        const size_t at = i - MORE; /* a great number in front of the counters */
        if (at >= size)
            wrong += out[i] != GUARD;
        else if (at < size / sizeof(uint64_t) * sizeof(uint64_t))
            wrong += out[i] != (at < KNOWN ? right[at] : 0);
    }
    return wrong;
}

/* Makes a map by the first bytes of settings, with others behind them if there are more, and writes how many cards it has. The block ends with
   them, or has more that are not the caller's settings. */
static long made_by(const struct elltree_map_settings *settings, size_t size, size_t behind, uint64_t *cards) {
    struct elltree_map_counters counts = {0, 0, 0, 0, 0, 0, 0};
    void *given = malloc(size + behind);
    long wrong = !given;
    if (wrong)
        return wrong;
    memset(given, 0xFF, size + behind);
    memcpy(given, settings, size < sizeof *settings ? size : sizeof *settings);
    wrong += elltree_map_from_sorted(&map, NULL, 0, given, size) != ELLTREE_YES;
    wrong += elltree_map_counts(map, &counts, sizeof counts) != ELLTREE_YES;
    *cards = counts.cards;
    wrong += elltree_map_put(map, 1, 10, NULL) != ELLTREE_NO || elltree_map_free(map) != ELLTREE_YES;
    free(given);
    return wrong;
}

/* A caller's header may know fewer settings and counters than the library, or more. */
static long sizes(void) {
    struct elltree_map_settings settings = ELLTREE_MAP_SETTINGS;
    struct elltree_map_counters counts;
    uint64_t usual = 0, cards = 0;
    long wrong = made_by(&settings, sizeof settings, 0, &usual) + (usual == CARDS || usual == 0);
    settings.cards = CARDS;
    settings.calls = 64;
    for (size_t size = 0; size <= sizeof settings + MORE; size += 4) {
        if (size == 4) /* half of a number */
            continue;
        for (size_t behind = 0; behind <= MORE; behind += MORE)
            wrong += made_by(&settings, size, behind, &cards) || cards != (size ? CARDS : usual);
    }
    wrong += make_map(NULL, 0) + (elltree_map_renew(map) != ELLTREE_YES);
    wrong += elltree_map_counts(map, &counts, sizeof counts) != ELLTREE_YES || counts.renewals == 0 || counts.cards == 0;
    for (size_t size = 0; size <= KNOWN + MORE; size++)
        wrong += miscounted(&counts, size);
    wrong += elltree_map_counts(map, NULL, sizeof counts) != ELLTREE_YES;
    return end_map("other sizes of settings and counters", wrong);
}

int main(void) {
    long wrong = answers() + unwanted() + sizes() + above(ELLTREE_KEY_MAX + 1) + above(UINT64_MAX);
    wrong += agree() + come_and_go() + locks() + from_both_ends() + queue();
    printf("%ld wrong\n", wrong);
    return wrong != 0;
}
