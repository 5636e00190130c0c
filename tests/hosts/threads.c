/* Four threads of a host in one tree, each of which changes the keys of its own remainder: each answer is compared with a plain table of the
   thread's, and each find of a neighbor's key, and each look at one, has to tell a value that was made for that key. */
#include "elltree.h"
#include <pthread.h>
#include <stdio.h>

#ifndef OPS
#define OPS 60000
#endif
enum { THREADS = 4, KEYS = 4096, CARDS = 600000, TRIES = 1000 };

struct worker {
    struct elltree_handle handle;
    int id;
    uint64_t has[KEYS];
    long wrong, changed, looked;
};

/* Each value has its key in the low bits. */
static uint64_t value_of(uint64_t key, uint64_t random) { return (random | 1u << 20) << 12 | key; }

static void change(struct worker *w, uint64_t key, uint64_t random) {
    uint64_t value = value_of(key, random);
    int32_t said;
    if (random & 4) {
        said = elltree_insert(&w->handle, key, value, TRIES);
        w->wrong += said != (w->has[key] ? ELLTREE_NO : ELLTREE_YES);
        if (said == ELLTREE_YES)
            w->has[key] = value;
    } else {
        said = elltree_delete(&w->handle, key, TRIES);
        w->wrong += said != (w->has[key] ? ELLTREE_YES : ELLTREE_NO);
        w->has[key] = 0;
    }
    w->changed += said == ELLTREE_YES;
}

static void *work(void *given) {
    struct worker *w = given;
    uint64_t seed = 88172645463325252u + (uint64_t)w->id * 7919, got = 0;
    for (int i = 0; i < OPS; i++) {
        seed ^= seed << 13, seed ^= seed >> 7, seed ^= seed << 17;
        uint64_t any = (seed >> 20) % KEYS, key = any / THREADS * THREADS + (uint64_t)w->id;
        if (seed & 1) {
            change(w, key, seed);
        } else if (seed & 2) {
            int32_t said = seed & 4 ? elltree_find(&w->handle, key, &got) : elltree_look(&w->handle, key, &got);
            w->wrong += said != (w->has[key] ? ELLTREE_YES : ELLTREE_NO) || (said == ELLTREE_YES && got != w->has[key]);
        } else {
            int32_t said = seed & 4 ? elltree_find(&w->handle, any, &got) : elltree_look(&w->handle, any, &got);
            w->wrong += said < 0 || (said == ELLTREE_YES && got % KEYS != any);
            w->looked += said == ELLTREE_YES;
        }
    }
    return NULL;
}

/* Whether a range by a handle has what the tables of all threads have. */
static long differs(struct elltree_handle *handle, const struct worker *w) {
    static struct elltree_pair out[KEYS + 1];
    size_t count = 0, at = 0;
    uint64_t end = 0;
    long wrong = elltree_range(handle, 0, UINT64_MAX, out, KEYS + 1, &count, &end) != ELLTREE_YES || end != UINT64_MAX;
    for (uint64_t key = 0; key < KEYS; key++)
        if (w[key % THREADS].has[key]) {
            wrong += at >= count || out[at].key != key || out[at].value != w[key % THREADS].has[key];
            at++;
        }
    return wrong + (at != count);
}

int main(void) {
    static struct worker w[THREADS];
    static struct elltree_pair start[KEYS / 8];
    pthread_t threads[THREADS];
    long wrong = 0;
    for (uint64_t i = 0; i < KEYS / 8; i++) {
        start[i].key = 8 * i + 3;
        start[i].value = w[3].has[8 * i + 3] = value_of(8 * i + 3, i);
    }
    wrong += elltree_open(&w[0].handle, start, KEYS / 8, CARDS) != ELLTREE_YES;
    for (int t = 1; t < THREADS; t++)
        wrong += elltree_another(&w[0].handle, &w[t].handle) != ELLTREE_YES;
    for (int t = 0; t < THREADS; t++) {
        w[t].id = t;
        pthread_create(&threads[t], NULL, work, &w[t]);
    }
    for (int t = 0; t < THREADS; t++)
        pthread_join(threads[t], NULL);
    for (int t = 0; t < THREADS; t++) {
        uint64_t steps = 0;
        wrong += w[t].wrong + differs(&w[t].handle, w) + (elltree_steps(&w[t].handle, &steps) != ELLTREE_YES) + (steps < OPS);
        printf("thread %d: %ld changes, %ld keys looked up, %llu steps, %ld wrong\n", t, w[t].changed, w[t].looked, (unsigned long long)steps,
               w[t].wrong);
        wrong += elltree_free(&w[t].handle) != ELLTREE_YES;
    }
    printf("%ld wrong\n", wrong);
    return wrong != 0;
}
