/* Two threads call on one handle at once, which nobody ordered: each call is answered rightly, or by ELLTREE_IN_CALL. Then four threads, each with a
   handle, try each change once, on neighboring keys of their own: an answer is right, or ELLTREE_BUSY, after which the key is as it was. */
#include "elltree.h"
#include <pthread.h>
#include <stdio.h>

enum { CALLS = 300000, THREADS = 4, CHANGES = 20000, ROUNDS = 200 };
static struct elltree_handle one = ELLTREE_EMPTY, parts[THREADS];
static long in_call, busy, wrong;

static void add(long *to, long count) { __atomic_add_fetch(to, count, __ATOMIC_SEQ_CST); }

static void *find(void *given) {
    long met = 0, faults = 0;
    (void)given;
    for (int i = 0; i < CALLS; i++) {
        uint64_t value = 0;
        int32_t said = elltree_find(&one, 1, &value);
        met += said == ELLTREE_IN_CALL;
        faults += said != ELLTREE_IN_CALL && (said != ELLTREE_YES || value != 5);
    }
    add(&in_call, met), add(&wrong, faults);
    return NULL;
}

static void *change(void *given) {
    long id = (long)given, met = 0, faults = 0;
    int there[2] = {0, 0};
    for (int i = 0; i < CHANGES; i++) {
        int which = i >> 1 & 1;
        uint64_t key = (uint64_t)(which * THREADS + id), value;
        int32_t want = there[which] ? ELLTREE_YES : ELLTREE_NO;
        int32_t said = i & 1 ? elltree_delete(&parts[id], key, 1) : elltree_insert(&parts[id], key, 1, 1);
        if (said == ELLTREE_BUSY)
            met++;
        else
            faults += said != (i & 1 ? want : ELLTREE_YES - want), there[which] = !(i & 1);
        faults += elltree_find(&parts[id], key, &value) != (there[which] ? ELLTREE_YES : ELLTREE_NO);
    }
    add(&busy, met), add(&wrong, faults);
    return NULL;
}

/* Runs so many threads. */
static void run(void *(*work)(void *), long count) {
    pthread_t threads[THREADS];
    for (long t = 0; t < count; t++)
        pthread_create(&threads[t], NULL, work, (void *)t);
    for (long t = 0; t < count; t++)
        pthread_join(threads[t], NULL);
}

int main(void) {
    const struct elltree_pair start = {1, 5};
    wrong += elltree_open(&one, &start, 1, 100) != ELLTREE_YES;
    for (int round = 0; round < ROUNDS && !in_call; round++)
        run(find, 2);
    wrong += elltree_free(&one) != ELLTREE_YES;
    for (int round = 0; round < ROUNDS && !busy; round++) {
        wrong += elltree_open(&parts[0], NULL, 0, ELLTREE_CARDS_MAX) != ELLTREE_YES;
        for (int t = 1; t < THREADS; t++)
            wrong += elltree_another(&parts[0], &parts[t]) != ELLTREE_YES;
        run(change, THREADS);
        for (int t = 0; t < THREADS; t++)
            wrong += elltree_free(&parts[t]) != ELLTREE_YES;
    }
    printf("%ld calls met another on their handle, %ld changes were hindered, %ld wrong\n", in_call, busy, wrong);
    return wrong != 0 || !in_call || !busy;
}
