/* A thread is stopped by a signal while it works on a map, most often inside a call.
   If it only reads, nothing waits for it: the calls of other threads go on, on its key too, through any number of changes, and so do snapshots. If it
   stands still inside a call, it holds back the cards of its tree, so that the map is renewed, which is enough once: it reads the old tree.
   If it changes a key, the others' calls go on too, also while a renewal waits for it. A renewal waits only if the thread is inside a call, and ends
   once it goes on. Other changes go on until they have used up the cards of the section, which it holds back, and then wait for it, while calls that
   read go on. Changes of keys of other sections go on all along, also those of more threads than there are processors. The stopped thread never
   renews by itself: calls that change keys would wait for a thread that is stopped while it has closed the
   barrier. */
#define _GNU_SOURCE
#include "elltree_map.h"
#include <pthread.h>
#include <signal.h>
#include <stdio.h>
#include <time.h>
#include <unistd.h>

enum { ROUNDS = 60, CALLS = 1000, PUTS = 100000, FEW = 300, ENOUGH = 3, MANY = 100000, BUDGET = 50000, STILL = 3000, LIMIT = 280 };
enum { WIDE = 20000, CROWD = 48 }; /* keys of a map of several sections, and threads */

static struct elltree_map *map;
static int is_stopped, may_go_on, is_over, reads;
static uint64_t added;
static long budget; /* how many calls the thread may make */

static void wait_a_while(void) {
    const struct timespec while_ = {0, 100000};
    nanosleep(&while_, NULL);
}

static void wait_until(int *it) {
    while (!__atomic_load_n(it, __ATOMIC_SEQ_CST))
        wait_a_while();
}

/* What the signal makes the thread do: it stays here until it may go on. */
static void stop(int number) {
    (void)number;
    __atomic_store_n(&is_stopped, 1, __ATOMIC_SEQ_CST);
    wait_until(&may_go_on);
    __atomic_store_n(&is_stopped, 0, __ATOMIC_SEQ_CST);
}

static void *work(void *given) {
    uint64_t was;
    long *wrong = given;
    while (!__atomic_load_n(&is_over, __ATOMIC_SEQ_CST)) {
        if (reads)
            *wrong += elltree_map_get(map, 1, &was) != ELLTREE_YES;
        else if (__atomic_fetch_sub(&budget, 1, __ATOMIC_SEQ_CST) > 0) {
            *wrong += elltree_map_fetch_add(map, 1, 1, &was) != ELLTREE_YES;
            added++;
        }
    }
    return NULL;
}

static uint64_t renewals(void) {
    struct elltree_map_counters counts = {0, 0, 0, 0, 0, 0, 0};
    return elltree_map_counts(map, &counts, sizeof counts) == ELLTREE_YES ? counts.renewals : 0;
}

/* A map of so many keys from 1 on, and a thread that is stopped at work on the first. */
static long begin(size_t keys, uint64_t cards, pthread_t *worker, long *worker_wrong) {
    static struct elltree_pair start[WIDE];
    struct elltree_map_settings settings = ELLTREE_MAP_SETTINGS;
    long wrong;
    for (size_t i = 0; i < keys; i++)
        start[i] = (struct elltree_pair){i + 1, 0};
    settings.cards = cards;
    is_over = may_go_on = 0;
    added = 0;
    budget = BUDGET;
    wrong = elltree_map_from_sorted(&map, start, keys, &settings, sizeof settings) != ELLTREE_YES;
    pthread_create(worker, NULL, work, worker_wrong);
    wait_a_while();
    pthread_kill(*worker, SIGUSR1);
    wait_until(&is_stopped);
    return wrong;
}

static void let_go_on(void) { __atomic_store_n(&may_go_on, 1, __ATOMIC_SEQ_CST); }

static long end(pthread_t worker, uint64_t own) {
    uint64_t value = 0;
    long wrong;
    __atomic_store_n(&is_over, 1, __ATOMIC_SEQ_CST);
    pthread_join(worker, NULL);
    wrong = elltree_map_get(map, 1, &value) != ELLTREE_YES || value != own + added;
    return wrong + (elltree_map_free(map) != ELLTREE_YES);
}

/* Calls on the key that the stopped thread may be at, and on others. */
static long call(uint64_t calls, uint64_t *own) {
    long wrong = 0;
    uint64_t was;
    for (uint64_t i = 0; i < calls; i++) {
        wrong += elltree_map_fetch_add(map, 1, 1, &was) != ELLTREE_YES;
        wrong += elltree_map_put(map, 2 + i % 8, i, &was) < 0;
        wrong += elltree_map_get(map, 2 + i % 8, &was) != ELLTREE_YES || was != i;
        ++*own;
    }
    return wrong;
}

/* The thread reads, and is stopped for as long as this takes. It holds back the cards of one tree at most. */
static long stop_reader(long *renewed) {
    struct elltree_pair out[16];
    pthread_t worker;
    uint64_t own = 0, before;
    size_t count;
    long worker_wrong = 0, wrong;
    reads = 1;
    wrong = begin(1, FEW, &worker, &worker_wrong);
    before = renewals();
    wrong += call(PUTS, &own) + (renewals() > before + ENOUGH);
    *renewed += renewals() > before;
    wrong += elltree_map_pairs(map, out, 16, &count) != ELLTREE_YES || count != 9;
    wrong += elltree_map_renew(map) != ELLTREE_YES;
    let_go_on();
    return wrong + end(worker, own) + worker_wrong;
}

static void *renew(void *given) {
    *(long *)given += elltree_map_renew(map) != ELLTREE_YES;
    return NULL;
}

/* The thread changes a key. Others' calls go on, and a renewal may wait. */
static long stop_writer(long *waited) {
    pthread_t worker, renewing;
    uint64_t own = 0, before;
    long worker_wrong = 0, late = 0, wrong;
    reads = 0;
    wrong = begin(1, MANY, &worker, &worker_wrong);
    before = renewals();
    wrong += call(CALLS, &own) + (renewals() != before);
    pthread_create(&renewing, NULL, renew, &late);
    wait_a_while();
    wrong += call(CALLS / 4, &own);
    *waited += renewals() == before;
    let_go_on();
    pthread_join(renewing, NULL);
    wrong += late + (renewals() == before);
    return wrong + end(worker, own) + worker_wrong;
}

/* How many calls have ended of a thread that uses up all cards. On a busy machine it may be kept from work for a while too. */
static uint64_t ended;

static void *use_up(void *given) {
    uint64_t was;
    for (uint64_t i = 0; i < 3 * MANY; i++) {
        *(long *)given += elltree_map_put(map, 2 + i % 8, i, &was) < 0;
        __atomic_store_n(&ended, i, __ATOMIC_SEQ_CST);
    }
    return NULL;
}

/* The thread changes a key, and another one finds no card, after it has made many calls: it waits, and calls that read go on meanwhile. */
static long stop_writer_at_the_end(long *waited) {
    pthread_t worker, user;
    uint64_t value, before;
    long worker_wrong = 0, user_wrong = 0, wrong;
    reads = 0;
    __atomic_store_n(&ended, 0, __ATOMIC_SEQ_CST);
    wrong = begin(1, MANY, &worker, &worker_wrong);
    pthread_create(&user, NULL, use_up, &user_wrong);
    do {
        before = __atomic_load_n(&ended, __ATOMIC_SEQ_CST);
        for (int i = 0; i < STILL; i++)
            wait_a_while();
        for (int i = 0; i < CALLS; i++)
            wrong += elltree_map_get(map, 1, &value) != ELLTREE_YES;
    } while (before != __atomic_load_n(&ended, __ATOMIC_SEQ_CST));
    if (before < 3 * MANY - 1) {
        ++*waited;
        wrong += before < MANY / 2;
    }
    let_go_on();
    pthread_join(user, NULL);
    return wrong + end(worker, 0) + user_wrong + worker_wrong;
}

struct member {
    uint64_t key;
    long wrong;
};

static void *come_and_go(void *given) {
    struct member *it = given;
    for (int i = 0; i < 10 * CALLS; i++)
        it->wrong += (i % 2 ? elltree_map_insert(map, it->key, 1) : elltree_map_delete(map, it->key)) != ELLTREE_YES;
    return NULL;
}

/* The thread changes a key, and meanwhile many threads make all their changes of keys of another section, which have cards enough. */
static long stop_writer_elsewhere(void) {
    struct member members[CROWD];
    pthread_t worker, threads[CROWD];
    long worker_wrong = 0, wrong;
    reads = 0;
    wrong = begin(WIDE, 0, &worker, &worker_wrong);
    for (uint64_t t = 0; t < CROWD; t++) {
        members[t] = (struct member){WIDE - t, 0};
        pthread_create(&threads[t], NULL, come_and_go, &members[t]);
    }
    for (int t = 0; t < CROWD; t++) {
        pthread_join(threads[t], NULL);
        wrong += members[t].wrong;
    }
    let_go_on();
    return wrong + end(worker, 0) + worker_wrong;
}

int main(void) {
    struct sigaction action = {0};
    long wrong = 0, waited = 0, for_cards = 0, renewed = 0;
    int readers = 0, at_the_end = 0;
    action.sa_handler = stop;
    alarm(LIMIT); /* if a call waits for ever */
    wrong += sigaction(SIGUSR1, &action, NULL) != 0;
    for (; readers < ROUNDS / 10 || (!renewed && readers < ROUNDS); readers++) /* the thread may be between two calls */
        wrong += stop_reader(&renewed);
    for (int i = 0; i < ROUNDS; i++)
        wrong += stop_writer(&waited);
    for (int i = 0; i < ROUNDS / 20; i++)
        wrong += stop_writer_elsewhere();
    for (; at_the_end < ROUNDS / 10 || (!for_cards && at_the_end < ROUNDS); at_the_end++) /* on a busy machine it may take more */
        wrong += stop_writer_at_the_end(&for_cards);
    wrong += (renewed == 0) + (waited == 0) + (for_cards == 0);
    printf("%d stops, %ld of a reader that held back cards, in %ld a renewal waited, and in %ld a call without a card, %ld wrong\n",
           readers + ROUNDS + ROUNDS / 20 + at_the_end, renewed, waited, for_cards, wrong);
    return wrong != 0;
}
