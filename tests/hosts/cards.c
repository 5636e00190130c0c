/* Four threads change neighboring keys of a tree, each its own, and compare each answer with a plain table. In every other tree each asks before
   a change whether enough cards are left for all of them, and stops where they are not: so no call is refused by ELLTREE_SPENT. In the others
   they go on until all cards are given out: then what is refused changes nothing, while finds, looks and ranges go on. Then a new tree with fresh
   cards begins with the pairs of the old one. */
#include "elltree.h"
#include <pthread.h>
#include <stdio.h>

/* Each thread has one change under way at most, which takes a card, or up to as many as it has tries, if others hinder it. */
enum { THREADS = 4, EACH = 64, KEYS = THREADS * EACH, TRIES = 1000, ENOUGH = THREADS * TRIES, CARDS = 20000, TREES = 40 };

struct worker {
    _Alignas(128) struct elltree_handle handle;
    uint64_t number, seed, value[EACH];
    int there[EACH], is_frugal;
    long wrong, changes;
};
static struct worker workers[THREADS];

static uint64_t next(uint64_t *seed) { return *seed ^= *seed << 13, *seed ^= *seed >> 7, *seed ^= *seed << 17; }

/* Whether a handle finds a key as the table of its thread has it. */
static long differs(struct elltree_handle *handle, uint64_t key) {
    const struct worker *w = &workers[key % THREADS];
    const uint64_t place = key / THREADS;
    uint64_t found = 0, looked = 0;
    const int32_t code = w->there[place] ? ELLTREE_YES : ELLTREE_NO;
    long wrong = elltree_find(handle, key, &found) != code || elltree_look(handle, key, &looked) != code;
    return wrong + (w->there[place] && (found != w->value[place] || looked != w->value[place]));
}

/* Changes a key of the thread's own: ELLTREE_YES, or why it has not changed. */
static int32_t change(struct worker *w, uint64_t place, uint64_t value) {
    const uint64_t key = place * THREADS + w->number;
    uint64_t was = w->value[place];
    const int there = w->there[place];
    int32_t said;
    if (there && value & 1) {
        said = elltree_put(&w->handle, key, value, TRIES, &was);
    } else if (there) {
        said = elltree_take(&w->handle, key, TRIES, &was);
    } else {
        said = elltree_insert(&w->handle, key, value, TRIES);
    }
    w->wrong += was != w->value[place];
    if (said == ELLTREE_YES) {
        w->there[place] = !there || value & 1;
        w->value[place] = value;
    }
    return said;
}

/* Changes keys until cards are scarce, or all of them are given out. */
static void *work(void *at) {
    struct worker *w = at;
    int32_t said = ELLTREE_YES;
    while (said == ELLTREE_YES) {
        uint64_t left = ENOUGH, place = next(&w->seed) >> 20 & (EACH - 1);
        w->wrong += w->is_frugal && elltree_cards_left(&w->handle, &left) != ELLTREE_YES;
        if (left < ENOUGH)
            return NULL;
        said = change(w, place, next(&w->seed) >> 9);
        w->changes += said == ELLTREE_YES;
        w->wrong += differs(&w->handle, place * THREADS + w->number);
    }
    w->wrong += w->is_frugal || said != ELLTREE_SPENT;
    for (uint64_t place = 0; place < EACH; place++)
        w->wrong += differs(&w->handle, place * THREADS + w->number);
    return NULL;
}

/* Each handle finds each key as its thread left it, a range has the same pairs, and as many cards are left as there should be. */
static long differ(int is_frugal, struct elltree_pair *pairs, size_t *count) {
    uint64_t left = 0, end = 0;
    size_t at = 0;
    long wrong = elltree_range(&workers[1].handle, 0, KEYS, pairs, KEYS, count, &end) != ELLTREE_YES || end != KEYS;
    wrong += elltree_cards_left(&workers[2].handle, &left) != ELLTREE_YES || (is_frugal ? left == 0 || left >= ENOUGH : left != 0);
    for (uint64_t key = 0; key < KEYS; key++) {
        const struct worker *w = &workers[key % THREADS];
        for (int t = 0; t < THREADS; t++)
            wrong += differs(&workers[t].handle, key);
        if (w->there[key / THREADS]) {
            wrong += at >= *count || pairs[at].key != key || pairs[at].value != w->value[key / THREADS];
            at++;
        }
    }
    return wrong + (at != *count);
}

/* Opens a tree with these pairs and fresh cards. */
static long open_all(const struct elltree_pair *pairs, size_t count) {
    uint64_t left = 0;
    long wrong = elltree_open(&workers[0].handle, pairs, count, CARDS) != ELLTREE_YES;
    for (int t = 1; t < THREADS; t++)
        wrong += elltree_another(&workers[0].handle, &workers[t].handle) != ELLTREE_YES;
    return wrong + (elltree_cards_left(&workers[3].handle, &left) != ELLTREE_YES || left != CARDS);
}

int main(void) {
    static struct elltree_pair pairs[KEYS];
    pthread_t threads[THREADS];
    size_t count = 0;
    long changes = 0, wrong = 0;
    for (int tree = 0; tree < TREES; tree++) {
        wrong += open_all(pairs, count);
        for (int t = 0; t < THREADS; t++) {
            workers[t].number = (uint64_t)t;
            workers[t].seed = 88172645463325252u + (uint64_t)(tree * THREADS + t) * 7919;
            workers[t].is_frugal = tree % 2;
            pthread_create(&threads[t], NULL, work, &workers[t]);
        }
        for (int t = 0; t < THREADS; t++)
            pthread_join(threads[t], NULL);
        wrong += differ(tree % 2, pairs, &count);
        for (int t = 0; t < THREADS; t++)
            wrong += elltree_free(&workers[t].handle) != ELLTREE_YES;
    }
    for (int t = 0; t < THREADS; t++) {
        wrong += workers[t].wrong;
        changes += workers[t].changes;
    }
    printf("%d trees, %ld changes, %ld wrong\n", TREES, changes, wrong);
    return wrong != 0 || changes < TREES * (CARDS - ENOUGH) / 4;
}
