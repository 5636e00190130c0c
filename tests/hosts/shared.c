/* Two threads of a host, and then four, that insert and delete the same few keys of a tree. Each yes is matched: of each key,
   the inserts that answered yes are as many as the deletes that did, or one more where the key is present at the end, counting a start key as
   an insert. Then four threads insert one absent key at once, and delete it at once, again and again: each time just one of them answers yes. Four
   threads add to counters in both ways that there are, and no addition is lost. While a thread puts ascending values, the others find one each time,
   and never a lower one than before. */
#include "elltree.h"
#include <pthread.h>
#include <stdio.h>

#ifndef OPS
#define OPS 60000
#endif
enum { MOST = 4, KEYS = 6, CARDS = 600000, TRIES = 100000, RACES = 2000 };

struct worker {
    _Alignas(128) struct elltree_handle handle; /* in cache lines of its own */
    uint64_t seed;
    long inserted[KEYS], deleted[KEYS], found, wrong;
};

/* Few keys, far from each other. */
static uint64_t key_at(uint64_t place) { return place * 1000003 * 1000003; }

/* Each value tells its key. */
static uint64_t value_of(uint64_t place, uint64_t random) { return random / KEYS / 2 * KEYS + place; }

static void change(struct worker *w, uint64_t place) {
    int32_t said;
    if (w->seed & 4) {
        said = elltree_insert(&w->handle, key_at(place), value_of(place, w->seed), TRIES);
        w->inserted[place] += said == ELLTREE_YES;
    } else {
        said = elltree_delete(&w->handle, key_at(place), TRIES);
        w->deleted[place] += said == ELLTREE_YES;
    }
    w->wrong += said < 0;
}

static void *work(void *given) {
    struct worker *w = given;
    uint64_t got = 0;
    for (int i = 0; i < OPS; i++) {
        w->seed ^= w->seed << 13, w->seed ^= w->seed >> 7, w->seed ^= w->seed << 17;
        uint64_t place = (w->seed >> 20) % KEYS;
        if (w->seed & 1) {
            change(w, place);
        } else {
            int32_t said = w->seed & 2 ? elltree_find(&w->handle, key_at(place), &got) : elltree_look(&w->handle, key_at(place), &got);
            w->wrong += said < 0 || (said == ELLTREE_YES && got % KEYS != place);
            w->found += said == ELLTREE_YES;
        }
    }
    return NULL;
}

/* Whether each yes is matched by the others and by what is there: how many keys are not. */
static long unmatched(struct worker *w, int threads, const long *began) {
    long wrong = 0, size = 0;
    uint64_t got = 0;
    for (uint64_t place = 0; place < KEYS; place++) {
        long there = began[place];
        for (int t = 0; t < threads; t++)
            there += w[t].inserted[place] - w[t].deleted[place];
        wrong += there != (elltree_find(&w[0].handle, key_at(place), &got) == ELLTREE_YES);
        size += there;
    }
    printf("%d threads, %ld keys at the end, %ld not matched\n", threads, size, wrong);
    return wrong;
}

static long run(int threads) {
    static struct worker w[MOST];
    const struct elltree_pair start[2] = {{key_at(1), value_of(1, 0)}, {key_at(4), value_of(4, 0)}};
    const long began[KEYS] = {0, 1, 0, 0, 1, 0};
    pthread_t running[MOST];
    long wrong = elltree_open(&w[0].handle, start, 2, CARDS) != ELLTREE_YES;
    for (int t = 1; t < threads; t++)
        wrong += elltree_another(&w[0].handle, &w[t].handle) != ELLTREE_YES;
    for (int t = 0; t < threads; t++) {
        w[t].found = w[t].wrong = 0;
        w[t].seed = 88172645463325252u + (uint64_t)t * 7919;
        for (int place = 0; place < KEYS; place++)
            w[t].inserted[place] = w[t].deleted[place] = 0;
        pthread_create(&running[t], NULL, work, &w[t]);
    }
    for (int t = 0; t < threads; t++)
        pthread_join(running[t], NULL);
    wrong += unmatched(w, threads, began);
    for (int t = 0; t < threads; t++) {
        printf("thread %d: %ld found, %ld wrong\n", t, w[t].found, w[t].wrong);
        wrong += w[t].wrong + (w[t].found == 0);
    }
    for (int t = 1; t < threads; t++)
        wrong += elltree_free(&w[t].handle) != ELLTREE_YES;
    return wrong + unmatched(w, threads, began) + (elltree_free(&w[0].handle) != ELLTREE_YES);
}

struct racer {
    struct elltree_handle handle;
    int32_t inserted[RACES], deleted[RACES];
};

static pthread_barrier_t line;

static void *hurry(void *given) {
    struct racer *r = given;
    for (int i = 0; i < RACES; i++) {
        pthread_barrier_wait(&line);
        r->inserted[i] = elltree_insert(&r->handle, key_at(3), value_of(3, 7), TRIES);
        pthread_barrier_wait(&line);
        r->deleted[i] = elltree_delete(&r->handle, key_at(3), TRIES);
    }
    return NULL;
}

static long race(void) {
    static struct racer r[MOST];
    pthread_t running[MOST];
    long wrong = elltree_open(&r[0].handle, NULL, 0, CARDS) != ELLTREE_YES;
    for (int t = 1; t < MOST; t++)
        wrong += elltree_another(&r[0].handle, &r[t].handle) != ELLTREE_YES;
    pthread_barrier_init(&line, NULL, MOST);
    for (int t = 0; t < MOST; t++)
        pthread_create(&running[t], NULL, hurry, &r[t]);
    for (int t = 0; t < MOST; t++)
        pthread_join(running[t], NULL);
    for (int i = 0; i < RACES; i++) {
        int inserted = 0, deleted = 0;
        for (int t = 0; t < MOST; t++) {
            inserted += r[t].inserted[i] == ELLTREE_YES;
            deleted += r[t].deleted[i] == ELLTREE_YES;
            wrong += r[t].inserted[i] < 0 || r[t].deleted[i] < 0;
        }
        wrong += inserted != 1 || deleted != 1;
    }
    for (int t = 0; t < MOST; t++)
        wrong += elltree_free(&r[t].handle) != ELLTREE_YES;
    printf("%d races of %d threads, %ld wrong\n", RACES, MOST, wrong);
    return wrong;
}

enum { ADDED, EXCHANGED, COUNTERS, ADDITIONS = 4000, PUTS = 20000 };

struct counting {
    struct elltree_handle handle;
    int number;
    long wrong;
};

/* Adds one by a find and as many exchanges as it takes. */
static int32_t exchange_one_more(struct elltree_handle *handle, uint64_t key) {
    uint64_t value = 0;
    int32_t said = elltree_find(handle, key, &value);
    if (said != ELLTREE_YES)
        return said;
    do
        said = elltree_compare_exchange(handle, key, &value, value + 1, TRIES);
    while (said == ELLTREE_OTHER_VALUE);
    return said;
}

static void *add(void *given) {
    struct counting *c = given;
    uint64_t was = 0;
    for (int i = 0; i < ADDITIONS; i++) {
        c->wrong += elltree_fetch_add(&c->handle, key_at(ADDED), 1, TRIES, &was) != ELLTREE_YES;
        c->wrong += exchange_one_more(&c->handle, key_at(EXCHANGED)) != ELLTREE_YES;
    }
    return NULL;
}

/* The first puts, and the others find. */
static void *put_or_find(void *given) {
    struct counting *c = given;
    uint64_t last = 0, was = 0;
    for (uint64_t i = 1; i <= PUTS && c->number == 0; i++)
        c->wrong += elltree_put(&c->handle, key_at(ADDED), i, TRIES, &was) != ELLTREE_YES || was != i - 1;
    for (int i = 0; i < PUTS && c->number != 0; i++) {
        int32_t said = i % 2 ? elltree_find(&c->handle, key_at(ADDED), &was) : elltree_look(&c->handle, key_at(ADDED), &was);
        c->wrong += said != ELLTREE_YES || was < last;
        last = was;
    }
    return NULL;
}

/* Four threads work on counters that are 0 at the start; at the end these have the values. */
static long count(void *(*work_on)(void *), const uint64_t *values) {
    static struct counting c[MOST];
    const struct elltree_pair start[COUNTERS] = {{key_at(ADDED), 0}, {key_at(EXCHANGED), 0}};
    pthread_t running[MOST];
    uint64_t got = 0;
    long wrong = elltree_open(&c[0].handle, start, COUNTERS, CARDS) != ELLTREE_YES;
    for (int t = 0; t < MOST; t++) {
        c[t].number = t;
        c[t].wrong = 0;
        wrong += t != 0 && elltree_another(&c[0].handle, &c[t].handle) != ELLTREE_YES;
    }
    for (int t = 0; t < MOST; t++)
        pthread_create(&running[t], NULL, work_on, &c[t]);
    for (int t = 0; t < MOST; t++)
        pthread_join(running[t], NULL);
    for (uint64_t place = 0; place < COUNTERS; place++)
        wrong += elltree_find(&c[0].handle, key_at(place), &got) != ELLTREE_YES || got != values[place];
    for (int t = 0; t < MOST; t++)
        wrong += c[t].wrong + (elltree_free(&c[t].handle) != ELLTREE_YES);
    printf("%d threads, the last value %llu, %ld wrong\n", MOST, (unsigned long long)got, wrong);
    return wrong;
}

/* What is answered of values in place: the old value, or the other one; and an absent key is left so, but by a put. */
static long answers(void) {
    struct elltree_handle h = ELLTREE_EMPTY;
    const struct elltree_pair start = {2, 20};
    uint64_t value = 19;
    long wrong = elltree_open(&h, &start, 1, 9) != ELLTREE_YES;
    wrong += elltree_compare_exchange(&h, 2, &value, 21, 9) != ELLTREE_OTHER_VALUE || value != 20;
    wrong += elltree_compare_exchange(&h, 2, &value, 21, 9) != ELLTREE_YES || value != 20;
    wrong += elltree_compare_exchange(&h, 3, &value, 31, 9) != ELLTREE_NO || value != 20;
    wrong += elltree_put(&h, 2, 22, 9, &value) != ELLTREE_YES || value != 21;
    wrong += elltree_put(&h, 3, 30, 9, &value) != ELLTREE_NO || value != 21;
    wrong += elltree_fetch_add(&h, 3, UINT64_MAX, 9, &value) != ELLTREE_YES || value != 30;
    wrong += elltree_fetch_add(&h, 4, 1, 9, &value) != ELLTREE_NO || value != 30;
    wrong += elltree_find(&h, 3, &value) != ELLTREE_YES || value != 29;
    wrong += elltree_remove_if(&h, 2, &value, 9) != ELLTREE_OTHER_VALUE || value != 22 || elltree_remove_if(&h, 4, &value, 9) != ELLTREE_NO;
    wrong += elltree_remove_if(&h, 2, &value, 9) != ELLTREE_YES || value != 22 || elltree_find(&h, 2, &value) != ELLTREE_NO;
    wrong += elltree_take(&h, 3, 9, &value) != ELLTREE_YES || value != 29 || elltree_take(&h, 3, 9, &value) != ELLTREE_NO;
    return wrong + (elltree_free(&h) != ELLTREE_YES);
}

int main(void) {
    const uint64_t sums[COUNTERS] = {MOST * ADDITIONS, MOST * ADDITIONS}, last[COUNTERS] = {PUTS, 0};
    long wrong = run(2) + run(MOST) + race() + count(add, sums) + count(put_or_find, last) + answers();
    printf("%ld wrong\n", wrong);
    return wrong != 0;
}
