/* Histories of one map object: in each round three threads make a few calls on the same key, beside a thread that renews the map all the time, and
   note when each began and ended.
   For each round there is an order of the calls in which one map answers them so, each call between its begin and its end. The check of that is
   tried first on histories that are right and wrong. */
#include "elltree_map.h"
#include <pthread.h>
#include <stdio.h>

enum { THREADS = 3, CALLS = 4, ALL = THREADS * CALLS, ROUNDS = 20000, RENEWALS = 1000, KEY = 7, BESIDE = 40, CARDS = 60 };
enum kind { GET, INSERT, PUT, REMOVE, EXCHANGE, GET_OR_INSERT, REMOVE_IF, KINDS };

/* A call: `other` is the value that an exchange or a conditional remove expects. `said` and `told` are its answer. */
struct call {
    enum kind kind;
    uint64_t value, other, begun, ended, told;
    int32_t said;
};

static struct elltree_map *map;
static struct call history[ALL];
static uint64_t clock_; /* counts begins and ends */
static int is_over, is_renewed;
static pthread_barrier_t barrier;

static uint64_t next(uint64_t *seed) { return *seed ^= *seed << 13, *seed ^= *seed >> 7, *seed ^= *seed << 17; }

/* Whether a map answers a call so, if its key is present with this value, or absent. Changes them as the call does. */
static int answers(const struct call *it, int *there, uint64_t *value) {
    const int was_there = *there;
    const uint64_t was = *value;
    if (!was_there) {
        *there = it->kind == INSERT || it->kind == PUT || it->kind == GET_OR_INSERT;
        *value = *there ? it->value : 0;
        if (it->kind == GET_OR_INSERT)
            return it->said == ELLTREE_YES && it->told == it->value;
        return it->said == (it->kind == INSERT ? ELLTREE_YES : ELLTREE_NO);
    }
    switch (it->kind) {
    case GET:
        return it->said == ELLTREE_YES && it->told == was;
    case INSERT:
        return it->said == ELLTREE_NO;
    case PUT:
        *value = it->value;
        return it->said == ELLTREE_YES && it->told == was;
    case REMOVE:
        *there = 0;
        return it->said == ELLTREE_YES && it->told == was;
    case GET_OR_INSERT:
        return it->said == ELLTREE_NO && it->told == was;
    default:
        if (was != it->other)
            return it->said == ELLTREE_OTHER_VALUE && it->told == was;
        *there = it->kind != REMOVE_IF;
        *value = it->value;
        return it->said == ELLTREE_YES;
    }
}

/* Whether there is an order of the calls that are not done yet, from this state on. A call comes next only if none of the others ended before it
   began. */
static int are_in_order(const struct call *calls, int count, unsigned done, int there, uint64_t value) {
    uint64_t first_end = UINT64_MAX;
    if (done == (1u << count) - 1)
        return 1;
    for (int i = 0; i < count; i++)
        if (!(done >> i & 1) && calls[i].ended < first_end)
            first_end = calls[i].ended;
    for (int i = 0; i < count; i++) {
        int there_then = there;
        uint64_t value_then = value;
        if (!(done >> i & 1) && calls[i].begun <= first_end && answers(&calls[i], &there_then, &value_then) &&
            are_in_order(calls, count, done | 1u << i, there_then, value_then))
            return 1;
    }
    return 0;
}

/* The check finds what is out of order, and nothing else. */
static long try_check(void) {
    const struct call put = {PUT, 1, 0, 0, 3, 0, ELLTREE_NO}, get = {GET, 0, 0, 1, 2, 1, ELLTREE_YES};
    const struct call early = {GET, 0, 0, 1, 2, 0, ELLTREE_NO}, late = {GET, 0, 0, 4, 5, 0, ELLTREE_NO};
    const struct call twice[] = {{REMOVE, 0, 0, 4, 8, 1, ELLTREE_YES}, {REMOVE, 0, 0, 5, 7, 1, ELLTREE_YES}, put};
    const struct call during[] = {put, get}, before[] = {put, early}, behind[] = {put, late};
    return !are_in_order(during, 2, 0, 0, 0) + !are_in_order(before, 2, 0, 0, 0) + are_in_order(behind, 2, 0, 0, 0) + are_in_order(twice, 3, 0, 0, 0);
}

static void make(struct call *it) {
    it->told = it->other;
    it->begun = __atomic_fetch_add(&clock_, 1, __ATOMIC_SEQ_CST);
    switch (it->kind) {
    case GET:
        it->said = elltree_map_get(map, KEY, &it->told);
        break;
    case INSERT:
        it->said = elltree_map_insert(map, KEY, it->value);
        break;
    case PUT:
        it->said = elltree_map_put(map, KEY, it->value, &it->told);
        break;
    case REMOVE:
        it->said = elltree_map_remove(map, KEY, &it->told);
        break;
    case GET_OR_INSERT:
        it->said = elltree_map_get_or_insert(map, KEY, it->value, &it->told);
        break;
    case REMOVE_IF:
        it->said = elltree_map_remove_if(map, KEY, it->other, &it->told);
        break;
    default:
        it->said = elltree_map_compare_exchange(map, KEY, &it->told, it->value);
    }
    it->ended = __atomic_fetch_add(&clock_, 1, __ATOMIC_SEQ_CST);
}

/* The calls of one thread in all rounds. Values are few, so that a key often has one that it had before. Between its calls it changes other keys of
   the same section. */
static void *work(void *given) {
    struct call *own = given;
    uint64_t seed = 88172645463325252u + (uint64_t)(own - history), was;
    for (;;) {
        pthread_barrier_wait(&barrier);
        if (is_over)
            return NULL;
        for (int i = 0; i < CALLS; i++) {
            const uint64_t random = next(&seed) >> 20;
            own[i] = (struct call){.kind = (enum kind)(random % KINDS), .value = random >> 8 & 3, .other = random >> 12 & 3};
            make(&own[i]);
            if (elltree_map_put(map, 100 + random % BESIDE, random, &was) < 0)
                own[i].said = ELLTREE_NULL; /* which no order answers */
        }
        pthread_barrier_wait(&barrier);
    }
}

static void *renew(void *given) {
    while (!__atomic_load_n(&is_renewed, __ATOMIC_SEQ_CST))
        *(long *)given += elltree_map_renew(map) != ELLTREE_YES;
    return NULL;
}

static uint64_t renewals(void) {
    struct elltree_map_counters counts = {0, 0, 0, 0, 0, 0, 0};
    return elltree_map_counts(map, &counts, sizeof counts) == ELLTREE_YES ? counts.renewals : 0;
}

int main(void) {
    struct elltree_map_settings settings = ELLTREE_MAP_SETTINGS;
    pthread_t threads[THREADS], renewing;
    uint64_t value = 0;
    long wrong = try_check(), refused = 0, out_of_order = 0;
    int rounds = 0;
    settings.cards = CARDS;
    wrong += elltree_map_from_sorted(&map, NULL, 0, &settings, sizeof settings) != ELLTREE_YES;
    pthread_barrier_init(&barrier, NULL, THREADS + 1);
    for (int t = 0; t < THREADS; t++)
        pthread_create(&threads[t], NULL, work, history + t * CALLS);
    pthread_create(&renewing, NULL, renew, &refused);
    for (; rounds < ROUNDS || renewals() < RENEWALS; rounds++) {
        const int there = elltree_map_get(map, KEY, &value) == ELLTREE_YES;
        pthread_barrier_wait(&barrier);
        pthread_barrier_wait(&barrier);
        out_of_order += !are_in_order(history, ALL, 0, there, value);
    }
    is_over = 1;
    pthread_barrier_wait(&barrier);
    for (int t = 0; t < THREADS; t++)
        pthread_join(threads[t], NULL);
    __atomic_store_n(&is_renewed, 1, __ATOMIC_SEQ_CST);
    pthread_join(renewing, NULL);
    wrong += refused;
    printf("%d histories of %d calls, %llu renewals, %ld out of order, %ld wrong\n", rounds, ALL, (unsigned long long)renewals(), out_of_order,
           wrong);
    elltree_map_free(map);
    return wrong + out_of_order != 0;
}
