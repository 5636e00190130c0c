/* Trees whose cards come back. One handle changes keys long after each card was taken, and is answered as a map, and never refused, also where a tree
   of few slots has given out numbers of cards above 2^36, of which words of children have not all bits. Nor are handles that change keys one after
   the other, where as many cards were asked for as docs/REFERENCE.md says. Deletes can empty a tree that inserts have
   filled, and where no other call is under way each of them is refused once at most. Four threads change keys of their own, and add to one that all
   share, which loses nothing; a call is made again where each card was in use. A thread is stopped in the middle of changes, by a signal whose
   handler waits: meanwhile calls that read are answered, and changes until the cards run out, and once it goes on so are all. A handle that has
   looked, and rests, holds no card back. And a tree has as many handles as were asked for, and no more at a time: one that is freed makes room for
   another, also where threads make a handle for a few changes and free it. */
#include "elltree.h"
#include <pthread.h>
#include <sched.h>
#include <semaphore.h>
#include <signal.h>
#include <stdio.h>
#include <time.h>

enum {
    KEYS = 8,
    CHANGES = 200000,
    CHANGES_BEYOND = 2000000,
    THREADS = 4,
    ADDITIONS = 20000,
    EACH = 16,
    WANTED = 30,
    MOST = 20000,
    MANY = 3000,
    MADE = 200,
    FEW = 3,
    EXCHANGE_IN = 16,
    PLACES = 200,
    SOME = 70,
    ENOUGH = 20000,
    TRIES = 1000
};
#define COUNTER UINT64_C(1000000)
#define NUMBERS (UINT64_C(1) << 62)

static uint64_t next(uint64_t *seed) { return *seed ^= *seed << 13, *seed ^= *seed >> 7, *seed ^= *seed << 17; }

/* Exchanges the value of a key for another one and puts it back, if the key is there: whether an answer is not that of a map. */
static long exchange_is_wrong(struct elltree_handle *one, uint64_t key, int there, uint64_t value, uint64_t other) {
    uint64_t expected = value, told = 0;
    const int32_t said = elltree_compare_exchange(one, key, &expected, other, TRIES);
    if (!there)
        return said != ELLTREE_NO;
    return said != ELLTREE_YES || elltree_put(one, key, value, TRIES, &told) != ELLTREE_YES || told != other;
}

/* One handle alone: as many changes of a few keys as it is to make, each answered as a map answers it. */
static long alone(uint64_t cards, uint64_t keys, uint64_t changes) {
    struct elltree_handle one = ELLTREE_EMPTY;
    uint64_t seed = 88172645463325252u, value[KEYS] = {0}, told = 0;
    int there[KEYS] = {0};
    long wrong = elltree_open_reusing(&one, NULL, 0, cards, 1) != ELLTREE_YES;
    for (uint64_t i = 0; i < changes; i++) {
        const uint64_t random = next(&seed), key = (random >> 20) % keys;
        if (random & 1) {
            wrong += elltree_insert(&one, key, i, TRIES) != (there[key] ? ELLTREE_NO : ELLTREE_YES);
            value[key] = there[key] ? value[key] : i;
        } else {
            const int32_t said = elltree_take(&one, key, TRIES, &told);
            wrong += said != (there[key] ? ELLTREE_YES : ELLTREE_NO) || (there[key] && told != value[key]);
        }
        there[key] = random & 1;
        if ((random >> 8) % EXCHANGE_IN == 0)
            wrong += exchange_is_wrong(&one, key, there[key], value[key], ~i);
    }
    for (uint64_t key = 0; key < KEYS; key++)
        wrong += elltree_find(&one, key, &told) != (there[key] ? ELLTREE_YES : ELLTREE_NO);
    wrong += elltree_cards_left(&one, &told) != ELLTREE_YES || (changes == CHANGES_BEYOND && told > NUMBERS - (UINT64_C(1) << 36));
    return wrong + (elltree_free(&one) != ELLTREE_YES);
}

/* Deletes can empty each tree that inserts have filled, also where the changes before, beside so many keys that stay, have passed by all cards once. */
static long filled_and_emptied(uint64_t cards, uint64_t kept) {
    struct elltree_handle one = ELLTREE_EMPTY;
    uint64_t told, filled = kept;
    long wrong = elltree_open_reusing(&one, NULL, 0, cards, 1) != ELLTREE_YES;
    for (uint64_t key = 0; key < kept; key++)
        wrong += elltree_insert(&one, key, key, TRIES) != ELLTREE_YES;
    for (uint64_t i = 0; i < 3 * cards; i++)
        wrong += elltree_insert(&one, kept, i, TRIES) != ELLTREE_YES || elltree_take(&one, kept, TRIES, &told) != ELLTREE_YES || told != i;
    while (elltree_insert(&one, filled, filled, TRIES) == ELLTREE_YES)
        filled++;
    for (uint64_t key = 0; key < filled; key++)
        wrong += elltree_take(&one, key, TRIES, &told) != ELLTREE_YES || told != key;
    wrong += filled + 2 < cards - kept || elltree_insert(&one, kept, 7, TRIES) != ELLTREE_YES;
    return wrong + (elltree_free(&one) != ELLTREE_YES);
}

/* Takes all keys, the least one first, by one handle and then the other. Where no other call is under way, each take is refused once at most. */
static long empty(struct elltree_handle *one, struct elltree_handle *other) {
    uint64_t key, value;
    long wrong = 0;
    while (elltree_next_at_least(one, 0, &key, &value) == ELLTREE_YES && !wrong) {
        struct elltree_handle *it = key % 2 ? one : other;
        int32_t said = elltree_take(it, key, TRIES, &value);
        if (said == ELLTREE_SPENT)
            said = elltree_take(it, key, TRIES, &value);
        wrong += said != ELLTREE_YES;
    }
    return wrong;
}

/* Makes a change of a key, by one call or another. */
static int32_t change(struct elltree_handle *it, uint64_t key, uint64_t value, uint64_t kind) {
    uint64_t told;
    if (kind % 4 == 0)
        return elltree_insert(it, key, value, TRIES);
    return kind % 4 == 1 ? elltree_put(it, key, value, TRIES, &told) : elltree_take(it, key, TRIES, &told);
}

/* A tree of any size, with start keys, can be emptied after any changes by two handles, behind which inserts fill it. */
static long changed_and_emptied(uint64_t cards, uint64_t start_keys, uint64_t *seed) {
    const struct elltree_pair start[3] = {{0, 0}, {3, 1}, {6, 2}};
    struct elltree_handle one = ELLTREE_EMPTY, other = ELLTREE_EMPTY;
    const uint64_t changes = next(seed) % (6 * cards + 1), keys = 2 * cards + 2;
    long wrong = elltree_open_reusing(&one, start, start_keys, cards, 2) != ELLTREE_YES || elltree_another(&one, &other) != ELLTREE_YES;
    for (uint64_t i = 0; i < changes + 3 * keys; i++) {
        const uint64_t random = next(seed);
        struct elltree_handle *it = random & 4 ? &one : &other;
        const int32_t said = i < changes ? change(it, (random >> 20) % keys, i, random) : elltree_insert(it, i, i, TRIES);
        wrong += said < 0 && said != ELLTREE_SPENT;
    }
    wrong += empty(&one, &other);
    return wrong + (elltree_free(&one) != ELLTREE_YES) + (elltree_free(&other) != ELLTREE_YES);
}

static long all_filled_and_emptied(void) {
    uint64_t seed = 88172645463325252u;
    long wrong = 0;
    for (uint64_t cards = 8; cards < 80; cards++)
        for (uint64_t kept = 0; kept < 3; kept++)
            wrong += filled_and_emptied(cards, kept);
    for (uint64_t i = 0; i < 20000; i++)
        wrong += changed_and_emptied(1 + i % 40, i / 40 % 4, &seed);
    return wrong;
}

/* Of a tree that was asked for 2 n + 3 h + 5 cards, n keys and h handles, no change is refused where no other call is under way. */
static long never_refused(uint64_t keys, uint64_t handles, uint64_t *seed) {
    struct elltree_handle its[4] = {ELLTREE_EMPTY, ELLTREE_EMPTY, ELLTREE_EMPTY, ELLTREE_EMPTY};
    long wrong = elltree_open_reusing(&its[0], NULL, 0, 2 * keys + 3 * handles + 5, handles) != ELLTREE_YES;
    for (uint64_t i = 1; i < handles; i++)
        wrong += elltree_another(&its[0], &its[i]) != ELLTREE_YES;
    for (uint64_t i = 0; i < ENOUGH; i++) {
        const uint64_t random = next(seed);
        wrong += change(&its[(random >> 40) % handles], (random >> 20) % keys, i, random) < 0;
    }
    for (uint64_t i = 0; i < handles; i++)
        wrong += elltree_free(&its[i]) != ELLTREE_YES;
    return wrong;
}

static long enough_are_asked_for(void) {
    uint64_t seed = 88172645463325252u;
    long wrong = 0;
    for (uint64_t keys = 1; keys <= SOME; keys += keys < 12 ? 1 : 29)
        for (uint64_t handles = 1; handles <= 4; handles++)
            wrong += never_refused(keys, handles, &seed);
    return wrong;
}

struct worker {
    _Alignas(128) struct elltree_handle handle;
    uint64_t number;
    long wrong;
};

/* Whether a call is to be made again: each card was in use, or others changed the key each time. */
static int again(int32_t said) {
    if (said != ELLTREE_SPENT && said != ELLTREE_BUSY)
        return 0;
    sched_yield();
    return 1;
}

static void *come_and_go(void *given) {
    struct worker *w = given;
    uint64_t told;
    int32_t said;
    for (uint64_t i = 0; i < ADDITIONS; i++) {
        const uint64_t key = 100 * w->number + i % KEYS;
        while (again(said = elltree_insert(&w->handle, key, i, TRIES)))
            ;
        w->wrong += said != ELLTREE_YES || elltree_look(&w->handle, key, &told) != ELLTREE_YES || told != i;
        while (again(said = elltree_fetch_add(&w->handle, COUNTER, 1, TRIES, &told)))
            ;
        w->wrong += said != ELLTREE_YES;
        while (again(said = elltree_take(&w->handle, key, TRIES, &told)))
            ;
        w->wrong += said != ELLTREE_YES || told != i;
    }
    return NULL;
}

static long together(uint64_t cards) {
    static struct worker w[THREADS];
    const struct elltree_pair start = {COUNTER, 0};
    pthread_t running[THREADS];
    uint64_t sum = 0;
    long wrong = elltree_open_reusing(&w[0].handle, &start, 1, cards, THREADS) != ELLTREE_YES;
    for (uint64_t t = 1; t < THREADS; t++) {
        wrong += elltree_another(&w[0].handle, &w[t].handle) != ELLTREE_YES;
        w[t].number = t;
    }
    for (int t = 0; t < THREADS; t++)
        pthread_create(&running[t], NULL, come_and_go, &w[t]);
    for (int t = 0; t < THREADS; t++)
        pthread_join(running[t], NULL);
    wrong += elltree_find(&w[0].handle, COUNTER, &sum) != ELLTREE_YES || sum != (uint64_t)THREADS * ADDITIONS;
    for (int t = 0; t < THREADS; t++) {
        wrong += w[t].wrong + (elltree_free(&w[t].handle) != ELLTREE_YES);
        w[t].wrong = 0;
    }
    return wrong;
}

/* Four threads insert and delete keys of their own in a tree of two cards a key, three a thread and three more, so each card is soon in use. No card
   is lost by that: once they have ended, one handle is never refused as it inserts all keys, again and again. */
static void *crowd(void *given) {
    struct worker *w = given;
    uint64_t seed = 88172645463325252u + w->number, told;
    for (uint64_t i = 0; i < ADDITIONS; i++) {
        const uint64_t random = next(&seed), key = THREADS * ((random >> 20) % EACH) + w->number;
        int32_t said;
        while (again(said = random & 1 ? elltree_insert(&w->handle, key, i, TRIES) : elltree_take(&w->handle, key, TRIES, &told)))
            ;
        w->wrong += said != ELLTREE_YES && said != ELLTREE_NO;
    }
    return NULL;
}

static long none_is_lost(void) {
    static struct worker w[THREADS];
    pthread_t running[THREADS];
    uint64_t told;
    long wrong = elltree_open_reusing(&w[0].handle, NULL, 0, 2 * THREADS * EACH + 3 * THREADS + 3, THREADS) != ELLTREE_YES;
    for (uint64_t t = 1; t < THREADS; t++) {
        wrong += elltree_another(&w[0].handle, &w[t].handle) != ELLTREE_YES;
        w[t].number = t;
    }
    for (int t = 0; t < THREADS; t++)
        pthread_create(&running[t], NULL, crowd, &w[t]);
    for (int t = 0; t < THREADS; t++)
        pthread_join(running[t], NULL);
    for (uint64_t round = 0; round < THREADS * EACH; round++) {
        for (uint64_t key = 0; key < THREADS * EACH; key++)
            wrong += elltree_insert(&w[0].handle, key, key, TRIES) < 0;
        for (uint64_t key = 0; key <= round; key++)
            wrong += elltree_take(&w[0].handle, key * (2 * round + 1) % (THREADS * EACH), TRIES, &told) != ELLTREE_YES;
    }
    for (int t = 0; t < THREADS; t++)
        wrong += w[t].wrong + (elltree_free(&w[t].handle) != ELLTREE_YES);
    return wrong;
}

/* A thread that is stopped. */
static struct elltree_handle victim = ELLTREE_EMPTY, other = ELLTREE_EMPTY;
static volatile int is_in_change, over;
static sem_t stopped, released;
static long changed_wrongly;

static void stop(int signal) {
    (void)signal;
    sem_post(&stopped);
    while (sem_wait(&released))
        ;
}

static void *change_always(void *given) {
    int there = 0;
    (void)given;
    while (!over) {
        int32_t said;
        is_in_change = 1;
        said = there ? elltree_delete(&victim, 50, TRIES) : elltree_insert(&victim, 50, 5, TRIES);
        is_in_change = 0;
        if (again(said))
            continue;
        changed_wrongly += said != ELLTREE_YES;
        there = !there;
    }
    return NULL;
}

/* So many changes of keys beside: how many were refused, as each card was in use. */
static long change_beside(int *there, long *wrong) {
    long refused = 0;
    for (uint64_t i = 0; i < MANY; i++) {
        const uint64_t key = 40 + i % KEYS;
        uint64_t told;
        const int32_t said = there[i % KEYS] ? elltree_delete(&other, key, TRIES) : elltree_insert(&other, key, key, TRIES);
        *wrong += elltree_look(&other, 45, &told) < 0 || (said != ELLTREE_YES && said != ELLTREE_SPENT);
        refused += said == ELLTREE_SPENT;
        there[i % KEYS] ^= said == ELLTREE_YES;
    }
    return refused;
}

static long beside_one_that_is_stopped(uint64_t cards) {
    struct sigaction action = {.sa_handler = stop};
    pthread_t thread;
    int there[KEYS] = {0};
    long rounds = 0, held_back = 0, wrong = elltree_open_reusing(&victim, NULL, 0, cards, 2) != ELLTREE_YES;
    wrong += elltree_another(&victim, &other) != ELLTREE_YES;
    sem_init(&stopped, 0, 0);
    sem_init(&released, 0, 0);
    sigaction(SIGUSR1, &action, NULL);
    pthread_create(&thread, NULL, change_always, NULL);
    while (rounds++ < MOST && held_back < WANTED) {
        struct timespec pause = {0, 1000 * (1 + rounds % 97)};
        nanosleep(&pause, NULL);
        pthread_kill(thread, SIGUSR1);
        while (sem_wait(&stopped))
            ;
        /* a stop between two changes holds nothing back, nor may one at their first or last instructions */
        held_back += change_beside(there, &wrong) > 0 && is_in_change;
        sem_post(&released);
        for (uint64_t i = 0; i < KEYS; i++) /* what is there goes, however often that takes, and then keys come again */
            while (there[i] && again(elltree_delete(&other, 40 + i, TRIES)))
                ;
        for (uint64_t i = 0; i < KEYS; i++)
            there[i] = 0;
    }
    over = 1;
    pthread_join(thread, NULL);
    wrong += changed_wrongly + (elltree_free(&victim) != ELLTREE_YES) + (elltree_free(&other) != ELLTREE_YES);
    printf("cards were held back by %ld of %ld stops\n", held_back, rounds - 1);
    return wrong + (held_back < WANTED);
}

/* Looks once, in one of four ways, where all keys are there. */
static long look_once(int way) {
    struct elltree_pair all[KEYS];
    uint64_t key = 0, value = 0;
    size_t count = 0;
    if (way == 0)
        return elltree_look(&victim, 40, &value) != ELLTREE_YES || value != 40;
    if (way == 1)
        return elltree_range(&victim, 0, 100, all, KEYS, &count, &key) != ELLTREE_YES || count != KEYS;
    if (way == 2)
        return elltree_next_at_least(&victim, 41, &key, &value) != ELLTREE_YES || key != 41;
    return elltree_last_at_most(&victim, 46, &key, &value) != ELLTREE_YES || key != 46;
}

/* Changes beside a handle that has looked, and makes no further call: none is refused. */
static long beside_one_that_rests(void) {
    long wrong = 0;
    for (int way = 0; way < 4; way++) {
        int there[KEYS] = {0};
        long refused = 0;
        wrong += elltree_open_reusing(&victim, NULL, 0, 2 * KEYS + 20, 2) != ELLTREE_YES;
        wrong += elltree_another(&victim, &other) != ELLTREE_YES;
        refused += change_beside(there, &wrong);
        wrong += look_once(way);
        for (int round = 0; round < 4; round++)
            refused += change_beside(there, &wrong);
        wrong += refused + (elltree_free(&victim) != ELLTREE_YES) + (elltree_free(&other) != ELLTREE_YES);
    }
    return wrong;
}

/* Handles, the first one among them. One that is freed makes room for another. */
static long as_many_as_asked_for(void) {
    struct elltree_handle all[5] = {ELLTREE_EMPTY, ELLTREE_EMPTY, ELLTREE_EMPTY, ELLTREE_EMPTY, ELLTREE_EMPTY};
    const struct elltree_pair start[2] = {{1, 10}, {2, 20}}, down[2] = {{2, 20}, {1, 10}};
    uint64_t value = 0;
    long wrong = elltree_open_reusing(&all[0], down, 2, 50, 3) != ELLTREE_BAD_START || elltree_open_reusing(NULL, start, 2, 50, 3) != ELLTREE_NULL;
    wrong += elltree_open_reusing(&all[0], start, 2, 0, 3) != ELLTREE_BAD_CARDS || elltree_open_reusing(&all[0], start, 2, 50, 3) != ELLTREE_YES;
    wrong += elltree_open_reusing(&all[0], start, 2, 50, 3) != ELLTREE_OPEN;
    wrong += elltree_another(&all[0], &all[1]) != ELLTREE_YES || elltree_another(&all[1], &all[2]) != ELLTREE_YES;
    for (int i = 0; i < 3; i++)
        wrong += elltree_another(&all[i], &all[3]) != ELLTREE_TOO_MANY_HANDLES || elltree_find(&all[i], 2, &value) != ELLTREE_YES || value != 20;
    wrong += elltree_free(&all[3]) != ELLTREE_CLOSED;
    for (uint64_t i = 0; i < MADE; i++) {
        struct elltree_handle *anew = &all[1 + i % 2];
        wrong += elltree_free(anew) != ELLTREE_YES || elltree_another(&all[0], anew) != ELLTREE_YES;
        wrong += elltree_another(&all[0], &all[3]) != ELLTREE_TOO_MANY_HANDLES || elltree_another(anew, &all[3]) != ELLTREE_TOO_MANY_HANDLES;
        wrong += elltree_insert(anew, 3, i, TRIES) != ELLTREE_YES || elltree_find(&all[0], 3, &value) != ELLTREE_YES || value != i;
        wrong += elltree_delete(&all[2 - i % 2], 3, TRIES) != ELLTREE_YES || elltree_find(anew, 2, &value) != ELLTREE_YES || value != 20;
    }
    wrong += elltree_free(&all[0]) != ELLTREE_YES || elltree_another(&all[1], &all[0]) != ELLTREE_YES;
    for (int i = 0; i < 3; i++)
        wrong += elltree_free(&all[i]) != ELLTREE_YES;
    wrong += elltree_open_reusing(&all[4], NULL, 0, 1, 0) != ELLTREE_YES || elltree_another(&all[4], &all[3]) != ELLTREE_TOO_MANY_HANDLES;
    return wrong + (elltree_free(&all[4]) != ELLTREE_YES);
}

/* Handles in a row, as many as there is room for, then some, and then as many again. All but the first one are freed in between. */
static long many_in_a_row(void) {
    static struct elltree_handle all[PLACES + 1];
    long wrong = elltree_open_reusing(&all[0], NULL, 0, 50, PLACES) != ELLTREE_YES;
    for (int round = 0; round < 3; round++) {
        const int count = round == 1 ? SOME : PLACES;
        for (int i = 1; i < count; i++)
            wrong += elltree_another(&all[0], &all[i]) != ELLTREE_YES;
        wrong += count == PLACES && elltree_another(&all[0], &all[PLACES]) != ELLTREE_TOO_MANY_HANDLES;
        for (int i = 1; i < count; i++)
            wrong += elltree_free(&all[i]) != ELLTREE_YES;
    }
    return wrong + (elltree_free(&all[0]) != ELLTREE_YES);
}

/* Handles of one tree, which threads make of its first one, and free after a few changes. There is room for one thread fewer at a time. */
static struct elltree_handle maker = ELLTREE_EMPTY;
static pthread_mutex_t making = PTHREAD_MUTEX_INITIALIZER;

static int32_t make(struct elltree_handle *made) {
    int32_t said;
    pthread_mutex_lock(&making);
    said = elltree_another(&maker, made);
    pthread_mutex_unlock(&making);
    return said;
}

static void *make_and_free(void *given) {
    struct worker *w = given;
    uint64_t told;
    int32_t said;
    for (int i = 0; i < MANY; i++) {
        while ((said = make(&w->handle)) == ELLTREE_TOO_MANY_HANDLES)
            sched_yield();
        w->wrong += said != ELLTREE_YES;
        for (int change = 0; change < FEW; change++) {
            while (again(said = elltree_fetch_add(&w->handle, COUNTER, 1, TRIES, &told)))
                ;
            w->wrong += said != ELLTREE_YES;
        }
        w->wrong += elltree_free(&w->handle) != ELLTREE_YES;
    }
    return NULL;
}

static long made_and_freed(uint64_t cards) {
    static struct worker w[THREADS];
    const struct elltree_pair start = {COUNTER, 0};
    pthread_t running[THREADS];
    uint64_t sum = 0;
    long wrong = elltree_open_reusing(&maker, &start, 1, cards, THREADS) != ELLTREE_YES;
    for (int t = 0; t < THREADS; t++)
        pthread_create(&running[t], NULL, make_and_free, &w[t]);
    for (int t = 0; t < THREADS; t++)
        pthread_join(running[t], NULL);
    for (int t = 0; t < THREADS; t++)
        wrong += w[t].wrong;
    wrong += elltree_find(&maker, COUNTER, &sum) != ELLTREE_YES || sum != (uint64_t)THREADS * MANY * FEW;
    return wrong + (elltree_free(&maker) != ELLTREE_YES);
}

int main(void) {
    long wrong = as_many_as_asked_for() + many_in_a_row();
    if (!wrong) /* else threads would wait for room for a handle for ever */
        wrong = all_filled_and_emptied() + enough_are_asked_for() + alone(30, KEYS, CHANGES) + alone(1000, KEYS, CHANGES) +
                alone(9, 2, CHANGES_BEYOND) + together(64) + together(1000) + none_is_lost() + made_and_freed(64) + beside_one_that_is_stopped(100) +
                beside_one_that_rests();
    printf("%ld wrong\n", wrong);
    return wrong != 0;
}
