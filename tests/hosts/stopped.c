/* A thread is stopped in the middle of inserts and of deletes, by a signal whose handler waits. Meanwhile two threads change keys that
   are its neighbors, and one looks at all keys: each has so many calls to make before the stopped one goes on, and all are to be
   right. The signal comes at any moment; stops between two calls are not counted. */
#include "elltree.h"
#include <pthread.h>
#include <semaphore.h>
#include <signal.h>
#include <stdio.h>
#include <time.h>

enum { KEYS = 48, CALLS = 300, WANTED = 30, MOST = 4000, TRIES = 100000 };
enum { NOTHING, INSERT, DELETE };

static struct elltree_handle victim = ELLTREE_EMPTY, changers[2] = {ELLTREE_EMPTY, ELLTREE_EMPTY}, reader = ELLTREE_EMPTY;
static volatile int doing, over;
static sem_t stopped, released;
static long wrong;

static void stop(int signal) {
    (void)signal;
    sem_post(&stopped);
    while (sem_wait(&released))
        ;
}

static uint64_t next(uint64_t *seed) { return *seed ^= *seed << 13, *seed ^= *seed >> 7, *seed ^= *seed << 17; }

static void *change_always(void *given) {
    uint64_t seed = 1234567, has[KEYS] = {0};
    (void)given;
    while (!over) {
        uint64_t random = next(&seed), key = (random >> 20) % (KEYS / 3) * 3;
        int32_t said;
        doing = random & 1 ? INSERT : DELETE;
        said = random & 1 ? elltree_insert(&victim, key, key, TRIES) : elltree_delete(&victim, key, TRIES);
        doing = NOTHING;
        if (said != (int32_t)(random & 1 ? !has[key] : has[key]) && said != ELLTREE_SPENT)
            __atomic_add_fetch(&wrong, 1, __ATOMIC_SEQ_CST);
        if (said != ELLTREE_SPENT)
            has[key] = random & 1;
        else
            over = 1;
    }
    return NULL;
}

static uint64_t there[KEYS];

/* So many changes of the keys of one remainder. */
static void *change(void *given) {
    long id = (long)given, faults = 0;
    static uint64_t seeds[3] = {0, 998877, 445566};
    for (int i = 0; i < CALLS; i++) {
        uint64_t random = next(&seeds[id]), key = (random >> 20) % (KEYS / 3) * 3 + (uint64_t)id;
        int32_t said = random & 1 ? elltree_insert(&changers[id - 1], key, key, TRIES) : elltree_delete(&changers[id - 1], key, TRIES);
        if (said == ELLTREE_SPENT)
            over = 1;
        else {
            faults += said != (int32_t)(random & 1 ? !there[key] : there[key]);
            there[key] = random & 1;
        }
    }
    __atomic_add_fetch(&wrong, faults, __ATOMIC_SEQ_CST);
    return NULL;
}

static void *look(void *given) {
    long faults = 0;
    (void)given;
    for (int i = 0; i < CALLS; i++) {
        uint64_t key = (uint64_t)i % KEYS, value = 0;
        int32_t said = elltree_look(&reader, key, &value);
        faults += said < 0 || (said == ELLTREE_YES && value != key);
    }
    __atomic_add_fetch(&wrong, faults, __ATOMIC_SEQ_CST);
    return NULL;
}

static void all_but_the_stopped(void) {
    pthread_t threads[3];
    pthread_create(&threads[0], NULL, change, (void *)1L);
    pthread_create(&threads[1], NULL, change, (void *)2L);
    pthread_create(&threads[2], NULL, look, NULL);
    for (int t = 0; t < 3; t++)
        pthread_join(threads[t], NULL);
}

int main(void) {
    struct elltree_handle *all[4] = {&victim, &changers[0], &changers[1], &reader};
    struct sigaction action = {.sa_handler = stop};
    pthread_t thread;
    long stops[3] = {0}, rounds = 0;
    wrong += elltree_open(all[0], NULL, 0, ELLTREE_CARDS_MAX) != ELLTREE_YES;
    for (int i = 1; i < 4; i++)
        wrong += elltree_another(all[0], all[i]) != ELLTREE_YES;
    sem_init(&stopped, 0, 0);
    sem_init(&released, 0, 0);
    sigaction(SIGUSR1, &action, NULL);
    pthread_create(&thread, NULL, change_always, NULL);
    while (rounds++ < MOST && !over && (stops[INSERT] < WANTED || stops[DELETE] < WANTED)) {
        struct timespec pause = {0, 1000 * (1 + rounds % 97)};
        nanosleep(&pause, NULL);
        pthread_kill(thread, SIGUSR1);
        while (sem_wait(&stopped))
            ;
        int in = doing;
        stops[in]++;
        if (in != NOTHING)
            all_but_the_stopped();
        sem_post(&released);
    }
    over = 1;
    pthread_join(thread, NULL);
    for (int i = 0; i < 4; i++)
        wrong += elltree_free(all[i]) != ELLTREE_YES;
    printf("stopped in %ld inserts and %ld deletes, %ld wrong\n", stops[INSERT], stops[DELETE], wrong);
    return wrong != 0 || stops[INSERT] < WANTED || stops[DELETE] < WANTED;
}
