/* Threads that change a map, or renew it, are cancelled with the default type, one after the other, beside threads that go on. No function of the
   map is a cancellation point: each thread ends between two calls, and the calls of the others go on. The test hangs if one ends inside. */
#include "elltree_map.h"
#include <pthread.h>
#include <stdio.h>
#include <time.h>
#include <unistd.h>

enum { WORKERS = 12, CANCELS = 200, FEWEST = 20, SECONDS = 30, CARDS = 300, KEYS = 1000, PATIENCE = 100 };

static struct elltree_map *map;
static int is_over;

/* A thread that goes on. */
struct worker {
    uint64_t number, calls;
    long wrong;
};

static void *work(void *given) {
    struct worker *w = given;
    uint64_t was;
    for (uint64_t i = 0; !__atomic_load_n(&is_over, __ATOMIC_SEQ_CST); i++) {
        w->wrong += elltree_map_put(map, (i * 7919 + w->number) % KEYS, i, &was) < 0;
        __atomic_store_n(&w->calls, i, __ATOMIC_SEQ_CST);
    }
    return NULL;
}

/* A thread that is cancelled: it may end between two calls. */
static void *put_or_renew(void *given) {
    const int renews = *(const int *)given;
    uint64_t was;
    for (uint64_t i = 0;; i++) {
        if ((renews ? elltree_map_renew(map) : elltree_map_put(map, i % KEYS, i, &was)) < 0)
            return NULL;
        pthread_testcancel();
    }
}

static void wait_a_while(long nanoseconds) {
    const struct timespec while_ = {0, nanoseconds};
    nanosleep(&while_, NULL);
}

/* How many workers have made no call since these were counted. */
static int count_waiting(struct worker *workers, const uint64_t *before) {
    int waiting = 0;
    for (int i = 0; i < WORKERS; i++)
        waiting += __atomic_load_n(&workers[i].calls, __ATOMIC_SEQ_CST) == before[i];
    return waiting;
}

/* Whether each worker makes a call within some seconds. */
static int all_go_on(struct worker *workers) {
    uint64_t before[WORKERS];
    int tries = 0;
    for (int i = 0; i < WORKERS; i++)
        before[i] = __atomic_load_n(&workers[i].calls, __ATOMIC_SEQ_CST);
    while (count_waiting(workers, before) && ++tries < PATIENCE)
        wait_a_while(tries < 20 ? 1000000 : 100000000);
    return tries < PATIENCE;
}

static long cancel(struct worker *workers, int number) {
    const int renews = number % 4 != 0;
    pthread_t cancelled;
    void *ended = NULL;
    pthread_create(&cancelled, NULL, put_or_renew, (void *)&renews);
    wait_a_while(1000000 + number % 7 * 700000);
    pthread_cancel(cancelled);
    pthread_join(cancelled, &ended);
    return ended != PTHREAD_CANCELED || !all_go_on(workers);
}

int main(void) {
    static struct worker workers[WORKERS];
    pthread_t threads[WORKERS];
    struct elltree_map_settings settings = ELLTREE_MAP_SETTINGS;
    const time_t begun = time(NULL);
    long wrong = 0;
    int cancels = 0;
    settings.cards = CARDS;
    wrong += elltree_map_from_sorted(&map, NULL, 0, &settings, sizeof settings) != ELLTREE_YES;
    for (uint64_t i = 0; i < WORKERS; i++) {
        workers[i].number = i;
        pthread_create(&threads[i], NULL, work, &workers[i]);
    }
    while (cancels < CANCELS && !wrong && (cancels < FEWEST || time(NULL) < begun + SECONDS)) /* a renewal takes long on a busy machine */
        wrong += cancel(workers, cancels++);
    if (wrong) {
        printf("%d cancels, and no call ends any more\n", cancels);
        fflush(stdout);
        _exit(1);
    }
    __atomic_store_n(&is_over, 1, __ATOMIC_SEQ_CST);
    for (int i = 0; i < WORKERS; i++) {
        pthread_join(threads[i], NULL);
        wrong += workers[i].wrong;
    }
    wrong += elltree_map_free(map) != ELLTREE_YES;
    printf("%d cancels, %ld wrong\n", cancels, wrong);
    return wrong != 0;
}
