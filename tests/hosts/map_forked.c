/* A forked child calls the map of its parent, whose threads are in the middle of calls and renewals: each call, the one that frees too, is refused
   at once, and a map of the child's own works. So it is in the child of a child. */
#include "elltree_map.h"
#include <pthread.h>
#include <stdio.h>
#include <string.h>
#include <sys/wait.h>
#include <unistd.h>

enum { WORKERS = 4, FORKS = 60, CARDS = 100, KEYS = 500 };

static struct elltree_map *map;
static int is_over;

static void *work(void *given) {
    uint64_t was;
    for (uint64_t i = 0; !__atomic_load_n(&is_over, __ATOMIC_SEQ_CST); i++)
        *(long *)given += elltree_map_put(map, i * 7919 % KEYS, i, &was) < 0;
    return NULL;
}

static uint64_t same(uint64_t value, void *context) {
    (void)context;
    return value;
}

/* Each call on the parent's map. */
static long all_refused(void) {
    struct elltree_map_counters counts;
    struct elltree_pair pair = {1, 1};
    char text[ELLTREE_TEXT_ROOM];
    uint64_t value = 0, key = 0;
    size_t count = 0;
    const int32_t codes[] = {elltree_map_get(map, 1, &value),
                             elltree_map_insert(map, 1, 1),
                             elltree_map_put(map, 1, 1, &value),
                             elltree_map_remove(map, 1, &value),
                             elltree_map_delete(map, 1),
                             elltree_map_compare_exchange(map, 1, &value, 1),
                             elltree_map_fetch_add(map, 1, 1, &value),
                             elltree_map_update(map, 1, same, NULL, &value),
                             elltree_map_range(map, 0, 9, &pair, 1, &count, &key),
                             elltree_map_next_at_least(map, 1, &key, &value),
                             elltree_map_next_after(map, 1, &key, &value),
                             elltree_map_first(map, &key, &value),
                             elltree_map_last_at_most(map, 1, &key, &value),
                             elltree_map_last_before(map, 1, &key, &value),
                             elltree_map_last(map, &key, &value),
                             elltree_map_len(map, &count),
                             elltree_map_is_empty(map),
                             elltree_map_extend(map, &pair, 1, &count),
                             elltree_map_pairs(map, &pair, 1, &count),
                             elltree_map_renew(map),
                             elltree_map_counts(map, &counts, sizeof counts),
                             elltree_map_counts(map, NULL, 0),
                             elltree_map_get(map, ELLTREE_KEY_MAX + 1, NULL),
                             elltree_map_put(map, ELLTREE_KEY_MAX + 1, 1, NULL),
                             elltree_map_get_or_insert(map, 1, 1, &value),
                             elltree_map_remove_if(map, 1, 1, &value),
                             elltree_map_pop_first(map, &key, &value),
                             elltree_map_pop_last(map, &key, &value),
                             elltree_map_free(map)};
    long wrong = 0;
    for (size_t i = 0; i < sizeof codes / sizeof *codes; i++)
        wrong += codes[i] != ELLTREE_FORKED;
    return wrong + (strstr(elltree_text(ELLTREE_FORKED, text, sizeof text), "fork") == NULL);
}

static long own_map_works(void) {
    struct elltree_map *own = NULL;
    uint64_t value = 0;
    long wrong = elltree_map_new(&own) != ELLTREE_YES || elltree_map_insert(own, 1, 10) != ELLTREE_YES;
    wrong += elltree_map_get(own, 1, &value) != ELLTREE_YES || value != 10;
    return wrong + (elltree_map_free(own) != ELLTREE_YES);
}

/* Runs one of these in a child, which is ended if it hangs: how many were wrong. */
static long in_child(long (*run)(void)) {
    int status = 0;
    const pid_t child = fork();
    if (!child) {
        alarm(5);
        _exit(run() != 0);
    }
    return child < 0 || waitpid(child, &status, 0) != child || !WIFEXITED(status) || WEXITSTATUS(status);
}

static long child(void) { return all_refused() + own_map_works() + in_child(all_refused); }

int main(void) {
    pthread_t threads[WORKERS];
    struct elltree_map_settings settings = ELLTREE_MAP_SETTINGS;
    long wrong = 0, work_wrong[WORKERS] = {0}, failed = 0;
    settings.cards = CARDS;
    wrong += elltree_map_from_sorted(&map, NULL, 0, &settings, sizeof settings) != ELLTREE_YES;
    for (int i = 0; i < WORKERS; i++)
        pthread_create(&threads[i], NULL, work, &work_wrong[i]);
    for (int i = 0; i < FORKS && failed < 3; i++)
        failed += in_child(child);
    __atomic_store_n(&is_over, 1, __ATOMIC_SEQ_CST);
    for (int i = 0; i < WORKERS; i++) {
        pthread_join(threads[i], NULL);
        wrong += work_wrong[i];
    }
    wrong += failed + (elltree_map_free(map) != ELLTREE_YES);
    printf("%d forks, in %ld of which a call was not refused, %ld wrong\n", FORKS, failed, wrong);
    return wrong != 0;
}
