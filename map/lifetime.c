/* Beginning and end of a map. */
#include "lifetime.h"
#include "calls.h"
#include "cards.h"
#include "clock.h"
#include "numbers.h"
#include "renewal.h"
#include <pthread.h>
#include <stdlib.h>
#include <string.h>
#include <unistd.h>

enum {
    PLACES_EACH = 8, /* for each processor */
    PLACES_LEAST = 64,
    PLACES_MOST = 4096
};

/* The forks that lie between the first process and this one. A map is of the process that has made it. */
static _Atomic uint32_t forks;
/* What is done before the first map is made. */
static pthread_once_t once = PTHREAD_ONCE_INIT;
static int watch_code;
static uint32_t processors = 1;

static void count_fork(void) { atomic_fetch_add(&forks, 1); }
static void prepare(void) {
    const long count = sysconf(_SC_NPROCESSORS_CONF); /* reads a file */
    processors = count > 0 ? (uint32_t)at_most((uint64_t)count, PLACES_MOST) : 1;
    watch_code = pthread_atfork(NULL, NULL, count_fork);
}

static bool is_of_parent(const struct elltree_map *map) { return map->forks != atomic_load_explicit(&forks, memory_order_relaxed); }

/* A power of two, so that a place is found by a mask. */
static uint32_t number_of_places(uint32_t calls) {
    uint32_t places = 1;
    if (!calls)
        calls = (uint32_t)at_least(PLACES_EACH * processors, PLACES_LEAST);
    while (places < calls && places < PLACES_MOST)
        places *= 2;
    return places;
}

/* The settings that the caller has asked for, as far as the program and the library both know them, and the map's choice of the others. */
static struct elltree_map_settings settings_of(const struct elltree_map_settings *asked, size_t size) {
    struct elltree_map_settings settings = ELLTREE_MAP_SETTINGS;
    if (asked)
        memcpy(&settings, asked, at_most(size, sizeof settings));
    settings.cards = at_most(settings.cards, ELLTREE_CARDS_MAX);
    return settings;
}

/* Memory for a map without sections, or null. */
static struct elltree_map *new_map(const struct elltree_map_settings *settings) {
    const uint32_t places = number_of_places(settings->calls), chance = (uint32_t)now();
    struct elltree_map *map = new_lines(sizeof *map);
    struct place *all = new_lines(places * sizeof *all);
    if (!map || !all) {
        free_lines(map);
        free_lines(all);
        return NULL;
    }
    for (uint32_t i = 0; i < places; i++)
        all[i] = (struct place){.number = i, .until = 1 + i % SAMPLE, .chance = chance + i * UINT32_C(2654435769)};
    map->settings = *settings;
    map->forks = atomic_load(&forks);
    map->processors = processors;
    map->barrier.mask = places - 1;
    map->barrier.places = all;
    return map;
}

/* Frees what renewals have left. */
static void free_left(struct elltree_map *map) {
    for (struct renewal *it = atomic_load(&map->left), *next; it; it = next) {
        next = it->next;
        if (it->stage == AWAITS_READS)
            end_replaced(map, it);
        else if (it->heirs)
            free_heirs(&map->barrier, it->heirs);
        free_renewal(it);
    }
}

int32_t elltree_map_free(struct elltree_map *map) {
    struct directory *directory;
    const int32_t code = check_map(map);
    if (code != ELLTREE_YES)
        return code;
    directory = atomic_load(&map->directory);
    free_left(map);
    for (uint32_t i = 0; directory && i < directory->count; i++)
        free_section(&map->barrier, directory->sections[i]);
    free(directory);
    free_lines(map->barrier.places);
    free_lines(map);
    return code;
}

static bool ascend(const struct elltree_pair *pairs, size_t count) {
    for (size_t i = 1; i < count; i++)
        if (pairs[i - 1].key >= pairs[i].key)
            return false;
    return true;
}

/* Gives a new map its first sections, with these pairs. */
static int32_t fill(struct elltree_map *map, const struct elltree_pair *pairs, size_t count) {
    const struct cards cards = {first_cards(map, count, number_of_parts(&map->barrier, count)), 0, 0};
    struct heirs *heirs;
    struct directory *directory;
    int32_t code = make_heirs(&map->barrier, &heirs, 0, UINT64_MAX, pairs, count, cards);
    if (code != ELLTREE_YES)
        return code;
    directory = new_directory(heirs->count);
    if (!directory) {
        free_heirs(&map->barrier, heirs);
        return ELLTREE_NO_MEMORY;
    }
    append_heirs(directory, heirs);
    atomic_store(&map->directory, directory);
    map->sections = heirs->count;
    for (uint32_t i = 0; i < heirs->count; i++)
        map->cards += heirs->sections[i]->cards;
    map->barrier.places[0].added = (int64_t)count;
    free(heirs);
    return code;
}

int32_t elltree_map_from_sorted(struct elltree_map **map, const struct elltree_pair *pairs, size_t count, const struct elltree_map_settings *asked,
                                size_t size) {
    const struct elltree_map_settings settings = settings_of(asked, size);
    struct elltree_map *made;
    int32_t code;
    if (!map || (!pairs && count))
        return ELLTREE_NULL;
    if (!ascend(pairs, count))
        return ELLTREE_BAD_START;
    made = pthread_once(&once, prepare) == 0 && watch_code == 0 ? new_map(&settings) : NULL;
    code = made ? fill(made, pairs, count) : ELLTREE_NO_MEMORY;
    if (code == ELLTREE_YES)
        *map = made;
    else
        (void)elltree_map_free(made);
    return code;
}

int32_t elltree_map_new(struct elltree_map **map) { return elltree_map_from_sorted(map, NULL, 0, NULL, 0); }
