/* A map of many keys is emptied in five ways: its sections are joined as they lose their keys, so that few are left, and their memory is the
   allocator's again. So a search for the first key doesn't walk over more and more sections. Then sections with more cards than their keys need give
   them back, as others are renewed, and by elltree_map_renew. And an empty map takes little memory, and is made soon. */
#include "elltree_map.h"
#include <malloc.h>
#include <stdio.h>
#include <time.h>
#include <unistd.h>

enum { KEYS = 100000, SPREAD = 50, PART = 20000, CARDS = 1000000, ROUNDS = 40, MAPS = 200, CARDS_A_KEY = 3, CARDS_LEAST = 512 };
enum way { POP_FIRST, POP_LAST, BY_KEY, BACKWARDS, SHUFFLED, WAYS };

static struct elltree_map *map;

/* Bytes that the allocator has given out. The library keeps up to four blocks for the next tree, of up to 2 MB each. */
static long memory(void) {
    const struct mallinfo2 info = mallinfo2();
    return (long)(info.uordblks + info.hblkhd);
}

static uint64_t microseconds(void) {
    struct timespec time;
    clock_gettime(CLOCK_MONOTONIC, &time);
    return (uint64_t)time.tv_sec * 1000000 + (uint64_t)time.tv_nsec / 1000;
}

static struct elltree_map_counters counts(void) {
    struct elltree_map_counters counts = {0, 0, 0, 0, 0, 0, 0};
    if (elltree_map_counts(map, &counts, sizeof counts) != ELLTREE_YES)
        counts.sections = 0;
    return counts;
}

static uint64_t shuffled(uint64_t i) { return i * 7919 % KEYS; }

static long fill(void) {
    long wrong = 0;
    for (uint64_t i = 0; i < KEYS; i++)
        wrong += elltree_map_insert(map, SPREAD * shuffled(i), i) != ELLTREE_YES;
    return wrong;
}

/* The key that is taken away next. */
static uint64_t next_key(enum way way, uint64_t i) {
    uint64_t key = 0, value;
    switch (way) {
    case POP_FIRST:
        return elltree_map_first(map, &key, &value) == ELLTREE_YES ? key : UINT64_MAX;
    case POP_LAST:
        return elltree_map_last(map, &key, &value) == ELLTREE_YES ? key : UINT64_MAX;
    case BY_KEY:
        return SPREAD * i;
    case BACKWARDS:
        return SPREAD * (KEYS - 1 - i);
    default:
        return SPREAD * shuffled(i);
    }
}

static long empty(enum way way) {
    uint64_t was, sections;
    long before = memory(), full, empty;
    long wrong = elltree_map_new(&map) != ELLTREE_YES;
    wrong += fill();
    full = memory() - before;
    sections = counts().sections;
    for (uint64_t i = 0; i < KEYS; i++)
        wrong += elltree_map_remove(map, next_key(way, i), &was) != ELLTREE_YES;
    wrong += elltree_map_is_empty(map) != ELLTREE_YES;
    empty = memory() - before;
    printf("way %d: %llu sections and %ld kB full, %llu and %ld kB empty\n", way, (unsigned long long)sections, full / 1000,
           (unsigned long long)counts().sections, empty / 1000);
    wrong += sections < 10 || counts().sections > 4 || empty > full / 3;
    return wrong + (elltree_map_free(map) != ELLTREE_YES);
}

/* How many cards such a map has at most if each section has what it needs. */
static uint64_t cards_needed(void) { return CARDS_A_KEY * KEYS + CARDS_LEAST * counts().sections; }

static long make_with_many_cards(void) {
    static struct elltree_pair pairs[KEYS];
    struct elltree_map_settings settings = ELLTREE_MAP_SETTINGS;
    settings.cards = CARDS;
    for (uint64_t i = 0; i < KEYS; i++)
        pairs[i] = (struct elltree_pair){SPREAD * i, i};
    return (elltree_map_from_sorted(&map, pairs, KEYS, &settings, sizeof settings) != ELLTREE_YES) + (counts().cards < CARDS);
}

/* The last keys are taken away and come back, so that their sections are joined and parted again and again: meanwhile the others, whose keys don't
   change, give cards back. */
static long cool_down(void) {
    uint64_t was, cool = CARDS;
    long before = memory(), busy;
    int round = 0;
    long wrong = make_with_many_cards();
    busy = memory() - before;
    for (; round < ROUNDS && cool > CARDS / 2; round++) {
        for (uint64_t i = KEYS - PART; i < KEYS; i++)
            wrong += elltree_map_remove(map, SPREAD * i, &was) != ELLTREE_YES;
        for (uint64_t i = KEYS - PART; i < KEYS; i++)
            wrong += elltree_map_insert(map, SPREAD * i, i) != ELLTREE_YES;
        cool = counts().cards;
    }
    printf("%d cards, %llu after %d rounds and %llu renewals, %ld and %ld kB\n", CARDS, (unsigned long long)cool, round,
           (unsigned long long)counts().renewals, busy / 1000, (memory() - before) / 1000);
    wrong += cool > CARDS / 2 || memory() - before > busy * 3 / 4;
    return wrong + (elltree_map_free(map) != ELLTREE_YES);
}

/* The same by one renewal of each section. */
static long cool_at_once(void) {
    long wrong = make_with_many_cards();
    wrong += elltree_map_renew(map) != ELLTREE_YES;
    printf("%llu cards after a renewal of each section\n", (unsigned long long)counts().cards);
    wrong += counts().cards > cards_needed();
    return wrong + (elltree_map_free(map) != ELLTREE_YES);
}

/* What an empty map takes. It has places for as many calls as processors ask for. */
static long make_many(void) {
    const long processors = sysconf(_SC_NPROCESSORS_CONF), beyond = processors > 8 ? processors - 8 : 0;
    uint64_t least = UINT64_MAX;
    long before, bytes = 0;
    long wrong = 0;
    for (int i = 0; i < MAPS; i++) {
        const uint64_t began = microseconds();
        before = memory();
        wrong += elltree_map_new(&map) != ELLTREE_YES;
        least = microseconds() - began < least ? microseconds() - began : least;
        bytes = memory() - before;
        wrong += elltree_map_free(map) != ELLTREE_YES;
    }
    printf("an empty map: %ld bytes, made in %llu us\n", bytes, (unsigned long long)least);
    return wrong + (bytes > 100000 + 12000 * beyond || least > 1000 + 60 * (uint64_t)beyond); /* on a busy machine too */
}

int main(void) {
    long wrong = 0;
    for (int way = 0; way < WAYS; way++)
        wrong += empty((enum way)way);
    wrong += cool_down() + cool_at_once() + make_many();
    printf("%ld wrong\n", wrong);
    return wrong != 0;
}
