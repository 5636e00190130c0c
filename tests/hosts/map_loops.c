/* Loops of a few calls, of which one adds the next key in order and the others find their key there: whatever the length of the loop and the place of
   that call, the map finds that it has many keys, and parts its section. Then a queue, in which a key comes for each one that goes, so that the map
   has few sections. And calls that only read renew nothing, also if they pass over a section without keys, which the next change has joined. */
#include "elltree_map.h"
#include <stdio.h>

enum { KEYS = 20000, LONGEST = 64, COUNTER = 0, READS = 20000, CARDS = 100000, QUEUED = 8000, PART = 2048, TRIALS = 3 };

static struct elltree_map *map;

/* A map with these pairs, and with so many cards that no renewal has the reason that few are left. Its sections are of the same size on each
   machine. */
static long make_map(const struct elltree_pair *pairs, size_t count) {
    struct elltree_map_settings settings = ELLTREE_MAP_SETTINGS;
    settings.cards = CARDS;
    settings.calls = 64;
    return elltree_map_from_sorted(&map, pairs, count, &settings, sizeof settings) != ELLTREE_YES;
}

static struct elltree_map_counters counts(void) {
    struct elltree_map_counters counts = {0, 0, 0, 0, 0, 0, 0};
    if (elltree_map_counts(map, &counts, sizeof counts) != ELLTREE_YES)
        counts.sections = 0;
    return counts;
}

/* In a loop of so many calls one, at this place, adds the next key in order, and the others would add the first key, which is there. */
static long loop(int length, int place) {
    const struct elltree_pair start = {COUNTER, 0};
    long wrong = make_map(&start, 1);
    for (uint64_t i = 1; i <= KEYS; i++)
        for (int call = 0; call < length; call++)
            if (call == place)
                wrong += elltree_map_insert(map, i, i) != ELLTREE_YES;
            else
                wrong += elltree_map_insert(map, COUNTER, i) != ELLTREE_NO;
    if (counts().sections < 2)
        printf("a loop of %d calls whose call %d adds a key: one section\n", length, place);
    wrong += counts().sections < 2;
    return wrong + (elltree_map_free(map) != ELLTREE_YES);
}

/* Keys come at the end, and the first one is taken away: a queue. */
static long queue(void) {
    uint64_t was, found, value;
    long wrong = make_map(NULL, 0);
    for (uint64_t i = 1; i <= QUEUED; i++)
        wrong += elltree_map_insert(map, i, i) != ELLTREE_YES;
    for (uint64_t i = QUEUED + 1; i <= 8 * QUEUED; i++) {
        wrong += elltree_map_insert(map, i, i) != ELLTREE_YES;
        wrong += elltree_map_first(map, &found, &value) != ELLTREE_YES || found != i - QUEUED || value != found;
        wrong += elltree_map_remove(map, found, &was) != ELLTREE_YES || was != found;
    }
    printf("a queue: %llu sections\n", (unsigned long long)counts().sections);
    wrong += counts().sections > 16;
    return wrong + (elltree_map_free(map) != ELLTREE_YES);
}

/* Makes a map of three sections, of which the first has lost its keys while the second had too many to be joined with it. */
static long make_passed(void) {
    static struct elltree_pair pairs[3 * PART];
    uint64_t was;
    long wrong = 0;
    for (uint64_t i = 0; i < 3 * PART; i++)
        pairs[i] = (struct elltree_pair){2 * i, i};
    wrong += make_map(pairs, 3 * PART);
    for (uint64_t i = PART; i < 2 * PART; i++)
        wrong += elltree_map_insert(map, 2 * i + 1, i) != ELLTREE_YES;
    for (uint64_t i = 0; i < PART; i++)
        wrong += elltree_map_remove(map, 2 * i, &was) != ELLTREE_YES || was != i;
    for (uint64_t i = PART; i < 2 * PART; i++)
        wrong += elltree_map_remove(map, 2 * i + 1, &was) != ELLTREE_YES || was != i;
    return wrong;
}

/* All calls that read, many times: none of them renews a section. */
static long read_all(void) {
    const uint64_t before = counts().renewals;
    uint64_t found, value = 0, following;
    struct elltree_pair out[8];
    size_t count;
    long wrong = 0;
    for (uint64_t i = 0; i < READS; i++) {
        wrong += elltree_map_get(map, 2 * PART, &value) != ELLTREE_YES || value != PART;
        wrong += elltree_map_first(map, &found, &value) != ELLTREE_YES || found != 2 * PART;
        wrong += elltree_map_last(map, &found, &value) != ELLTREE_YES || found != 6 * PART - 2;
        wrong += elltree_map_range(map, 0, UINT64_MAX, out, 8, &count, &following) != ELLTREE_YES || count != 8 || out[0].key != 2 * PART;
    }
    if (counts().renewals != before)
        printf("calls that only read have renewed the map\n");
    return wrong + (counts().renewals != before);
}

/* Whether the map still has its three sections, one of them without keys, and has two after the next change. The map knows only about how many keys
   the sections have, so that it may have joined them before. */
static long read_only(void) {
    long wrong = 0, joined = 0;
    for (int trial = 0; trial < TRIALS; trial++) {
        uint64_t value, before;
        wrong += make_passed() + read_all();
        before = counts().sections;
        wrong += elltree_map_put(map, 2 * PART, 7, &value) != ELLTREE_YES;
        joined += before == 3 && counts().sections == 2;
        wrong += elltree_map_free(map) != ELLTREE_YES;
    }
    if (!joined)
        printf("no change has joined a section that was passed over\n");
    return wrong + !joined;
}

int main(void) {
    long wrong = queue() + read_only();
    for (int length = 4; length <= LONGEST; length *= 4) {
        wrong += loop(length, 0);
        wrong += loop(length, length - 1);
    }
    wrong += loop(1, 0) + loop(2, 0) + loop(2, 1) + loop(3, 1);
    printf("loops of 1 to %d calls, %ld wrong\n", LONGEST, wrong);
    return wrong != 0;
}
