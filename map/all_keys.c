/* Calls on all keys, and those that renew all sections or tell counters. */
#include "calls.h"
#include "numbers.h"
#include "renewal.h"
#include <string.h>

/* The sum of what the calls on each place have added and taken. */
static int64_t count_keys(struct elltree_map *map) {
    int64_t keys = 0;
    for (uint32_t i = 0; i <= map->barrier.mask; i++)
        keys += atomic_load_explicit(&map->barrier.places[i].added, memory_order_relaxed);
    return keys > 0 ? keys : 0; /* beside writers, a key may be seen taken and not added */
}

int32_t elltree_map_len(struct elltree_map *map, size_t *count) {
    const int32_t code = check_map(map);
    if (code == ELLTREE_YES && count)
        *count = (size_t)count_keys(map);
    return code;
}

int32_t elltree_map_is_empty(struct elltree_map *map) {
    const int32_t code = elltree_map_first(map, NULL, NULL);
    return code < 0 ? code : code == ELLTREE_YES ? ELLTREE_NO : ELLTREE_YES;
}

int32_t elltree_map_extend(struct elltree_map *map, const struct elltree_pair *pairs, size_t count, size_t *done) {
    int32_t code = pairs || !count ? check_map(map) : ELLTREE_NULL;
    size_t put = 0;
    if (code != ELLTREE_YES)
        return code;
    for (; put < count && code >= 0; put += code >= 0)
        code = elltree_map_put(map, pairs[put].key, pairs[put].value, NULL);
    if (done)
        *done = put;
    return code < 0 ? code : ELLTREE_YES;
}

/* Lists all pairs, of which the number is known, while no call is at work that changes keys. */
static int32_t list(struct elltree_map *map, struct place *place, struct elltree_pair *out, size_t count) {
    const struct directory *directory = directory_of(map);
    int32_t code = ELLTREE_YES;
    size_t part = 0;
    uint64_t next;
    for (uint32_t i = 0; i < directory->count && code == ELLTREE_YES && count; i++, out += part, count -= part)
        code = elltree_slot_range(slot_of(directory->sections[i], place), 0, UINT64_MAX, out, count, &part, &next);
    return code;
}

int32_t elltree_map_pairs(struct elltree_map *map, struct elltree_pair *out, size_t room, size_t *count) {
    int32_t code = out || !room ? check_map(map) : ELLTREE_NULL;
    struct place *place;
    size_t keys;
    if (code != ELLTREE_YES)
        return code;
    place = take_place(&map->barrier, READS); /* which no renewal waits for in the pause */
    close_barrier_at_last(&map->barrier);
    keys = (size_t)count_keys(map);
    code = keys > room ? ELLTREE_NO_ROOM : keys ? list(map, place, out, keys) : ELLTREE_YES;
    open_barrier(&map->barrier);
    give_back(place);
    see_all(map);
    if (count)
        *count = keys;
    return code;
}

/* Renews the section of this key, or waits until another thread has, and tells where the next section begins. */
static int32_t renew_at(struct elltree_map *map, uint64_t key, uint64_t *upto) {
    struct place *place = take_place(&map->barrier, READS);
    const uint32_t ended = atomic_load(&map->ended); /* before the directory, as this place doesn't keep the section from being replaced */
    struct section *section = section_of(directory_of(map), key);
    const bool taken = take_renewal(section);
    *upto = section->upto;
    give_back(place);
    if (taken)
        return renew_section(map, section, WANTED, UINT64_MAX);
    if (!take_up(map, section, UINT64_MAX))
        wait_while(&map->ended, ended, UINT64_MAX);
    *upto = key; /* it is to be seen whether it was this section's renewal that ended */
    return ELLTREE_YES;
}

int32_t elltree_map_renew(struct elltree_map *map) {
    int32_t code = check_map(map);
    for (uint64_t first = 0; code == ELLTREE_YES && first < UINT64_MAX;)
        code = renew_at(map, first, &first);
    return code;
}

int32_t elltree_map_counts(struct elltree_map *map, struct elltree_map_counters *counts, size_t size) {
    struct elltree_map_counters known;
    const int32_t code = check_map(map);
    if (code != ELLTREE_YES || !counts)
        return code;
    known.sections = map->sections;
    known.cards = map->cards;
    known.renewals = map->renewals;
    known.early_renewals = 0;
    known.renewal_nanoseconds = map->all_effort;
    known.pause_nanoseconds = map->all_pauses;
    known.longest_nanoseconds = map->longest_pause;
    memset(counts, 0, size);
    memcpy(counts, &known, at_most(size, sizeof known));
    return code;
}
