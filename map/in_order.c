/* Calls that look at keys in their order. */
#include "calls.h"
#include "looks.h"
#include "numbers.h"
#include "renewal.h"

enum { RANGE_PART = 512 /* pairs of one call of the library, so that none holds its place for long */ };

/* A search for the key next to one: where it goes on, and what it has found. */
struct search {
    uint64_t at, key, value;
    struct section *passed; /* one without keys */
};

/* Whether a section that has been looked through from end to end has no keys, and others are there to look through. */
static bool is_passed(const struct section *section, bool from_end, int32_t code) {
    return code == ELLTREE_NO && from_end && (section->first || section->upto < UINT64_MAX);
}

/* Looks in the section of the key where the search is, and goes on behind it: ELLTREE_NO if it has found nothing there. */
static int32_t search_upwards(struct elltree_map *map, struct place *place, struct search *it) {
    struct section *section = section_of(directory_of(map), it->at);
    const int32_t code = elltree_slot_next_at_least(slot_of(section, place), it->at, &it->key, &it->value);
    if (atomic_load(&section->replaced)) /* it is looked for again */
        return ELLTREE_NO;
    if (is_passed(section, it->at <= section->first, code))
        it->passed = section;
    if (code == ELLTREE_NO)
        it->at = section->upto;
    return code;
}

/* The same, downwards: ELLTREE_NO_ROOM behind the first section. */
static int32_t search_downwards(struct elltree_map *map, struct place *place, struct search *it) {
    struct section *section = section_of(directory_of(map), it->at);
    const int32_t code = elltree_slot_last_at_most(slot_of(section, place), it->at, &it->key, &it->value);
    if (atomic_load(&section->replaced))
        return ELLTREE_NO;
    if (is_passed(section, it->at >= at_most(section->upto - 1, ELLTREE_KEY_MAX), code))
        it->passed = section;
    if (code == ELLTREE_NO && !section->first)
        return ELLTREE_NO_ROOM;
    if (code == ELLTREE_NO)
        it->at = section->first - 1;
    return code;
}

/* Ends a search: notes a section that it has passed over, and gives the place back. */
static void end_search(struct elltree_map *map, struct place *place, const struct search *it, bool found) {
    if (__builtin_expect(it->passed != NULL, 0))
        note_passed(map, it->passed, found ? section_of(directory_of(map), it->key) : NULL);
    give_back(place);
    see_all(map);
}

/* Writes what a call tells of the pair that its search has found. */
static int32_t tell_pair(const struct search *it, uint64_t *found, uint64_t *value) {
    tell(found, it->key);
    tell(value, it->value);
    return ELLTREE_YES;
}

int32_t elltree_map_next_at_least(struct elltree_map *map, uint64_t key, uint64_t *found, uint64_t *value) {
    struct search it = {key, 0, 0, NULL};
    int32_t code = check_map(map);
    struct place *place;
    if (code != ELLTREE_YES)
        return code;
    place = take_place(&map->barrier, READS);
    do
        code = search_upwards(map, place, &it);
    while (code == ELLTREE_NO && it.at < UINT64_MAX);
    end_search(map, place, &it, code == ELLTREE_YES);
    return code == ELLTREE_YES ? tell_pair(&it, found, value) : code;
}

int32_t elltree_map_next_after(struct elltree_map *map, uint64_t key, uint64_t *found, uint64_t *value) {
    return elltree_map_next_at_least(map, key < UINT64_MAX ? key + 1 : key, found, value); /* UINT64_MAX is no key */
}

int32_t elltree_map_first(struct elltree_map *map, uint64_t *found, uint64_t *value) { return elltree_map_next_at_least(map, 0, found, value); }

int32_t elltree_map_last_at_most(struct elltree_map *map, uint64_t key, uint64_t *found, uint64_t *value) {
    struct search it = {key, 0, 0, NULL};
    int32_t code = check_map(map);
    struct place *place;
    if (code != ELLTREE_YES)
        return code;
    place = take_place(&map->barrier, READS);
    do
        code = search_downwards(map, place, &it);
    while (code == ELLTREE_NO);
    end_search(map, place, &it, code == ELLTREE_YES);
    return code == ELLTREE_YES ? tell_pair(&it, found, value) : ELLTREE_NO;
}

int32_t elltree_map_last_before(struct elltree_map *map, uint64_t key, uint64_t *found, uint64_t *value) {
    if (!key) /* none is below it, nor is any from UINT64_MAX on */
        return elltree_map_next_at_least(map, UINT64_MAX, found, value);
    return elltree_map_last_at_most(map, key - 1, found, value);
}

int32_t elltree_map_last(struct elltree_map *map, uint64_t *found, uint64_t *value) {
    return elltree_map_last_at_most(map, ELLTREE_KEY_MAX, found, value);
}

/* A part of a range, in one section, by one call of the library. */
static int32_t range_part(struct elltree_map *map, uint64_t upto, struct elltree_pair *out, size_t room, size_t *count, uint64_t *next) {
    struct place *place = take_place(&map->barrier, READS);
    struct section *section;
    uint64_t following;
    int32_t code;
    do {
        section = section_of(directory_of(map), *next);
        code = elltree_slot_range(slot_of(section, place), *next, at_most(upto, section->upto), out, room, count, &following);
    } while (atomic_load(&section->replaced));
    give_back(place);
    *next = following;
    return code;
}

int32_t elltree_map_range(struct elltree_map *map, uint64_t from, uint64_t upto, struct elltree_pair *out, size_t room, size_t *count,
                          uint64_t *next) {
    struct elltree_pair none;
    size_t all = 0, part = 0;
    int32_t code = out || !room ? check_map(map) : ELLTREE_NULL;
    if (code != ELLTREE_YES)
        return code;
    do {
        code = range_part(map, upto, room ? out + all : &none, at_most(room - all, RANGE_PART), &part, &from);
        all += part;
    } while (code == ELLTREE_YES && from < upto && all < room);
    see_all(map);
    if (count)
        *count = all;
    tell(next, from);
    return code;
}
