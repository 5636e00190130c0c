/* How many cards the sections get. */
#ifndef ELLTREE_MAP_CARDS_H
#define ELLTREE_MAP_CARDS_H
#include "parts.h"

/* How many cards each section of a new map has, if so many keys are in so many sections. */
static uint64_t first_cards(const struct elltree_map *map, uint64_t keys, uint32_t parts);
/* How many cards the heirs of a renewal get. */
static struct cards cards_of_heirs(const struct elltree_map *map, const struct renewal *renewal, uint32_t parts);
/* Whether a section has few cards for so many keys. */
static bool has_few_cards(const struct section *section, uint64_t keys);
/* Whether it has few for keys that are only added. */
static bool has_few_to_grow(const struct section *section, uint64_t keys);
/* Whether it has few for as many changes as calls make, in a map that has few. */
static bool has_few_for_changes(const struct elltree_map *map, const struct section *section);
/* Whether it has few where more calls are under way than there are processors. */
static bool has_few_for_held(const struct elltree_map *map, const struct section *section);
/* Whether it has more than twice as many as such a section gets. */
static bool has_many_cards(const struct section *section, uint64_t keys);

#endif
