/* Beginning and end of a map. */
#ifndef ELLTREE_MAP_LIFETIME_H
#define ELLTREE_MAP_LIFETIME_H
#include "parts.h"

/* Whether another process has made the map, of which this one was forked. */
static bool is_of_parent(const struct elltree_map *map);

#endif
