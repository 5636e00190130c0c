/* Renewals: a section gets a fresh tree, or is parted, or joined with a neighbor, while calls go on. */
#ifndef ELLTREE_MAP_RENEWAL_H
#define ELLTREE_MAP_RENEWAL_H
#include "parts.h"

/* The directory, for a thread that has a place, or that has closed the barrier. */
static struct directory *directory_of(struct elltree_map *map);
/* The next section, or null. */
static struct section *section_after(const struct directory *directory, uint32_t at);
/* The section before, or null. */
static struct section *section_before(const struct directory *directory, uint32_t at);
/* About how many keys a section has. */
static uint64_t keys_about(const struct section *section);
/* Counts the keys of a section, and notes that. */
static uint64_t recount(const struct elltree_map *map, struct section *section);
/* Whether so many keys are few for a section. */
static bool is_small(const struct elltree_map *map, uint64_t keys);
/* Whether a neighbor may be joined with a section of so many keys. */
static bool may_fit(const struct elltree_map *map, struct section *neighbor, uint64_t keys);

/* Whether this thread is to renew a section, of which a caller with a place knows that it is not freed. */
static bool take_renewal(struct section *section);
/* Leaves a section as it is that was taken so. */
static void leave_section(struct elltree_map *map, struct section *section);
/* Renews a section that was taken so, for this reason, and leaves the renewal where it would have to wait beyond a time, or at all, if that is 0. */
static int32_t renew_section(struct elltree_map *map, struct section *section, enum reason reason, uint64_t until);
/* Goes on with all renewals that were left, and with that of a section until a time: whether it was among them. */
static bool take_up(struct elltree_map *map, const struct section *section, uint64_t until);

/* Frees the sections that were replaced. */
static void end_replaced(struct elltree_map *map, struct renewal *renewal);
/* Frees what a renewal itself has. */
static void free_renewal(struct renewal *renewal);

#endif
