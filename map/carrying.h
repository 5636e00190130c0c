/* How keys are carried over from a section that is being renewed to its heirs. */
#ifndef ELLTREE_MAP_CARRYING_H
#define ELLTREE_MAP_CARRYING_H
#include "parts.h"

/* Carries a key over to the heirs, by these seats: stores there what the section has of it. */
static void carry_over(struct heirs *heirs, struct seat *from, struct seat *into, uint64_t key, struct state state);

/* Reads the pairs of these sections, in place of what the array has. */
static int32_t read_pairs(const struct barrier *barrier, struct pairs *pairs, struct section *const *sections, uint32_t count);
/* Notes the keys of which the sections and their heirs were read to differ. */
static int32_t note_differences(struct renewal *renewal);
/* Stores in the heirs what was noted. */
static void store_differences(const struct barrier *barrier, struct renewal *renewal);
/* Carries each noted key over of which the sections have something else now. */
static void carry_changed(const struct barrier *barrier, struct renewal *renewal);

#endif
