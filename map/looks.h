/* What calls find of the section that they are on, and what they do about it: renew it, join it, go on with renewals that were left, or leave a word
   for later calls. */
#ifndef ELLTREE_MAP_LOOKS_H
#define ELLTREE_MAP_LOOKS_H
#include "parts.h"

/* Whether this change on a place is weighed. */
static bool is_weighed(struct place *place);
/* Leaves word of a section without keys that a search has passed over. */
static void note_passed(struct elltree_map *map, struct section *passed, struct section *found);
/* Gives the place of a change back, and sees to what this call has found, if it was weighed, and to what others have left. */
static void give_back_and_renew(struct elltree_map *map, struct place *place, struct section *section, int32_t more, bool is_weighed);
/* Gives the place back of a call that found no card, and waits for one: until the calls under way have ended, or the section is renewed. */
static int32_t get_cards(struct elltree_map *map, struct place *place, struct section *section, unsigned *tries);
/* Notes that a call has found a card after tries in vain. */
static void note_found(struct section *section);

#endif
