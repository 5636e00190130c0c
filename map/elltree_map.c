/* The map of elltree_map.h, as one unit: the compiler sees all functions at once, so that it can put the short ones into the calls, and nothing of a
   map can be seen from outside but its calls. docs/BARRIER.md has the protocol, and the argument that it is right; docs/ARCHITECTURE.md says which
   file has what. */
#define _GNU_SOURCE
#include "memory.c"
#include "clock.c"
#include "barrier.c"
#include "sections.c"
#include "cards.c"
#include "carrying.c"
#include "renewal.c"
#include "looks.c"
#include "lifetime.c"
#include "calls.c"
#include "one_key.c"
#include "in_order.c"
#include "all_keys.c"
#include "composed.c"
