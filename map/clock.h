/* What clocks say, in nanoseconds. */
#ifndef ELLTREE_MAP_CLOCK_H
#define ELLTREE_MAP_CLOCK_H
#include <stdint.h>

/* The time, by a clock that is never set. */
static uint64_t now(void);
/* The time that this thread had a processor. */
static uint64_t time_at_work(void);

#endif
