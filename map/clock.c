/* What clocks say, in nanoseconds. */
#include "clock.h"
#include <time.h>

/* What a clock says, in nanoseconds. */
static uint64_t time_of(clockid_t clock) {
    struct timespec time;
    clock_gettime(clock, &time);
    return (uint64_t)time.tv_sec * UINT64_C(1000000000) + (uint64_t)time.tv_nsec;
}

static uint64_t now(void) { return time_of(CLOCK_MONOTONIC); }

/* So it does not matter how long the thread had to wait for a processor. */
static uint64_t time_at_work(void) { return time_of(CLOCK_THREAD_CPUTIME_ID); }
