/* The barrier of a map, and its places. docs/BARRIER.md has the protocol, whose steps are numbered there, and the argument that it is right. No
   function is a cancellation point of POSIX: a thread that is cancelled ends between two calls. So threads sleep by calls of the system, and not by
   nanosleep. */
#include "barrier.h"
#include "clock.h"
#include "numbers.h"
#include "order.h"
#include <linux/futex.h>
#include <sched.h>
#include <sys/syscall.h>
#include <time.h>
#include <unistd.h>

enum { SEEN_AT_ONCE = 64, SPINS = 100, YIELDS = 200, REST_NANOSECONDS = 50000, SLEEP_NANOSECONDS = 500000000 };

/* Waits for a thread that is about to be done: briefly at first, and longer if it seems to be stopped. */
static void rest(unsigned tries) {
    const struct timespec while_ = {0, REST_NANOSECONDS};
    if (tries < SPINS)
        __builtin_ia32_pause();
    else if (tries < SPINS + YIELDS)
        sched_yield();
    else
        syscall(SYS_nanosleep, &while_, NULL);
}

/* Sleeps until a word is no longer what it was, after the system has looked at it again, but not for long, and not beyond a time: whether that is
   still to come. */
static bool sleep_while(_Atomic uint32_t *word, uint32_t value, uint64_t until) {
    const uint64_t at = now();
    const struct timespec while_ = {0, (long)at_most(until - at, SLEEP_NANOSECONDS)};
    if (at >= until)
        return false;
    syscall(SYS_futex, word, FUTEX_WAIT_PRIVATE, value, &while_, NULL, 0);
    return true;
}

/* Waits until a word is no longer what it was, but not beyond a time: spins briefly, and then sleeps. */
static void wait_while(_Atomic uint32_t *word, uint32_t value, uint64_t until) {
    unsigned tries = 0;
    while (atomic_load(word) == value)
        if (++tries < SPINS)
            __builtin_ia32_pause();
        else if (!sleep_while(word, value, until))
            return;
}

/* Changes a word that threads wait for, and wakes them. */
static void advance(_Atomic uint32_t *word) {
    atomic_fetch_add(word, 1);
    syscall(SYS_futex, word, FUTEX_WAKE_PRIVATE, INT32_MAX, NULL, NULL, 0);
}

/* The places. */

/* Where a thread looks for a place first: that of its number, or where it found one last. 0 stands for a thread without a number. */
static _Thread_local uint32_t hint;
static _Atomic uint32_t threads;

/* Step 1 of a call. The exchange is sequentially consistent, as are the loads behind it and the accesses of a renewal: of a call and a renewal at
   least one sees the other. */
static inline bool take(struct place *place, enum kind kind) {
    uint64_t busy = atomic_load_explicit(&place->busy, memory_order_relaxed);
    if (busy % 4 != FREE || !atomic_compare_exchange_strong(&place->busy, &busy, busy + kind))
        return false;
    seen(&place->busy);
    return true;
}

/* Steps 3 and 6 of a call. Whoever has the place next, or sees it free, sees all that was done before. The store is sequentially consistent, as the
   library asks where a slot goes from one thread to another. */
static inline void give_back(struct place *place) {
    const uint64_t busy = atomic_load_explicit(&place->busy, memory_order_relaxed);
    shown(&place->busy);
    atomic_store(&place->busy, (busy | 3) + 1);
}

/* A place behind the one that another thread has, or that a thread without a number would have. */
static __attribute__((noinline, cold)) struct place *take_another_place(struct barrier *barrier, enum kind kind) {
    unsigned tries = 0;
    if (!hint)
        hint = atomic_fetch_add_explicit(&threads, 1, memory_order_relaxed);
    for (;;) {
        struct place *place = &barrier->places[++hint & barrier->mask];
        if (take(place, kind))
            return place;
        if (++tries > barrier->mask) /* each place had a call on it when it was looked at */
            rest(tries);
    }
}

static inline __attribute__((always_inline)) struct place *take_place(struct barrier *barrier, enum kind kind) {
    struct place *place = &barrier->places[hint & barrier->mask];
    return hint && take(place, kind) ? place : take_another_place(barrier, kind);
}

/* Calls that change keys. */

static inline bool is_closed(uint32_t barrier) { return barrier % 2 != 0; }

/* Steps 1 to 4 of such a call: a place that is the caller's, with the barrier open. */
static inline __attribute__((always_inline)) struct place *enter(struct barrier *barrier) {
    for (;;) {
        struct place *place = take_place(barrier, CHANGES);
        const uint32_t word = atomic_load(&barrier->word);
        if (__builtin_expect(!is_closed(word), 1)) {
            seen(&barrier->word);
            return place;
        }
        give_back(place);
        wait_while(&barrier->word, word, UINT64_MAX);
    }
}

/* Renewals and snapshots. */

/* Whether the call of this kind that was seen on a place has ended, by this time, or now, if that is 0. */
static bool has_ended(struct place *place, uint64_t *busy, enum kind kind, uint64_t until) {
    unsigned tries = 0;
    if (!*busy)
        *busy = atomic_load(&place->busy);
    while (*busy % 4 >= kind && atomic_load(&place->busy) == *busy) {
        if (!until || (tries >= SPINS && now() >= until))
            return false;
        rest(tries++);
    }
    seen(&place->busy);
    return true;
}

/* Waits for the calls of this kind, or a later one, on so many places from that of a wait on: whether they have ended. It looks at all these places
   before it waits for one, so that it waits for fewer calls that began later. */
static bool await_some(struct barrier *barrier, struct wait *wait, uint32_t count, enum kind kind, uint64_t until) {
    uint64_t busy[SEEN_AT_ONCE];
    for (uint32_t i = 0; i < count; i++)
        busy[i] = atomic_load(&barrier->places[wait->number + i].busy);
    if (wait->busy) /* it was looked at before */
        busy[0] = wait->busy;
    for (uint32_t i = 0; i < count; i++, wait->number++) {
        wait->busy = busy[i];
        if (!has_ended(&barrier->places[wait->number], &wait->busy, kind, until))
            return false;
    }
    wait->busy = 0;
    return true;
}

/* Waits for every call of this kind, or a later one, that was under way when the wait began, but not beyond a time: whether they have ended. Calls
   that begin later see what the thread has stored before the wait, in a sequentially consistent way. */
static bool await_calls(struct barrier *barrier, struct wait *wait, enum kind kind, uint64_t until) {
    bool have_ended = true;
    while (have_ended && wait->number <= barrier->mask)
        have_ended = await_some(barrier, wait, at_most(SEEN_AT_ONCE, barrier->mask + 1 - wait->number), kind, until);
    return have_ended;
}

static void open_barrier(struct barrier *barrier) {
    shown(&barrier->word);
    advance(&barrier->word);
}

/* Closes the barrier, once it is open, and waits a while until no call is at work that changes keys. If one still is, the barrier is opened again,
   and the wait tells its place. */
static bool close_barrier(struct barrier *barrier, struct wait *wait, uint64_t pause) {
    uint32_t word = atomic_load(&barrier->word);
    while (is_closed(word) || !atomic_compare_exchange_strong(&barrier->word, &word, word + 1)) {
        wait_while(&barrier->word, word | 1, UINT64_MAX);
        word = atomic_load(&barrier->word);
    }
    seen(&barrier->word);
    *wait = (struct wait){0, 0};
    if (await_calls(barrier, wait, CHANGES, now() + pause))
        return true;
    open_barrier(barrier);
    return false;
}

/* Closes the barrier, however long calls take that are under way. Other calls go on while the thread waits for one that seems to be stopped. */
static void close_barrier_at_last(struct barrier *barrier) {
    struct wait wait;
    for (uint64_t pause = PAUSE_LEAST; !close_barrier(barrier, &wait, pause); pause = pause < PAUSE_MOST ? 2 * pause : PAUSE_MOST)
        (void)has_ended(&barrier->places[wait.number], &wait.busy, CHANGES, UINT64_MAX);
}
