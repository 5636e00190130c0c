/* The barrier of a map, and its places. docs/BARRIER.md has the protocol, whose steps are numbered there. */
#ifndef ELLTREE_MAP_BARRIER_H
#define ELLTREE_MAP_BARRIER_H
#include "memory.h"
#include <stdatomic.h>
#include <stdbool.h>
#include <stdint.h>

enum {
    PAUSE_LEAST = 200000, /* how long the barrier is closed for calls under way at first, in nanoseconds */
    PAUSE_MOST = 8000000  /* and at most, as each time in vain is followed by one of twice the length */
};

/* What a thread does with a place: the last two bits of `busy`. Whoever reads doesn't look at the barrier. */
enum kind { FREE, READS, CHANGES };

/* A place has lines of its own. A thread has it while its kind is not FREE, and then it alone touches the members below, but for `added`, which
   others read. */
struct place {
    _Alignas(LINE) _Atomic uint64_t busy;
    uint32_t number;       /* of the place, from 0 */
    uint32_t until;        /* how many changes there are up to the next one that is weighed */
    uint32_t chance;       /* by which that is chosen */
    _Atomic int64_t added; /* keys added less keys taken, by calls on this place */
};

/* The barrier is even if it is open, and odd if it is closed. */
struct barrier {
    _Alignas(LINE) _Atomic uint32_t word;
    uint32_t mask; /* the number of places is a power of two, and this is one less */
    struct place *places;
};

/* How far a thread is that waits for the calls under way: those on the places before this one have ended, and this one was busy so when it was looked
   at, or 0. */
struct wait {
    uint32_t number;
    uint64_t busy;
};

/* Waits for a thread that is about to be done: briefly at first, and longer after many tries, if it seems to be stopped. */
static void rest(unsigned tries);
/* Waits until a word is no longer what it was, but not beyond a time. */
static void wait_while(_Atomic uint32_t *word, uint32_t value, uint64_t until);
/* Changes a word that threads wait for, and wakes them. */
static void advance(_Atomic uint32_t *word);

/* Takes a place for a call of this kind: step 1 of a call. */
static struct place *take_place(struct barrier *barrier, enum kind kind);
/* Takes a place for a call that changes a key, while the barrier is open: its steps 1 to 4. */
static struct place *enter(struct barrier *barrier);
/* Gives a place back: steps 3 and 6 of a call. */
static void give_back(struct place *place);

/* Whether the call of this kind that was seen on a place has ended, by this time, or now, if that is 0. */
static bool has_ended(struct place *place, uint64_t *busy, enum kind kind, uint64_t until);
/* Waits for all calls under way of this kind or a later one, but not beyond a time: whether they have ended. */
static bool await_calls(struct barrier *barrier, struct wait *wait, enum kind kind, uint64_t until);
/* Opens the barrier, and wakes those who wait at it. */
static void open_barrier(struct barrier *barrier);
/* Closes the barrier, and waits so long for changes under way: whether they have ended, as it is open again if they have not. */
static bool close_barrier(struct barrier *barrier, struct wait *wait, uint64_t pause);
/* Closes the barrier, however long the changes take that are under way. */
static void close_barrier_at_last(struct barrier *barrier);

#endif
