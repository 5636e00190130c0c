/* What a map and a renewal are made of. docs/BARRIER.md has the protocol. */
#ifndef ELLTREE_MAP_PARTS_H
#define ELLTREE_MAP_PARTS_H
#include "sections.h"

enum {
    CARDS_FIRST = 128,     /* of an empty map, if nobody asks for another number: it is made the sooner */
    CARDS_LEAST = 512,     /* of another section */
    CARDS_USUAL = 16384,   /* up to so many are doubled where calls had to wait for some */
    TRIES = 64,            /* of one call of the library, so that none holds its place for long */
    TRIES_FOR_CARDS = 6,   /* of a call that finds none though the calls under way have ended, before the section is renewed */
    WAITS_FOR_CARDS = 8,   /* after so many of its calls' waits a section gets more */
    USES_OF_A_CARD = 32,   /* after so many changes for each card it gets more too, in a map that has few */
    CARDS_HELD = 1 << 18,  /* up to so many in all where more calls are under way than there are processors, so that many are held back */
    CARDS_CARRIED = 4096,  /* so many more get heirs to which keys come in order, for those that come while they are made */
    RAISES_MOST = 16,      /* so often an heir is made again with twice as many */
    PATIENCE = 1000000,    /* so long such a call waits for those under way, in nanoseconds, before it sees what kind they are */
    ENDURANCE = 500000000, /* so long it waits for a renewal where cards may come back meanwhile */
    PAIRS_AT_ONCE = 4096,  /* for which an array of pairs has room at first */
    SAMPLE = 64,           /* of so many changes on a place one is weighed */
    ORDERS = 64            /* words by which the thread sanitizer tells keys apart */
};

/* So many cards of replaced sections may wait for calls that still read them, or as many as the map has. */
#define CARDS_WAITING UINT64_C(1000000)

struct renewal;

struct elltree_map {
    struct barrier barrier;
    _Atomic(struct directory *) directory;
    uint32_t forks;      /* of the process that made the map */
    uint32_t processors; /* of the machine */
    struct elltree_map_settings settings;
    _Alignas(LINE) _Atomic uint32_t ended; /* how many renewals ended, or were left: who waits for one waits for this word */
    _Atomic(struct renewal *) left;        /* the renewals that were left where they are */
    _Atomic uint64_t passed;               /* a key of a section without keys that a search has passed over, and 1 more, or 0 */
    _Atomic uint64_t waiting;              /* cards of sections that were replaced, and may still be read */
    _Atomic uint32_t swept;                /* how many sections were looked at, whether they have few keys or too many cards */
    _Atomic uint64_t all_effort;           /* what renewals took in all, in nanoseconds of a processor */
    _Atomic uint64_t sections, cards, renewals, all_pauses, longest_pause;
    uint64_t orders[ORDERS];
};

/* An array of pairs that grows. */
struct pairs {
    struct elltree_pair *items;
    size_t count, room;
};

/* What a thread takes a key's value to be. */
struct state {
    int32_t there; /* ELLTREE_YES if the key is present, and ELLTREE_NO if it is absent */
    uint64_t value;
};

/* A key of which a section and its heir differ, and what the section has. */
struct difference {
    uint64_t key;
    struct state state;
};

/* What a renewal does next. */
enum stage {
    BEGINS,
    AWAITS_CALLS, /* that may not know of the heirs */
    AWAITS_PAUSE, /* in which no call is at work */
    AWAITS_READS, /* of what was replaced */
    TAKES_BACK,   /* the heirs, once no call knows of them */
    IS_DONE
};

/* How often heirs of a renewal had too few cards: the first or the last one of several, or another one. */
struct failures {
    uint32_t first, last, others;
};

/* A renewal under way. Where it would have to wait, it may be left, and another thread goes on with it. */
struct renewal {
    struct renewal *next;        /* of those that were left */
    struct section *sections[2]; /* which are renewed: one, or two that are joined */
    uint32_t count;
    enum reason reason;
    enum stage stage;
    int32_t code;     /* why the heirs are taken back */
    struct wait wait; /* for the calls of this stage */
    struct heirs *heirs;
    struct directory *directory; /* room for the next one, and then the one that was replaced */
    struct pairs there, copied;  /* what was read last of the sections, and of their heirs */
    struct difference *differences;
    size_t difference_count;
    uint64_t effort;          /* what it has taken so far, in nanoseconds of a processor */
    uint64_t pause;           /* for how long it closes the barrier next */
    struct failures failures; /* of the heirs so far */
};

#endif
