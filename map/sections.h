/* The sections of a map: each has a range of keys and a tree of its own. The directory tells them in the order of their keys. */
#ifndef ELLTREE_MAP_SECTIONS_H
#define ELLTREE_MAP_SECTIONS_H
#include "elltree.h"
#include "barrier.h"

struct heirs;

/* A slot of a section's tree, in lines of its own. The thread that has it notes what it adds and takes there, and others read that. */
struct seat {
    _Alignas(LINE) struct elltree_slot slot;
    _Atomic int64_t added; /* keys added to the section less keys taken */
};

/* Why a section is renewed. Of the first three, it has few cards for its keys, calls hold many back, or a call has waited for one: a call has found
   none. */
enum reason { NO_REASON, NO_CARDS, HELD_CARDS, SLOW_CARDS, FEW_CARDS, FEW_KEYS, MANY_KEYS, MANY_CARDS, WANTED };

/* What calls read of a section is written before they see it, but for `heirs`, `replaced` and `due`. `renewing` guards what is written later, but for
   what calls count. */
struct section {
    _Alignas(LINE) uint64_t first;        /* its least key */
    uint64_t upto;                        /* its keys are below this, or without end if it is UINT64_MAX */
    _Atomic(struct heirs *) heirs;        /* the sections that are to replace it, if it is being renewed */
    _Atomic bool replaced;                /* whether they have */
    _Atomic bool due;                     /* whether a search passed over a section without keys before it ended in this one */
    uint64_t cards, keys;                 /* its cards, and how many keys it began with */
    uint64_t least, greatest;             /* of these, or of all keys that it may have, if it began with none */
    uint64_t renewals;                    /* how many the map had when it was made */
    _Alignas(LINE) _Atomic bool renewing; /* whether a thread renews it, or has renewed it */
    _Atomic uint64_t spent_at;            /* since when calls wait for cards, or 0 */
    _Atomic uint32_t waits;               /* how often calls have begun to wait for them */
    _Atomic uint64_t weighed;             /* how many of its changes were weighed */
    _Atomic int64_t about;                /* how many keys it has, as far as the calls tell that were weighed since it was counted */
    struct seat seats[];                  /* one for each place, and the last for the thread that renews the section */
};

/* The sections that are to replace one, or two. */
struct heirs {
    _Atomic(struct section *) failed; /* the one that a key could not be carried over to, as it had too few cards, or null */
    uint32_t count;
    struct section *sections[];
};

/* Is never written once calls see it. */
struct directory {
    uint32_t count, room;
    struct section **sections;
    uint64_t firsts[]; /* the least keys of the sections, ascending, so that a search has them side by side */
};

/* The number of the section that a key belongs to. */
static uint32_t index_of(const struct directory *directory, uint64_t key);
/* The section that a key belongs to. */
static struct section *section_of(const struct directory *directory, uint64_t key);
/* How many keys a section may have without being parted. */
static uint64_t section_keys(const struct barrier *barrier);
/* Into how many sections so many keys are parted. */
static uint32_t number_of_parts(const struct barrier *barrier, uint64_t keys);

/* The seat in a section that the thread has that has this place, and its slot. */
static struct seat *seat_of(struct section *section, const struct place *place);
static struct elltree_slot *slot_of(struct section *section, const struct place *place);
/* The seat that only the thread has that renews the section. */
static struct seat *seat_to_renew(const struct barrier *barrier, struct section *section);
/* Notes how many keys more a section has by a call on this seat. */
static void note_added(struct seat *seat, int64_t more);
/* How many keys a section has, but for those of calls under way. */
static uint64_t count_section(const struct barrier *barrier, const struct section *section);
/* Frees a section and its tree. */
static void free_section(const struct barrier *barrier, struct section *section);

/* How many cards heirs get, those of their pairs among them: each so many, and the first and the last one some more. */
struct cards {
    uint64_t each, first, last;
};

/* Makes sections of these pairs, for all keys from one on and below another, with these cards. */
static int32_t make_heirs(const struct barrier *barrier, struct heirs **made, uint64_t first, uint64_t upto, const struct elltree_pair *pairs,
                          size_t count, struct cards cards);
/* Frees heirs, with their sections. */
static void free_heirs(const struct barrier *barrier, struct heirs *heirs);
/* The heir that a key belongs to. */
static struct section *heir_of(const struct heirs *heirs, uint64_t key);

/* An empty directory with room for so many sections, or null. */
static struct directory *new_directory(uint32_t room);
/* Adds heirs to a directory. */
static void append_heirs(struct directory *made, const struct heirs *heirs);
/* Fills a directory with what another one has, but with heirs in the place of some sections, which stand side by side. */
static void fill_directory(struct directory *made, const struct directory *before, uint32_t at, uint32_t count, const struct heirs *heirs);

#endif
