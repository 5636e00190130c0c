/* One map from 64-bit keys to 64-bit values that all threads of a program share.

       struct elltree_map *map;
       uint64_t was;
       int32_t code = elltree_map_new(&map);
       if (code != ELLTREE_YES)
           return 1;
       .. any thread, at any time ..
       code = elltree_map_put(map, 7, 70, &was);
       .. at the end, when no thread makes a call any more ..
       elltree_map_free(map);

   Any thread may make any call on a map at any time, except elltree_map_free, which comes last and once. All calls that read or change a key
   answer as if they were made one after the other, each at one moment between its begin and its end. What a thread did before it stored a
   value happened before what another thread does after it has read that value. In a program with the thread sanitizer, the library tells it so.

   A map consists of sections, and each of them has a tree for a range of keys. Each change takes one of the cards of a tree, and a card comes
   back when no call reads any more what the change took out. A section is renewed when it has many keys or few: a call that changes a key makes
   new trees with the same pairs, while other calls go on, and so parts the section, joins it with a neighbor, or gives it more cards or fewer.
   That call takes about a millisecond longer, and may take seconds if more threads can run than there are processors. A map whose keys stay
   about as many in each range needs hardly any renewal, and a queue, whose keys move, needs many. Whatever the order in which keys come, no tree
   grows deep. But keys that are added in order, pops, and going back by elltree_map_last_before take several times as long as with a locked tree.

   The calls on the trees are proved, and none of them waits for another thread. The map around the trees is tested and not proved, and some of
   its calls wait:

   - At the end of a renewal all calls that change keys pause, until those of them that are under way have ended. If one of these takes long,
     since its thread is stopped, the pause is broken off, and a later call goes on with the renewal. A thread that is stopped while it ends a
     renewal holds up all calls that change keys.
   - A thread that is stopped while it changes a key holds back the cards of one section, and meanwhile no renewal ends. Other calls use up the
     cards that are left there, and new keys those of any section, and then a call that needs one waits until the thread goes on.
   - A thread that is stopped while it reads, as in elltree_map_range, holds back the cards of one section until that is renewed, and what is
     replaced meanwhile is not freed. Once that is more than a million cards, and more than the map has, calls that change keys may wait until the
     thread goes on.
   - elltree_map_renew and elltree_map_pairs wait for the calls under way that change keys.
   - Any other call that only reads renews nothing, does not pause, asks for no memory, and waits for no other thread, except when more
     threads are inside calls than the settings allow.

   No call waits for a thread that is between two calls. No call is a cancellation point: a thread that is canceled by pthread_cancel, with the
   deferred type that threads begin with, ends between two calls. A forked child can't use the map of its parent, but it can make maps of its
   own.

   Each call returns ELLTREE_YES or ELLTREE_NO, elltree_map_compare_exchange and elltree_map_remove_if also ELLTREE_OTHER_VALUE, or a negative
   code that says why the call was refused. elltree_text writes a text for each code. A refused call has changed nothing and has written
   nothing, unless its comment says otherwise. The last line of each comment lists the refusals of the call. They have these reasons:

   - ELLTREE_NULL: a pointer is null that may not be null. A pointer to something that a call only writes may be null, except the pointer to a
     new map.
   - ELLTREE_BAD_KEY: a call that changes keys was given one above ELLTREE_KEY_MAX. To a call that only reads, such a key is absent.
   - ELLTREE_BAD_START: the keys for a new map do not ascend strictly.
   - ELLTREE_NO_ROOM: the array is too short for all pairs.
   - ELLTREE_NO_MEMORY: memory was refused for a new map, or for a renewal that the call needed. The map is as it was, and you may make the same
     call again.
   - ELLTREE_FORKED: the map is of another process, of which this one is a forked child. Any call on a map may be refused so.

   You have to ensure these conditions, which nothing checks:

   - elltree_map_free is called once, while no other call is under way, and no call comes later.
   - A pointer that is not null points to what the call says, and an array has as many items as the call says. No other thread writes to what
     a running call reads, or reads what it writes.
   - No call comes from a signal handler, or from the functions of the program's allocator. The map calls malloc, realloc and free, and no other
     function of an allocator.
   - A thread that is inside a call is not ended alone, as by pthread_cancel with the asynchronous type: other calls might wait for it forever.

   Link with -lelltree (pkg-config elltree); docs/MAP.md has the line for a folder in which the system does not look for libraries. clang 14
   gives no warning about this header with -Weverything, in C and in C++; later versions have -Wunsafe-buffer-usage, which warns about any
   array. A program that counts cards itself, and never waits, may use trees without a map: elltree.h has the calls. */
#ifndef ELLTREE_MAP_H
#define ELLTREE_MAP_H
#include <stddef.h>
#include <stdint.h>
#ifdef __cplusplus
extern "C" {
#endif

#define ELLTREE_VERSION "0.3.0"
#define ELLTREE_VERSION_MAJOR 0
#define ELLTREE_VERSION_MINOR 3
#define ELLTREE_VERSION_PATCH 0

struct elltree_pair {
    uint64_t key, value;
};

#define ELLTREE_KEY_MAX UINT64_C(18446744073709551613)
#define ELLTREE_CARDS_MAX 1000000
#define ELLTREE_START_MAX 1000000 /* pairs that a tree of elltree.h begins with; a map may begin with more */

/* What calls return. The numbers that are missing stood for refusals of earlier versions, and are not used again. */
enum {
    ELLTREE_NO = 0,
    ELLTREE_YES = 1,
    ELLTREE_OTHER_VALUE = 2, /* the key has another value than the expected one */

    /* These are the refusals of calls on a map, and of calls on handles. */
    ELLTREE_BAD_KEY = -6,   /* a key is above ELLTREE_KEY_MAX */
    ELLTREE_BAD_START = -7, /* the keys to start with do not ascend strictly, or those of a tree are more than ELLTREE_START_MAX */
    ELLTREE_NO_ROOM = -8,   /* the array is too short for all pairs */
    ELLTREE_NO_MEMORY = -9, /* memory was refused */
    ELLTREE_NULL = -13,     /* a pointer is null that may not be null */
    ELLTREE_FORKED = -18,   /* the map is of another process, of which this one is a forked child */

    /* Only calls on handles (elltree.h) are refused so. */
    ELLTREE_BUSY = -1,             /* something was in the way of each try, or changed the value first: call again */
    ELLTREE_SPENT = -2,            /* no card is free for the change: calls that read still work */
    ELLTREE_NO_TRIES = -4,         /* tries is 0 */
    ELLTREE_BAD_CARDS = -5,        /* the number of cards is not 1 to ELLTREE_CARDS_MAX */
    ELLTREE_CLOSED = -10,          /* a handle holds nothing */
    ELLTREE_OPEN = -11,            /* the handle that is to get something holds something */
    ELLTREE_SAME = -14,            /* the same handle is given twice */
    ELLTREE_IN_CALL = -15,         /* the handle is in another call */
    ELLTREE_TOO_MANY_HANDLES = -16 /* the handle has the least share of its tree */
};

/* This marks a call that may be refused: compilers warn if you ignore its code. */
#define ELLTREE_MUST_USE __attribute__((warn_unused_result))

/* This is room for the text of each code and the 0 behind it. */
#define ELLTREE_TEXT_ROOM 64

/* Writes the text of a code, also for a number that is no code, and returns the length of the whole text, as snprintf does. The text always
   ends with a 0, and is cut off if the room is less than ELLTREE_TEXT_ROOM. The array may not be null. */
size_t elltree_code_text(int32_t code, char *out, size_t room);

/* Writes the text of a code as elltree_code_text does, and returns the array, or an empty text if the array is null or has no room. */
static inline const char *elltree_text(int32_t code, char *out, size_t room) {
    if (!out || !room)
        return "";
    elltree_code_text(code, out, room);
    return out;
}

struct elltree_map;

/* How a map is set up. A member that is 0 leaves the choice to the map, so that all zeros are the usual settings. Later versions may have more
   members at the end. */
struct elltree_map_settings {
    uint64_t cards;                /* besides those of its pairs, up to ELLTREE_CARDS_MAX; a card takes 104 bytes; if 0, the map's choice */
    uint32_t renewal_percent;      /* has no effect any more */
    uint32_t renewal_microseconds; /* has no effect any more */
    uint32_t calls;                /* how many calls may be under way at once, up to 4,096; if 0, 8 for each processor, and at least 64 */
    uint32_t unused;               /* 0 */
};
#define ELLTREE_MAP_SETTINGS \
    { 0, 0, 0, 0, 0 }

/* What has happened to a map, as elltree_map_counts writes it. Later versions may have more members at the end. */
struct elltree_map_counters {
    uint64_t sections;            /* how many there are */
    uint64_t cards;               /* of all sections */
    uint64_t renewals;            /* how many there were, of all sections */
    uint64_t early_renewals;      /* always 0, since no tree grows deep */
    uint64_t renewal_nanoseconds; /* how long a processor was at work on them */
    uint64_t pause_nanoseconds;   /* the sum of the pauses in which calls waited for a renewal */
    uint64_t longest_nanoseconds; /* the longest of these pauses */
};

/* Makes an empty map and writes it to *map. The map begins with 128 cards, and gets more as its keys become more. It takes 70 kilobytes, and more
   where more calls may be under way: with the usual settings 200 on a machine of 32 processors, and 1,500 on one of 256.
   Refusals: ELLTREE_NULL, ELLTREE_NO_MEMORY. */
ELLTREE_MUST_USE int32_t elltree_map_new(struct elltree_map **map);

/* Makes a map with these pairs, whose keys ascend strictly, and writes it to *map. The size is that of the settings, which is sizeof *settings:
   a library of another version than the header's reads as many of them as both know. Null settings are those of all zeros, and an array
   without pairs may be null.
   Refusals: ELLTREE_NULL, ELLTREE_BAD_START, ELLTREE_BAD_KEY, ELLTREE_NO_MEMORY. */
ELLTREE_MUST_USE int32_t elltree_map_from_sorted(struct elltree_map **map, const struct elltree_pair *pairs, size_t count,
                                                 const struct elltree_map_settings *settings, size_t size);

/* Ends a map, gives its memory back, and returns ELLTREE_YES. No other call may be under way, and none may come later. In a forked child the
   memory stays as it is.
   Refusals: ELLTREE_NULL, ELLTREE_FORKED. */
int32_t elltree_map_free(struct elltree_map *map);

/* Returns ELLTREE_YES and writes the value of the key if the key is present, and returns ELLTREE_NO if it is absent.
   Refusals: ELLTREE_NULL, ELLTREE_FORKED. */
ELLTREE_MUST_USE int32_t elltree_map_get(struct elltree_map *map, uint64_t key, uint64_t *value);

/* Adds a key that is absent: returns ELLTREE_YES if it has added the key, and ELLTREE_NO if the key was present, which then keeps its value.
   Refusals: ELLTREE_NULL, ELLTREE_BAD_KEY, ELLTREE_NO_MEMORY, ELLTREE_FORKED. */
ELLTREE_MUST_USE int32_t elltree_map_insert(struct elltree_map *map, uint64_t key, uint64_t value);

/* Stores the value of a key, whether the key is present or absent, in one atomic step. Returns ELLTREE_YES and writes the value that the key
   had, if it was present, and returns ELLTREE_NO if it was absent and has been added.
   Refusals: ELLTREE_NULL, ELLTREE_BAD_KEY, ELLTREE_NO_MEMORY, ELLTREE_FORKED. */
ELLTREE_MUST_USE int32_t elltree_map_put(struct elltree_map *map, uint64_t key, uint64_t value, uint64_t *was);

/* Removes a key. Returns ELLTREE_YES and writes the value that it has removed, if the key was present, and returns ELLTREE_NO if it was absent. Of
   all threads, only this one removed that value.
   Refusals: ELLTREE_NULL, ELLTREE_BAD_KEY, ELLTREE_NO_MEMORY, ELLTREE_FORKED. */
ELLTREE_MUST_USE int32_t elltree_map_remove(struct elltree_map *map, uint64_t key, uint64_t *was);

/* Removes a key without its value: returns ELLTREE_YES if the key was present, and ELLTREE_NO if it was absent.
   Refusals: ELLTREE_NULL, ELLTREE_BAD_KEY, ELLTREE_NO_MEMORY, ELLTREE_FORKED. */
ELLTREE_MUST_USE int32_t elltree_map_delete(struct elltree_map *map, uint64_t key);

/* Stores the desired value of a key if its value is the expected one, in one atomic step, like atomic_compare_exchange_strong of C11. Returns
   ELLTREE_YES if it has exchanged the value, ELLTREE_OTHER_VALUE if the key has another value, which is then written to expected, and ELLTREE_NO
   if the key is absent; in the last two cases nothing has changed.
   Refusals: ELLTREE_NULL, ELLTREE_BAD_KEY, ELLTREE_NO_MEMORY, ELLTREE_FORKED. */
ELLTREE_MUST_USE int32_t elltree_map_compare_exchange(struct elltree_map *map, uint64_t key, uint64_t *expected, uint64_t desired);

/* Removes a key if its value is the expected one, in one atomic step. Returns ELLTREE_YES if it has removed the key, ELLTREE_OTHER_VALUE if the key
   has another value, which is then written, and ELLTREE_NO if the key is absent; in the last two cases nothing has changed. No value but the
   expected one is ever removed, whatever other threads store meanwhile.
   Refusals: ELLTREE_NULL, ELLTREE_BAD_KEY, ELLTREE_NO_MEMORY, ELLTREE_FORKED. */
ELLTREE_MUST_USE int32_t elltree_map_remove_if(struct elltree_map *map, uint64_t key, uint64_t expected, uint64_t *found);

/* Adds to the value of a key in one atomic step. Returns ELLTREE_YES and writes the value that the key had, or returns ELLTREE_NO if the key is
   absent, and then it stays absent. A sum past UINT64_MAX wraps around.
   Refusals: ELLTREE_NULL, ELLTREE_BAD_KEY, ELLTREE_NO_MEMORY, ELLTREE_FORKED. */
ELLTREE_MUST_USE int32_t elltree_map_fetch_add(struct elltree_map *map, uint64_t key, uint64_t addend, uint64_t *was);

/* Stores what f makes of the value of a key, in one atomic step. Returns ELLTREE_YES and writes the value that the key had, or returns ELLTREE_NO
   if the key is absent, and then it stays absent. f gets the context, and is called again with the new value if another thread has changed it
   meanwhile. f may take long and may make calls on the map: the thread counts as between two calls while f runs, so that no other thread
   waits for f.
   Refusals: ELLTREE_NULL, ELLTREE_BAD_KEY, ELLTREE_NO_MEMORY, ELLTREE_FORKED. */
ELLTREE_MUST_USE int32_t elltree_map_update(struct elltree_map *map, uint64_t key, uint64_t (*f)(uint64_t value, void *context), void *context,
                                            uint64_t *was);

/* Writes the keys from one on and below another that are present, ascending, with their values, as many as the array has room for. Returns
   ELLTREE_YES, and writes how many they are and where to go on, which is upto if the whole range has been listed. So you list a whole range by

       for (next = from; next < upto;) {
           if ((code = elltree_map_range(map, next, upto, out, room, &count, &next)) != ELLTREE_YES)
               break; .. the call was refused, which writes nothing ..
           .. the first count pairs of out ..
       }

   with a room of at least 1. A range is not a snapshot, but it shows each key as it was at one moment
   of the call: a key that was present all along is listed, one that was absent all along is not, and each listed pair was there. No key is
   above ELLTREE_KEY_MAX, so if upto is UINT64_MAX, the range has no end. A range that ends where it begins, or before, has no keys. Without
   room the array may be null.
   Refusals: ELLTREE_NULL, ELLTREE_FORKED. */
ELLTREE_MUST_USE int32_t elltree_map_range(struct elltree_map *map, uint64_t from, uint64_t upto, struct elltree_pair *out, size_t room,
                                           size_t *count, uint64_t *next);

/* Finds the least key from this one on that is present: returns ELLTREE_YES and writes the key and its value, and returns ELLTREE_NO if there is
   none. The key was present at one moment of the call, and each key before it was absent at one.
   Refusals: ELLTREE_NULL, ELLTREE_FORKED. */
ELLTREE_MUST_USE int32_t elltree_map_next_at_least(struct elltree_map *map, uint64_t key, uint64_t *found, uint64_t *value);

/* Finds the least key above this one that is present, as elltree_map_next_at_least does.
   Refusals: ELLTREE_NULL, ELLTREE_FORKED. */
ELLTREE_MUST_USE int32_t elltree_map_next_after(struct elltree_map *map, uint64_t key, uint64_t *found, uint64_t *value);

/* Finds the least key that is present, as elltree_map_next_at_least does.
   Refusals: ELLTREE_NULL, ELLTREE_FORKED. */
ELLTREE_MUST_USE int32_t elltree_map_first(struct elltree_map *map, uint64_t *found, uint64_t *value);

/* Finds the greatest key up to this one that is present: returns ELLTREE_YES and writes the key and its value, and returns ELLTREE_NO if there is
   none. The key was present at one moment of the call, and each key after it was absent at one.
   Refusals: ELLTREE_NULL, ELLTREE_FORKED. */
ELLTREE_MUST_USE int32_t elltree_map_last_at_most(struct elltree_map *map, uint64_t key, uint64_t *found, uint64_t *value);

/* Finds the greatest key below this one that is present, as elltree_map_last_at_most does.
   Refusals: ELLTREE_NULL, ELLTREE_FORKED. */
ELLTREE_MUST_USE int32_t elltree_map_last_before(struct elltree_map *map, uint64_t key, uint64_t *found, uint64_t *value);

/* Finds the greatest key that is present, as elltree_map_last_at_most does.
   Refusals: ELLTREE_NULL, ELLTREE_FORKED. */
ELLTREE_MUST_USE int32_t elltree_map_last(struct elltree_map *map, uint64_t *found, uint64_t *value);

/* Writes how many keys are present, and returns ELLTREE_YES. The number is exact if no change is under way. While other threads make changes, it
   is a sum of what each has done so far, which the map may never have had at any one moment: each change that ended before the call is
   counted, and none that began after it.
   Refusals: ELLTREE_NULL, ELLTREE_FORKED. */
ELLTREE_MUST_USE int32_t elltree_map_len(struct elltree_map *map, size_t *count);

/* Returns ELLTREE_YES if a search for the least key finds none, and ELLTREE_NO if it finds one. While other threads make changes, ELLTREE_YES means
   that each key was absent at one moment of the call, and ELLTREE_NO that some key was present at one moment of it.
   Refusals: ELLTREE_NULL, ELLTREE_FORKED. */
ELLTREE_MUST_USE int32_t elltree_map_is_empty(struct elltree_map *map);

/* Stores pairs one after the other, in any order, as elltree_map_put does, and returns ELLTREE_YES. This is not one atomic step: other threads
   see some of the pairs first. The call writes to *done how many pairs it has stored, also if it is refused, and then the next one is at
   fault. An array without pairs may be null.
   Refusals: ELLTREE_NULL, ELLTREE_BAD_KEY, ELLTREE_NO_MEMORY, ELLTREE_FORKED. */
ELLTREE_MUST_USE int32_t elltree_map_extend(struct elltree_map *map, const struct elltree_pair *pairs, size_t count, size_t *done);

/* Writes all pairs, ascending, as they are at one moment, and how many they are, and returns ELLTREE_YES: this is a snapshot. Calls that change
   keys wait meanwhile. If there is no room for all, the call writes no pair, but how many there are. Without room the array may be null.
   Refusals: ELLTREE_NULL, ELLTREE_NO_ROOM, ELLTREE_FORKED. */
ELLTREE_MUST_USE int32_t elltree_map_pairs(struct elltree_map *map, struct elltree_pair *out, size_t room, size_t *count);

/* Renews all sections now, one after the other, and returns ELLTREE_YES. A section that has more cards than its keys need, as it had more keys once
   or threads stood still in calls on it, gives cards back: a small map keeps what a crowd of threads needed until then. A section that has fewer
   than 2.5 for each key gets more, so that a map that was only filled takes more memory afterwards. If the call is refused, the sections of the
   least keys may have been renewed.
   Refusals: ELLTREE_NULL, ELLTREE_NO_MEMORY, ELLTREE_FORKED. */
ELLTREE_MUST_USE int32_t elltree_map_renew(struct elltree_map *map);

/* Writes what has happened to the map so far, and returns ELLTREE_YES. The size is that of the counters, which is sizeof *counts: a library of
   another version than the header's writes as many of them as both know, and 0 to those that it does not know.
   Refusals: ELLTREE_NULL, ELLTREE_FORKED. */
ELLTREE_MUST_USE int32_t elltree_map_counts(struct elltree_map *map, struct elltree_map_counters *counts, size_t size);

/* Adds a key if it is absent, and writes the value that the key has then, in one atomic step. Returns ELLTREE_YES if it has added the key, which
   then has the given value, and ELLTREE_NO if the key was present with the value that is written.
   Refusals: ELLTREE_NULL, ELLTREE_BAD_KEY, ELLTREE_NO_MEMORY, ELLTREE_FORKED. */
ELLTREE_MUST_USE int32_t elltree_map_get_or_insert(struct elltree_map *map, uint64_t key, uint64_t value, uint64_t *there);

/* Removes the least key. Returns ELLTREE_YES and writes the key and the value that it has removed, and returns ELLTREE_NO if the map has no keys. No
   other call removes this pair, so threads that empty a map get each pair once. Each smaller key was absent at one moment of the call: so the
   key was the least one when it was removed, unless another thread has added a smaller one during the call. ELLTREE_NO means that each key was
   absent at one moment of the call.
   Refusals: ELLTREE_NULL, ELLTREE_NO_MEMORY, ELLTREE_FORKED. */
ELLTREE_MUST_USE int32_t elltree_map_pop_first(struct elltree_map *map, uint64_t *key, uint64_t *value);

/* Removes the greatest key, as elltree_map_pop_first removes the least one.
   Refusals: ELLTREE_NULL, ELLTREE_NO_MEMORY, ELLTREE_FORKED. */
ELLTREE_MUST_USE int32_t elltree_map_pop_last(struct elltree_map *map, uint64_t *key, uint64_t *value);

#ifdef __cplusplus
}
#endif
#endif
