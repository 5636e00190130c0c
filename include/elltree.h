/* Trees without a map around them, and handles of them, for a program that counts cards itself. Most programs want a map, elltree_map.h, whose
   cards come back by themselves. This header includes that one for the codes, the limits, struct elltree_pair and elltree_text.

       _Alignas(128) struct elltree_handle first = ELLTREE_EMPTY, second = ELLTREE_EMPTY;
       int32_t code = elltree_open(&first, NULL, 0, 100000);
       if (code == ELLTREE_YES)
           code = elltree_another(&first, &second);
       .. one thread ..
       code = elltree_insert(&first, 7, 70, 1000);
       .. another thread ..
       code = elltree_find(&second, 7, &value);
       .. at the end ..
       elltree_free(&first);
       elltree_free(&second);

   elltree_open makes a tree and its first handle, and elltree_another a further handle of the tree, one for each thread. Any handle finds and
   changes any key. All finds and changes of a tree answer as if made one after the other, each at one moment between its begin and its end. A
   change takes one card of the tree, or some more if another thread hinders it, and no card is given back: when none is left, changes are
   refused with ELLTREE_SPENT. In a tree of elltree_open_reusing, cards come back while it is open. No call on a handle waits for another thread:
   each ends after a bounded number of own steps. This is proved of the library's functions, whose names begin with elltree_slot, but for two
   things. The one order of finds and changes is a law, of which contracts say only that a call begins after the earlier ones of its handle, and
   those that the handle which made it had made, and that what a look finds has a place in the order of what its handle has seen. And no contract
   says that cards come back, or counts them there, or the steps for it. The calls add the checks of this header, which are tested. What a thread
   did before it stored a value happened before what another does after it has read it; the calls tell a thread sanitizer so.

   A handle begins as all zeros and then holds nothing: struct elltree_handle h = ELLTREE_EMPTY. Calls on different handles may run at the
   same time. A handle is in one call at a time, and may go from one thread to another. Each call writes to its handle, so handles that
   different threads use should be in cache lines of their own: write _Alignas(128) struct elltree_handle h in C, or alignas(128) in C++, on a
   variable, or on the first member of a struct, whose size is then a multiple of 128. What the library keeps for a handle has cache lines of
   its own.

   Each call returns ELLTREE_YES or ELLTREE_NO, elltree_compare_exchange and elltree_remove_if also ELLTREE_OTHER_VALUE, or a negative code
   that says why the call was refused. A refused call has changed nothing and has written nothing. The last line of each comment lists the
   refusals of the call. They have these reasons, and those that elltree_map.h has for calls on a map:

   - ELLTREE_BUSY: something was in the way of each try, or another thread changed the key first. You may make the same call again.
   - ELLTREE_SPENT: all cards of the tree are given out. Calls that read still work. To go on, make a new tree of the pairs that a range lists.
     In a tree whose cards come back: no card could be taken (see elltree_open_reusing). You may make the same call again.
   - ELLTREE_NO_TRIES: the number of tries is 0.
   - ELLTREE_BAD_KEY: a call that changes keys was given one above ELLTREE_KEY_MAX. To a call that only reads, such a key is absent.
   - ELLTREE_BAD_START: the keys to start with do not ascend strictly, or are more than ELLTREE_START_MAX.
   - ELLTREE_BAD_CARDS: the number of cards is not 1 to ELLTREE_CARDS_MAX.
   - ELLTREE_CLOSED: a handle holds nothing. ELLTREE_OPEN: the handle that is to get something holds something.
   - ELLTREE_SAME: the same handle is given twice. ELLTREE_IN_CALL: the handle is in another call.
   - ELLTREE_TOO_MANY_HANDLES: the handle has the least share of its tree, or the tree has as many handles as it may have.

   Only elltree_open, elltree_open_reusing and elltree_another ask for memory. You have to ensure these conditions, which nothing checks:

   - A handle starts as all zeros. Only these functions write to it, and it is not copied while it holds something (it may be moved).
   - A handle that holds something is freed once, by elltree_free, and no call is on it while its memory ends.
   - A pointer that is not null points to what the call says, and an array has as many items as the call says. No other thread writes to what
     a running call reads, or reads what it writes.
   - malloc, realloc and free are one allocator, which aligns blocks to 16 bytes. The library calls no other function of it. No call comes from
     a signal handler, or from the forked child of a process with threads. */
#ifndef ELLTREE_H
#define ELLTREE_H
#include "elltree_map.h"
#include <stdbool.h>
#if defined(__SANITIZE_THREAD__)
#define ELLTREE_TELLS_ORDER 1
#elif defined(__has_feature)
#if __has_feature(thread_sanitizer)
#define ELLTREE_TELLS_ORDER 1
#endif
#endif
#ifdef ELLTREE_TELLS_ORDER
#include <sanitizer/tsan_interface.h>
#endif
#ifdef __cplusplus
extern "C" {
#endif

/* What the library keeps for a handle, and the handle: do not touch the members. */
struct elltree_slot {
    void *at;
    bool is_open;
    unsigned char unused[7];
};
struct elltree_handle {
    struct elltree_slot slot;
    unsigned char in_call;
    unsigned char unused[7];
};
/* clang-format off */
#ifdef __cplusplus
#define ELLTREE_EMPTY {}
#else
#define ELLTREE_EMPTY {{0, 0, {0}}, 0, {0}}
#endif
/* clang-format on */

/* These are the functions of the library, without the checks of the calls below them: no pointer may be null. */
ELLTREE_MUST_USE int32_t elltree_slot_open(struct elltree_slot *slot, const struct elltree_pair *start, size_t start_count, uint64_t cards);
ELLTREE_MUST_USE int32_t elltree_slot_open_reusing(struct elltree_slot *slot, const struct elltree_pair *start, size_t start_count, uint64_t cards,
                                                   uint32_t handles);
ELLTREE_MUST_USE int32_t elltree_slot_another(struct elltree_slot *from, struct elltree_slot *into);
int32_t elltree_slot_free(struct elltree_slot *slot);
ELLTREE_MUST_USE int32_t elltree_slot_find(struct elltree_slot *slot, uint64_t key, uint64_t *value);
ELLTREE_MUST_USE int32_t elltree_slot_look(struct elltree_slot *slot, uint64_t key, uint64_t *value);
ELLTREE_MUST_USE int32_t elltree_slot_insert(struct elltree_slot *slot, uint64_t key, uint64_t value, uint32_t tries);
ELLTREE_MUST_USE int32_t elltree_slot_put(struct elltree_slot *slot, uint64_t key, uint64_t value, uint32_t tries, uint64_t *was);
ELLTREE_MUST_USE int32_t elltree_slot_delete(struct elltree_slot *slot, uint64_t key, uint32_t tries);
ELLTREE_MUST_USE int32_t elltree_slot_take(struct elltree_slot *slot, uint64_t key, uint32_t tries, uint64_t *taken);
ELLTREE_MUST_USE int32_t elltree_slot_compare_exchange(struct elltree_slot *slot, uint64_t key, uint64_t current, uint64_t desired, uint32_t tries,
                                                       uint64_t *found);
ELLTREE_MUST_USE int32_t elltree_slot_remove_if(struct elltree_slot *slot, uint64_t key, uint64_t current, uint32_t tries, uint64_t *found);
ELLTREE_MUST_USE int32_t elltree_slot_fetch_add(struct elltree_slot *slot, uint64_t key, uint64_t addend, uint32_t tries, uint64_t *was);
ELLTREE_MUST_USE int32_t elltree_slot_range(struct elltree_slot *slot, uint64_t from, uint64_t upto, struct elltree_pair *out, size_t room,
                                            size_t *count, uint64_t *next);
ELLTREE_MUST_USE int32_t elltree_slot_next_at_least(struct elltree_slot *slot, uint64_t key, uint64_t *found, uint64_t *value);
ELLTREE_MUST_USE int32_t elltree_slot_last_at_most(struct elltree_slot *slot, uint64_t key, uint64_t *found, uint64_t *value);
ELLTREE_MUST_USE int32_t elltree_slot_cards_left(struct elltree_slot *slot, uint64_t *left);
ELLTREE_MUST_USE int32_t elltree_slot_steps(struct elltree_slot *slot, uint64_t *steps);

/* These begin a call on a handle, and end it. */
static inline int32_t elltree_enter(struct elltree_handle *handle) {
    if (!handle)
        return ELLTREE_NULL;
    return __atomic_exchange_n(&handle->in_call, 1, __ATOMIC_SEQ_CST) ? ELLTREE_IN_CALL : ELLTREE_YES;
}
static inline int32_t elltree_leave(struct elltree_handle *handle, int32_t code) {
    __atomic_store_n(&handle->in_call, 0, __ATOMIC_SEQ_CST);
    return code;
}

/* The thread sanitizer doesn't see the order that the library makes, which is compiled without it. In a program with it, the calls below tell it:
   `shown` that all that the thread has done so far is seen by whoever sees the key, and `seen` that this thread has seen it, or all keys. A word
   stands for a key, and for some others. */
#ifdef ELLTREE_TELLS_ORDER
enum { ELLTREE_ORDERS = 64 };
extern uint64_t elltree_orders[ELLTREE_ORDERS];
__attribute__((weak)) uint64_t elltree_orders[ELLTREE_ORDERS] = {0};
static inline void elltree_shown(uint64_t key) { __tsan_release(&elltree_orders[key % ELLTREE_ORDERS]); }
static inline void elltree_seen(uint64_t key) { __tsan_acquire(&elltree_orders[key % ELLTREE_ORDERS]); }
static inline void elltree_seen_all(void) {
    for (uint64_t i = 0; i < ELLTREE_ORDERS; i++)
        elltree_seen(i);
}
#else
static inline void elltree_shown(uint64_t key) { (void)key; }
static inline void elltree_seen(uint64_t key) { (void)key; }
static inline void elltree_seen_all(void) {}
#endif

/* These begin a call that changes a key, and end one that reads or changes a key, or reads several. */
static inline int32_t elltree_enter_change(struct elltree_handle *handle, uint64_t key) {
    elltree_shown(key);
    return elltree_enter(handle);
}
static inline int32_t elltree_leave_key(struct elltree_handle *handle, uint64_t key, int32_t code) {
    elltree_seen(key);
    return elltree_leave(handle, code);
}
static inline int32_t elltree_leave_keys(struct elltree_handle *handle, int32_t code) {
    elltree_seen_all();
    return elltree_leave(handle, code);
}

/* Opens a tree with these pairs, whose keys ascend strictly, and this number of cards. The handle, which holds nothing yet, is its first one. A
   card and a pair to start with take 96 bytes each. An array without pairs may be null.
   Refusals: ELLTREE_NULL, ELLTREE_IN_CALL, ELLTREE_OPEN, ELLTREE_BAD_START, ELLTREE_BAD_KEY, ELLTREE_BAD_CARDS, ELLTREE_NO_MEMORY. */
ELLTREE_MUST_USE static inline int32_t elltree_open(struct elltree_handle *handle, const struct elltree_pair *start, size_t start_count,
                                                    uint64_t cards) {
    static const struct elltree_pair no_pair[1] = {{0, 0}};
    int32_t code = start || !start_count ? elltree_enter(handle) : ELLTREE_NULL;
    if (code != ELLTREE_YES)
        return code;
    return elltree_leave(handle, elltree_slot_open(&handle->slot, start ? start : no_pair, start_count, cards));
}

/* Opens a tree as elltree_open does, whose cards come back: once what a change took out of the tree is read by no call any more, its card serves
   another change. For n keys at a time and h handles, ask for 2 n + 3 h + 5 cards, and some more for those that come free while the oldest call
   goes on, and shortly before it. A change that can take no card is refused with ELLTREE_SPENT, and may be made again. Two of the cards are for
   deletes alone, so that a tree that inserts have filled can be emptied: a delete there may be refused once, even if no other call is under
   way, and is made by the next call. A thread that stands still in a call holds cards back until it goes on, and a handle in no call holds
   none. The tree has this number of handles at a time, its first one among them, at least one and at most 1,000,000, and one that is freed
   makes room for another. That cards and room come back is tested; that no card comes back too early is proved. A card and a pair to start
   with take 104 bytes each, and a handle 64. Of 2^62 card numbers each change uses about 2^26 divided by the number of free cards, so a tree
   of 16 cards has enough for two days of 5 million changes a second. Then changes are refused with ELLTREE_SPENT for good.
   Refusals: those of elltree_open. */
ELLTREE_MUST_USE static inline int32_t elltree_open_reusing(struct elltree_handle *handle, const struct elltree_pair *start, size_t start_count,
                                                            uint64_t cards, uint32_t handles) {
    static const struct elltree_pair no_pair[1] = {{0, 0}};
    int32_t code = start || !start_count ? elltree_enter(handle) : ELLTREE_NULL;
    if (code != ELLTREE_YES)
        return code;
    return elltree_leave(handle, elltree_slot_open_reusing(&handle->slot, start ? start : no_pair, start_count, cards, handles));
}

/* Makes a further handle of the tree of a handle, for another thread, in a handle that holds nothing yet. A handle has a share of its tree, and
   keeps the greater part of it, so that the first handle can make more than 1,300,000 others, and each of those can make fewer: make all of
   them from the first. elltree_free does not give a share back.
   Refusals: ELLTREE_NULL, ELLTREE_SAME, ELLTREE_IN_CALL, ELLTREE_OPEN (into), ELLTREE_CLOSED (from), ELLTREE_TOO_MANY_HANDLES,
   ELLTREE_NO_MEMORY. */
ELLTREE_MUST_USE static inline int32_t elltree_another(struct elltree_handle *from, struct elltree_handle *into) {
    int32_t code = from && into ? ELLTREE_YES : ELLTREE_NULL;
    if (code == ELLTREE_YES)
        code = from == into ? ELLTREE_SAME : elltree_enter(from);
    if (code != ELLTREE_YES)
        return code;
    code = elltree_enter(into);
    if (code == ELLTREE_YES)
        code = elltree_leave(into, elltree_slot_another(&from->slot, &into->slot));
    return elltree_leave(from, code);
}

/* Ends a handle, and with the last handle the tree.
   Refusals: ELLTREE_NULL, ELLTREE_IN_CALL, ELLTREE_CLOSED. */
static inline int32_t elltree_free(struct elltree_handle *handle) {
    int32_t code = elltree_enter(handle);
    return code == ELLTREE_YES ? elltree_leave(handle, elltree_slot_free(&handle->slot)) : code;
}

/* Finds a key: returns ELLTREE_YES and writes the value if the key is present, and returns ELLTREE_NO if it is absent.
   Refusals: ELLTREE_NULL, ELLTREE_IN_CALL, ELLTREE_CLOSED. */
ELLTREE_MUST_USE static inline int32_t elltree_find(struct elltree_handle *handle, uint64_t key, uint64_t *value) {
    int32_t code = value ? elltree_enter(handle) : ELLTREE_NULL;
    return code == ELLTREE_YES ? elltree_leave_key(handle, key, elltree_slot_find(&handle->slot, key, value)) : code;
}

/* Finds a key as elltree_find does, by fewer steps: what it answers is what the tree had for the key at one moment of the call. In the proof a
   look has no place in the single order in which finds and changes answer.
   Refusals: ELLTREE_NULL, ELLTREE_IN_CALL, ELLTREE_CLOSED. */
ELLTREE_MUST_USE static inline int32_t elltree_look(struct elltree_handle *handle, uint64_t key, uint64_t *value) {
    int32_t code = value ? elltree_enter(handle) : ELLTREE_NULL;
    return code == ELLTREE_YES ? elltree_leave_key(handle, key, elltree_slot_look(&handle->slot, key, value)) : code;
}

/* Adds a key that is absent: returns ELLTREE_YES if it has added the key, and ELLTREE_NO if the key was present, which then keeps its value. The
   call tries so many times, at least once. A try fails if something is in the way, as a change that another thread has begun and not ended; if
   all tries fail, the call returns ELLTREE_BUSY. An insert takes a card, and where none comes back elltree_cards_left tells you how many are left.
   Refusals: ELLTREE_NULL, ELLTREE_IN_CALL, ELLTREE_CLOSED, ELLTREE_NO_TRIES, ELLTREE_BAD_KEY, ELLTREE_BUSY, ELLTREE_SPENT. */
ELLTREE_MUST_USE static inline int32_t elltree_insert(struct elltree_handle *handle, uint64_t key, uint64_t value, uint32_t tries) {
    int32_t code = elltree_enter_change(handle, key);
    return code == ELLTREE_YES ? elltree_leave_key(handle, key, elltree_slot_insert(&handle->slot, key, value, tries)) : code;
}

/* Stores the value of a key, whether the key is present or absent, in one atomic step. Returns ELLTREE_YES and writes the value that the key
   had, if it was present, and returns ELLTREE_NO if it was absent and has been added. A try also fails if another thread has changed the key
   since it was read. A put takes a card.
   Refusals: ELLTREE_NULL, ELLTREE_IN_CALL, ELLTREE_CLOSED, ELLTREE_NO_TRIES, ELLTREE_BAD_KEY, ELLTREE_BUSY, ELLTREE_SPENT. */
ELLTREE_MUST_USE static inline int32_t elltree_put(struct elltree_handle *handle, uint64_t key, uint64_t value, uint32_t tries, uint64_t *was) {
    int32_t code = was ? elltree_enter_change(handle, key) : ELLTREE_NULL;
    return code == ELLTREE_YES ? elltree_leave_key(handle, key, elltree_slot_put(&handle->slot, key, value, tries, was)) : code;
}

/* Removes a key: returns ELLTREE_YES if it was present, and ELLTREE_NO if it was absent. A delete takes a card. To change the value of a key, use
   elltree_put or one of the calls after elltree_take: they need one card, and the key is never absent in between.
   Refusals: ELLTREE_NULL, ELLTREE_IN_CALL, ELLTREE_CLOSED, ELLTREE_NO_TRIES, ELLTREE_BAD_KEY, ELLTREE_BUSY, ELLTREE_SPENT. */
ELLTREE_MUST_USE static inline int32_t elltree_delete(struct elltree_handle *handle, uint64_t key, uint32_t tries) {
    int32_t code = elltree_enter_change(handle, key);
    return code == ELLTREE_YES ? elltree_leave_key(handle, key, elltree_slot_delete(&handle->slot, key, tries)) : code;
}

/* Removes a key as elltree_delete does, and writes the value that it has removed. Of all threads, only this one removed that value: the key had
   it at one moment of the call, and was absent after it.
   Refusals: ELLTREE_NULL, ELLTREE_IN_CALL, ELLTREE_CLOSED, ELLTREE_NO_TRIES, ELLTREE_BAD_KEY, ELLTREE_BUSY, ELLTREE_SPENT. */
ELLTREE_MUST_USE static inline int32_t elltree_take(struct elltree_handle *handle, uint64_t key, uint32_t tries, uint64_t *taken) {
    int32_t code = taken ? elltree_enter_change(handle, key) : ELLTREE_NULL;
    return code == ELLTREE_YES ? elltree_leave_key(handle, key, elltree_slot_take(&handle->slot, key, tries, taken)) : code;
}

/* Stores the desired value of a key if its value is the expected one, in one atomic step, like atomic_compare_exchange_strong of C11. Returns
   ELLTREE_YES if it has exchanged the value, ELLTREE_OTHER_VALUE if the key has another value, which is then written to expected, and ELLTREE_NO
   if the key is absent; in the last two cases nothing has changed. Tries and cards are those of elltree_put.
   Refusals: ELLTREE_NULL, ELLTREE_IN_CALL, ELLTREE_CLOSED, ELLTREE_NO_TRIES, ELLTREE_BAD_KEY, ELLTREE_BUSY, ELLTREE_SPENT. */
ELLTREE_MUST_USE static inline int32_t elltree_compare_exchange(struct elltree_handle *handle, uint64_t key, uint64_t *expected, uint64_t desired,
                                                                uint32_t tries) {
    int32_t code = expected ? elltree_enter_change(handle, key) : ELLTREE_NULL;
    if (code != ELLTREE_YES)
        return code;
    return elltree_leave_key(handle, key, elltree_slot_compare_exchange(&handle->slot, key, *expected, desired, tries, expected));
}

/* Removes a key if its value is the expected one, in one atomic step. Returns ELLTREE_YES if it has removed the key, ELLTREE_OTHER_VALUE if the key
   has another value, which is then written to expected, and ELLTREE_NO if the key is absent; in the last two cases nothing has changed. No
   value but the expected one is ever removed, whatever other threads store meanwhile. Tries and cards are those of elltree_put.
   Refusals: ELLTREE_NULL, ELLTREE_IN_CALL, ELLTREE_CLOSED, ELLTREE_NO_TRIES, ELLTREE_BAD_KEY, ELLTREE_BUSY, ELLTREE_SPENT. */
ELLTREE_MUST_USE static inline int32_t elltree_remove_if(struct elltree_handle *handle, uint64_t key, uint64_t *expected, uint32_t tries) {
    int32_t code = expected ? elltree_enter_change(handle, key) : ELLTREE_NULL;
    if (code != ELLTREE_YES)
        return code;
    return elltree_leave_key(handle, key, elltree_slot_remove_if(&handle->slot, key, *expected, tries, expected));
}

/* Adds to the value of a key in one atomic step. Returns ELLTREE_YES and writes the value that the key had, or returns ELLTREE_NO if the key is
   absent, and then it stays absent. A sum past UINT64_MAX wraps around. Tries and cards are those of elltree_put.
   Refusals: ELLTREE_NULL, ELLTREE_IN_CALL, ELLTREE_CLOSED, ELLTREE_NO_TRIES, ELLTREE_BAD_KEY, ELLTREE_BUSY, ELLTREE_SPENT. */
ELLTREE_MUST_USE static inline int32_t elltree_fetch_add(struct elltree_handle *handle, uint64_t key, uint64_t addend, uint32_t tries,
                                                         uint64_t *was) {
    int32_t code = was ? elltree_enter_change(handle, key) : ELLTREE_NULL;
    return code == ELLTREE_YES ? elltree_leave_key(handle, key, elltree_slot_fetch_add(&handle->slot, key, addend, tries, was)) : code;
}

/* Writes the keys from one on and below another that are present, ascending, with their values, as many as the array has room for. Returns
   ELLTREE_YES, and writes how many they are and where to go on, which is upto if the whole range has been listed. elltree_map_range does the same
   on a map, and elltree_map.h has the loop that lists a whole range. A range is not a snapshot, but it shows each key as it was at one moment
   of the call: a key that was present all along is listed, one that was absent all along is not, and each listed pair was there. Without room
   the array may be null.
   Refusals: ELLTREE_NULL, ELLTREE_IN_CALL, ELLTREE_CLOSED. */
ELLTREE_MUST_USE static inline int32_t elltree_range(struct elltree_handle *handle, uint64_t from, uint64_t upto, struct elltree_pair *out,
                                                     size_t room, size_t *count, uint64_t *next) {
    struct elltree_pair none;
    int32_t code = count && next && (out || !room) ? elltree_enter(handle) : ELLTREE_NULL;
    if (code != ELLTREE_YES)
        return code;
    return elltree_leave_keys(handle, elltree_slot_range(&handle->slot, from, upto, out ? out : &none, room, count, next));
}

/* Finds the least key from this one on that is present: returns ELLTREE_YES and writes the key and its value, and returns ELLTREE_NO if there is
   none. The key was present at one moment of the call, and each key before it was absent at one.
   Refusals: ELLTREE_NULL, ELLTREE_IN_CALL, ELLTREE_CLOSED. */
ELLTREE_MUST_USE static inline int32_t elltree_next_at_least(struct elltree_handle *handle, uint64_t key, uint64_t *found, uint64_t *value) {
    int32_t code = found && value ? elltree_enter(handle) : ELLTREE_NULL;
    return code == ELLTREE_YES ? elltree_leave_keys(handle, elltree_slot_next_at_least(&handle->slot, key, found, value)) : code;
}

/* Finds the greatest key up to this one that is present: returns ELLTREE_YES and writes the key and its value, and returns ELLTREE_NO if there is
   none. The key was present at one moment of the call, and each key after it was absent at one.
   Refusals: ELLTREE_NULL, ELLTREE_IN_CALL, ELLTREE_CLOSED. */
ELLTREE_MUST_USE static inline int32_t elltree_last_at_most(struct elltree_handle *handle, uint64_t key, uint64_t *found, uint64_t *value) {
    int32_t code = found && value ? elltree_enter(handle) : ELLTREE_NULL;
    return code == ELLTREE_YES ? elltree_leave_keys(handle, elltree_slot_last_at_most(&handle->slot, key, found, value)) : code;
}

/* Writes how many cards of the handle's tree had not been given out at one moment of the call, 0 if all had been, and returns ELLTREE_YES. Calls on
   other handles of the tree may take some meanwhile. The number never rises. The call takes one step and no card. In a tree whose cards come
   back it is no number of cards, but 2,305,843,009,213,693,951 less the card numbers that the tree has used: one for each pair to start with,
   and some for each change.
   Refusals: ELLTREE_NULL, ELLTREE_IN_CALL, ELLTREE_CLOSED. */
ELLTREE_MUST_USE static inline int32_t elltree_cards_left(struct elltree_handle *handle, uint64_t *left) {
    int32_t code = left ? elltree_enter(handle) : ELLTREE_NULL;
    return code == ELLTREE_YES ? elltree_leave(handle, elltree_slot_cards_left(&handle->slot, left)) : code;
}

/* Writes how many atomic steps were made through the handle, and returns ELLTREE_YES. In a tree whose cards come back, the steps that
   keep account of which cards are free are not counted.
   Refusals: ELLTREE_NULL, ELLTREE_IN_CALL, ELLTREE_CLOSED. */
ELLTREE_MUST_USE static inline int32_t elltree_steps(struct elltree_handle *handle, uint64_t *steps) {
    int32_t code = steps ? elltree_enter(handle) : ELLTREE_NULL;
    return code == ELLTREE_YES ? elltree_leave(handle, elltree_slot_steps(&handle->slot, steps)) : code;
}

#ifdef __cplusplus
}
#endif
#endif
