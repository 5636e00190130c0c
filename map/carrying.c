/* How keys are carried over from a section that is being renewed to its heirs. docs/BARRIER.md has the protocol, and the argument that it is
   right. */
#include "carrying.h"
#include "order.h"
#include <stdlib.h>

static int32_t grow(struct pairs *pairs) {
    const size_t room = pairs->room ? 2 * pairs->room : PAIRS_AT_ONCE;
    struct elltree_pair *items = realloc(pairs->items, room * sizeof *items);
    if (!items)
        return ELLTREE_NO_MEMORY;
    pairs->items = items;
    pairs->room = room;
    return ELLTREE_YES;
}

/* Adds the pairs of a section, each as it is at a moment of the call. */
static int32_t append_pairs(const struct barrier *barrier, struct pairs *pairs, struct section *section) {
    uint64_t next = section->first;
    size_t part = 0;
    int32_t code;
    do {
        code = pairs->count < pairs->room ? ELLTREE_YES : grow(pairs);
        if (code == ELLTREE_YES)
            code = elltree_slot_range(&seat_to_renew(barrier, section)->slot, next, UINT64_MAX, pairs->items + pairs->count,
                                      pairs->room - pairs->count, &part, &next);
        if (code == ELLTREE_YES)
            pairs->count += part;
    } while (code == ELLTREE_YES && next < UINT64_MAX);
    return code;
}

/* The pairs of these sections in place of what the array has. */
static int32_t read_pairs(const struct barrier *barrier, struct pairs *pairs, struct section *const *sections, uint32_t count) {
    int32_t code = ELLTREE_YES;
    pairs->count = 0;
    for (uint32_t i = 0; i < count && code == ELLTREE_YES; i++)
        code = append_pairs(barrier, pairs, sections[i]);
    return code;
}

/* Gives a key of a tree the value that it has in another, or takes it away if it is absent there: ELLTREE_SPENT if no card is free. */
static int32_t store(struct seat *seat, uint64_t key, int32_t there, uint64_t value) {
    uint64_t was;
    int32_t code;
    do
        code = there == ELLTREE_YES ? elltree_slot_put(&seat->slot, key, value, TRIES, &was) : elltree_slot_delete(&seat->slot, key, TRIES);
    while (code == ELLTREE_BUSY);
    if (there == ELLTREE_YES && code == ELLTREE_NO)
        note_added(seat, 1);
    if (there != ELLTREE_YES && code == ELLTREE_YES)
        note_added(seat, -1);
    return code;
}

static bool are_alike(struct state one, struct state other) {
    return one.there == other.there && (one.there != ELLTREE_YES || one.value == other.value);
}

/* Carries a key over to the heirs: stores there what the section is taken to have of it, until the section has that after it was stored. So whoever
   stores last has stored what the section has since then. If the heir has no card free, the heirs have failed, and are taken back, so nothing is
   stored in them any more: a search for a free card takes long where there is none. */
static void carry_over(struct heirs *heirs, struct seat *from, struct seat *into, uint64_t key, struct state state) {
    struct state stored;
    seen(&heirs->failed);
    if (atomic_load(&heirs->failed))
        return;
    do {
        stored = state;
        if (state.there < 0 || store(into, key, state.there, state.value) < 0) {
            atomic_store(&heirs->failed, heir_of(heirs, key));
            return;
        }
        state.there = elltree_slot_find(&from->slot, key, &state.value);
    } while (!are_alike(stored, state));
}

/* The seats in a key's section and heir that the thread has that renews. */
static struct seat *seat_from(const struct barrier *barrier, struct renewal *renewal, uint64_t key) {
    return seat_to_renew(barrier, renewal->sections[renewal->count > 1 && key >= renewal->sections[1]->first]);
}

static struct seat *seat_into(const struct barrier *barrier, struct renewal *renewal, uint64_t key) {
    return seat_to_renew(barrier, heir_of(renewal->heirs, key));
}

/* Notes the keys of which the sections and their heirs were read to differ, ascending, with what the sections have. */
static int32_t note_differences(struct renewal *renewal) {
    const struct elltree_pair *there = renewal->there.items, *copied = renewal->copied.items;
    const struct elltree_pair *end = there + renewal->there.count, *end_copied = copied + renewal->copied.count;
    renewal->difference_count = 0;
    renewal->differences = malloc((renewal->there.count + renewal->copied.count + 1) * sizeof *renewal->differences);
    if (!renewal->differences)
        return ELLTREE_NO_MEMORY;
    while (there < end || copied < end_copied) {
        const bool is_there = there < end && (copied == end_copied || there->key <= copied->key);
        const bool is_copied = copied < end_copied && (there == end || copied->key <= there->key);
        if (!is_there || !is_copied || there->value != copied->value)
            renewal->differences[renewal->difference_count++] = is_there ? (struct difference){there->key, {ELLTREE_YES, there->value}}
                                                                         : (struct difference){copied->key, {ELLTREE_NO, 0}};
        there += is_there;
        copied += is_copied;
    }
    return ELLTREE_YES;
}

/* Stores the differences in the heirs, each half of them before those between, so that keys in order make no list, or until the heirs have failed. */
static void store_differences(const struct barrier *barrier, struct renewal *renewal) {
    const size_t count = renewal->difference_count;
    size_t step = 1;
    while (step <= count / 2)
        step *= 2;
    for (; step; step /= 2)
        for (size_t i = step; i <= count && !atomic_load(&renewal->heirs->failed); i += 2 * step) {
            const struct difference *it = &renewal->differences[i - 1];
            if (store(seat_into(barrier, renewal, it->key), it->key, it->state.there, it->state.value) < 0)
                atomic_store(&renewal->heirs->failed, heir_of(renewal->heirs, it->key));
        }
}

/* Carries each of them over of which the sections have since been read to have something else than was stored. */
static void carry_changed(const struct barrier *barrier, struct renewal *renewal) {
    const struct elltree_pair *there = renewal->there.items, *end = there + renewal->there.count;
    for (size_t i = 0; i < renewal->difference_count; i++) {
        const struct difference *it = &renewal->differences[i];
        struct state state = {ELLTREE_NO, 0};
        while (there < end && there->key < it->key)
            there++;
        if (there < end && there->key == it->key)
            state = (struct state){ELLTREE_YES, there->value};
        if (!are_alike(state, it->state))
            carry_over(renewal->heirs, seat_from(barrier, renewal, it->key), seat_into(barrier, renewal, it->key), it->key, state);
    }
}
