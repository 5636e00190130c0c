/* Renewals: a section gets a fresh tree, or is parted, or joined with a neighbor, while calls go on. docs/BARRIER.md has the protocol, whose steps
   are numbered there, and the argument that it is right. */
#include "renewal.h"
#include "cards.h"
#include "carrying.h"
#include "clock.h"
#include "numbers.h"
#include "order.h"
#include <stdlib.h>

/* Whether this thread is to renew a section, of which a caller with a place knows that it is not freed. */
static bool take_renewal(struct section *section) { return !atomic_exchange(&section->renewing, true); }

/* Wakes those who wait for a renewal that has ended or was left. */
static void tell_end(struct elltree_map *map) { advance(&map->ended); }

/* Leaves a section as it is. */
static void leave_section(struct elltree_map *map, struct section *section) {
    atomic_store(&section->renewing, false);
    tell_end(map);
}

/* The directory, for a thread that has a place, or that has closed the barrier. */
static inline struct directory *directory_of(struct elltree_map *map) {
    struct directory *directory = atomic_load(&map->directory);
    seen(&map->directory);
    return directory;
}

/* Step 1 of a renewal. */

static bool is_small(const struct elltree_map *map, uint64_t keys) { return keys <= section_keys(&map->barrier) / 4; }

/* How many keys two sections have at most that are joined. */
static uint64_t most_joined(const struct elltree_map *map) { return section_keys(&map->barrier) / 4 * 3; }

/* About how many keys a section has. */
static uint64_t keys_about(const struct section *section) {
    const int64_t about = atomic_load(&section->about);
    return about > 0 ? (uint64_t)about : 0;
}

static uint64_t recount(const struct elltree_map *map, struct section *section) {
    const uint64_t keys = count_section(&map->barrier, section);
    atomic_store(&section->about, (int64_t)keys);
    return keys;
}

static struct section *section_after(const struct directory *directory, uint32_t at) {
    return at + 1 < directory->count ? directory->sections[at + 1] : NULL;
}

static struct section *section_before(const struct directory *directory, uint32_t at) { return at > 0 ? directory->sections[at - 1] : NULL; }

static bool may_fit(const struct elltree_map *map, struct section *neighbor, uint64_t keys) {
    return neighbor && keys_about(neighbor) + keys <= most_joined(map) && recount(map, neighbor) + keys <= most_joined(map);
}

/* Takes a neighbor of the section along, the next one if that may be, and else the one before. Sections that are not replaced stand side by side as
   long as this thread has them. */
static void take_neighbor(struct elltree_map *map, struct renewal *renewal) {
    struct section *section = renewal->sections[0], *next, *before;
    struct place *place = take_place(&map->barrier, READS);
    const struct directory *directory = directory_of(map);
    const uint32_t at = index_of(directory, section->first);
    next = section_after(directory, at);
    before = section_before(directory, at);
    if (may_fit(map, next, renewal->there.count) && take_renewal(next)) {
        renewal->sections[renewal->count++] = next;
    } else if (may_fit(map, before, renewal->there.count) && take_renewal(before)) {
        renewal->sections[0] = before;
        renewal->sections[renewal->count++] = section;
    }
    give_back(place);
}

/* Reads the pairs of the neighbor that was taken along too, and leaves it if both have too many. */
static int32_t read_both(struct elltree_map *map, struct renewal *renewal, struct section *section) {
    struct section *neighbor = renewal->sections[renewal->sections[0] == section];
    int32_t code = read_pairs(&map->barrier, &renewal->there, renewal->sections, renewal->count);
    if (code != ELLTREE_YES || renewal->there.count <= most_joined(map))
        return code;
    renewal->sections[0] = section;
    renewal->count = 1;
    code = read_pairs(&map->barrier, &renewal->there, renewal->sections, renewal->count);
    leave_section(map, neighbor);
    return code;
}

/* Reads the pairs that the sections have, each key as it is at a moment of the call: ELLTREE_NO if the section stays as it is. */
static int32_t read_first(struct elltree_map *map, struct renewal *renewal) {
    struct section *section = renewal->sections[0];
    int32_t code = read_pairs(&map->barrier, &renewal->there, renewal->sections, renewal->count);
    if (code != ELLTREE_YES || renewal->count > 1)
        return code;
    if (is_small(map, renewal->there.count)) {
        take_neighbor(map, renewal);
        if (renewal->count > 1)
            code = read_both(map, renewal, section);
    }
    return code == ELLTREE_YES && renewal->count == 1 && renewal->reason == FEW_KEYS ? ELLTREE_NO : code;
}

/* Steps 1 and 2: from here on calls carry over what they change. */
static int32_t begin(struct elltree_map *map, struct renewal *renewal) {
    struct cards cards;
    int32_t code = read_first(map, renewal);
    if (code != ELLTREE_YES)
        return code;
    cards = cards_of_heirs(map, renewal, number_of_parts(&map->barrier, renewal->there.count));
    code = make_heirs(&map->barrier, &renewal->heirs, renewal->sections[0]->first, renewal->sections[renewal->count - 1]->upto, renewal->there.items,
                      renewal->there.count, cards);
    if (code != ELLTREE_YES)
        return code;
    shown(&renewal->heirs->failed);
    for (uint32_t i = 0; i < renewal->count; i++)
        atomic_store(&renewal->sections[i]->heirs, renewal->heirs);
    renewal->stage = AWAITS_CALLS;
    renewal->wait = (struct wait){0, 0};
    return code;
}

/* Step 4: from here on the heirs have what the sections have, but for keys that calls are carrying over. ELLTREE_BUSY if the heirs have failed before. */
static int32_t compare(struct elltree_map *map, struct renewal *renewal) {
    int32_t code;
    if (atomic_load(&renewal->heirs->failed))
        return ELLTREE_BUSY;
    code = read_pairs(&map->barrier, &renewal->there, renewal->sections, renewal->count);
    if (code == ELLTREE_YES)
        code = read_pairs(&map->barrier, &renewal->copied, renewal->heirs->sections, renewal->heirs->count);
    if (code == ELLTREE_YES)
        code = note_differences(renewal);
    if (code == ELLTREE_YES && renewal->difference_count) {
        store_differences(&map->barrier, renewal);
        code = read_pairs(&map->barrier, &renewal->there, renewal->sections, renewal->count);
    }
    if (code == ELLTREE_YES)
        carry_changed(&map->barrier, renewal);
    free(renewal->differences);
    renewal->differences = NULL;
    renewal->stage = AWAITS_PAUSE;
    renewal->wait = (struct wait){0, 0};
    renewal->pause = PAUSE_LEAST;
    return code;
}

/* Counts a renewal, while the barrier is closed and no call sees the heirs. */
static void note_renewal(struct elltree_map *map, struct renewal *renewal, uint64_t effort) {
    map->all_effort += effort;
    for (uint32_t i = 0; i < renewal->heirs->count; i++) {
        renewal->heirs->sections[i]->renewals = atomic_load(&map->renewals);
        map->cards += renewal->heirs->sections[i]->cards;
    }
    for (uint32_t i = 0; i < renewal->count; i++)
        map->cards -= renewal->sections[i]->cards;
    map->sections += renewal->heirs->count;
    map->sections -= renewal->count;
    map->renewals++;
}

/* How long calls have waited, since the barrier was closed, or since one waited for cards. */
static void note_pause(struct elltree_map *map, const struct renewal *renewal, uint64_t closed_at) {
    uint64_t from = closed_at, pause;
    for (uint32_t i = 0; i < renewal->count; i++) {
        const uint64_t spent_at = atomic_load(&renewal->sections[i]->spent_at);
        from = spent_at ? at_most(spent_at, from) : from;
    }
    pause = now() - from;
    map->all_pauses += pause;
    map->longest_pause = at_least(map->longest_pause, pause);
}

/* Sees to it that there is room for the directory to come, before the barrier is closed: no memory is asked for while it is. */
static int32_t make_room(struct elltree_map *map, struct renewal *renewal) {
    const uint64_t needed = atomic_load(&map->sections) + renewal->heirs->count;
    if (renewal->directory && renewal->directory->room >= needed)
        return ELLTREE_YES;
    free(renewal->directory);
    renewal->directory = new_directory((uint32_t)at_most(needed + needed / 16 + 8, UINT32_MAX));
    return renewal->directory ? ELLTREE_YES : ELLTREE_NO_MEMORY;
}

/* Step 7: the heirs stand in the directory in the place of the sections. Calls that only read may see the sections or the heirs, which are alike. */
static void replace(struct elltree_map *map, struct renewal *renewal) {
    struct directory *old = directory_of(map), *made = renewal->directory;
    fill_directory(made, old, index_of(old, renewal->sections[0]->first), renewal->count, renewal->heirs);
    shown(&map->directory);
    atomic_store(&map->directory, made);
    for (uint32_t i = 0; i < renewal->count; i++)
        atomic_store(&renewal->sections[i]->replaced, true);
    renewal->directory = old;
}

/* Steps 5 to 8: ELLTREE_BUSY if the heirs have failed, and ELLTREE_NO if a call is at work, for which the barrier was not closed any longer. */
static int32_t replace_in_pause(struct elltree_map *map, struct renewal *renewal, uint64_t began) {
    const uint64_t closed_at = now();
    int32_t code = make_room(map, renewal);
    if (code != ELLTREE_YES)
        return code;
    if (renewal->wait.busy && !has_ended(&map->barrier.places[renewal->wait.number], &renewal->wait.busy, CHANGES, now() + PAUSE_LEAST))
        return ELLTREE_NO;
    if (!close_barrier(&map->barrier, &renewal->wait, renewal->pause)) {
        renewal->pause = at_most(2 * renewal->pause, PAUSE_MOST);
        return ELLTREE_NO;
    }
    seen(&renewal->heirs->failed);
    if (atomic_load(&renewal->heirs->failed))
        code = ELLTREE_BUSY;
    else if (directory_of(map)->count + renewal->heirs->count > renewal->directory->room)
        code = ELLTREE_NO; /* others have parted sections meanwhile */
    if (code == ELLTREE_YES) {
        note_renewal(map, renewal, renewal->effort + time_at_work() - began);
        replace(map, renewal);
        note_pause(map, renewal, closed_at);
    }
    open_barrier(&map->barrier);
    return code;
}

static void free_pairs(struct pairs *pairs) {
    free(pairs->items);
    *pairs = (struct pairs){NULL, 0, 0};
}

/* The sections are no longer the map's, and their memory waits for the calls that still read them. */
static void wait_for_reads(struct elltree_map *map, struct renewal *renewal) {
    free_pairs(&renewal->there);
    free_pairs(&renewal->copied);
    for (uint32_t i = 0; i < renewal->count; i++)
        atomic_fetch_add(&map->waiting, renewal->sections[i]->cards);
    renewal->stage = AWAITS_READS;
    renewal->wait = (struct wait){0, 0};
    tell_end(map);
}

/* Takes back what steps 1 to 4 have done: calls carry over no more. */
static void begin_to_take_back(struct renewal *renewal, int32_t code) {
    for (uint32_t i = 0; i < renewal->count; i++)
        atomic_store(&renewal->sections[i]->heirs, NULL);
    renewal->code = code;
    renewal->stage = TAKES_BACK;
    renewal->wait = (struct wait){0, 0};
}

/* Counts that one of these heirs had too few cards for what calls have changed meanwhile, if it had. */
static void note_failure(struct failures *failures, const struct heirs *heirs) {
    const struct section *failed = atomic_load(&heirs->failed);
    const bool is_first = heirs->count > 1 && failed == heirs->sections[0];
    const bool is_last = heirs->count > 1 && failed == heirs->sections[heirs->count - 1];
    failures->first += is_first;
    failures->last += is_last;
    failures->others += failed && !is_first && !is_last;
}

/* The next heirs are made of what the sections have then, and get more cards where those before had too few. */
static void begin_anew(struct renewal *renewal) {
    renewal->code = ELLTREE_YES;
    renewal->stage = BEGINS;
}

/* Frees the old sections. */
static void end_replaced(struct elltree_map *map, struct renewal *renewal) {
    for (uint32_t i = 0; i < renewal->count; i++) {
        atomic_fetch_sub(&map->waiting, renewal->sections[i]->cards);
        free_section(&map->barrier, renewal->sections[i]);
    }
    free(renewal->heirs);
    renewal->stage = IS_DONE;
}

/* Leaves the sections as they are. */
static void end_refused(struct elltree_map *map, struct renewal *renewal, int32_t code) {
    for (uint32_t i = 0; i < renewal->count; i++) {
        atomic_store(&renewal->sections[i]->spent_at, 0); /* calls that find no card wait anew */
        atomic_store(&renewal->sections[i]->renewing, false);
    }
    renewal->code = code;
    renewal->stage = IS_DONE;
    tell_end(map);
}

static void free_renewal(struct renewal *renewal) {
    free(renewal->directory);
    free_pairs(&renewal->there);
    free_pairs(&renewal->copied);
    free(renewal);
}

/* Waits a while for the calls under way that change keys: whether they have ended. */
static bool await_changes(struct elltree_map *map, struct renewal *renewal) {
    return await_calls(&map->barrier, &renewal->wait, CHANGES, now() + PAUSE_LEAST);
}

/* The next steps of a renewal: whether they are done, or else some call has not ended in time. If memory is refused, all is to be as it was. */
static bool make_steps(struct elltree_map *map, struct renewal *renewal, uint64_t began) {
    int32_t code = ELLTREE_YES;
    switch (renewal->stage) {
    case BEGINS:
        code = begin(map, renewal);
        if (code != ELLTREE_YES)
            end_refused(map, renewal, code == ELLTREE_NO ? ELLTREE_YES : code);
        return true;
    case AWAITS_CALLS:
        if (!await_changes(map, renewal))
            return false;
        code = compare(map, renewal);
        break;
    case AWAITS_PAUSE:
        code = replace_in_pause(map, renewal, began);
        if (code == ELLTREE_YES)
            wait_for_reads(map, renewal);
        break;
    case AWAITS_READS:
        if (!await_calls(&map->barrier, &renewal->wait, READS, 0))
            return false;
        end_replaced(map, renewal);
        break;
    default:
        if (!await_changes(map, renewal))
            return false;
        note_failure(&renewal->failures, renewal->heirs);
        free_heirs(&map->barrier, renewal->heirs);
        renewal->heirs = NULL;
        if (renewal->code == ELLTREE_BUSY)
            begin_anew(renewal);
        else
            end_refused(map, renewal, renewal->code);
    }
    if (code < 0)
        begin_to_take_back(renewal, code);
    return code != ELLTREE_NO;
}

/* Goes on with a renewal as far as it does not have to wait long for a call under way: whether it is done. */
static bool go_on(struct elltree_map *map, struct renewal *renewal) {
    const uint64_t began = time_at_work();
    bool goes_on = true;
    while (goes_on && renewal->stage != IS_DONE)
        goes_on = make_steps(map, renewal, began);
    renewal->effort += time_at_work() - began;
    return renewal->stage == IS_DONE;
}

/* Renewals that were left. */

/* Leaves a renewal to the next call that changes a key and looks whether there is one. Whoever waits for it looks too. */
static void leave_renewal(struct elltree_map *map, struct renewal *renewal) {
    const bool is_waited_for = renewal->stage != AWAITS_READS;
    shown(&map->left);
    renewal->next = atomic_load(&map->left);
    while (!atomic_compare_exchange_strong(&map->left, &renewal->next, renewal)) {
    }
    if (is_waited_for)
        tell_end(map);
}

/* Goes on with a renewal until the sections are replaced, or it is refused, but leaves it where it would have to wait beyond this time. What is to be
   freed then is left too. */
static int32_t go_on_until(struct elltree_map *map, struct renewal *renewal, uint64_t until) {
    int32_t code = ELLTREE_YES;
    while (!go_on(map, renewal) && renewal->stage != AWAITS_READS && now() < until)
        rest(UINT32_MAX);
    if (renewal->stage == IS_DONE) {
        code = renewal->code;
        free_renewal(renewal);
    } else {
        leave_renewal(map, renewal);
    }
    return code;
}

static bool is_of(const struct renewal *renewal, const struct section *section) {
    return renewal->stage != AWAITS_READS && (renewal->sections[0] == section || (renewal->count > 1 && renewal->sections[1] == section));
}

/* Goes on with all renewals that were left, as far as each does not have to wait, but with that of a section until this time, if it is among them:
   whether it is. */
static bool take_up(struct elltree_map *map, const struct section *section, uint64_t until) {
    struct renewal *it = atomic_load(&map->left) ? atomic_exchange(&map->left, NULL) : NULL, *next, *wanted = NULL;
    seen(&map->left);
    for (; it; it = next) {
        next = it->next;
        if (section && is_of(it, section))
            wanted = it;
        else
            (void)!go_on_until(map, it, 0);
    }
    if (wanted)
        (void)!go_on_until(map, wanted, until);
    return wanted != NULL;
}

/* Begins a renewal of a section that this thread has taken for that, and leaves it where it would have to wait beyond this time. */
static int32_t renew_section(struct elltree_map *map, struct section *section, enum reason reason, uint64_t until) {
    struct renewal *renewal = malloc(sizeof *renewal);
    if (!renewal) {
        leave_section(map, section);
        return ELLTREE_NO_MEMORY;
    }
    *renewal = (struct renewal){.sections = {section}, .count = 1, .reason = reason, .stage = BEGINS, .code = ELLTREE_YES};
    return go_on_until(map, renewal, until);
}
