/* What calls find of the section that they are on, and what they do about it. */
#include "looks.h"
#include "cards.h"
#include "clock.h"
#include "numbers.h"
#include "renewal.h"

/* Whether this call is weighed: one in 64 of those on a place that change keys, by strides of 1 to 128 that follow no rule, so that no loop of calls
   has the same one of them weighed each time. */
static inline bool is_weighed(struct place *place) {
    if (__builtin_expect(--place->until != 0, 1))
        return false;
    place->chance = place->chance * 1664525 + 1013904223;
    place->until = 1 + (place->chance >> 25);
    return true;
}

/* What calls tell that are weighed is right on average, and may go far astray, so keys are counted before a section is renewed. */

/* Whether so many keys are many for a section: it is to be parted, or has few cards for them. */
static bool are_many(const struct elltree_map *map, const struct section *section, uint64_t keys) {
    return keys > section_keys(&map->barrier) / 8 * 9 || has_few_to_grow(section, keys);
}

static bool has_many_keys(const struct elltree_map *map, struct section *section) {
    return are_many(map, section, keys_about(section)) && are_many(map, section, recount(map, section));
}

/* Whether a section has few keys, and a neighbor for which that is so too. */
static bool may_be_joined(const struct elltree_map *map, const struct directory *directory, struct section *section) {
    const uint32_t at = index_of(directory, section->first);
    uint64_t keys;
    if (!is_small(map, keys_about(section)))
        return false;
    keys = recount(map, section);
    return is_small(map, keys) && (may_fit(map, section_after(directory, at), keys) || may_fit(map, section_before(directory, at), keys));
}

/* Weighs a call that has given its section so many keys more, and tells whether that is to be renewed, and why. */
static enum reason weigh_change(struct elltree_map *map, struct section *section, int32_t more) {
    atomic_fetch_add_explicit(&section->weighed, 1, memory_order_relaxed);
    if (more)
        atomic_fetch_add_explicit(&section->about, SAMPLE * (int64_t)more, memory_order_relaxed);
    if (more > 0 && has_many_keys(map, section))
        return MANY_KEYS;
    if (has_few_for_changes(map, section))
        return FEW_CARDS;
    return more < 0 && may_be_joined(map, directory_of(map), section) ? FEW_KEYS : NO_REASON;
}

/* Whether a section has many cards, and was not renewed while each other one might have been twice. */
static bool has_cards_left_over(const struct elltree_map *map, struct section *section) {
    if (map->renewals - section->renewals < 2 * map->sections || !has_many_cards(section, keys_about(section)))
        return false;
    return has_many_cards(section, recount(map, section));
}

/* Looks at some section, and renews it if it has few keys, as a neighbor has, or has cards that it does not need. The multiples of this number are
   spread evenly over the sections. */
static void look_at_another(struct elltree_map *map) {
    const uint32_t at = UINT32_C(2654435769) * atomic_fetch_add(&map->swept, 1);
    struct place *place = take_place(&map->barrier, READS);
    const struct directory *directory = directory_of(map);
    struct section *section = directory->sections[(uint64_t)at * directory->count >> 32];
    enum reason reason = may_be_joined(map, directory, section) ? FEW_KEYS : NO_REASON;
    if (reason == NO_REASON && has_cards_left_over(map, section))
        reason = MANY_CARDS;
    if (reason != NO_REASON && !take_renewal(section))
        reason = NO_REASON;
    give_back(place);
    if (reason != NO_REASON)
        (void)!renew_section(map, section, reason, 0);
}

/* Whether what was replaced and is still read takes too much memory for another renewal. */
static bool has_too_many_waiting(const struct elltree_map *map) {
    return atomic_load(&map->waiting) > at_least(CARDS_WAITING, atomic_load(&map->cards));
}

/* Renews a section that this thread has taken for that, and looks at two others. */
static int32_t renew(struct elltree_map *map, struct section *section, enum reason reason, uint64_t until) {
    int32_t code;
    while (has_too_many_waiting(map)) {
        (void)take_up(map, NULL, 0);
        if (has_too_many_waiting(map) && now() >= until) {
            leave_section(map, section);
            return ELLTREE_YES;
        }
        rest(UINT32_MAX);
    }
    code = renew_section(map, section, reason, until);
    look_at_another(map);
    look_at_another(map);
    return code;
}

/* Sections without keys that searches pass over. */

/* Leaves word of such a section, for a call that changes a key, also on the section where the search has ended. */
static __attribute__((noinline)) void note_passed(struct elltree_map *map, struct section *passed, struct section *found) {
    atomic_store(&passed->about, 0);
    atomic_store(&map->passed, passed->first + 1);
    if (found)
        atomic_store(&found->due, true);
}

/* Joins such a section with a neighbor. */
static void join_passed(struct elltree_map *map) {
    const uint64_t passed = atomic_exchange(&map->passed, 0);
    struct place *place;
    const struct directory *directory;
    struct section *section;
    bool taken;
    if (!passed)
        return;
    place = take_place(&map->barrier, READS);
    directory = directory_of(map);
    section = section_of(directory, passed - 1);
    taken = may_be_joined(map, directory, section) && take_renewal(section);
    give_back(place);
    if (taken)
        (void)!renew_section(map, section, FEW_KEYS, 0);
}

/* What a call does that changes a key. */

/* Gives the place back, and sees to what this call has found, if it was weighed, and to what others have left. If memory is refused, the map goes on
   as it is. */
static __attribute__((noinline)) void give_back_and_renew(struct elltree_map *map, struct place *place, struct section *section, int32_t more,
                                                          bool is_weighed) {
    const bool is_due = atomic_exchange(&section->due, false);
    enum reason reason = is_due && may_be_joined(map, directory_of(map), section) ? FEW_KEYS : NO_REASON;
    bool taken;
    if (reason == NO_REASON && is_weighed)
        reason = weigh_change(map, section, more);
    taken = reason != NO_REASON && take_renewal(section);
    give_back(place);
    (void)take_up(map, NULL, 0);
    if (atomic_load(&map->passed))
        join_passed(map);
    if (taken)
        (void)!renew(map, section, reason, 0);
}

/* What a call does that finds no card. */

/* Notes that calls on a section wait for cards, unless some do so already: whether they do so often. */
static bool note_spent(struct section *section) {
    uint64_t none = 0;
    if (atomic_load(&section->spent_at) || !atomic_compare_exchange_strong(&section->spent_at, &none, now()))
        return false;
    return atomic_fetch_add(&section->waits, 1) + 1 >= WAITS_FOR_CARDS && section->cards < CARDS_USUAL;
}

/* Notes that a call has found a card again. */
static __attribute__((noinline, cold)) void note_found(struct section *section) { atomic_store(&section->spent_at, 0); }

/* Whether more calls are under way than there are processors, so that threads don't run just now that are inside a call. */
static bool exceed_processors(const struct elltree_map *map) {
    uint32_t calls = 0;
    for (uint32_t i = 0; i <= map->barrier.mask; i++)
        calls += atomic_load_explicit(&map->barrier.places[i].busy, memory_order_relaxed) % 4 != FREE;
    return calls > map->processors;
}

/* Why a section is to be renewed where a call has found no card, or NO_REASON if the call waits for those that others hold back. */
static enum reason why_fresh(struct elltree_map *map, struct section *section, unsigned tries) {
    const bool waits_often = note_spent(section);
    if (has_few_cards(section, recount(map, section)))
        return NO_CARDS;
    if (has_few_for_held(map, section) && exceed_processors(map))
        return HELD_CARDS;
    return waits_often || tries > TRIES_FOR_CARDS || atomic_load(&section->renewing) ? SLOW_CARDS : NO_REASON;
}

/* Gives the place back, and waits until the section is renewed: by this thread, if no other one renews it, or if its renewal was left. If cards may
   come back, it does not wait for long, as the renewal may have to wait for a call on another section. */
static int32_t get_fresh(struct elltree_map *map, struct place *place, struct section *section, enum reason reason) {
    const uint64_t until = reason == NO_CARDS ? UINT64_MAX : now() + ENDURANCE;
    const uint32_t ended = atomic_load(&map->ended);
    const bool taken = take_renewal(section);
    give_back(place);
    if (taken)
        return renew(map, section, reason, until);
    if (!take_up(map, section, until))
        wait_while(&map->ended, ended, until);
    return ELLTREE_YES;
}

/* Where a section has cards enough, calls hold some of them back whose threads don't run just now. They are likely to go on soon, as others wait. If
   one that only reads does not, this happens often, or more calls are under way than there are processors, the section is renewed: a fresh tree is
   not held back by that one, and has more cards, but for a call that changes keys a renewal would have to wait too. */
static __attribute__((noinline)) int32_t get_cards(struct elltree_map *map, struct place *place, struct section *section, unsigned *tries) {
    const enum reason reason = why_fresh(map, section, *tries);
    struct wait wait = {0, 0};
    *tries += *tries == 0;
    if (reason != NO_REASON)
        return get_fresh(map, place, section, reason);
    give_back(place);
    (void)take_up(map, NULL, 0);
    if (await_calls(&map->barrier, &wait, READS, now() + PATIENCE))
        ++*tries;
    else if (wait.busy % 4 == READS)
        *tries = TRIES_FOR_CARDS + 1;
    return ELLTREE_YES;
}
