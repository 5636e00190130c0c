/* How many cards the sections get. A key that is present has a leaf and an inner node, and each of them may keep a card from coming back. Some
   cards have both: where keys are only added, about one card is kept for each key, where they come and go at random, 1.7, and where each key gets
   other values, 2. The more others there are, the sooner a change finds one. */
#include "cards.h"
#include "numbers.h"

/* How many cards a section gets for so many keys. */
static uint64_t cards_for(uint64_t keys) { return at_least(CARDS_LEAST, keys / 2 * 5); }

static bool has_few_cards(const struct section *section, uint64_t keys) { return section->cards < keys + keys / 4 * 3; }

static bool has_few_to_grow(const struct section *section, uint64_t keys) { return section->cards < keys + keys / 8; }

static bool has_many_cards(const struct section *section, uint64_t keys) { return section->cards > cards_for(keys) / 5 * 8; }

static bool has_few_for_changes(const struct elltree_map *map, const struct section *section) {
    return section->cards < CARDS_USUAL && map->cards < 2 * CARDS_USUAL && SAMPLE * atomic_load(&section->weighed) > USES_OF_A_CARD * section->cards;
}

/* How many a section gets at most where more calls are under way than there are processors. */
static uint64_t most_held(const struct elltree_map *map) { return CARDS_HELD / at_least(map->sections, 1); }

static bool has_few_for_held(const struct elltree_map *map, const struct section *section) { return section->cards <= most_held(map) / 2; }

/* For how many keys a section gets cards whose keys become more: half as many again, or so many that there are cards enough until it is parted. */
static uint64_t keys_to_come(const struct elltree_map *map, uint64_t keys) {
    const uint64_t most = section_keys(&map->barrier) / 8 * 7;
    return at_least(keys, at_most(keys + keys / 2, most));
}

/* An empty map begins with few, unless the caller asks for another number. */
static uint64_t first_cards(const struct elltree_map *map, uint64_t keys, uint32_t parts) {
    if (map->settings.cards)
        return at_least((keys + map->settings.cards) / parts, 1);
    return keys ? cards_for(keys / parts) : CARDS_FIRST;
}

/* How many it gets if its keys keep fewer, so that calls hold the others back: twice as many up to a number, and no fewer than it has. */
static uint64_t doubled(const struct section *section) {
    return at_most(at_least(section->cards, at_most(2 * section->cards, CARDS_USUAL)), ELLTREE_CARDS_MAX);
}

/* How many are enough for a section until it is parted, if keys are only added. */
static uint64_t cards_until_parted(const struct elltree_map *map) { return section_keys(&map->barrier) / 2 * 3; }

/* How many each heir of a parted section gets. While the heirs are made, more keys may come, and all of them to one heir. So it gets enough for those
   for which the section still has cards, but not for more than come until it is parted too: if each heir had the cards that many keys left over, and
   its heirs in turn, cards would multiply. */
static uint64_t cards_of_part(const struct elltree_map *map, const struct renewal *renewal, uint64_t keys) {
    const uint64_t there = renewal->there.count, left = at_least(renewal->sections[0]->cards, there) - there;
    const uint64_t to_come = at_most(left, cards_until_parted(map));
    const uint64_t least = at_least(cards_for(keys), renewal->reason == MANY_KEYS ? cards_until_parted(map) : 0);
    return at_most(at_least(least, keys + to_come), ELLTREE_CARDS_MAX);
}

static uint64_t cards_of_each(const struct elltree_map *map, const struct renewal *renewal, uint32_t parts) {
    const struct section *section = renewal->sections[0];
    const uint64_t keys = renewal->there.count / parts, usual = cards_for(keys);
    if (renewal->count > 1)
        return usual;
    if (parts > 1)
        return cards_of_part(map, renewal, keys);
    if (renewal->reason == MANY_KEYS && has_few_to_grow(section, keys))
        return cards_for(keys_to_come(map, keys));
    if (renewal->reason == HELD_CARDS)
        return at_least(at_most(8 * section->cards, most_held(map)), usual);
    if (renewal->reason == FEW_CARDS)
        return at_least(at_most(4 * section->cards, CARDS_USUAL), usual);
    if (renewal->reason == SLOW_CARDS && section->cards >= keys / 4 * 9)
        return at_least(doubled(section), usual);
    return usual;
}

/* How many of these pairs have a key below this one. */
static size_t count_below(const struct pairs *pairs, uint64_t key) {
    size_t low = 0, high = pairs->count;
    while (low < high) {
        const size_t middle = low + (high - low) / 2;
        if (pairs->items[middle].key < key)
            low = middle + 1;
        else
            high = middle;
    }
    return low;
}

/* How many heirs get at first. Keys may come in order: then many lie below or above all keys that the section began with. The heir at that end gets
   enough for those that come while the heirs are made, and the others, which may get no more keys, get few. */
static struct cards first_cards_of_heirs(const struct elltree_map *map, const struct renewal *renewal, uint32_t parts) {
    const struct section *section = renewal->sections[0];
    const uint64_t count = renewal->there.count, each = cards_of_each(map, renewal, parts), few = at_least(CARDS_LEAST, count / parts / 2 * 3);
    const uint64_t many = at_least(each, cards_until_parted(map) + CARDS_CARRIED) - few;
    const bool may_be_in_order = parts > 1 && renewal->count == 1;
    if (may_be_in_order && count_below(&renewal->there, section->least) > count / 4)
        return (struct cards){few, many, 0};
    if (may_be_in_order && count - count_below(&renewal->there, section->greatest) > count / 4)
        return (struct cards){few, 0, many};
    return (struct cards){each, 0, 0};
}

/* How many an heir of so many keys gets that had these at first, if it has failed so often since: each time twice as many besides those of its keys. */
static uint64_t raised(uint64_t cards, uint64_t keys, uint32_t failures) {
    return at_most(keys + ((cards - keys) << at_most(failures, RAISES_MOST)), ELLTREE_CARDS_MAX);
}

/* How many the one heir of a section gets. If it has failed, that is no fewer than the section has. */
static uint64_t cards_of_one(const struct renewal *renewal, uint64_t first) {
    const uint32_t failures = renewal->failures.first + renewal->failures.last + renewal->failures.others;
    const uint64_t least = failures ? renewal->sections[0]->cards : 0;
    return at_most(at_least(raised(first, renewal->there.count, failures), least), ELLTREE_CARDS_MAX);
}

/* An heir may have too few cards for what calls change while it is made. Then all heirs are made again, and only the one in its place gets more, if it
   was the first or the last: there keys may come in order. */
static struct cards cards_of_heirs(const struct elltree_map *map, const struct renewal *renewal, uint32_t parts) {
    const struct cards at_first = first_cards_of_heirs(map, renewal, parts);
    const struct failures *failures = &renewal->failures;
    const uint64_t keys = renewal->there.count / parts, each = raised(at_first.each, keys, failures->others);
    if (parts == 1)
        return (struct cards){cards_of_one(renewal, at_first.each), 0, 0};
    return (struct cards){each, raised(at_first.each + at_first.first, keys, failures->others + failures->first) - each,
                          raised(at_first.each + at_first.last, keys, failures->others + failures->last) - each};
}
