/* Calls on one key. */
#include "calls.h"
#include "carrying.h"
#include "looks.h"
#include "order.h"
#include "renewal.h"

/* What a call gets and tells. */
struct request {
    uint64_t key, value, other;
    bool changed;       /* whether it has changed its key */
    int32_t more;       /* how many keys more there are */
    struct state state; /* what the key had then */
};

typedef int32_t work(struct place *place, struct seat *seat, struct request *request);

/* Makes a call on a place until it has an answer, and renews the section of its key if there is a reason. */
static inline __attribute__((always_inline)) int32_t call(struct elltree_map *map, work *work_on, struct request *request) {
    unsigned tries = 0;
    int32_t code;
    shown(order_of(map, request->key));
    do {
        struct place *place = enter(&map->barrier);
        struct section *section = section_of(directory_of(map), request->key);
        struct seat *seat = seat_of(section, place);
        struct heirs *heirs = atomic_load(&section->heirs);
        const bool is_due = atomic_load_explicit(&section->due, memory_order_relaxed);
        code = work_on(place, seat, request);
        if (__builtin_expect(heirs && request->changed, 0))
            carry_over(heirs, seat, seat_of(heir_of(heirs, request->key), place), request->key, request->state);
        if (__builtin_expect(tries != 0, 0) && code >= 0)
            note_found(section);
        if (__builtin_expect(code == ELLTREE_SPENT, 0))
            code = get_cards(map, place, section, &tries) == ELLTREE_YES ? ELLTREE_BUSY : ELLTREE_NO_MEMORY;
        else if (__builtin_expect(is_weighed(place), 0))
            give_back_and_renew(map, place, section, request->more, true);
        else if (__builtin_expect(is_due, 0))
            give_back_and_renew(map, place, section, request->more, false);
        else
            give_back(place);
    } while (code == ELLTREE_BUSY);
    seen(order_of(map, request->key));
    return code;
}

/* Notes that a call has given its key this value, or has taken it away, and how many keys more there are. Only the place's thread adds them up. */
static inline void note_change(struct place *place, struct seat *seat, struct request *request, int32_t there, uint64_t value, int32_t more) {
    const int64_t added = atomic_load_explicit(&place->added, memory_order_relaxed);
    atomic_store_explicit(&place->added, added + more, memory_order_relaxed);
    note_added(seat, more);
    request->changed = true;
    request->more = more;
    request->state = (struct state){there, value};
}

static int32_t insert_at(struct place *place, struct seat *seat, struct request *request) {
    const int32_t code = elltree_slot_insert(&seat->slot, request->key, request->value, TRIES);
    if (code == ELLTREE_YES)
        note_change(place, seat, request, ELLTREE_YES, request->value, 1);
    return code;
}

static int32_t put_at(struct place *place, struct seat *seat, struct request *request) {
    const int32_t code = elltree_slot_put(&seat->slot, request->key, request->value, TRIES, &request->other);
    if (code == ELLTREE_YES || code == ELLTREE_NO)
        note_change(place, seat, request, ELLTREE_YES, request->value, code == ELLTREE_NO);
    return code;
}

static int32_t delete_at(struct place *place, struct seat *seat, struct request *request) {
    const int32_t code = elltree_slot_delete(&seat->slot, request->key, TRIES);
    if (code == ELLTREE_YES)
        note_change(place, seat, request, ELLTREE_NO, 0, -1);
    return code;
}

static int32_t take_at(struct place *place, struct seat *seat, struct request *request) {
    const int32_t code = elltree_slot_take(&seat->slot, request->key, TRIES, &request->other);
    if (code == ELLTREE_YES)
        note_change(place, seat, request, ELLTREE_NO, 0, -1);
    return code;
}

static int32_t compare_exchange_at(struct place *place, struct seat *seat, struct request *request) {
    const int32_t code = elltree_slot_compare_exchange(&seat->slot, request->key, request->other, request->value, TRIES, &request->other);
    if (code == ELLTREE_YES)
        note_change(place, seat, request, ELLTREE_YES, request->value, 0);
    return code;
}

static int32_t remove_if_at(struct place *place, struct seat *seat, struct request *request) {
    const int32_t code = elltree_slot_remove_if(&seat->slot, request->key, request->value, TRIES, &request->other);
    if (code == ELLTREE_YES)
        note_change(place, seat, request, ELLTREE_NO, 0, -1);
    return code;
}

static int32_t fetch_add_at(struct place *place, struct seat *seat, struct request *request) {
    const int32_t code = elltree_slot_fetch_add(&seat->slot, request->key, request->value, TRIES, &request->other);
    if (code == ELLTREE_YES)
        note_change(place, seat, request, ELLTREE_YES, request->other + request->value, 0);
    return code;
}

int32_t elltree_map_get(struct elltree_map *map, uint64_t key, uint64_t *value) {
    uint64_t found = 0;
    int32_t code = check_map(map);
    struct place *place;
    struct section *section;
    if (code != ELLTREE_YES)
        return code;
    place = take_place(&map->barrier, READS);
    do {
        section = section_of(directory_of(map), key);
        code = elltree_slot_look(slot_of(section, place), key, &found);
    } while (__builtin_expect(atomic_load(&section->replaced), 0)); /* else the section was the map's when it was read */
    give_back(place);
    seen(order_of(map, key));
    if (code == ELLTREE_YES)
        tell(value, found);
    return code;
}

int32_t elltree_map_insert(struct elltree_map *map, uint64_t key, uint64_t value) {
    struct request request = {.key = key, .value = value};
    const int32_t code = check(map, key);
    return code == ELLTREE_YES ? call(map, insert_at, &request) : code;
}

int32_t elltree_map_put(struct elltree_map *map, uint64_t key, uint64_t value, uint64_t *was) {
    struct request request = {.key = key, .value = value};
    int32_t code = check(map, key);
    if (code == ELLTREE_YES && (code = call(map, put_at, &request)) == ELLTREE_YES)
        tell(was, request.other);
    return code;
}

int32_t elltree_map_remove(struct elltree_map *map, uint64_t key, uint64_t *was) {
    struct request request = {.key = key};
    int32_t code = check(map, key);
    if (code == ELLTREE_YES && (code = call(map, take_at, &request)) == ELLTREE_YES)
        tell(was, request.other);
    return code;
}

int32_t elltree_map_delete(struct elltree_map *map, uint64_t key) {
    struct request request = {.key = key};
    const int32_t code = check(map, key);
    return code == ELLTREE_YES ? call(map, delete_at, &request) : code;
}

int32_t elltree_map_compare_exchange(struct elltree_map *map, uint64_t key, uint64_t *expected, uint64_t desired) {
    struct request request = {.key = key, .value = desired, .other = expected ? *expected : 0};
    int32_t code = expected ? check(map, key) : ELLTREE_NULL;
    if (code == ELLTREE_YES && (code = call(map, compare_exchange_at, &request)) == ELLTREE_OTHER_VALUE)
        *expected = request.other;
    return code;
}

int32_t elltree_map_remove_if(struct elltree_map *map, uint64_t key, uint64_t was, uint64_t *found) {
    struct request request = {.key = key, .value = was};
    int32_t code = check(map, key);
    if (code == ELLTREE_YES && (code = call(map, remove_if_at, &request)) == ELLTREE_OTHER_VALUE)
        tell(found, request.other);
    return code;
}

int32_t elltree_map_fetch_add(struct elltree_map *map, uint64_t key, uint64_t addend, uint64_t *was) {
    struct request request = {.key = key, .value = addend};
    int32_t code = check(map, key);
    if (code == ELLTREE_YES && (code = call(map, fetch_add_at, &request)) == ELLTREE_YES)
        tell(was, request.other);
    return code;
}

int32_t elltree_map_update(struct elltree_map *map, uint64_t key, uint64_t (*f)(uint64_t value, void *context), void *context, uint64_t *was) {
    uint64_t found = 0;
    int32_t code = f ? check(map, key) : ELLTREE_NULL;
    if (code == ELLTREE_YES)
        code = elltree_map_get(map, key, &found);
    if (code != ELLTREE_YES)
        return code;
    do /* f runs between two calls, so nothing waits for it */
        code = elltree_map_compare_exchange(map, key, &found, f(found, context));
    while (code == ELLTREE_OTHER_VALUE);
    if (code == ELLTREE_YES)
        tell(was, found);
    return code;
}
