/* Keys come in seven orders: ascending, descending, by turns from both ends, in blocks, as the first bits of a number reversed, shuffled, and far
   apart; each order by one thread, against a plain array. The tree stays flat in each: a find makes 199 steps at most, and a look 131, while keys
   come, while every other one goes, and afterwards, and a scan finds the keys ascending. Then a queue: two threads put ascending keys in at one end
   while two take the least keys out at the other, and no find makes more steps. Then a handle opens on so many start keys, and keys come above them:
   a find makes 259 steps at most. At last four threads fill a map with ascending keys, and another with descending ones, and neither makes many more
   cards than keys. */
#include "elltree.h"
#include <pthread.h>
#include <stdio.h>
#include <stdlib.h>

enum { KEYS = 4000, TRIES = 1000, DEPTH = 64, DEPTH_ON_KEYS = 84, ENDS = 2, EACH = 20000, START = 1000, FILL = 400000, CARDS_A_KEY = 10 };

static uint64_t random_next(uint64_t *seed) { return *seed ^= *seed << 13, *seed ^= *seed >> 7, *seed ^= *seed << 17; }

/* The key that comes at a place of an order. */
static uint64_t ascending(uint64_t at) { return at; }
static uint64_t descending(uint64_t at) { return KEYS - 1 - at; }
static uint64_t from_both_ends(uint64_t at) { return at % 2 ? KEYS - 1 - at / 2 : at / 2; }
static uint64_t in_blocks(uint64_t at) { return (at % 50) * 80 + at / 50; }
static uint64_t with_bits_reversed(uint64_t at) {
    uint64_t key = 0;
    int bit;
    for (bit = 0; bit < 12; bit++)
        key |= (at >> bit & 1) << (51 - bit);
    return key;
}
static uint64_t shuffled(uint64_t at) { return at * UINT64_C(0x9E3779B97F4A7C15) & ((UINT64_C(1) << 62) - 1); }
static uint64_t far_apart(uint64_t at) { return UINT64_C(1) << (12 + at % 50) | at / 50; }

static uint64_t (*const orders[])(uint64_t) = {ascending, descending, from_both_ends, in_blocks, with_bits_reversed, shuffled, far_apart};
static const char *const names[] = {"ascending", "descending", "from both ends", "in blocks", "with bits reversed", "shuffled", "far apart"};

/* How many steps a find makes at most, and a look, if no internal node is below more internal nodes. */
static uint64_t find_steps(uint64_t depth) { return 3 * depth + 7; }
static uint64_t look_steps(uint64_t depth) { return 2 * depth + 3; }

/* Whether a find or a look of a key answers other than this, or makes more steps than in a tree so deep. */
static long is_wrong(struct elltree_handle *handle, uint64_t key, int32_t there, uint64_t depth) {
    uint64_t before = 0, between = 0, after = 0, value = 0, looked = 0;
    long wrong = elltree_steps(handle, &before) != ELLTREE_YES || elltree_find(handle, key, &value) != there;
    wrong += elltree_steps(handle, &between) != ELLTREE_YES || elltree_look(handle, key, &looked) != there;
    wrong += elltree_steps(handle, &after) != ELLTREE_YES || between - before > find_steps(depth) || after - between > look_steps(depth);
    return wrong + (there == ELLTREE_YES && (value != ~key || looked != ~key));
}

/* How many of the pairs of a tree are not as they were put in, or not ascending. */
static long pairs_are_wrong(struct elltree_handle *handle, uint64_t count) {
    static struct elltree_pair pairs[KEYS + 1];
    size_t listed = 0, i;
    uint64_t next = 0;
    long wrong = elltree_range(handle, 0, ELLTREE_KEY_MAX + 1, pairs, KEYS + 1, &listed, &next) != ELLTREE_YES || listed != count;
    for (i = 0; i < listed; i++)
        wrong += pairs[i].value != ~pairs[i].key || (i > 0 && pairs[i - 1].key >= pairs[i].key);
    return wrong;
}

static long keys_in_order(uint64_t (*key)(uint64_t)) {
    struct elltree_handle handle = ELLTREE_EMPTY;
    uint64_t at, present = 0;
    long wrong = elltree_open(&handle, NULL, 0, 4 * KEYS) != ELLTREE_YES;
    for (at = 0; at < KEYS; at++) {
        wrong += is_wrong(&handle, key(at), ELLTREE_NO, DEPTH) + (elltree_insert(&handle, key(at), ~key(at), TRIES) != ELLTREE_YES);
        wrong += is_wrong(&handle, key(at / 2), ELLTREE_YES, DEPTH);
    }
    wrong += pairs_are_wrong(&handle, KEYS);
    for (at = 0; at < KEYS; at += 2)
        wrong += elltree_delete(&handle, key(at), TRIES) != ELLTREE_YES;
    for (at = 0; at < KEYS; at++)
        wrong += is_wrong(&handle, key(at), at % 2 ? ELLTREE_YES : ELLTREE_NO, DEPTH), present += at % 2;
    wrong += pairs_are_wrong(&handle, present);
    return wrong + (elltree_free(&handle) != ELLTREE_YES);
}

struct end {
    _Alignas(128) struct elltree_handle handle;
    uint64_t number, seed, taken;
    int puts;
    long wrong;
};
static struct end ends[2 * ENDS];

/* Puts ascending keys in, every second one its own. */
static void put_in(struct end *end) {
    uint64_t i;
    for (i = 0; i < EACH; i++) {
        const uint64_t key = ENDS * i + end->number;
        end->wrong += elltree_insert(&end->handle, key, ~key, TRIES) != ELLTREE_YES;
        if (random_next(&end->seed) % 16 == 0) {
            uint64_t before = 0, after = 0, value;
            end->wrong += elltree_steps(&end->handle, &before) != ELLTREE_YES || elltree_find(&end->handle, key + 1, &value) < 0;
            end->wrong += elltree_steps(&end->handle, &after) != ELLTREE_YES || after - before > find_steps(DEPTH);
        }
    }
}

/* Takes the least keys out, until it has taken its share. */
static void take_out(struct end *end) {
    while (end->taken < EACH) {
        uint64_t key = 0, value = 0;
        if (elltree_next_at_least(&end->handle, 0, &key, &value) != ELLTREE_YES)
            continue;
        end->wrong += value != ~key;
        end->taken += elltree_take(&end->handle, key, TRIES, &value) == ELLTREE_YES;
    }
}

static void *work(void *at) {
    struct end *end = at;
    if (end->puts)
        put_in(end);
    else
        take_out(end);
    return NULL;
}

static long a_queue(void) {
    pthread_t threads[2 * ENDS];
    long wrong = elltree_open(&ends[0].handle, NULL, 0, 1000000) != ELLTREE_YES;
    int i;
    for (i = 0; i < 2 * ENDS; i++) {
        wrong += i && elltree_another(&ends[0].handle, &ends[i].handle) != ELLTREE_YES;
        ends[i].number = (uint64_t)i % ENDS;
        ends[i].seed = (uint64_t)i + 1;
        ends[i].puts = i < ENDS;
    }
    for (i = 0; i < 2 * ENDS; i++)
        wrong += pthread_create(&threads[i], NULL, work, &ends[i]) != 0;
    for (i = 0; i < 2 * ENDS; i++)
        wrong += pthread_join(threads[i], NULL) != 0;
    wrong += pairs_are_wrong(&ends[0].handle, 0);
    for (i = 0; i < 2 * ENDS; i++)
        wrong += ends[i].wrong + (elltree_free(&ends[i].handle) != ELLTREE_YES);
    return wrong;
}

static long above_start_keys(void) {
    struct elltree_handle handle = ELLTREE_EMPTY;
    struct elltree_pair start[START];
    uint64_t i;
    long wrong;
    for (i = 0; i < START; i++)
        start[i].key = i, start[i].value = ~i;
    wrong = elltree_open(&handle, start, START, KEYS) != ELLTREE_YES;
    for (i = START; i < KEYS; i++)
        wrong += (elltree_insert(&handle, i, ~i, TRIES) != ELLTREE_YES) + is_wrong(&handle, i - START, ELLTREE_YES, DEPTH_ON_KEYS);
    return wrong + pairs_are_wrong(&handle, KEYS) + (elltree_free(&handle) != ELLTREE_YES);
}

static struct elltree_map *map;

/* Puts every fourth key in, downwards or upwards. */
static void *fill(void *at) {
    struct end *end = at;
    uint64_t i;
    for (i = end->number; i < FILL; i += 2 * ENDS) {
        const uint64_t key = end->puts ? i : FILL - 1 - i;
        end->wrong += elltree_map_insert(map, key, ~key) != ELLTREE_YES;
    }
    return NULL;
}

static long a_map(int upwards) {
    pthread_t threads[2 * ENDS];
    struct elltree_map_counters counters = {0, 0, 0, 0, 0, 0, 0};
    uint64_t count = 0;
    long wrong = elltree_map_new(&map) != ELLTREE_YES;
    int i;
    for (i = 0; i < 2 * ENDS; i++) {
        ends[i].number = (uint64_t)i, ends[i].puts = upwards, ends[i].wrong = 0;
        wrong += pthread_create(&threads[i], NULL, fill, &ends[i]) != 0;
    }
    for (i = 0; i < 2 * ENDS; i++)
        wrong += pthread_join(threads[i], NULL) != 0 || ends[i].wrong;
    wrong += elltree_map_len(map, &count) != ELLTREE_YES || count != FILL;
    wrong += elltree_map_counts(map, &counters, sizeof counters) != ELLTREE_YES || counters.cards > CARDS_A_KEY * (uint64_t)FILL;
    if (counters.cards > CARDS_A_KEY * (uint64_t)FILL)
        printf("a map of %d keys has %llu cards\n", FILL, (unsigned long long)counters.cards);
    return wrong + (elltree_map_free(map) != ELLTREE_YES);
}

int main(void) {
    long all = 0;
    size_t i;
    for (i = 0; i < sizeof orders / sizeof *orders; i++) {
        const long wrong = keys_in_order(orders[i]);
        if (wrong)
            printf("keys %s: %ld answers wrong, or in too many steps\n", names[i], wrong);
        all += wrong;
    }
    all += a_queue() + above_start_keys() + a_map(1) + a_map(0);
    printf("%d keys in each of %d orders, a queue and two maps: %ld wrong\n", KEYS, (int)(sizeof orders / sizeof *orders), all);
    return all ? EXIT_FAILURE : EXIT_SUCCESS;
}
