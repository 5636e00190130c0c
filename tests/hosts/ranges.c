/* Ranges in C, and the next key above or below one. One thread first, which changes keys at random and after each change compares a random range,
   upwards with little room and downwards, with a plain array. So does it with keys that came ascending or descending, and with start keys, where it
   counts steps too. Then two threads that go over ranges beside three that insert, delete and exchange, each its own of the keys, which lie between
   those of the others. Each change is noted with its begin and its end by one clock. Each key of a range is to be told as it was at a moment between
   the begin and the end of the range: as its last change left it, if that had ended before and no other was made meanwhile, and else as one of the
   changes at work left it. Last the edges. */
#include "elltree.h"
#include <pthread.h>
#include <stdio.h>

enum { PLACES = 24, CALLS = 3000, WRITERS = 3, READERS = 2, CHANGES = 16000, SCANS = 4000, CARDS = 600000, TRIES = 100000 };

static uint64_t next(uint64_t *seed) { return *seed ^= *seed << 13, *seed ^= *seed >> 7, *seed ^= *seed << 17; }

/* The keys of the places ascend, from 0 to the greatest; the place behind the last has none, and is the end of a range. */
static uint64_t key_at(uint64_t place) {
    if (place >= PLACES - 1)
        return place == PLACES ? UINT64_MAX : ELLTREE_KEY_MAX;
    return place * 1000003 * 1000003;
}

static uint64_t place_of(uint64_t key) {
    uint64_t place = 0;
    while (place < PLACES && key_at(place) != key)
        place++;
    return place;
}

/* The pairs of a range in calls with room for so many each: how many they are, or -1 if a call has a wrong code or too many pairs. */
static long pairs_up(struct elltree_handle *handle, uint64_t from, uint64_t upto, size_t room, struct elltree_pair *out) {
    long all = 0;
    size_t count = 0;
    while (from < upto) {
        if (all > PLACES || elltree_range(handle, from, upto, out + all, room, &count, &from) != ELLTREE_YES || count > room)
            return -1;
        all += (long)count;
    }
    return all;
}

/* The greatest key below this one. */
static int32_t last_before(struct elltree_handle *handle, uint64_t upto, uint64_t *key, uint64_t *value) {
    return upto ? elltree_last_at_most(handle, upto - 1, key, value) : ELLTREE_NO;
}

/* The same by a search for each pair, from the last one to the first. */
static long pairs_down(struct elltree_handle *handle, uint64_t from, uint64_t upto, struct elltree_pair *out) {
    struct elltree_pair pair, swapped;
    long all = 0;
    for (; last_before(handle, upto, &pair.key, &pair.value) == ELLTREE_YES && from <= pair.key; upto = pair.key) {
        if (all > PLACES)
            return -1;
        out[all++] = pair;
    }
    for (long i = 0; i < all / 2; i++)
        swapped = out[i], out[i] = out[all - 1 - i], out[all - 1 - i] = swapped;
    return all;
}

struct model {
    int there[PLACES];
    uint64_t value[PLACES];
};

/* Whether pairs are those of the model from one number on and below another. */
static long differ(const struct model *m, uint64_t from, uint64_t upto, const struct elltree_pair *pairs, long count) {
    long at = 0, wrong = 0;
    for (uint64_t place = 0; place < PLACES; place++) {
        if (!m->there[place] || key_at(place) < from || key_at(place) >= upto)
            continue;
        wrong += at >= count || pairs[at].key != key_at(place) || pairs[at].value != m->value[place];
        at++;
    }
    return wrong + (at != count);
}

/* Whether a call that seeks a key has found what is the model's at this place, or nothing for no place. */
static long missed(const struct model *m, long place, int32_t said, uint64_t key, uint64_t value) {
    if (place < 0)
        return said != ELLTREE_NO;
    return said != ELLTREE_YES || key != key_at((uint64_t)place) || value != m->value[place];
}

/* The least place of the model from this number on, and the greatest below it: -1 for none. */
static long place_from(const struct model *m, uint64_t from) {
    for (long place = 0; place < PLACES; place++)
        if (m->there[place] && key_at((uint64_t)place) >= from)
            return place;
    return -1;
}
static long place_below(const struct model *m, uint64_t upto) {
    for (long place = PLACES - 1; place >= 0; place--)
        if (m->there[place] && key_at((uint64_t)place) < upto)
            return place;
    return -1;
}

static long compare_next(struct elltree_handle *h, const struct model *m, uint64_t at) {
    uint64_t key = 0, value = 0, above = at < UINT64_MAX ? at + 1 : at;
    int32_t said = elltree_next_at_least(h, at, &key, &value);
    long wrong = missed(m, place_from(m, at), said, key, value);
    said = elltree_last_at_most(h, at, &key, &value);
    return wrong + missed(m, place_below(m, above), said, key, value);
}

/* A number that is a key, or lies beside one. */
static uint64_t number(uint64_t random) { return key_at(random / 4 % (PLACES + 1)) + (random & 1) - (random >> 1 & 1); }

static long alone(void) {
    static struct elltree_pair pairs[2 * PLACES + 2];
    struct elltree_handle h = ELLTREE_EMPTY;
    struct model m = {{0}, {0}};
    uint64_t seed = 88172645463325252u, was = 0;
    long wrong = elltree_open(&h, NULL, 0, 4 * CALLS) != ELLTREE_YES;
    for (uint64_t i = 0; i < CALLS; i++) {
        uint64_t place = next(&seed) % PLACES, from = number(next(&seed)), upto = number(next(&seed)), room = 1 + next(&seed) % PLACES;
        if (next(&seed) & 1)
            wrong += elltree_put(&h, key_at(place), i, TRIES, &was) < 0, m.there[place] = 1, m.value[place] = i;
        else
            wrong += elltree_delete(&h, key_at(place), TRIES) != m.there[place], m.there[place] = 0;
        wrong += differ(&m, from, upto, pairs, pairs_up(&h, from, upto, room, pairs));
        wrong += differ(&m, from, upto, pairs, pairs_down(&h, from, upto, pairs));
        wrong += compare_next(&h, &m, from);
    }
    printf("%d ranges of one thread, %ld wrong\n", CALLS, wrong);
    return wrong + (elltree_free(&h) != ELLTREE_YES);
}

/* What a change left of a key, and from when to when it was made. The first is the start. */
struct change {
    uint64_t begun, ended, value;
    int there;
};

/* Of each place, all changes, in their order: one thread alone makes them. */
static struct change changes[PLACES][CHANGES];
static size_t changed[PLACES];
static uint64_t ticks;
static int writing;

static uint64_t tick(void) { return __atomic_fetch_add(&ticks, 1, __ATOMIC_SEQ_CST); }

/* What a thread was told of a range: from one place on and below another. */
struct scan {
    uint64_t begun, ended, from, upto;
    long count;
    struct elltree_pair pairs[2 * PLACES + 2];
};

struct worker {
    struct elltree_handle handle;
    uint64_t number;
    long wrong;
    size_t scans;
    struct scan made[SCANS];
};
static struct worker workers[WRITERS + READERS];

/* Changes a place, if there is something to change: the answer is right, since nobody else changes it. */
static int32_t change(struct elltree_handle *handle, uint64_t place, uint64_t how, const struct change *last, struct change *now) {
    uint64_t value = last->value, key = key_at(place);
    int32_t said = ELLTREE_NO;
    now->there = 1;
    now->begun = tick();
    if (how % 3 == 0)
        said = elltree_insert(handle, key, now->value, TRIES);
    else if (how % 3 == 1)
        said = elltree_compare_exchange(handle, key, &value, now->value, TRIES);
    else
        said = elltree_delete(handle, key, TRIES), now->there = 0;
    now->ended = tick();
    return said;
}

/* Where the threads of a tree begin together. */
static pthread_barrier_t start_line;

static void *write_keys(void *given) {
    struct worker *w = given;
    pthread_barrier_wait(&start_line);
    uint64_t seed = 88172645463325252u + w->number;
    for (uint64_t i = 0; i < CHANGES; i++) {
        uint64_t place = next(&seed) % (PLACES / WRITERS) * WRITERS + w->number, how = next(&seed) >> 20;
        size_t count = changed[place];
        const struct change *last = &changes[place][count - 1];
        struct change *now = &changes[place][count];
        now->value = i * WRITERS + w->number;
        int32_t said = change(&w->handle, place, how, last, now);
        w->wrong += said != (how % 3 == 0 ? !last->there : last->there);
        changed[place] += said == ELLTREE_YES;
    }
    __atomic_sub_fetch(&writing, 1, __ATOMIC_SEQ_CST);
    return NULL;
}

/* Makes a range of what a search from a place on, or below one, has told. */
static void seek(struct elltree_handle *handle, struct scan *scan, int is_up) {
    struct elltree_pair *pair = scan->pairs;
    uint64_t from = key_at(scan->from), upto = key_at(scan->upto);
    int32_t said = is_up ? elltree_next_at_least(handle, from, &pair->key, &pair->value) : last_before(handle, upto, &pair->key, &pair->value);
    scan->count = said == ELLTREE_YES ? 1 : said == ELLTREE_NO ? 0 : -1;
    if (is_up)
        scan->upto = said == ELLTREE_YES ? place_of(pair->key) + 1 : PLACES;
    else
        scan->from = said == ELLTREE_YES ? place_of(pair->key) : 0;
}

/* Goes over ranges as long as others write, and once at least. */
static void *go_over(void *given) {
    struct worker *w = given;
    pthread_barrier_wait(&start_line);
    uint64_t seed = 88172645463325252u + 7919 * w->number;
    for (w->scans = 0; w->scans < SCANS && (w->scans == 0 || __atomic_load_n(&writing, __ATOMIC_SEQ_CST) > 0); w->scans++) {
        struct scan *scan = &w->made[w->scans];
        uint64_t random = next(&seed) >> 8;
        scan->from = random % PLACES;
        scan->upto = scan->from + next(&seed) % (PLACES + 1 - scan->from);
        uint64_t from = key_at(scan->from), upto = key_at(scan->upto);
        scan->begun = tick();
        if (random >> 20 & 1)
            scan->count = pairs_up(&w->handle, from, upto, 1 + (random >> 24) % PLACES, scan->pairs);
        else if (random >> 21 & 1)
            scan->count = pairs_down(&w->handle, from, upto, scan->pairs);
        else
            seek(&w->handle, scan, random >> 22 & 1);
        scan->ended = tick();
    }
    return NULL;
}

/* Whether a key may have been told so: it was so at a moment of the scan. Adds to still if nobody changed it meanwhile. */
static int may_be(uint64_t place, const struct scan *scan, int there, uint64_t value, long *still) {
    const struct change *all = changes[place];
    size_t count = changed[place], i = 0, high = count - 1;
    while (i < high) { /* the first change after which the next had not ended when the scan began */
        size_t middle = (i + high) / 2;
        if (all[middle + 1].ended > scan->begun)
            high = middle;
        else
            i = middle + 1;
    }
    *still += i + 1 == count || all[i + 1].begun > scan->ended;
    for (; i < count && all[i].begun < scan->ended; i++)
        if (all[i].there == there && (!there || all[i].value == value))
            return 1;
    return 0;
}

/* How many keys a scan tells wrongly. */
static long untrue(const struct scan *scan, long *told, long *still) {
    long at = 0, wrong = 0;
    for (uint64_t place = scan->from; place < scan->upto; place++) {
        int there = at < scan->count && scan->pairs[at].key == key_at(place);
        wrong += !may_be(place, scan, there, scan->pairs[at].value, still);
        at += there;
        ++*told;
    }
    return wrong + (at != scan->count);
}

/* Opens the tree, with every other key at the start. */
static long open_all(void) {
    struct elltree_pair start[PLACES / 2];
    long wrong = 0;
    for (uint64_t place = 0; place < PLACES; place++) {
        changes[place][0] = (struct change){0, 0, place, place % 2};
        changed[place] = 1;
        if (place % 2)
            start[place / 2] = (struct elltree_pair){key_at(place), place};
    }
    wrong += elltree_open(&workers[0].handle, start, PLACES / 2, CARDS) != ELLTREE_YES;
    for (uint64_t t = 0; t < WRITERS + READERS; t++) {
        workers[t].number = t;
        wrong += t != 0 && elltree_another(&workers[0].handle, &workers[t].handle) != ELLTREE_YES;
    }
    return wrong;
}

static long beside_threads(void) {
    pthread_t running[WRITERS + READERS];
    long wrong = open_all(), told = 0, still = 0, scans = 0;
    ticks = 1;
    writing = WRITERS;
    pthread_barrier_init(&start_line, NULL, WRITERS + READERS);
    for (int t = 0; t < WRITERS + READERS; t++)
        pthread_create(&running[t], NULL, t < WRITERS ? write_keys : go_over, &workers[t]);
    for (int t = 0; t < WRITERS + READERS; t++)
        pthread_join(running[t], NULL);
    pthread_barrier_destroy(&start_line);
    for (int t = 0; t < WRITERS + READERS; t++) {
        for (size_t i = 0; i < workers[t].scans; i++)
            wrong += untrue(&workers[t].made[i], &told, &still);
        scans += (long)workers[t].scans;
        wrong += workers[t].wrong + (elltree_free(&workers[t].handle) != ELLTREE_YES);
    }
    printf("%ld ranges of %ld keys beside %d threads, of which nobody changed %ld meanwhile, %ld wrong\n", scans, told, WRITERS, still, wrong);
    return wrong + (still == 0);
}

static long edges(void) {
    struct elltree_handle h = ELLTREE_EMPTY;
    struct elltree_pair pairs[3] = {{7, 7}, {7, 7}, {7, 7}};
    const struct elltree_pair start[2] = {{0, 1}, {ELLTREE_KEY_MAX, 2}};
    uint64_t at = 5, key = 5, value = 5;
    size_t count = 5;
    long wrong = elltree_open(&h, start, 2, 9) != ELLTREE_YES;
    wrong += elltree_range(&h, 0, UINT64_MAX, pairs, 3, &count, &at) != ELLTREE_YES || count != 2 || at != UINT64_MAX;
    wrong += pairs[0].value != 1 || pairs[1].key != ELLTREE_KEY_MAX || pairs[1].value != 2 || pairs[2].key != 7;
    wrong += elltree_range(&h, 0, ELLTREE_KEY_MAX, pairs + 2, 1, &count, &at) != ELLTREE_YES || count != 1 || pairs[2].key != 0;
    wrong += elltree_range(&h, 1, ELLTREE_KEY_MAX, pairs, 3, &count, &at) != ELLTREE_YES || count != 0 || at != ELLTREE_KEY_MAX;
    wrong += elltree_range(&h, 9, 3, pairs, 3, &count, &at) != ELLTREE_YES || count != 0 || at != 3;
    wrong += elltree_range(&h, 0, 9, NULL, 0, &count, &at) != ELLTREE_YES || count != 0 || at != 0;
    wrong += elltree_range(&h, UINT64_MAX, UINT64_MAX, NULL, 0, &count, &at) != ELLTREE_YES || count != 0 || at != UINT64_MAX;
    wrong += elltree_next_at_least(&h, UINT64_MAX, &key, &value) != ELLTREE_NO || key != 5 || value != 5;
    wrong += elltree_next_at_least(&h, 1, &key, &value) != ELLTREE_YES || key != ELLTREE_KEY_MAX || value != 2;
    wrong += elltree_last_at_most(&h, ELLTREE_KEY_MAX - 1, &key, &value) != ELLTREE_YES || key != 0 || value != 1;
    wrong += elltree_last_at_most(&h, UINT64_MAX, &key, &value) != ELLTREE_YES || key != ELLTREE_KEY_MAX || value != 2;
    wrong += elltree_delete(&h, 0, 9) != ELLTREE_YES || elltree_last_at_most(&h, 0, &key, &value) != ELLTREE_NO || key != ELLTREE_KEY_MAX;
    return wrong + (elltree_free(&h) != ELLTREE_YES);
}

/* How many steps a handle has taken since there were so many. */
static uint64_t steps_since(struct elltree_handle *h, uint64_t before) {
    uint64_t steps = 0;
    return elltree_steps(h, &steps) == ELLTREE_YES ? steps - before : UINT64_MAX;
}

/* Start keys are balanced: a search takes a step to begin, two for each of twelve or thirteen inner nodes, and two or three for the leaf, the key
   behind another at most twice as many, and a range six a key, beside 30 for its ends. No start key takes a step. */
static long balanced(void) {
    enum { EVEN = 4096 };
    static struct elltree_pair pairs[EVEN];
    const uint64_t sought[] = {0, 1, 6000, 6001, 12284};
    struct elltree_handle h = ELLTREE_EMPTY;
    uint64_t at, key, value;
    size_t count;
    for (uint64_t i = 0; i < EVEN; i++)
        pairs[i] = (struct elltree_pair){3 * i, i};
    long wrong = elltree_open(&h, pairs, EVEN, 1) != ELLTREE_YES || steps_since(&h, 0) > 1;
    for (int i = 0; i < 5; i++) {
        uint64_t before = steps_since(&h, 0);
        wrong += elltree_look(&h, sought[i], &value) != (sought[i] % 3 ? ELLTREE_NO : ELLTREE_YES) || steps_since(&h, before) > 30;
        before = steps_since(&h, 0);
        wrong += elltree_next_at_least(&h, sought[i] + 1, &key, &value) != ELLTREE_YES || key != (sought[i] / 3 + 1) * 3 ||
                 steps_since(&h, before) > 60;
    }
    uint64_t before = steps_since(&h, 0);
    wrong += elltree_next_at_least(&h, 0, &key, &value) != ELLTREE_YES || key != 0 || steps_since(&h, before) > 30;
    before = steps_since(&h, 0);
    wrong += elltree_range(&h, 0, UINT64_MAX, pairs, EVEN, &count, &at) != ELLTREE_YES || count != EVEN || steps_since(&h, before) > 6 * EVEN;
    before = steps_since(&h, 0);
    wrong += elltree_range(&h, 0, 6144, pairs, EVEN, &count, &at) != ELLTREE_YES || count != 2048 || steps_since(&h, before) > 6 * 2048 + 30;
    before = steps_since(&h, 0);
    wrong += elltree_range(&h, 6000, UINT64_MAX, pairs, 10, &count, &at) != ELLTREE_YES || count != 10 || steps_since(&h, before) > 6 * 10 + 30;
    return wrong + (elltree_free(&h) != ELLTREE_YES);
}

enum { ALL = 3000, START = 1000, FIND_MOST = 259 /* steps, in a tree with any number of start keys */ };

/* Opens a tree with so many start keys, behind which the others come upwards or downwards. */
static long open_in_order(struct elltree_handle *h, int upwards, uint64_t begun) {
    static struct elltree_pair start[ALL];
    for (uint64_t i = 0; i < begun; i++)
        start[i] = upwards ? (struct elltree_pair){3 * i, i} : (struct elltree_pair){3 * (ALL - begun + i), begun - 1 - i};
    long wrong = elltree_open(h, start, begun, ALL) != ELLTREE_YES;
    for (uint64_t i = begun; i < ALL; i++)
        wrong += elltree_insert(h, 3 * (upwards ? i : ALL - 1 - i), i, 1) != ELLTREE_YES;
    return wrong;
}

/* The tree is no list of its keys: a find of any of them takes few steps. */
static long find_each(struct elltree_handle *h, int upwards) {
    uint64_t value;
    long wrong = 0;
    for (uint64_t i = 0; i < ALL; i++) {
        const uint64_t before = steps_since(h, 0);
        wrong += elltree_find(h, 3 * (upwards ? i : ALL - 1 - i), &value) != ELLTREE_YES || value != i || steps_since(h, before) > FIND_MOST;
    }
    return wrong;
}

/* The whole range, and the keys next to each, are those that came so. A range that begins anew at times takes less than a search for each key. */
static long in_order(int upwards, uint64_t begun) {
    static struct elltree_pair pairs[2 * ALL];
    struct elltree_handle h = ELLTREE_EMPTY;
    uint64_t at, key, value;
    size_t count, all;
    long wrong = open_in_order(&h, upwards, begun) + find_each(&h, upwards);
    const uint64_t before = steps_since(&h, 0);
    wrong += elltree_range(&h, 0, UINT64_MAX, pairs, 2 * ALL, &count, &at) != ELLTREE_YES || count != ALL || steps_since(&h, before) > 20 * ALL;
    for (size_t room = 1; room <= ALL; room = 7 * room) {
        for (at = all = 0; at < UINT64_MAX; all += count)
            wrong += elltree_range(&h, at, UINT64_MAX, pairs + all, room, &count, &at) != ELLTREE_YES;
        wrong += all != ALL;
        for (uint64_t i = 0; i < ALL; i++)
            wrong += pairs[i].key != 3 * i || pairs[i].value != (upwards ? i : ALL - 1 - i);
    }
    for (uint64_t i = 0; i < ALL; i++) {
        wrong += elltree_next_at_least(&h, 3 * i - (i > 0), &key, &value) != ELLTREE_YES || key != 3 * i;
        wrong += elltree_last_at_most(&h, 3 * i + 2, &key, &value) != ELLTREE_YES || key != 3 * i;
        if (i > 0)
            wrong += elltree_last_at_most(&h, 3 * i - 1, &key, &value) != ELLTREE_YES || key != 3 * (i - 1);
        if (i + 1 < ALL)
            wrong += elltree_next_at_least(&h, 3 * i + 1, &key, &value) != ELLTREE_YES || key != 3 * (i + 1);
    }
    return wrong + (elltree_free(&h) != ELLTREE_YES);
}

int main(void) {
    long wrong = alone() + balanced() + in_order(0, 0) + in_order(1, 0) + in_order(0, START) + in_order(1, START) + beside_threads() + edges();
    printf("%ld wrong\n", wrong);
    return wrong != 0;
}
