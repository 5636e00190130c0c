/* Threads over one map object, which another thread renews all the time. Each thread has keys of its own, by which it knows each answer, and all add
   to shared counters, which lose nothing; ranges go on meanwhile, and a thread sleeps between two calls. Four threads at work and then 64; at the end
   no memory is left over. Then values that are put and taken and are told once each; snapshots of two keys that change one after the other; many
   sections, which are parted and joined; keys in order, which make no list; and each answer and refusal of one thread. */
#define _GNU_SOURCE
#include "elltree_map.h"
#include <malloc.h>
#include <pthread.h>
#include <stdio.h>
#include <string.h>
#include <time.h>

#ifndef OPS
#define OPS 200000
#endif
enum { MOST = 64, KEYS = 32, COUNTERS = 4, CARDS = 3000, STEADY = 40, TOKENS = 8, MANY = 20000, CROWD = 4, KEPT = 4000000 };
enum { RENEWALS = 25, RENEWALS_OF_MANY = 4, RESTED = 2, PATIENCE = 2000 };

static struct elltree_map *map;
static int working;       /* how many threads share the map, and part the keys among them */
static uint64_t renewals; /* that are to be beside them; where threads are many, each takes long on a busy machine */

static uint64_t next(uint64_t *seed) { return *seed ^= *seed << 13, *seed ^= *seed >> 7, *seed ^= *seed << 17; }

static long make_map(uint64_t cards, uint32_t calls, const struct elltree_pair *pairs, size_t count) {
    struct elltree_map_settings settings = ELLTREE_MAP_SETTINGS;
    settings.cards = cards;
    settings.calls = calls;
    return elltree_map_from_sorted(&map, pairs, count, &settings, sizeof settings) != ELLTREE_YES;
}

static struct elltree_map_counters counts_of_map(void) {
    struct elltree_map_counters counts = {0, 0, 0, 0, 0, 0, 0};
    if (elltree_map_counts(map, &counts, sizeof counts) != ELLTREE_YES)
        counts.sections = 0;
    return counts;
}

/* Ends the map, and tells how often it was renewed, which is to be this often at least. */
static long end_map(const char *what, long wrong, uint64_t renewals) {
    const struct elltree_map_counters counts = counts_of_map();
    wrong += counts.sections == 0 || counts.renewals < renewals;
    printf("%s: %llu sections, %llu renewals, the longest pause %.2f ms, %ld wrong\n", what, (unsigned long long)counts.sections,
           (unsigned long long)counts.renewals, (double)counts.longest_nanoseconds / 1e6, wrong);
    elltree_map_free(map);
    return wrong;
}

/* Starts threads on workers that lie so far apart, and waits for their end. */
static void run_threads(void *(*work)(void *), void *workers, size_t size, int count) {
    pthread_t running[MOST];
    for (int t = 0; t < count; t++)
        pthread_create(&running[t], NULL, work, (char *)workers + (size_t)t * size);
    for (int t = 0; t < count; t++)
        pthread_join(running[t], NULL);
}

static int is_over;

/* A thread that renews all sections, again and again, until the others are at their end, and once at least. */
static void *renew(void *given) {
    do
        *(long *)given += elltree_map_renew(map) != ELLTREE_YES;
    while (!__atomic_load_n(&is_over, __ATOMIC_SEQ_CST));
    return NULL;
}

/* Runs threads beside one that renews the map. */
static long run_beside_renewals(void *(*work)(void *), void *workers, size_t size, int count) {
    pthread_t renewing;
    long wrong = 0;
    __atomic_store_n(&is_over, 0, __ATOMIC_SEQ_CST);
    pthread_create(&renewing, NULL, renew, &wrong);
    run_threads(work, workers, size, count);
    __atomic_store_n(&is_over, 1, __ATOMIC_SEQ_CST);
    pthread_join(renewing, NULL);
    return wrong;
}

/* Keys of their own, counters and ranges. */

struct worker {
    uint64_t seed, value[KEYS];
    long added[COUNTERS], keys, wrong;
    int number, there[KEYS];
};

/* Behind the counters and the keys that nobody changes, the keys of the threads lie between each other. */
static uint64_t key_of(const struct worker *w, int place) { return 1000 + (uint64_t)place * MOST + (uint64_t)w->number; }

static void change(struct worker *w, int place, uint64_t value) {
    uint64_t was = w->value[place], told = was;
    const uint64_t key = key_of(w, place);
    int32_t said = ELLTREE_NO;
    const int there = w->there[place];
    switch (next(&w->seed) >> 30 & 3) {
    case 0:
        said = elltree_map_insert(map, key, value);
        w->wrong += said != (there ? ELLTREE_NO : ELLTREE_YES);
        w->value[place] = there ? was : value;
        w->there[place] = 1;
        break;
    case 1:
        w->wrong += elltree_map_put(map, key, value, &told) != (there ? ELLTREE_YES : ELLTREE_NO) || told != was;
        w->value[place] = value;
        w->there[place] = 1;
        break;
    case 2:
        w->wrong += elltree_map_delete(map, key) != (there ? ELLTREE_YES : ELLTREE_NO);
        w->there[place] = 0;
        break;
    default:
        said = elltree_map_compare_exchange(map, key, &told, value);
        w->wrong += said != (there ? ELLTREE_YES : ELLTREE_NO) || told != was;
        w->value[place] = there ? value : was;
    }
    w->keys += w->there[place] - there;
}

static void look(struct worker *w, int place) {
    uint64_t told = 0, found = 0;
    const int32_t said = elltree_map_get(map, key_of(w, place), &told);
    w->wrong += said != (w->there[place] ? ELLTREE_YES : ELLTREE_NO) || (said == ELLTREE_YES && told != w->value[place]);
    if (w->there[place])
        w->wrong += elltree_map_next_at_least(map, key_of(w, place), &found, &told) != ELLTREE_YES || found != key_of(w, place) ||
                    elltree_map_last_at_most(map, key_of(w, place), &found, &told) != ELLTREE_YES || told != w->value[place];
}

/* A range of all keys tells those that nobody changes and those of this thread as they are, and ascends. */
static void range(struct worker *w) {
    static const size_t rooms[] = {1, 7, 64, 5000};
    static _Thread_local struct elltree_pair out[5000];
    const size_t room = rooms[next(&w->seed) >> 20 & 3];
    uint64_t from = COUNTERS, last = 0;
    long steady = 0, own = 0;
    while (from < UINT64_MAX) {
        size_t count = 0;
        w->wrong += elltree_map_range(map, from, UINT64_MAX, out, room, &count, &from) != ELLTREE_YES || count > room;
        for (size_t i = 0; i < count; last = out[i++].key) {
            const uint64_t behind = out[i].key - 1000;
            w->wrong += out[i].key <= last;
            steady += out[i].key < 1000 && out[i].value == out[i].key * 3;
            own += out[i].key >= 1000 && behind % MOST == (uint64_t)w->number && out[i].value == w->value[behind / MOST];
        }
    }
    w->wrong += steady != STEADY || own != w->keys;
}

/* Works on beyond its share, until there were some renewals meanwhile. */
static void *work(void *given) {
    struct worker *w = given;
    uint64_t was;
    for (int i = 0; i < OPS / working || counts_of_map().renewals < renewals; i++) {
        const uint64_t random = next(&w->seed) >> 10;
        const int place = (int)(random % KEYS);
        if (random >> 20 & 1)
            change(w, place, random);
        else
            look(w, place);
        if (i % 4 == 0) {
            w->wrong += elltree_map_fetch_add(map, random % COUNTERS, 1, &was) != ELLTREE_YES;
            w->added[random % COUNTERS]++;
        }
        if (i % 1024 == 0)
            range(w);
    }
    return NULL;
}

/* A thread that sleeps between two calls on keys holds up nobody: some renewals begin and end meanwhile. */
static void *sleep_between(void *given) {
    struct worker *w = given;
    const struct timespec while_ = {0, 50000000};
    uint64_t before;
    int times = 0;
    change(w, 0, 1);
    before = counts_of_map().renewals;
    while (counts_of_map().renewals < before + RESTED && times++ < PATIENCE)
        nanosleep(&while_, NULL);
    w->wrong += times > PATIENCE;
    look(w, 0);
    return NULL;
}

static void *work_or_sleep(void *given) {
    const struct worker *w = given;
    return w->number ? work(given) : sleep_between(given);
}

static long compare(const struct worker *w, int count) {
    long wrong = 0, keys = STEADY + COUNTERS;
    size_t length = 0;
    for (int t = 0; t < count; t++) {
        wrong += w[t].wrong;
        keys += w[t].keys;
    }
    wrong += elltree_map_len(map, &length) != ELLTREE_YES || length != (size_t)keys;
    for (uint64_t c = 0; c < COUNTERS; c++) {
        uint64_t told = 0, sum = 0;
        for (int t = 0; t < count; t++)
            sum += (uint64_t)w[t].added[c];
        wrong += elltree_map_get(map, c, &told) != ELLTREE_YES || told != sum;
    }
    return wrong;
}

static long share(int count, uint32_t calls) {
    static struct worker w[MOST];
    struct elltree_pair start[COUNTERS + STEADY];
    char name[32];
    long wrong;
    for (uint64_t i = 0; i < COUNTERS + STEADY; i++) {
        start[i].key = i < COUNTERS ? i : i + 100;
        start[i].value = i < COUNTERS ? 0 : start[i].key * 3;
    }
    wrong = make_map(CARDS, calls, start, COUNTERS + STEADY);
    memset(w, 0, sizeof w);
    for (int t = 0; t < count; t++) {
        w[t].number = t;
        w[t].seed = 88172645463325252u + (uint64_t)t * 7919;
    }
    working = count - 1;
    renewals = count < MOST ? RENEWALS : RENEWALS_OF_MANY;
    wrong += run_beside_renewals(work_or_sleep, w, sizeof *w, count);
    snprintf(name, sizeof name, "%d threads", count);
    return end_map(name, wrong + compare(w, count), renewals);
}

/* The bytes that the process has taken from the allocator and not given back. What the allocator keeps for later depends on how the threads met. */
static long bytes(void) {
    const struct mallinfo2 taken = mallinfo2();
    return (long)(taken.uordblks + taken.hblkhd);
}

/* Rounds and rounds leave no more memory taken than the first two, but for a few blocks, which the library keeps for the next tree. */
static long memory_is_flat(int rounds) {
    long wrong = share(4, 0) + share(4, 0), before = bytes(), after;
    for (int i = 0; i < rounds; i++)
        wrong += share(4, 0);
    after = bytes();
    printf("%ld bytes taken at first, %ld after %d rounds\n", before, after, rounds);
    return wrong + (after > before + KEPT);
}

/* Values that are told once each: by the put that replaces it, by the remove that takes it, or by the snapshot at the end. */

struct teller {
    uint64_t number, put, told, seed;
    long wrong;
};

static void *put_and_remove(void *given) {
    struct teller *t = given;
    for (uint64_t i = 1; i <= OPS / 40; i++) {
        const uint64_t token = i << 8 | t->number, key = next(&t->seed) % 3;
        uint64_t was = 0;
        int32_t said;
        if (next(&t->seed) & 1) {
            said = elltree_map_put(map, key, token, &was);
            t->put += token;
        } else {
            said = elltree_map_remove(map, key, &was);
        }
        t->wrong += said < 0;
        t->told += was;
    }
    return NULL;
}

static long tokens(void) {
    static struct teller t[TOKENS];
    struct elltree_pair left[3];
    size_t count = 0;
    uint64_t put = 0, told = 0;
    long wrong = make_map(CARDS, 0, NULL, 0);
    for (uint64_t i = 0; i < TOKENS; i++)
        t[i] = (struct teller){i, 0, 0, 9973 + i, 0};
    wrong += run_beside_renewals(put_and_remove, t, sizeof *t, TOKENS);
    wrong += elltree_map_pairs(map, left, 3, &count) != ELLTREE_YES;
    for (size_t i = 0; i < count; i++)
        told += left[i].value;
    for (int i = 0; i < TOKENS; i++) {
        put += t[i].put;
        told += t[i].told;
        wrong += t[i].wrong;
    }
    return end_map("values told once", wrong + (put != told), 1);
}

/* One thread changes two keys, one after the other; the others take snapshots, in which the second is never ahead. */

struct taker {
    int number;
    long wrong;
};

static void *write_or_list(void *given) {
    struct taker *t = given;
    uint64_t was = 0;
    for (uint64_t i = 1; i <= OPS / 20 && !t->number; i++)
        t->wrong += elltree_map_put(map, 1, i, &was) < 0 || elltree_map_put(map, 2, i, &was) < 0;
    for (int i = 0; i < OPS / 100 && t->number; i++) {
        struct elltree_pair out[3];
        size_t count = 0;
        t->wrong += elltree_map_pairs(map, out, 3, &count) != ELLTREE_YES || count != 2;
        t->wrong += out[0].value - out[1].value > 1;
    }
    return NULL;
}

static long snapshots(void) {
    const struct elltree_pair start[2] = {{1, 0}, {2, 0}};
    struct taker t[3] = {{0, 0}, {1, 0}, {2, 0}};
    long wrong = make_map(CARDS, 0, start, 2);
    wrong += run_beside_renewals(write_or_list, t, sizeof *t, 3);
    return end_map("snapshots", wrong + t[0].wrong + t[1].wrong + t[2].wrong, 1);
}

/* Threads fill a map whose keys are those of one thread and another in turn, change it, and empty it: its sections are parted and joined
   meanwhile. */

struct filler {
    uint64_t number, seed, *value; /* 0 for a key that is absent */
    long keys, wrong;
};

static uint64_t key_at(const struct filler *f, uint64_t place) { return place * CROWD + f->number; }

/* Puts, takes away or looks at a key, and knows each answer. */
static void touch(struct filler *f, uint64_t place, uint64_t value) {
    uint64_t told = 0;
    const uint64_t was = f->value[place];
    const int32_t said = value ? elltree_map_put(map, key_at(f, place), value, &told) : elltree_map_remove(map, key_at(f, place), &told);
    f->wrong += said != (was ? ELLTREE_YES : ELLTREE_NO) || told != was;
    f->keys += (value != 0) - (was != 0);
    f->value[place] = value;
}

/* Each key of this thread that is present is told by the range of all keys, which ascends, and no other. */
static void range_of_all(struct filler *f) {
    static _Thread_local struct elltree_pair out[3000];
    uint64_t from = 0, last = 0;
    long own = 0, all = 0;
    while (from < UINT64_MAX) {
        size_t count = 0;
        f->wrong += elltree_map_range(map, from, UINT64_MAX, out, 3000, &count, &from) != ELLTREE_YES;
        for (size_t i = 0; i < count; last = out[i++].key) {
            f->wrong += all++ && out[i].key <= last;
            if (out[i].key % CROWD == f->number)
                own += f->value[out[i].key / CROWD] == out[i].value ? 1 : MANY * CROWD;
        }
    }
    f->wrong += own != f->keys;
}

/* The keys around one of this thread's are where they are to be. */
static void look_around(struct filler *f, uint64_t place) {
    uint64_t found = 0, value = 0;
    if (!f->value[place])
        return;
    f->wrong += elltree_map_next_at_least(map, key_at(f, place), &found, &value) != ELLTREE_YES || found != key_at(f, place) ||
                value != f->value[place];
    f->wrong += elltree_map_last_at_most(map, key_at(f, place), &found, &value) != ELLTREE_YES || found != key_at(f, place) ||
                value != f->value[place];
}

static void *fill_and_empty(void *given) {
    struct filler *f = given;
    for (uint64_t i = 0; i < MANY; i++)
        touch(f, (i * 7919 + f->number) % MANY, i + 1);
    range_of_all(f);
    for (uint64_t i = 0; i < OPS; i++) {
        const uint64_t random = next(&f->seed) >> 10;
        touch(f, random % MANY, random >> 20 & 1 ? i + 1 : 0);
        look_around(f, (random >> 21) % MANY);
    }
    range_of_all(f);
    for (uint64_t i = 0; i < MANY; i++) /* all but some keys at the end */
        touch(f, i, i < MANY - 10 ? 0 : i);
    range_of_all(f);
    return NULL;
}

static long sections(void) {
    static uint64_t values[CROWD][MANY];
    struct filler f[CROWD];
    size_t length = 0, keys = 0;
    uint64_t was;
    long wrong = make_map(CARDS, 0, NULL, 0);
    for (uint64_t t = 0; t < CROWD; t++)
        f[t] = (struct filler){t, 77 + t, values[t], 0, 0};
    memset(values, 0, sizeof values);
    run_threads(fill_and_empty, f, sizeof *f, CROWD);
    for (int t = 0; t < CROWD; t++) {
        wrong += f[t].wrong;
        keys += (size_t)f[t].keys;
    }
    wrong += elltree_map_len(map, &length) != ELLTREE_YES || length != keys || keys != CROWD * 10;
    for (uint64_t i = 0; i < 10 * MANY; i++) { /* a queue: its sections come and go */
        wrong += elltree_map_insert(map, MANY * CROWD + i, i) != ELLTREE_YES;
        wrong += i >= MANY && (elltree_map_remove(map, MANY * (CROWD - 1) + i, &was) != ELLTREE_YES || was != i - MANY);
        wrong += i == MANY && counts_of_map().sections < 3;
    }
    wrong += counts_of_map().sections < 3 || counts_of_map().sections > 40;
    return end_map("sections", wrong, 20);
}

/* Keys in order make no tree deep: a map parts its sections, whatever the order of the keys, and renews them for hardly any other reason. */

static uint64_t ascending(uint64_t i) { return 5 * i; }
static uint64_t descending(uint64_t i) { return 5 * (MANY - i); }
static uint64_t shuffled(uint64_t i) {
    i = (i + 1) * UINT64_C(0x9e3779b97f4a7c15);
    i = (i ^ i >> 30) * UINT64_C(0xbf58476d1ce4e5b9);
    return (i ^ i >> 27) >> 1;
}

static long add_many(const char *what, uint64_t (*key)(uint64_t i)) {
    struct elltree_map_counters counts;
    size_t length = 0;
    uint64_t value = 0;
    long wrong = make_map(ELLTREE_CARDS_MAX, 0, NULL, 0);
    for (uint64_t i = 0; i < MANY; i++)
        wrong += elltree_map_insert(map, key(i), i) != ELLTREE_YES;
    for (uint64_t i = 0; i < MANY; i++)
        wrong += elltree_map_get(map, key(i), &value) != ELLTREE_YES || value != i;
    wrong += elltree_map_len(map, &length) != ELLTREE_YES || length != MANY;
    counts = counts_of_map();
    wrong += counts.renewals > 2 * counts.sections || counts.early_renewals;
    return end_map(what, wrong, 1);
}

static long add_in_orders(void) { return add_many("ascending", ascending) + add_many("descending", descending) + add_many("shuffled", shuffled); }

/* One thread. */

/* A function for elltree_map_update, which calls the map itself. */
static uint64_t one_more(uint64_t value, void *calls) {
    uint64_t was;
    if (elltree_map_put(map, 100, value, &was) >= 0)
        ++*(long *)calls;
    return value + 1;
}

static long answers(void) {
    uint64_t value = 19, found = 0;
    long calls = 0, wrong = make_map(0, 0, NULL, 0);
    wrong += elltree_map_is_empty(map) != ELLTREE_YES || elltree_map_first(map, &found, &value) != ELLTREE_NO;
    wrong += elltree_map_insert(map, 2, 20) != ELLTREE_YES || elltree_map_insert(map, 2, 21) != ELLTREE_NO;
    wrong += elltree_map_is_empty(map) != ELLTREE_NO;
    wrong += elltree_map_compare_exchange(map, 2, &value, 21) != ELLTREE_OTHER_VALUE || value != 20;
    wrong += elltree_map_compare_exchange(map, 2, &value, 21) != ELLTREE_YES || value != 20;
    wrong += elltree_map_compare_exchange(map, 3, &value, 31) != ELLTREE_NO || value != 20;
    wrong += elltree_map_put(map, 2, 22, &value) != ELLTREE_YES || value != 21;
    wrong += elltree_map_put(map, 3, 30, &value) != ELLTREE_NO || value != 21;
    wrong += elltree_map_fetch_add(map, 3, UINT64_MAX, &value) != ELLTREE_YES || value != 30;
    wrong += elltree_map_fetch_add(map, 4, 1, &value) != ELLTREE_NO || value != 30;
    wrong += elltree_map_update(map, 3, one_more, &calls, &value) != ELLTREE_YES || value != 29 || calls != 1;
    wrong += elltree_map_update(map, 4, one_more, &calls, &value) != ELLTREE_NO || value != 29 || calls != 1;
    wrong += elltree_map_next_after(map, 3, &found, &value) != ELLTREE_YES || found != 100 || value != 29;
    wrong += elltree_map_last_before(map, 3, &found, &value) != ELLTREE_YES || found != 2 || value != 22;
    wrong += elltree_map_last_before(map, 0, &found, &value) != ELLTREE_NO || elltree_map_next_after(map, UINT64_MAX, &found, &value) != ELLTREE_NO;
    wrong += elltree_map_last(map, &found, &value) != ELLTREE_YES || found != 100;
    wrong += elltree_map_remove(map, 3, &value) != ELLTREE_YES || value != 30 || elltree_map_remove(map, 3, &value) != ELLTREE_NO;
    wrong += elltree_map_delete(map, 100) != ELLTREE_YES || elltree_map_delete(map, 100) != ELLTREE_NO;
    wrong += elltree_map_get(map, 2, &value) != ELLTREE_YES || value != 22 || elltree_map_get(map, 3, &value) != ELLTREE_NO;
    return end_map("answers", wrong, 0);
}

static long lists(void) {
    struct elltree_pair pairs[4] = {{4, 40}, {2, 20}, {ELLTREE_KEY_MAX, 60}, {2, 21}}, out[4];
    size_t count = 9, done = 0;
    uint64_t following = 0;
    long wrong = make_map(0, 0, NULL, 0);
    wrong += elltree_map_pairs(map, NULL, 0, &count) != ELLTREE_YES || count != 0;
    wrong += elltree_map_extend(map, pairs, 4, &done) != ELLTREE_YES || done != 4;
    wrong += elltree_map_pairs(map, out, 2, &count) != ELLTREE_NO_ROOM || count != 3;
    wrong += elltree_map_renew(map) != ELLTREE_YES;
    wrong += elltree_map_pairs(map, out, 3, &count) != ELLTREE_YES || count != 3 || out[0].value != 21 || out[2].key != ELLTREE_KEY_MAX;
    wrong += elltree_map_range(map, 0, 4, out, 4, &count, &following) != ELLTREE_YES || count != 1 || following != 4;
    wrong += elltree_map_range(map, 0, UINT64_MAX, out, 2, &count, &following) != ELLTREE_YES || count != 2 || following <= 4;
    wrong += elltree_map_range(map, following, UINT64_MAX, out, 2, &count, &following) != ELLTREE_YES || count != 1 || following != UINT64_MAX;
    wrong += elltree_map_range(map, 7, 3, NULL, 0, &count, &following) != ELLTREE_YES || count != 0 || following != 3;
    wrong += elltree_map_range(map, 1, 3, NULL, 0, &count, &following) != ELLTREE_YES || count != 0 || following != 1;
    pairs[1].key = ELLTREE_KEY_MAX + 1;
    wrong += elltree_map_extend(map, pairs, 4, &done) != ELLTREE_BAD_KEY || done != 1;
    return end_map("lists", wrong, 1);
}

static long refusals(void) {
    const struct elltree_pair twice[2] = {{1, 1}, {1, 2}}, above = {ELLTREE_KEY_MAX + 1, 0};
    struct elltree_map *none = NULL;
    uint64_t value = 7;
    size_t count;
    long wrong = elltree_map_from_sorted(&none, twice, 2, NULL, 0) != ELLTREE_BAD_START || none;
    wrong += elltree_map_from_sorted(&none, &above, 1, NULL, 0) != ELLTREE_BAD_KEY ||
             elltree_map_from_sorted(&none, NULL, 1, NULL, 0) != ELLTREE_NULL;
    wrong += elltree_map_new(NULL) != ELLTREE_NULL || elltree_map_get(NULL, 1, &value) != ELLTREE_NULL;
    wrong += make_map(0, 0, NULL, 0);
    wrong += elltree_map_compare_exchange(map, 1, NULL, 1) != ELLTREE_NULL || elltree_map_update(map, 1, NULL, NULL, &value) != ELLTREE_NULL;
    wrong += elltree_map_range(map, 0, 1, NULL, 1, &count, &value) != ELLTREE_NULL || elltree_map_pairs(map, NULL, 1, &count) != ELLTREE_NULL;
    wrong += elltree_map_insert(map, above.key, 1) != ELLTREE_BAD_KEY || elltree_map_put(map, above.key, 1, &value) != ELLTREE_BAD_KEY;
    wrong += elltree_map_delete(map, above.key) != ELLTREE_BAD_KEY || elltree_map_remove(map, above.key, &value) != ELLTREE_BAD_KEY;
    wrong += value != 7;
    elltree_map_free(NULL);
    return end_map("refusals", wrong, 0);
}

int main(void) {
    long wrong = answers() + lists() + refusals();
    wrong += memory_is_flat(16);
    wrong += share(MOST, 0);
    wrong += share(MOST, 2); /* more threads than places */
    wrong += tokens() + snapshots() + sections() + add_in_orders();
    printf("%ld wrong\n", wrong);
    return wrong != 0;
}
