/* Threads hand objects to each other through a tree, one at a time: one writes to an object and stores its address as the value of a key, by each call
   that stores one, and another one reads the value by its own handle, by each call that tells one, and so reads the object. It removes the key by each
   call that does, and then frees the object, or it has written to it before, and the first one frees it once it finds the key absent. What a thread did
   before it stored a value or removed it has happened before what another does after it found that: the thread sanitizer finds nothing, though the
   library was compiled without it, also where cards come back. */
#include "elltree.h"
#include <pthread.h>
#include <stdio.h>
#include <stdlib.h>
#include <time.h>

enum { OBJECTS = 360, STORING = 4, READING = 9, REMOVING = 5, CARDS = 20000, CARDS_REUSED = 100, TRIES = 1000 };

struct object {
    uint64_t number, content;
};

struct side {
    _Alignas(128) struct elltree_handle handle;
    long wrong;
};

/* The last key that has its object, for calls that take a card each time. It tells the thread sanitizer no order. */
static uint64_t last_stored;

/* Lets the other thread go on. */
static void rest(void) {
    const struct timespec shortly = {0, 20000};
    nanosleep(&shortly, NULL);
}

static int is_hindered(int32_t code) { return code == ELLTREE_BUSY || code == ELLTREE_SPENT; }

/* Makes a change again while something is in its way or no card is free for it. Writes its answer to code, and counts other refusals. */
#define UNTIL_DONE(side, code, call)                     \
    do {                                                 \
        code = (call);                                   \
        (side)->wrong += code < 0 && !is_hindered(code); \
    } while (is_hindered(code))

/* Some objects are taken at once, and of the others some go back to the thread that made them. */
static int is_taken_at_once(uint64_t key) { return key % STORING == 0; }
static int goes_back(uint64_t key) { return !is_taken_at_once(key) && key % REMOVING > 0; }

/* NOLINTNEXTLINE: the value is the address of an object */
static struct object *object_at(uint64_t value) { return (struct object *)(uintptr_t)value; }

/* Makes an object and stores its address: at a key that is absent, or one that has the value 0, which stands for none. */
static uint64_t store_one(struct side *it, uint64_t key) {
    struct object *made;
    uint64_t value, was = 0;
    int32_t code;
    if (!is_taken_at_once(key))
        UNTIL_DONE(it, code, elltree_put(&it->handle, key, 0, TRIES, &was));
    made = malloc(sizeof *made);
    if (!made)
        abort();
    *made = (struct object){key, key * 3};
    value = (uint64_t)(uintptr_t)made;
    if (key % STORING == 0)
        UNTIL_DONE(it, code, elltree_insert(&it->handle, key, value, TRIES));
    else if (key % STORING == 1)
        UNTIL_DONE(it, code, elltree_put(&it->handle, key, value, TRIES, &was));
    else if (key % STORING == 2)
        UNTIL_DONE(it, code, elltree_compare_exchange(&it->handle, key, &was, value, TRIES));
    else
        UNTIL_DONE(it, code, elltree_fetch_add(&it->handle, key, value, TRIES, &was));
    it->wrong += code != ELLTREE_YES || was;
    return value;
}

static void *store(void *given) {
    struct side *it = given;
    for (uint64_t key = 1; key <= OBJECTS; key++) {
        const uint64_t value = store_one(it, key);
        uint64_t found;
        __atomic_store_n(&last_stored, key, __ATOMIC_RELAXED);
        while (elltree_find(&it->handle, key, &found) == ELLTREE_YES)
            rest();
        if (goes_back(key)) {
            it->wrong += object_at(value)->content != 0;
            free(object_at(value));
        }
    }
    return NULL;
}

/* Reads the value of a key, by an exchange that finds another value, or by a change that takes a card. */
static uint64_t read_by_change(struct side *it, uint64_t key) {
    uint64_t value = 1;
    int32_t code;
    if (key % READING == 0) {
        UNTIL_DONE(it, code, elltree_compare_exchange(&it->handle, key, &value, 1, TRIES));
        return code == ELLTREE_OTHER_VALUE ? value : 0;
    }
    if (key % READING == 1) {
        UNTIL_DONE(it, code, elltree_remove_if(&it->handle, key, &value, TRIES));
        return code == ELLTREE_OTHER_VALUE ? value : 0;
    }
    if (__atomic_load_n(&last_stored, __ATOMIC_RELAXED) != key)
        return 0;
    if (key % READING == 2)
        UNTIL_DONE(it, code, elltree_fetch_add(&it->handle, key, 0, TRIES, &value));
    else
        UNTIL_DONE(it, code, elltree_put(&it->handle, key, 0, TRIES, &value));
    return code == ELLTREE_YES ? value : 0;
}

/* Reads the value of a key, by one call or another: 0 if there is none yet. */
static uint64_t read_value(struct side *it, uint64_t key) {
    struct elltree_pair pair = {0, 0};
    uint64_t value = 0, following, found = 0;
    size_t count = 0;
    switch (key % READING) {
    case 4:
        return elltree_find(&it->handle, key, &value) == ELLTREE_YES ? value : 0;
    case 5:
        return elltree_look(&it->handle, key, &value) == ELLTREE_YES ? value : 0;
    case 6:
        return elltree_next_at_least(&it->handle, key, &found, &value) == ELLTREE_YES && found == key ? value : 0;
    case 7:
        return elltree_last_at_most(&it->handle, key, &found, &value) == ELLTREE_YES && found == key ? value : 0;
    case 8:
        return elltree_range(&it->handle, key, key + 1, &pair, 1, &count, &following) == ELLTREE_YES && count ? pair.value : 0;
    default:
        return read_by_change(it, key);
    }
}

/* Removes a key, and returns whether that was done. A put that has read the value has left 0 there. */
static int remove_key(struct side *it, uint64_t key, uint64_t *value) {
    uint64_t there = key % READING == 3 ? 0 : *value, taken = 0;
    int32_t code;
    if (!goes_back(key) || key % REMOVING == 1) {
        UNTIL_DONE(it, code, elltree_take(&it->handle, key, TRIES, &taken));
        it->wrong += *value && taken != there;
        *value = *value ? *value : taken;
    } else if (key % REMOVING == 2) {
        UNTIL_DONE(it, code, elltree_remove_if(&it->handle, key, &there, TRIES));
    } else {
        UNTIL_DONE(it, code, elltree_delete(&it->handle, key, TRIES));
    }
    return code == ELLTREE_YES;
}

static void *take(void *given) {
    struct side *it = given;
    for (uint64_t key = 1; key <= OBJECTS; key++) {
        uint64_t value = 0;
        while (is_taken_at_once(key) ? !remove_key(it, key, &value) : !(value = read_value(it, key)))
            rest();
        it->wrong += object_at(value)->number != key || object_at(value)->content != key * 3;
        if (goes_back(key))
            object_at(value)->content = 0;
        it->wrong += !is_taken_at_once(key) && !remove_key(it, key, &value);
        if (!goes_back(key))
            free(object_at(value));
    }
    return NULL;
}

/* Two threads with a handle each of one tree, of which the first is given. */
static long hand_over(struct side *sides) {
    pthread_t threads[2];
    long wrong = elltree_another(&sides[0].handle, &sides[1].handle) != ELLTREE_YES;
    last_stored = 0;
    pthread_create(&threads[0], NULL, store, &sides[0]);
    pthread_create(&threads[1], NULL, take, &sides[1]);
    for (int i = 0; i < 2; i++) {
        pthread_join(threads[i], NULL);
        wrong += sides[i].wrong + (elltree_free(&sides[i].handle) != ELLTREE_YES);
    }
    return wrong;
}

int main(void) {
    static struct side one[2], other[2];
    long wrong = elltree_open(&one[0].handle, NULL, 0, CARDS) != ELLTREE_YES;
    wrong += hand_over(one);
    wrong += elltree_open_reusing(&other[0].handle, NULL, 0, CARDS_REUSED, 2) != ELLTREE_YES;
    wrong += hand_over(other);
    printf("%d objects, %ld wrong\n", 2 * OBJECTS, wrong);
    return wrong != 0;
}
