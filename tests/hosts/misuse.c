/* Every misuse that has a code: each call is answered by the code, and handles, trees and maps are as they were. So are calls that come when all
   cards of a tree are given out: what reads goes on. The codes that come of other threads (ELLTREE_BUSY), of refused memory and of a forked child
   have tests of their own: one_handle.c, refused.c and map_forked.c. */
#include "elltree.h"
#include <stdio.h>
#include <string.h>

static int faults;
static int met[32];

static void is(int line, int32_t said, int32_t code) {
    if (said < 0)
        met[-said] = 1;
    if (said != code) {
        char one[ELLTREE_TEXT_ROOM], other[ELLTREE_TEXT_ROOM];
        faults++;
        printf("line %d: %s, and not: %s\n", line, elltree_text(said, one, sizeof one), elltree_text(code, other, sizeof other));
    }
}
#define IS(call, code) is(__LINE__, call, code)

enum { ROOM = 16 };

/* These pairs are in the handle's tree, and so many cards are left. */
static void has(int line, struct elltree_handle *handle, const struct elltree_pair *pairs, size_t count, uint64_t cards) {
    struct elltree_pair out[ROOM];
    size_t there = 0;
    uint64_t end = 0, left = 77;
    is(line, elltree_range(handle, 0, UINT64_MAX, out, ROOM, &there, &end), ELLTREE_YES);
    is(line, elltree_cards_left(handle, &left), ELLTREE_YES);
    if (there != count || end != UINT64_MAX || left != cards || (count && memcmp(out, pairs, count * sizeof *pairs))) {
        faults++;
        printf("line %d: %zu keys are present, and %llu cards left\n", line, there, (unsigned long long)left);
    }
}
#define HAS(handle, pairs, count, cards) has(__LINE__, handle, pairs, count, cards)

static const struct elltree_pair start[2] = {{2, 20}, {4, 40}};

/* What is refused where a tree is opened, the most that it begins with, and its greatest key. */
static void opening(void) {
    static struct elltree_pair many[ELLTREE_START_MAX + 1];
    struct elltree_handle h = ELLTREE_EMPTY;
    const struct elltree_pair down[2] = {{4, 0}, {2, 0}}, twice[2] = {{2, 0}, {2, 0}}, high[2] = {{1, 0}, {ELLTREE_KEY_MAX + 1, 0}};
    const struct elltree_pair high_and_down[2] = {{UINT64_MAX, 0}, {2, 0}}, greatest = {ELLTREE_KEY_MAX, 7};
    for (uint64_t i = 0; i <= ELLTREE_START_MAX; i++)
        many[i].key = i;
    IS(elltree_open(&h, start, 2, 0), ELLTREE_BAD_CARDS);
    IS(elltree_open(&h, start, 2, ELLTREE_CARDS_MAX + 1), ELLTREE_BAD_CARDS);
    IS(elltree_open(&h, start, 2, UINT64_MAX), ELLTREE_BAD_CARDS);
    IS(elltree_open(&h, down, 2, 9), ELLTREE_BAD_START);
    IS(elltree_open(&h, twice, 2, 9), ELLTREE_BAD_START);
    IS(elltree_open(&h, high_and_down, 2, 9), ELLTREE_BAD_START);
    IS(elltree_open(&h, many, ELLTREE_START_MAX + 1, 9), ELLTREE_BAD_START);
    IS(elltree_open(&h, high, 2, 9), ELLTREE_BAD_KEY);
    IS(elltree_open(&h, high, 2, 0), ELLTREE_BAD_KEY);
    IS(elltree_open(NULL, start, 2, 9), ELLTREE_NULL);
    IS(elltree_open(&h, NULL, 2, 9), ELLTREE_NULL);
    IS(elltree_free(&h), ELLTREE_CLOSED);
    IS(elltree_open(&h, NULL, 0, 1), ELLTREE_YES);
    HAS(&h, NULL, 0, 1);
    IS(elltree_open(&h, down, 2, 0), ELLTREE_OPEN);
    HAS(&h, NULL, 0, 1);
    IS(elltree_free(&h), ELLTREE_YES);
    IS(elltree_open(&h, NULL, 0, ELLTREE_CARDS_MAX), ELLTREE_YES);
    IS(elltree_insert(&h, ELLTREE_KEY_MAX, 7, 1), ELLTREE_YES);
    HAS(&h, &greatest, 1, ELLTREE_CARDS_MAX - 1);
    IS(elltree_free(&h), ELLTREE_YES);
    IS(elltree_open(&h, many, ELLTREE_START_MAX, 1), ELLTREE_YES);
    IS(elltree_free(&h), ELLTREE_YES);
}

/* Each call on this handle is refused by this code, and has written nothing. */
static void refused(struct elltree_handle *h, int32_t code) {
    struct elltree_pair pair = {7, 7};
    uint64_t value = 7, other = 7;
    size_t count = 7;
    IS(elltree_find(h, 1, &value), code);
    IS(elltree_look(h, 1, &value), code);
    for (uint32_t tries = 0; tries < 2; tries++) {
        IS(elltree_insert(h, 2, 1, tries), code);
        IS(elltree_put(h, ELLTREE_KEY_MAX + 1, 1, tries, &value), code);
        IS(elltree_delete(h, 1, tries), code);
        IS(elltree_take(h, 1, tries, &value), code);
        IS(elltree_compare_exchange(h, 1, &value, 1, tries), code);
        IS(elltree_remove_if(h, 1, &value, tries), code);
        IS(elltree_fetch_add(h, 1, 1, tries, &value), code);
    }
    IS(elltree_range(h, 0, 9, &pair, 1, &count, &value), code);
    IS(elltree_range(h, 9, 0, NULL, 0, &count, &value), code);
    IS(elltree_next_at_least(h, 1, &value, &other), code);
    IS(elltree_last_at_most(h, 1, &value, &other), code);
    IS(elltree_cards_left(h, &value), code);
    IS(elltree_steps(h, &value), code);
    IS(elltree_free(h), code);
    faults += pair.key != 7 || pair.value != 7 || value != 7 || other != 7 || count != 7;
}

/* A pointer to what a call writes may not be null. */
static void nulls(struct elltree_handle *h) {
    struct elltree_pair pair = {7, 7};
    uint64_t value = 7;
    size_t count = 7;
    IS(elltree_find(h, 2, NULL), ELLTREE_NULL);
    IS(elltree_look(h, 2, NULL), ELLTREE_NULL);
    IS(elltree_put(h, 2, 1, 1, NULL), ELLTREE_NULL);
    IS(elltree_take(h, 2, 1, NULL), ELLTREE_NULL);
    IS(elltree_compare_exchange(h, 2, NULL, 1, 1), ELLTREE_NULL);
    IS(elltree_remove_if(h, 2, NULL, 1), ELLTREE_NULL);
    IS(elltree_fetch_add(h, 2, 1, 1, NULL), ELLTREE_NULL);
    IS(elltree_range(h, 0, 9, NULL, 1, &count, &value), ELLTREE_NULL);
    IS(elltree_range(h, 0, 9, &pair, 1, NULL, &value), ELLTREE_NULL);
    IS(elltree_range(h, 0, 9, &pair, 1, &count, NULL), ELLTREE_NULL);
    IS(elltree_next_at_least(h, 1, NULL, &value), ELLTREE_NULL);
    IS(elltree_next_at_least(h, 1, &value, NULL), ELLTREE_NULL);
    IS(elltree_last_at_most(h, 9, NULL, &value), ELLTREE_NULL);
    IS(elltree_last_at_most(h, 9, &value, NULL), ELLTREE_NULL);
    IS(elltree_cards_left(h, NULL), ELLTREE_NULL);
    IS(elltree_steps(h, NULL), ELLTREE_NULL);
    faults += pair.key != 7 || value != 7 || count != 7;
}

/* No change is tried without tries, or of a key that is too great, which is absent to what reads. */
static void tries_and_keys(struct elltree_handle *h, uint64_t above) {
    uint64_t value = 77;
    IS(elltree_insert(h, 1, 1, 0), ELLTREE_NO_TRIES);
    IS(elltree_put(h, 2, 1, 0, &value), ELLTREE_NO_TRIES);
    IS(elltree_delete(h, 2, 0), ELLTREE_NO_TRIES);
    IS(elltree_take(h, 2, 0, &value), ELLTREE_NO_TRIES);
    IS(elltree_compare_exchange(h, 2, &value, 1, 0), ELLTREE_NO_TRIES);
    IS(elltree_remove_if(h, 9, &value, 0), ELLTREE_NO_TRIES);
    IS(elltree_fetch_add(h, above, 1, 0, &value), ELLTREE_NO_TRIES);
    IS(elltree_insert(h, above, 1, 9), ELLTREE_BAD_KEY);
    IS(elltree_put(h, above, 1, 9, &value), ELLTREE_BAD_KEY);
    IS(elltree_delete(h, above, 9), ELLTREE_BAD_KEY);
    IS(elltree_take(h, above, 9, &value), ELLTREE_BAD_KEY);
    IS(elltree_compare_exchange(h, above, &value, 1, 9), ELLTREE_BAD_KEY);
    IS(elltree_remove_if(h, above, &value, 9), ELLTREE_BAD_KEY);
    IS(elltree_fetch_add(h, above, 1, 9, &value), ELLTREE_BAD_KEY);
    IS(elltree_find(h, above, &value), ELLTREE_NO);
    IS(elltree_look(h, above, &value), ELLTREE_NO);
    faults += value != 77;
}

/* What is refused where a tree gives another handle, which is then of the same tree. */
static void another(void) {
    struct elltree_handle one = ELLTREE_EMPTY, two = ELLTREE_EMPTY;
    uint64_t value = 0;
    IS(elltree_another(&one, &two), ELLTREE_CLOSED);
    IS(elltree_open(&one, start, 2, 9), ELLTREE_YES);
    IS(elltree_another(&one, &one), ELLTREE_SAME);
    IS(elltree_another(&one, NULL), ELLTREE_NULL);
    IS(elltree_another(NULL, &two), ELLTREE_NULL);
    IS(elltree_enter(&one), ELLTREE_YES);
    IS(elltree_another(&one, &two), ELLTREE_IN_CALL);
    IS(elltree_another(&two, &one), ELLTREE_IN_CALL);
    IS(elltree_open(&one, start, 2, 9), ELLTREE_IN_CALL);
    IS(elltree_leave(&one, ELLTREE_YES), ELLTREE_YES);
    faults += two.slot.is_open || two.in_call || one.in_call;
    IS(elltree_another(&one, &two), ELLTREE_YES);
    IS(elltree_another(&one, &two), ELLTREE_OPEN);
    HAS(&two, start, 2, 9);
    IS(elltree_insert(&two, ELLTREE_KEY_MAX, 7, 9), ELLTREE_YES);
    IS(elltree_find(&one, ELLTREE_KEY_MAX, &value), ELLTREE_YES);
    IS(elltree_free(&one), ELLTREE_YES);
    IS(elltree_delete(&two, ELLTREE_KEY_MAX, 9), ELLTREE_YES);
    HAS(&two, start, 2, 7);
    IS(elltree_free(&two), ELLTREE_YES);
}

/* A tree of one card: a change after the first has none, and is refused, unless there is nothing to change. */
static void spent(void) {
    const struct elltree_pair nine = {2, 9};
    struct elltree_handle h = ELLTREE_EMPTY, other = ELLTREE_EMPTY;
    uint64_t value = 0, found = 0;
    IS(elltree_open(&h, NULL, 0, 1), ELLTREE_YES);
    IS(elltree_insert(&h, 2, 9, 9), ELLTREE_YES);
    IS(elltree_another(&h, &other), ELLTREE_YES);
    IS(elltree_insert(&h, 3, 9, 9), ELLTREE_SPENT);
    IS(elltree_delete(&other, 2, 9), ELLTREE_SPENT);
    IS(elltree_insert(&h, 2, 5, 9), ELLTREE_NO);
    IS(elltree_delete(&h, 3, 9), ELLTREE_NO);
    IS(elltree_take(&h, 3, 9, &value), ELLTREE_NO);
    IS(elltree_take(&h, 2, 9, &value), ELLTREE_SPENT);
    IS(elltree_compare_exchange(&h, 3, &value, 5, 9), ELLTREE_NO);
    IS(elltree_remove_if(&h, 3, &value, 9), ELLTREE_NO);
    IS(elltree_fetch_add(&h, 3, 1, 9, &value), ELLTREE_NO);
    IS(elltree_put(&h, 2, 5, 9, &value), ELLTREE_SPENT);
    IS(elltree_put(&other, 3, 5, 9, &value), ELLTREE_SPENT);
    IS(elltree_fetch_add(&h, 2, 1, 9, &value), ELLTREE_SPENT);
    faults += value != 0;
    IS(elltree_compare_exchange(&h, 2, &value, 5, 9), ELLTREE_OTHER_VALUE);
    IS(elltree_compare_exchange(&h, 2, &value, 5, 9), ELLTREE_SPENT);
    faults += value != 9;
    value = 8;
    IS(elltree_remove_if(&h, 2, &value, 9), ELLTREE_OTHER_VALUE);
    IS(elltree_remove_if(&h, 2, &value, 9), ELLTREE_SPENT);
    faults += value != 9;
    for (int i = 0; i < 1000; i++) {
        value = found = 0;
        IS(elltree_find(i % 2 ? &h : &other, 2, &value), ELLTREE_YES);
        IS(elltree_look(&h, 2, &found), ELLTREE_YES);
        faults += value != 9 || found != 9;
        IS(elltree_next_at_least(&h, 1, &found, &value), ELLTREE_YES);
        faults += found != 2 || value != 9;
        IS(elltree_last_at_most(&other, 1, &found, &value), ELLTREE_NO);
    }
    HAS(&h, &nine, 1, 0);
    HAS(&other, &nine, 1, 0);
    IS(elltree_free(&h), ELLTREE_YES);
    IS(elltree_free(&other), ELLTREE_YES);
}

/* Each handle makes the next one, which gets the lesser part of its share, until one has the least. The first can make others still. */
static void least_share(void) {
    const struct elltree_handle nothing = ELLTREE_EMPTY;
    struct elltree_handle first = nothing, last = nothing, next = nothing;
    int32_t said;
    int given = 0;
    IS(elltree_open(&first, NULL, 0, 9), ELLTREE_YES);
    IS(elltree_another(&first, &last), ELLTREE_YES);
    while (given < 1000 && (said = elltree_another(&last, &next)) == ELLTREE_YES) {
        given++;
        IS(elltree_free(&last), ELLTREE_YES);
        last = next;
        next = nothing;
    }
    IS(said, ELLTREE_TOO_MANY_HANDLES);
    IS(elltree_another(&last, &next), ELLTREE_TOO_MANY_HANDLES);
    faults += next.slot.is_open || given == 0;
    IS(elltree_insert(&last, 5, 50, 9), ELLTREE_YES);
    IS(elltree_delete(&first, 5, 9), ELLTREE_YES);
    IS(elltree_another(&first, &next), ELLTREE_YES);
    IS(elltree_insert(&next, 5, 51, 9), ELLTREE_YES);
    IS(elltree_free(&first), ELLTREE_YES);
    IS(elltree_free(&last), ELLTREE_YES);
    IS(elltree_free(&next), ELLTREE_YES);
}

/* What a map refuses, of which map_calls.c has keys that are too great. */
static void maps(void) {
    const struct elltree_pair down[2] = {{4, 0}, {2, 0}}, twice[2] = {{2, 0}, {2, 0}}, high[1] = {{ELLTREE_KEY_MAX + 1, 0}};
    struct elltree_map *map = NULL;
    struct elltree_pair out[2] = {{7, 7}, {7, 7}};
    size_t count = 0;
    IS(elltree_map_new(NULL), ELLTREE_NULL);
    IS(elltree_map_from_sorted(NULL, start, 2, NULL, 0), ELLTREE_NULL);
    IS(elltree_map_from_sorted(&map, NULL, 2, NULL, 0), ELLTREE_NULL);
    IS(elltree_map_from_sorted(&map, down, 2, NULL, 0), ELLTREE_BAD_START);
    IS(elltree_map_from_sorted(&map, twice, 2, NULL, 0), ELLTREE_BAD_START);
    IS(elltree_map_from_sorted(&map, high, 1, NULL, 0), ELLTREE_BAD_KEY);
    faults += map != NULL;
    IS(elltree_map_from_sorted(&map, start, 2, NULL, 0), ELLTREE_YES);
    IS(elltree_map_pairs(map, out, 1, &count), ELLTREE_NO_ROOM);
    IS(elltree_map_pairs(map, NULL, 0, &count), ELLTREE_NO_ROOM);
    faults += count != 2 || out[0].key != 7 || out[0].value != 7;
    IS(elltree_map_pairs(map, NULL, 1, &count), ELLTREE_NULL);
    IS(elltree_map_pairs(map, out, 2, &count), ELLTREE_YES);
    faults += count != 2 || memcmp(out, start, sizeof out) != 0;
    IS(elltree_map_free(map), ELLTREE_YES);
    IS(elltree_map_free(NULL), ELLTREE_NULL);
}

static int is_code(int32_t code) {
    return code >= ELLTREE_FORKED && code <= ELLTREE_OTHER_VALUE && code != -3 && code != -12 && code != -17; /* these were codes once */
}

/* Each code has a text of its own. It is cut off and ended by a 0 where there is no room for all, and what is behind the 0 stays. */
static void texts(void) {
    char one[ELLTREE_TEXT_ROOM], two[ELLTREE_TEXT_ROOM], cut[] = ".....";
    for (int32_t code = ELLTREE_FORKED - 1; code <= ELLTREE_OTHER_VALUE + 1; code++) {
        faults += is_code(code) != (strcmp(elltree_text(code, one, sizeof one), "no code of elltree") != 0);
        for (int32_t other = code + 1; other <= ELLTREE_OTHER_VALUE; other++)
            faults += is_code(code) && !strcmp(one, elltree_text(other, two, sizeof two));
    }
    faults += strcmp(elltree_text(ELLTREE_SPENT, one, sizeof one), "no card is free for the change") != 0;
    faults += elltree_code_text(ELLTREE_SPENT, cut, 4) != strlen(one) || memcmp(cut, "no \0.", sizeof cut);
    faults += *elltree_text(ELLTREE_SPENT, cut, 0) || *elltree_text(ELLTREE_SPENT, NULL, 4) || memcmp(cut, "no \0.", sizeof cut);
}

int main(void) {
    struct elltree_handle h = ELLTREE_EMPTY, none = ELLTREE_EMPTY;
    opening();
    another();
    IS(elltree_open(&h, start, 2, 100), ELLTREE_YES);
    refused(&none, ELLTREE_CLOSED);
    refused(NULL, ELLTREE_NULL);
    IS(elltree_enter(&h), ELLTREE_YES); /* as if another thread were inside a call */
    refused(&h, ELLTREE_IN_CALL);
    IS(elltree_leave(&h, ELLTREE_YES), ELLTREE_YES);
    nulls(&h);
    tries_and_keys(&h, ELLTREE_KEY_MAX + 1);
    tries_and_keys(&h, UINT64_MAX);
    faults += none.slot.is_open || none.in_call || h.in_call;
    HAS(&h, start, 2, 100);
    IS(elltree_free(&h), ELLTREE_YES);
    spent();
    least_share();
    maps();
    texts();
    for (int32_t code = ELLTREE_FORKED; code < ELLTREE_NO; code++)
        if (is_code(code) && !met[-code] && code != ELLTREE_BUSY && code != ELLTREE_NO_MEMORY && code != ELLTREE_FORKED) {
            char text[ELLTREE_TEXT_ROOM];
            faults++;
            printf("no call was answered: %s\n", elltree_text(code, text, sizeof text));
        }
    printf("%d faults\n", faults);
    return faults != 0;
}
