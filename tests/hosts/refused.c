/* Each allocation of the library is refused in turn: elltree_open and elltree_another are answered by ELLTREE_NO_MEMORY, and all handles are as they
   were; or, where they can do without, by ELLTREE_YES, and all are as they should be. A bad number of cards is told before memory is asked for. No
   other call on a handle asks for memory. Linked with --wrap=malloc and --wrap=realloc. */
#include "elltree.h"
#include <stdio.h>

static long asked, refuse_at = -1;
static int faults;

void *__real_malloc(size_t size);
void *__real_realloc(void *at, size_t size);
void *__wrap_malloc(size_t size) { return ++asked == refuse_at ? NULL : __real_malloc(size); }
void *__wrap_realloc(void *at, size_t size) { return ++asked == refuse_at ? NULL : __real_realloc(at, size); }

enum { KEYS = 300, START = 100 };
static struct elltree_pair start[START];
static struct elltree_handle one = ELLTREE_EMPTY, two = ELLTREE_EMPTY;

static int32_t open_one(void) { return elltree_open(&one, start, START, 1000); }
static int32_t another(void) { return elltree_another(&one, &two); }
static int32_t free_one(void) { return elltree_free(&one); }
static int32_t free_two(void) { return elltree_free(&two); }

/* The handle holds nothing, or finds the start keys and no others. */
static long differs(struct elltree_handle *handle, int is_open) {
    long wrong = handle->in_call + (handle->slot.is_open != is_open);
    uint64_t value = 0;
    for (uint64_t key = 0; is_open && key < KEYS; key++) {
        const int32_t said = elltree_find(handle, key, &value);
        wrong += said != (key < 2 * START && key % 2 == 0 ? ELLTREE_YES : ELLTREE_NO) || (said == ELLTREE_YES && value != key / 2);
    }
    return wrong;
}

static long none_open(void) { return differs(&one, 0) + differs(&two, 0); }
static long one_open(void) { return differs(&one, 1) + differs(&two, 0); }
static long both_open(void) { return differs(&one, 1) + differs(&two, 1); }

/* Refuses each allocation of a call in turn, and looks each time whether all is as it was; or, if the call could do without the memory, as it is
   after the call, which is undone then. */
static void refuse(const char *name, int32_t (*call)(void), long (*differs_before)(void), long (*differs_after)(void), int32_t (*undo)(void)) {
    long done_without = 0;
    for (long at = 1;; at++) {
        refuse_at = at, asked = 0;
        const int32_t said = call();
        refuse_at = -1;
        if (said == ELLTREE_YES ? differs_after() : said != ELLTREE_NO_MEMORY || differs_before()) {
            char text[ELLTREE_TEXT_ROOM];
            printf("%s: at allocation %ld: %s\n", name, at, elltree_text(said, text, sizeof text));
            faults++;
            return;
        }
        if (said != ELLTREE_YES)
            continue;
        if (asked < at) {
            printf("%s: %ld allocations, without %ld of them it goes on\n", name, asked, done_without);
            faults += done_without >= asked;
            return;
        }
        done_without++;
        faults += undo() != ELLTREE_YES || differs_before() != 0;
    }
}

/* Calls that ask for no memory. */
static void frugal(void) {
    static struct elltree_pair out[KEYS];
    uint64_t key, value, steps, left;
    size_t count;
    char text[ELLTREE_TEXT_ROOM];
    asked = 0;
    faults += elltree_find(&one, 4, &value) != ELLTREE_YES;
    faults += elltree_look(&two, 201, &value) != ELLTREE_NO;
    faults += elltree_range(&one, 3, 7, out, KEYS, &count, &key) != ELLTREE_YES || count != 2 || out[1].key != 6;
    faults += elltree_next_at_least(&two, 5, &key, &value) != ELLTREE_YES || key != 6 || value != 3;
    faults += elltree_last_at_most(&one, 3, &key, &value) != ELLTREE_YES || key != 2 || value != 1;
    faults += elltree_insert(&two, 1, 1, 5) != ELLTREE_YES;
    faults += elltree_put(&one, 1, 2, 5, &value) != ELLTREE_YES || value != 1;
    faults += elltree_fetch_add(&two, 1, 3, 5, &value) != ELLTREE_YES || value != 2;
    faults += elltree_compare_exchange(&one, 1, &value, 6, 5) != ELLTREE_OTHER_VALUE || value != 5;
    faults += elltree_compare_exchange(&one, 1, &value, 6, 5) != ELLTREE_YES;
    faults += elltree_remove_if(&two, 1, &value, 5) != ELLTREE_OTHER_VALUE || value != 6;
    faults += elltree_remove_if(&two, 1, &value, 5) != ELLTREE_YES;
    faults += elltree_insert(&one, 9, 1, 5) != ELLTREE_YES || elltree_delete(&one, 9, 5) != ELLTREE_YES;
    faults += elltree_take(&one, 0, 5, &value) != ELLTREE_YES || value != 0 || elltree_insert(&two, 0, 0, 5) != ELLTREE_YES;
    faults += elltree_steps(&one, &steps) != ELLTREE_YES;
    faults += elltree_cards_left(&one, &left) != ELLTREE_YES;
    faults += elltree_text(ELLTREE_NO_MEMORY, text, sizeof text) != text;
    printf("the other calls: %ld allocations\n", asked);
    faults += asked != 0 || both_open() != 0;
}

/* A number of cards that is refused is told before any memory is asked for. */
static void bad_cards(void) {
    const uint64_t cards[] = {0, 1000001, 2000000};
    refuse_at = 1, asked = 0;
    for (int i = 0; i < 3; i++)
        faults += elltree_open(&one, start, START, cards[i]) != ELLTREE_BAD_CARDS || elltree_open(&one, NULL, 0, cards[i]) != ELLTREE_BAD_CARDS;
    faults += asked != 0;
    refuse_at = -1;
    faults += none_open() != 0;
}

int main(void) {
    for (uint64_t i = 0; i < START; i++)
        start[i].key = 2 * i, start[i].value = i;
    bad_cards();
    refuse("open", open_one, none_open, one_open, free_one);
    refuse("another", another, one_open, both_open, free_two);
    frugal();
    asked = 0;
    faults += free_one() != ELLTREE_YES || differs(&two, 1) != 0 || free_two() != ELLTREE_YES || asked != 0;
    printf("%d faults\n", faults);
    return faults != 0;
}
