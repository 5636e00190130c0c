/* A program with an allocator of its own, which has malloc, calloc, realloc and free and nothing else, and keeps a number in front of each block:
   the library asks for no block and for no size in another way. Maps are filled, changed, emptied and freed, and no block comes back that was not
   given out. */
#define _GNU_SOURCE
#include "elltree_map.h"
#include <stdio.h>
#include <string.h>
#include <sys/mman.h>

enum { KEYS = 20000, ROUNDS = 4, CLASSES = 48, IN_FRONT = 16 };
#define GIVEN UINT64_C(0x9e3779b97f4a7c15)
#define FREED UINT64_C(0x0000000000040002)

/* What is in front of each block. A block has a size that is a power of two, and goes to the list of these when it is freed. */
struct front {
    uint64_t state;
    uint32_t class;
    uint32_t unused;
};
static struct front *lists[CLASSES];
static long foreign;

static void *give(size_t size) {
    struct front *front;
    uint32_t class = 5;
    while (((size_t)1 << class) < size + IN_FRONT)
        class ++;
    front = lists[class];
    if (front) {
        memcpy(&lists[class], front + 1, sizeof(void *));
    } else {
        front = mmap(NULL, (size_t)1 << class, PROT_READ | PROT_WRITE, MAP_PRIVATE | MAP_ANONYMOUS, -1, 0);
        if (front == MAP_FAILED)
            return NULL;
    }
    front->state = GIVEN;
    front->class = class;
    return front + 1;
}

void *malloc(size_t size) { return give(size); }

void free(void *at) {
    struct front *front = (struct front *)at - 1;
    if (!at)
        return;
    if (front->state != GIVEN) {
        foreign++; /* it is left where it is */
        return;
    }
    front->state = FREED;
    memcpy(front + 1, &lists[front->class], sizeof(void *));
    lists[front->class] = front;
}

void *calloc(size_t count, size_t size) {
    void *at = give(count * size);
    if (at)
        memset(at, 0, count * size);
    return at;
}

void *realloc(void *at, size_t size) {
    struct front *front = (struct front *)at - 1;
    void *made = give(size);
    if (at && made) {
        if (front->state == GIVEN)
            memcpy(made, at, ((size_t)1 << front->class) - IN_FRONT < size ? ((size_t)1 << front->class) - IN_FRONT : size);
        free(at);
    }
    return made;
}

static long use_map(void) {
    struct elltree_map *map = NULL;
    uint64_t was;
    long wrong = elltree_map_new(&map) != ELLTREE_YES;
    for (uint64_t i = 0; i < KEYS; i++)
        wrong += elltree_map_put(map, i * 7919 % KEYS, i, &was) != ELLTREE_NO;
    for (uint64_t i = 0; i < 3 * KEYS; i++)
        wrong += elltree_map_put(map, i * 7919 % KEYS, i + 1, &was) != ELLTREE_YES;
    wrong += elltree_map_renew(map) != ELLTREE_YES;
    for (uint64_t i = 0; i < KEYS; i++)
        wrong += elltree_map_remove(map, i, &was) != ELLTREE_YES;
    return wrong + (elltree_map_free(map) != ELLTREE_YES);
}

int main(void) {
    long wrong = 0;
    for (int i = 0; i < ROUNDS; i++)
        wrong += use_map();
    printf("%ld blocks of another allocator, %ld wrong\n", foreign, wrong);
    return wrong + foreign != 0;
}
