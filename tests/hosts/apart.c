/* What the library keeps of a handle has cache lines of its own, with 128 bytes on each side that no call writes to. It looks at the block that
   malloc gave for a handle, with 16 bytes in front of what the library uses, which no program may do. */
#include "elltree.h"
#include <malloc.h>
#include <stdio.h>
#include <string.h>

enum { HANDLES = 4, LINE = 128, ROOM = 4096, CARDS = 100, IN_FRONT = 16 };

/* The first and the last byte that calls on a handle write to. */
struct written {
    uintptr_t first, last;
};

/* Each kind of call once. */
static long call_all(struct elltree_handle *handle, uint64_t key) {
    uint64_t value = 0, found = 0;
    struct elltree_pair pair;
    size_t count = 0;
    long wrong = elltree_insert(handle, key, 1, 9) != ELLTREE_YES;
    wrong += elltree_find(handle, key, &value) != ELLTREE_YES || value != 1;
    wrong += elltree_put(handle, key, 2, 9, &value) != ELLTREE_YES || value != 1;
    wrong += elltree_look(handle, key, &value) != ELLTREE_YES || value != 2;
    wrong += elltree_range(handle, key, key + 1, &pair, 1, &count, &found) != ELLTREE_YES || count != 1;
    wrong += elltree_delete(handle, key, 9) != ELLTREE_YES;
    return wrong;
}

/* Where calls write to the block of a handle; it counts what is wrong, as a byte near the block's ends, which is another's line. */
static struct written calls_write(struct elltree_handle *handle, uint64_t key, long *wrong) {
    static unsigned char before[ROOM];
    const unsigned char *block = handle->slot.at;
    size_t size = malloc_usable_size((char *)handle->slot.at - IN_FRONT) - IN_FRONT, first = 0, last;
    if (size > ROOM || size < 2 * LINE) {
        ++*wrong;
        return (struct written){0, 0};
    }
    memcpy(before, block, size);
    *wrong += call_all(handle, key);
    *wrong += handle->slot.at != block;
    while (first < size && block[first] == before[first])
        first++;
    for (last = size; last > first && block[last - 1] == before[last - 1];)
        last--;
    *wrong += first == size || first < LINE || last > size - LINE;
    return (struct written){(uintptr_t)block + first, (uintptr_t)block + last};
}

int main(void) {
    /* As the header says for handles of several threads. */
    static struct { _Alignas(LINE) struct elltree_handle handle; } line[2];
    struct elltree_handle handles[HANDLES] = {ELLTREE_EMPTY};
    struct written written[HANDLES];
    long wrong = sizeof line[0] != LINE || (uintptr_t)&line[0] % LINE != 0;
    wrong += elltree_open(&handles[0], NULL, 0, CARDS) != ELLTREE_YES;
    for (int i = 1; i < HANDLES; i++)
        wrong += elltree_another(&handles[0], &handles[i]) != ELLTREE_YES;
    for (int i = 0; i < HANDLES; i++)
        written[i] = calls_write(&handles[i], (uint64_t)i, &wrong);
    for (int i = 0; i < HANDLES; i++) /* no two handles have a line that calls on both write to */
        for (int other = 0; other < i; other++)
            wrong += written[other].first / LINE <= written[i].last / LINE && written[i].first / LINE <= written[other].last / LINE;
    for (int i = 0; i < HANDLES; i++)
        wrong += elltree_free(&handles[i]) != ELLTREE_YES;
    printf("%ld wrong\n", wrong);
    return wrong != 0;
}
