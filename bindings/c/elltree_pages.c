/* The memory of the library is the C library's. The kit's object calls the functions of this file in place of malloc, realloc and free:
   tools/library_of renames the calls. They see to it that a tree is made soon, since most of the time would go to pages that are new, and that
   its nodes don't stand in two lines of the cache. They call malloc, realloc and free alone, and keep the size of a block in front of it, so that
   a program may replace these three. */
#define _GNU_SOURCE
#include "../../map/order.h"
#include <stdatomic.h>
#include <stdint.h>
#include <stdlib.h>
#include <string.h>
#include <sys/mman.h>

#define PAGE ((uintptr_t)2 << 20)
/* Below this a block has few whole pages, or the C library has used its memory before. */
#define LARGE (2 * PAGE)
/* A few blocks of this size are kept for a while, since a map frees one each time when it asks for another. */
#define KEPT_LEAST ((size_t)128 << 10)
#define KEPT_MOST PAGE
/* From this size on the memory of a block begins 16 bytes behind the begin of a line. A tree has its first node 48 bytes behind that. */
#define PLACED_LEAST ((size_t)4 << 10)
#define LINE ((uintptr_t)64)
#define BEHIND ((uintptr_t)16)

/* What is in front of the memory that the library gets: how many bytes that has, and what malloc has returned. */
struct block {
    _Alignas(16) size_t size;
    void *given;
    unsigned char memory[];
};

enum { KEPT = 4 };
static struct block *kept[KEPT]; /* or null */
/* Whoever finds it set goes on without these blocks, and waits for nobody. */
static atomic_flag is_busy = ATOMIC_FLAG_INIT;

__attribute__((visibility("hidden"))) void *elltree_malloc(size_t size);
__attribute__((visibility("hidden"))) void *elltree_realloc(void *at, size_t size);
__attribute__((visibility("hidden"))) void elltree_free(void *at);

static int is_kept(size_t size) { return size >= KEPT_LEAST && size < KEPT_MOST; }

static int is_placed(size_t size) { return size >= PLACED_LEAST; }

/* The block of memory that the library has got. */
static struct block *block_of(void *at) { return (struct block *)((unsigned char *)at - sizeof(struct block)); }

/* Whether this thread has the blocks that are kept, and sees what was done to them. */
static int take_them(void) {
    if (atomic_flag_test_and_set(&is_busy))
        return 0;
    seen(&is_busy);
    return 1;
}

static void give_them_back(void) {
    shown(&is_busy);
    atomic_flag_clear(&is_busy);
}

/* The smallest block that was kept and is large enough, but not more than a quarter larger, or null. */
static struct block *take_kept(size_t size) {
    struct block *block = NULL;
    int best = KEPT;
    if (!take_them())
        return NULL;
    for (int i = 0; i < KEPT; i++)
        if (kept[i] && kept[i]->size >= size && kept[i]->size / 5 * 4 <= size && (best == KEPT || kept[i]->size < kept[best]->size))
            best = i;
    if (best < KEPT) {
        block = kept[best];
        kept[best] = NULL;
    }
    give_them_back();
    return block;
}

/* Keeps a block, and returns another one for it, which was kept longest, or null. */
static struct block *keep(struct block *block) {
    static int next;
    struct block *other = block;
    if (!take_them())
        return other;
    other = kept[next];
    kept[next] = block;
    next = (next + 1) % KEPT;
    give_them_back();
    return other;
}

/* The whole pages of a large block are advised to be huge, before they are touched, and it does no harm if the system does not follow. */
static void advise(void *given, size_t size) {
    const uintptr_t from = ((uintptr_t)given + PAGE - 1) / PAGE * PAGE, upto = ((uintptr_t)given + size) / PAGE * PAGE;
    (void)madvise((void *)from, upto - from, MADV_HUGEPAGE);
}

/* How many bytes more than its memory a block takes at most. */
static size_t extra(size_t size) { return sizeof(struct block) + (is_placed(size) ? LINE : 0); }

/* The block for so much memory in what malloc has returned, which is aligned to 16 bytes, and so is the block. */
static struct block *block_in(void *given, size_t size) {
    uintptr_t at = (uintptr_t)given + sizeof(struct block);
    struct block *block;
    if (is_placed(size))
        at += (LINE + BEHIND - at % LINE) % LINE;
    block = block_of((void *)at);
    block->size = size;
    block->given = given;
    return block;
}

void *elltree_malloc(size_t size) {
    const size_t all = size + extra(size);
    struct block *block = is_kept(size) ? take_kept(size) : NULL;
    void *given = block || all < size ? NULL : malloc(all);
    if (given && all >= LARGE)
        advise(given, all);
    if (given)
        block = block_in(given, size);
    return block ? block->memory : NULL;
}

/* Another block of a size at which blocks are placed, with what this one has. */
static void *move(void *at, size_t size) {
    void *moved = elltree_malloc(size);
    if (moved) {
        memcpy(moved, at, size < block_of(at)->size ? size : block_of(at)->size);
        elltree_free(at);
    }
    return moved;
}

void *elltree_realloc(void *at, size_t size) {
    void *given;
    if (!at)
        return elltree_malloc(size);
    if (is_placed(size) || is_placed(block_of(at)->size))
        return move(at, size);
    given = realloc(block_of(at)->given, size + extra(size));
    return given ? block_in(given, size)->memory : NULL;
}

void elltree_free(void *at) {
    struct block *block = at ? block_of(at) : NULL;
    if (block && is_kept(block->size))
        block = keep(block);
    free(block ? block->given : NULL);
}
