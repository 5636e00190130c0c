/* The order of accesses, for the thread sanitizer. It doesn't see the order that this code and the library make where they were compiled without it.
   So they tell it, where a program has it: `shown` that all that the thread has done so far is seen by whoever sees this word, and `seen` that this
   thread has seen the word. */
#ifndef ELLTREE_MAP_ORDER_H
#define ELLTREE_MAP_ORDER_H
#include <stddef.h>

/* They are null in a program without the sanitizer. */
extern void __tsan_acquire(void *word) __attribute__((weak));
extern void __tsan_release(void *word) __attribute__((weak));

static inline void seen(void *word) {
    if (__builtin_expect(__tsan_acquire != NULL, 0))
        __tsan_acquire(word);
}

static inline void shown(void *word) {
    if (__builtin_expect(__tsan_release != NULL, 0))
        __tsan_release(word);
}

#endif
