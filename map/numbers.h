/* The smaller and the greater of two numbers. */
#ifndef ELLTREE_MAP_NUMBERS_H
#define ELLTREE_MAP_NUMBERS_H
#include <stdint.h>

static inline uint64_t at_most(uint64_t number, uint64_t most) { return number < most ? number : most; }
static inline uint64_t at_least(uint64_t number, uint64_t least) { return number > least ? number : least; }

#endif
