/* Takes the header in, for compilers that are to say nothing of it, and makes calls whose codes nobody looks at, where it is to say so. */
#include "elltree.h"

int main(void) {
    struct elltree_handle handle = ELLTREE_EMPTY;
#ifdef UNSEEN
    UNSEEN;
#endif
    return elltree_free(&handle) != ELLTREE_CLOSED;
}
