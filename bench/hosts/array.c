// The library as a program in C has it: a tree, of which a call fills an array with a range.
#include <elltree.h>
#include <stdlib.h>

// A call is never refused here.
static int32_t answered(int32_t code) {
    if (code < 0)
        abort();
    return code;
}

static struct elltree_handle *new_handle(void) {
    struct elltree_handle *handle = calloc(1, sizeof *handle);
    if (!handle)
        abort();
    return handle;
}

struct elltree_handle *array_open(const struct elltree_pair *start, size_t count, uint64_t cards) {
    struct elltree_handle *handle = new_handle();
    answered(elltree_open(handle, start, count, cards));
    return handle;
}

// Another handle of the same tree.
struct elltree_handle *array_another(struct elltree_handle *from) {
    struct elltree_handle *handle = new_handle();
    answered(elltree_another(from, handle));
    return handle;
}

void array_free(struct elltree_handle *handle) {
    answered(elltree_free(handle));
    free(handle);
}

// Whether the key is present: then it has this value.
bool array_find(struct elltree_handle *handle, uint64_t key, uint64_t *value) { return answered(elltree_find(handle, key, value)); }

// Whether the key was absent.
bool array_insert(struct elltree_handle *handle, uint64_t key, uint64_t value, uint32_t tries) {
    return answered(elltree_insert(handle, key, value, tries));
}

// Whether the key was present.
bool array_delete(struct elltree_handle *handle, uint64_t key, uint32_t tries) { return answered(elltree_delete(handle, key, tries)); }

// Whether the key was present: then it had this value, and has the other.
bool array_swap(struct elltree_handle *handle, uint64_t key, uint64_t value, uint32_t tries, uint64_t *was) {
    int32_t code = answered(elltree_find(handle, key, was));
    if (code == ELLTREE_YES)
        do
            code = answered(elltree_compare_exchange(handle, key, was, value, tries));
        while (code == ELLTREE_OTHER_VALUE);
    return code == ELLTREE_YES;
}

// How many pairs of a range are in the array, which has room for all.
size_t array_range(struct elltree_handle *handle, uint64_t from, uint64_t upto, struct elltree_pair *out, size_t room) {
    size_t count;
    uint64_t next;
    answered(elltree_range(handle, from, upto, out, room, &count, &next));
    if (next != upto)
        abort();
    return count;
}

// Whether there is a key from this one on: then the least is this one, with this value.
bool array_next(struct elltree_handle *handle, uint64_t key, struct elltree_pair *found) {
    return answered(elltree_next_at_least(handle, key, &found->key, &found->value));
}
