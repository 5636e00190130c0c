/* The program in C of docs/HANDLES.md: two handles of one tree. */
#include <elltree.h>
#include <stdio.h>

int main(void) {
    struct elltree_handle one = ELLTREE_EMPTY, other = ELLTREE_EMPTY;
    char text[ELLTREE_TEXT_ROOM];
    uint64_t value;
    int32_t code = elltree_open(&one, NULL, 0, 1000); /* no pairs to start with, 1,000 cards */
    if (code == ELLTREE_YES)
        code = elltree_another(&one, &other); /* which may go to another thread */
    if (code == ELLTREE_YES)
        code = elltree_insert(&other, 3, 30, 1000); /* at most 1,000 tries */
    if (code == ELLTREE_YES)
        code = elltree_find(&one, 3, &value);
    if (code == ELLTREE_YES)
        printf("%llu\n", (unsigned long long)value);
    else
        fprintf(stderr, "%s\n", elltree_text(code, text, sizeof text));
    elltree_free(&other);
    elltree_free(&one);
    return code != ELLTREE_YES;
}
