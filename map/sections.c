/* The sections of a map, with their trees, and the directory. */
#include "sections.h"
#include "numbers.h"
#include <stdlib.h>
#include <string.h>

enum {
    SECTION_KEYS = 4096, /* a section with more keys is parted at its next renewal, into parts of half as many */
    KEYS_OF_A_PLACE = 32 /* but a map with many places has larger sections, as each has a slot for each place */
};

/* The number of the section that a key belongs to. */
static inline uint32_t index_of(const struct directory *directory, uint64_t key) {
    uint32_t index = 0;
    for (uint32_t rest_of = directory->count, half; rest_of > 1; rest_of -= half) {
        half = rest_of / 2;
        index += directory->firsts[index + half] <= key ? half : 0;
    }
    return index;
}

static inline struct section *section_of(const struct directory *directory, uint64_t key) { return directory->sections[index_of(directory, key)]; }

/* How many keys a section may have without being parted. */
static uint64_t section_keys(const struct barrier *barrier) { return at_least(SECTION_KEYS, KEYS_OF_A_PLACE * (barrier->mask + UINT64_C(1))); }

/* How many seats a section has. */
static uint64_t number_of_seats(const struct barrier *barrier) { return barrier->mask + UINT64_C(2); }

static inline struct seat *seat_of(struct section *section, const struct place *place) { return &section->seats[place->number]; }

static inline struct elltree_slot *slot_of(struct section *section, const struct place *place) { return &seat_of(section, place)->slot; }

/* The seat that only the thread has that renews the section. */
static struct seat *seat_to_renew(const struct barrier *barrier, struct section *section) { return &section->seats[barrier->mask + UINT64_C(1)]; }

/* Notes how many keys more a section has by a call on this seat. Only the seat's thread adds them up. */
static inline void note_added(struct seat *seat, int64_t more) {
    atomic_store_explicit(&seat->added, atomic_load_explicit(&seat->added, memory_order_relaxed) + more, memory_order_relaxed);
}

static uint64_t count_section(const struct barrier *barrier, const struct section *section) {
    int64_t keys = (int64_t)section->keys;
    for (uint64_t i = 0; i < number_of_seats(barrier); i++)
        keys += atomic_load_explicit(&section->seats[i].added, memory_order_relaxed);
    return keys > 0 ? (uint64_t)keys : 0; /* a key may be seen taken and not added */
}

/* Opens a tree with these pairs, whose cards come back, with a slot for each seat. If it is refused, no slot holds anything. */
static int32_t open_seats(struct seat *seats, uint64_t seat_count, const struct elltree_pair *pairs, size_t count, uint64_t cards) {
    static const struct elltree_pair no_pair[1] = {{0, 0}};
    int32_t code = elltree_slot_open_reusing(&seats[0].slot, count ? pairs : no_pair, count, cards, (uint32_t)seat_count);
    for (uint64_t i = 1; i < seat_count && code == ELLTREE_YES; i++)
        code = elltree_slot_another(&seats[0].slot, &seats[i].slot);
    for (uint64_t i = 0; i < seat_count && code != ELLTREE_YES; i++)
        elltree_slot_free(&seats[i].slot); /* one that holds nothing says so, and that is all */
    return code;
}

/* A section of these keys, which begins with these pairs and has so many cards. If it is refused, nothing is made. */
static int32_t make_section(const struct barrier *barrier, struct section **made, uint64_t first, uint64_t upto, const struct elltree_pair *pairs,
                            size_t count, uint64_t cards) {
    struct section *section = new_lines(sizeof *section + number_of_seats(barrier) * sizeof *section->seats);
    const uint64_t more = at_least(cards, count + 1) - count; /* besides those of the pairs */
    const int32_t code = section ? open_seats(section->seats, number_of_seats(barrier), pairs, count, more) : ELLTREE_NO_MEMORY;
    if (code != ELLTREE_YES) {
        free_lines(section);
        return code;
    }
    section->first = first;
    section->upto = upto;
    section->cards = count + more;
    section->keys = count;
    section->least = count ? pairs[0].key : first;
    section->greatest = count ? pairs[count - 1].key : upto;
    atomic_store(&section->about, (int64_t)count);
    *made = section;
    return code;
}

static void free_section(const struct barrier *barrier, struct section *section) {
    for (uint64_t i = 0; i < number_of_seats(barrier); i++)
        elltree_slot_free(&section->seats[i].slot);
    free_lines(section);
}

static void free_heirs(const struct barrier *barrier, struct heirs *heirs) {
    for (uint32_t i = 0; i < heirs->count; i++)
        free_section(barrier, heirs->sections[i]);
    free(heirs);
}

/* Into how many sections so many keys are parted. */
static uint32_t number_of_parts(const struct barrier *barrier, uint64_t keys) {
    const uint64_t most = section_keys(barrier), half = most / 2;
    return keys > most ? (uint32_t)((keys + half / 2) / half) : 1;
}

/* Makes sections of about the same number of pairs each, for all keys from one on and below another, with these cards. If it is refused, nothing is
   made. */
static int32_t make_heirs(const struct barrier *barrier, struct heirs **made, uint64_t first, uint64_t upto, const struct elltree_pair *pairs,
                          size_t count, struct cards cards) {
    const uint32_t parts = number_of_parts(barrier, count);
    struct heirs *heirs = malloc(sizeof *heirs + parts * sizeof(struct section *));
    int32_t code = heirs ? ELLTREE_YES : ELLTREE_NO_MEMORY;
    if (!heirs)
        return code;
    atomic_init(&heirs->failed, NULL);
    for (heirs->count = 0; code == ELLTREE_YES && heirs->count < parts; heirs->count += code == ELLTREE_YES) {
        const size_t from = count * heirs->count / parts, end = count * (heirs->count + UINT64_C(1)) / parts;
        const uint64_t least = heirs->count ? pairs[from].key : first, behind = end < count ? pairs[end].key : upto;
        const uint64_t more = (from ? 0 : cards.first) + (end < count ? 0 : cards.last);
        code = make_section(barrier, &heirs->sections[heirs->count], least, behind, count ? pairs + from : NULL, end - from, cards.each + more);
    }
    if (code != ELLTREE_YES)
        free_heirs(barrier, heirs);
    else
        *made = heirs;
    return code;
}

/* The one of these sections that a key belongs to. */
static struct section *heir_of(const struct heirs *heirs, uint64_t key) {
    uint32_t index = heirs->count - 1;
    while (index && key < heirs->sections[index]->first)
        index--;
    return heirs->sections[index];
}

/* An empty directory with room for so many sections, or null. */
static struct directory *new_directory(uint32_t room) {
    struct directory *made = malloc(sizeof *made + room * (sizeof *made->firsts + sizeof *made->sections));
    if (!made)
        return NULL;
    made->count = 0;
    made->room = room;
    made->sections = (struct section **)(made->firsts + room);
    return made;
}

/* Adds some of the sections of another directory. */
static void append_sections(struct directory *made, const struct directory *before, uint32_t from, uint32_t upto) {
    memcpy(made->firsts + made->count, before->firsts + from, (upto - from) * sizeof *made->firsts);
    memcpy(made->sections + made->count, before->sections + from, (upto - from) * sizeof *made->sections);
    made->count += upto - from;
}

static void append_heirs(struct directory *made, const struct heirs *heirs) {
    for (uint32_t i = 0; i < heirs->count; i++) {
        made->firsts[made->count] = heirs->sections[i]->first;
        made->sections[made->count++] = heirs->sections[i];
    }
}

/* Fills a directory with what another one has, but with heirs in the place of some sections, which stand side by side. */
static void fill_directory(struct directory *made, const struct directory *before, uint32_t at, uint32_t count, const struct heirs *heirs) {
    made->count = 0;
    append_sections(made, before, 0, at);
    append_heirs(made, heirs);
    append_sections(made, before, at + count, before->count);
}
