/* Threads count words in one map. The key of a word is its first eight bytes, the first of them highest, so that the map has the words in
   alphabetical order. At the end the program lists the counters of a range of words. Build and run it by
       cc -pthread counters.c $(pkg-config --cflags --libs elltree) && ./a.out */
#include <elltree_map.h>
#include <inttypes.h>
#include <pthread.h>
#include <stdio.h>
#include <stdlib.h>
#include <string.h>

enum { THREADS = 4, ROUNDS = 1000, ROOM = 4 };
static const char text[] = "the map counts words while the threads read a text and the words come in any order but the map lists them in theirs";

struct reader {
    pthread_t thread;
    struct elltree_map *map;
    int32_t code; /* what the last call of the thread returned */
};

static void stop(const char *why) {
    fprintf(stderr, "counters: %s\n", why);
    exit(EXIT_FAILURE);
}

static void stop_if_refused(int32_t code) {
    char why[ELLTREE_TEXT_ROOM];
    if (code < 0)
        stop(elltree_text(code, why, sizeof why));
}

/* Returns the key of a word. No text in UTF-8 has a byte above 0xf4, so no key is above ELLTREE_KEY_MAX. */
static uint64_t key_of(const char *word, size_t length) {
    uint64_t key = 0;
    for (size_t i = 0; i < sizeof key; i++)
        key = key << 8 | (i < length ? (unsigned char)word[i] : 0);
    return key;
}

/* Adds 1 to the counter of a key, and adds the key if it is absent. */
static int32_t count(struct elltree_map *map, uint64_t key) {
    int32_t code;
    do {
        code = elltree_map_fetch_add(map, key, 1, NULL);
        if (code == ELLTREE_NO)
            code = elltree_map_insert(map, key, 1); /* if another thread was faster, count once more */
    } while (code == ELLTREE_NO);
    return code;
}

static void *read_text(void *given) {
    struct reader *reader = given;
    for (int round = 0; round < ROUNDS; round++)
        for (const char *word = text; *word; word += strspn(word, " ")) {
            const size_t length = strcspn(word, " ");
            reader->code = count(reader->map, key_of(word, length));
            if (reader->code < 0)
                return NULL;
            word += length;
        }
    return NULL;
}

/* Prints the counters of the words from one on and below another, a few at a time. Threads might go on counting meanwhile. */
static int32_t print_counters(struct elltree_map *map, const char *from, const char *upto) {
    const uint64_t end = key_of(upto, strlen(upto));
    struct elltree_pair pairs[ROOM];
    for (uint64_t next = key_of(from, strlen(from)); next < end;) {
        size_t found;
        const int32_t code = elltree_map_range(map, next, end, pairs, ROOM, &found, &next);
        if (code < 0)
            return code;
        for (size_t i = 0; i < found; i++) {
            for (int shift = 56; shift >= 0 && pairs[i].key >> shift & 0xff; shift -= 8)
                putchar((int)(pairs[i].key >> shift & 0xff));
            printf(" %" PRIu64 "\n", pairs[i].value);
        }
    }
    return ELLTREE_YES;
}

int main(void) {
    struct reader readers[THREADS];
    struct elltree_map *map;
    size_t words;
    stop_if_refused(elltree_map_new(&map));
    for (int t = 0; t < THREADS; t++) {
        readers[t] = (struct reader){.map = map, .code = ELLTREE_YES};
        if (pthread_create(&readers[t].thread, NULL, read_text, &readers[t]))
            stop("there is no thread");
    }
    for (int t = 0; t < THREADS; t++) {
        pthread_join(readers[t].thread, NULL);
        stop_if_refused(readers[t].code);
    }
    stop_if_refused(elltree_map_len(map, &words));
    printf("%zu words; from m on, and below u:\n", words);
    stop_if_refused(print_counters(map, "m", "u"));
    elltree_map_free(map);
    return 0;
}
