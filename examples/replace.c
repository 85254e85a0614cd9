/*
 * replace FILE A B DELAY: replaces the delay of microphones A and B in the image, once by each kind of store, each
 * on a copy of its own, and prints where the record stands before and after. The file is not written.
 * The default store leaves a record of the same size where it is, so a place that was noted before stays right.
 * FILE holds a settings block of 71 bytes and after it the image; key and record are those of lookup.c.
 */
#include "chronicle_map.h"
#include "files.h"

#include <inttypes.h>
#include <stdio.h>
#include <stdlib.h>
#include <string.h>

/* The store, and the entry that is replaced. */
struct work {
    struct store store;
    uint8_t key[2];
    uint8_t record[4];
};

/* Both kinds of store have these parameters. */
typedef uint32_t store_kind(const uint8_t *block, size_t block_len, uint8_t *image, size_t image_len,
                            const uint8_t *key, size_t key_len, const uint8_t *value, size_t value_len);

static void print_place(const struct work *w, const uint8_t *image, const char *when)
{
    const struct store *s = &w->store;
    struct chronicle_map_place place;
    uint32_t answer = chronicle_map_lookup(s->block, s->block_len, image, s->image_len, w->key, sizeof w->key, &place);

    printf("%s: answer %" PRIu32 ", offset %" PRIu64 ", tier %" PRIu64 ", slot %" PRIu64 "\n", when, answer,
           place.offset, place.tier, place.slot);
}

/* One kind of store, on a copy of the image. */
static int replace(const struct work *w, store_kind *store, const char *name)
{
    const struct store *s = &w->store;
    uint8_t *copy = malloc(s->image_len + 1);
    uint32_t answer;

    if (copy == NULL)
        return 0;
    memcpy(copy, s->image, s->image_len);
    answer = store(s->block, s->block_len, copy, s->image_len, w->key, sizeof w->key, w->record, sizeof w->record);
    if (answer != CHRONICLE_MAP_DONE)
        printf("%s: answer %" PRIu32 "\n", name, answer);
    else
        print_place(w, copy, name);
    free(copy);
    return answer == CHRONICLE_MAP_DONE;
}

int main(int argc, char **argv)
{
    struct work w;
    int64_t a, b, delay;
    int i, done;

    if (argc != 5 || !number(argv[2], 0, 255, &a) || !number(argv[3], 0, 255, &b)
        || !number(argv[4], INT32_MIN, INT32_MAX, &delay)) {
        fprintf(stderr, "replace FILE A B DELAY, with A and B from 0 to 255\n");
        return 2;
    }
    if (!read_store("replace", argv[1], &w.store))
        return 2;
    w.key[0] = (uint8_t)a;
    w.key[1] = (uint8_t)b;
    for (i = 0; i < 4; i++)
        w.record[i] = (uint8_t)((uint32_t)delay >> 8 * i);
    print_place(&w, w.store.image, "before");
    done = replace(&w, chronicle_map_store, "store");
    done = replace(&w, chronicle_map_store_tight, "store_tight") && done;
    free(w.store.block);
    return done ? 0 : 1;
}
