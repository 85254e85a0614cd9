/* A libFuzzer target: every call on arbitrary bytes. The input is two channels and a delay (4 bytes each), a length byte of the key, the key,
 * the settings block (71 bytes) and the image.
 * A call that refuses must leave the image as it was; one that is done must leave an image that the check accepts. */
#include "chronicle_map.h"
#include <stdlib.h>
#include <string.h>

enum { BLOCK = 71, PAIR = 12 };

struct pair {
    uint32_t a, b;
    int32_t delay;
};

static void need(int holds) {
    if (!holds) {
        abort();
    }
}

/* An edit's answer, at most `most`, compared with what the header says of it. */
static void edited(uint32_t number, uint32_t most, const uint8_t *block, const uint8_t *before, const uint8_t *after, size_t length) {
    struct chronicle_map_counts counts;
    need(number <= most);
    if (number != 0) {
        need(memcmp(before, after, length) == 0);
    } else {
        need(chronicle_map_check(block, BLOCK, after, length, &counts) == 0);
    }
}

/* The list's row of a key, and the place of its record; zeros where the key is not found. */
static struct chronicle_map_row row_of(const uint8_t *block, const uint8_t *image, size_t length, const uint8_t *key, size_t key_length,
                                       struct chronicle_map_place *place) {
    struct chronicle_map_row row, none = {0, 0, 0, 0, 0, 0, 0};
    if (chronicle_map_lookup(block, BLOCK, image, length, key, key_length, place) != 0) {
        return none;
    }
    for (uint64_t n = 0; chronicle_map_entry(block, BLOCK, image, length, n, &row) == 0; n++) {
        if (row.tier == place->tier && row.slot == place->slot) {
            return row;
        }
    }
    return none;
}

/* A store answered 0, with the key as its record. A record that took as many chunks was replaced on the spot, that is, in place: its entry has
 * the tier, slot and chunks that it had, and no byte outside the entry has changed. */
static void on_the_spot(const uint8_t *block, const uint8_t *before, const uint8_t *after, size_t length, const uint8_t *key, size_t key_length) {
    struct chronicle_map_place old_place, place;
    struct chronicle_map_row old = row_of(block, before, length, key, key_length, &old_place);
    struct chronicle_map_row row = row_of(block, after, length, key, key_length, &place);
    need(row.chunks != 0);
    size_t end = place.offset + place.length;
    size_t start = end - 2 * ((key_length < 128 ? 1 : 2) + key_length);
    if (old.chunks == row.chunks) {
        need(old.tier == row.tier && old.slot == row.slot && old.chunk == row.chunk);
        need(memcmp(before, after, start) == 0 && memcmp(before + end, after + end, length - end) == 0);
    }
}

/* A field of the settings block, from 1 on. */
static uint64_t field(const uint8_t *block, size_t n) {
    const uint8_t *bytes = block + 4 * n - 1;
    return (uint64_t)bytes[0] << 24 | (uint64_t)bytes[1] << 16 | (uint64_t)bytes[2] << 8 | bytes[3];
}

/* How many entries of the list stand in a tier. */
static uint64_t entries_in(const uint8_t *block, const uint8_t *image, size_t length, uint64_t tier) {
    struct chronicle_map_row row;
    uint64_t entries = 0;
    for (uint64_t n = 0; chronicle_map_entry(block, BLOCK, image, length, n, &row) == 0; n++) {
        entries += row.tier == tier;
    }
    return entries;
}

/* A store or a removal answered 0. An extra tier in which the key's entry was the only one is freed, or sent home: it is the first free tier
 * after the call, unless the key's entry is there again. In either case no other tier has left or joined a chain. */
static void sent_home(const uint8_t *block, const uint8_t *before, const uint8_t *after, size_t length, const uint8_t *key, size_t key_length) {
    struct chronicle_map_counts was, is;
    struct chronicle_map_place place;
    struct chronicle_map_row old = row_of(block, before, length, key, key_length, &place);
    struct chronicle_map_row row = row_of(block, after, length, key, key_length, &place);
    if (old.tier <= field(block, 2) || entries_in(block, before, length, old.tier) != 1) {
        return;
    }
    uint64_t home = row.tier != old.tier;
    const uint8_t *first_free = after + field(block, 1) + 11;
    need(chronicle_map_check(block, BLOCK, before, length, &was) == 0);
    need(chronicle_map_check(block, BLOCK, after, length, &is) == 0);
    need(is.tiers == was.tiers - home && is.free == was.free + home);
    need(!home || first_free[0] + 256u * first_free[1] == old.tier);
}

/* Both kinds of store, with the key as the record: they answer the same number. */
static void stored(const uint8_t *block, const uint8_t *image, uint8_t *copy, size_t length, const uint8_t *key, size_t key_length) {
    uint32_t tight = chronicle_map_store_tight(block, BLOCK, copy, length, key, key_length, key, key_length);
    edited(tight, 10, block, image, copy, length);
    if (tight == 0) {
        sent_home(block, image, copy, length, key, key_length);
    }
    memcpy(copy, image, length);
    uint32_t number = chronicle_map_store(block, BLOCK, copy, length, key, key_length, key, key_length);
    edited(number, 10, block, image, copy, length);
    need(number == tight);
    if (number == 0) {
        on_the_spot(block, image, copy, length, key, key_length);
        sent_home(block, image, copy, length, key, key_length);
    }
}

static void removed(const uint8_t *block, const uint8_t *image, uint8_t *copy, size_t length, const uint8_t *key, size_t key_length) {
    uint32_t number = chronicle_map_remove(block, BLOCK, copy, length, key, key_length);
    edited(number, 8, block, image, copy, length);
    if (number == 0) {
        sent_home(block, image, copy, length, key, key_length);
    }
}

/* The delay lookup and the quick delay lookup. */
typedef uint32_t asking(const uint8_t *, size_t, const uint8_t *, size_t, uint32_t, uint32_t, int32_t *);

static int is_pair(const struct pair *p) {
    return p->a - 1 < 32 && p->b - 1 < 32 && p->a != p->b;
}

/* Both orders of a pair: the same number, and delays that sum to 0. Answers the number, and the delay of the first order. */
static uint32_t ask(asking *by, const uint8_t *block, const uint8_t *image, size_t length, const struct pair *p, int32_t *delay) {
    int32_t other = 0x5a5a5a5a;
    *delay = 0x5a5a5a5a;
    uint32_t number = by(block, BLOCK, image, length, p->a, p->b, delay);
    need(by(block, BLOCK, image, length, p->b, p->a, &other) == number);
    need((int64_t)*delay + other == 0);
    need(number == 0 || *delay == 0);
    return number;
}

/* The numbers of a delay lookup and a set: the check's, then 11, then 12, then the others. */
static void in_order(uint32_t check, const struct pair *p, uint32_t asked, uint32_t set) {
    if (check != 0) {
        need(asked == check && set == check);
    } else if (!is_pair(p)) {
        need(asked == 11 && set == 11);
    } else {
        need(asked <= 1 || asked == 12);
        need(p->delay == INT32_MIN ? set == 12 : set == 0 || set == 9 || set == 10);
    }
}

/* A delay lookup, a set, and a delay lookup of what was set. */
static void pairs(uint32_t check, const uint8_t *block, const uint8_t *image, uint8_t *copy, size_t length, const struct pair *p) {
    int32_t delay;
    uint32_t asked = ask(chronicle_map_delay, block, image, length, p, &delay);
    uint32_t set = chronicle_map_set_delay(block, BLOCK, copy, length, p->a, p->b, p->delay);
    in_order(check, p, asked, set);
    edited(set, 12, block, image, copy, length);
    if (set == 0) {
        need(ask(chronicle_map_delay, block, copy, length, p, &delay) == 0 && delay == p->delay);
        need(ask(chronicle_map_quick_delay, block, copy, length, p, &delay) == 0 && delay == p->delay);
    }
}

/* A lookup, compared with what the header says of it, and the list: the entry in the tier and slot of a found key has a key and a record of the
 * right lengths; in those of an absent one there is none. */
static void looked(uint32_t check, const uint8_t *block, const uint8_t *image, size_t length, const uint8_t *key, size_t key_length, uint64_t entries) {
    struct chronicle_map_place place = {1, 1, 1, 1};
    struct chronicle_map_row row;
    uint32_t found = chronicle_map_lookup(block, BLOCK, image, length, key, key_length, &place);
    int met = 0;
    need(check == 0 || found == check);
    need(found != 0 || place.offset + place.length <= length);
    need(found == 0 || (place.offset == 0 && place.length == 0));
    need(found <= 1 ? place.tier != 0 : place.tier == 0 && place.slot == 0);
    for (uint64_t n = 0; check == 0 && n <= entries; n++) {
        need(chronicle_map_entry(block, BLOCK, image, length, n, &row) == (n == entries));
        if (n < entries && found <= 1 && row.tier == place.tier && row.slot == place.slot) {
            need(found == 0 && row.key_length == key_length && row.value_length == place.length);
            met = 1;
        }
    }
    need(found != 0 || met);
}

/* The number of a quick call. The check's 2, 3 and 4 are its own, then comes a refused argument, then the walk's 0, 1 or 18. Where the check
 * says 7 the chains, slots and entries are right, so that no walk meets anything broken. */
static void quick_number(uint32_t check, uint32_t refused, uint32_t number) {
    if (check >= 2 && check <= 4) {
        need(number == check);
    } else if (refused != 0) {
        need(number == refused);
    } else {
        need(number <= 1 || (number == 18 && (check == 5 || check == 6)));
    }
}

/* A quick lookup, compared with what the header says of it. Answers its number. */
static uint32_t quickly(uint32_t check, const uint8_t *block, const uint8_t *image, size_t length, const uint8_t *key, size_t key_length) {
    struct chronicle_map_place place = {1, 1, 1, 1}, checked;
    uint32_t found = chronicle_map_quick_lookup(block, BLOCK, image, length, key, key_length, &place);
    quick_number(check, key_length == 0 ? 8 : 0, found);
    need(found != 0 || (place.length <= length && place.offset <= length - place.length));
    need(found == 0 || (place.offset == 0 && place.length == 0));
    need(found <= 1 ? place.tier != 0 : place.tier == 0 && place.slot == 0);
    if (check == 0) {
        need(chronicle_map_lookup(block, BLOCK, image, length, key, key_length, &checked) == found);
        need(memcmp(&place, &checked, sizeof place) == 0);
    }
    return found;
}

/* A quick delay lookup, compared with the quick lookup of the pair's key and, on an image that is accepted, with the delay lookup. */
static void quick_pair(uint32_t check, const uint8_t *block, const uint8_t *image, size_t length, const struct pair *p) {
    uint8_t key[2] = {(uint8_t)(p->a < p->b ? p->a : p->b), (uint8_t)(p->a < p->b ? p->b : p->a)};
    int32_t delay, checked;
    uint32_t asked = ask(chronicle_map_quick_delay, block, image, length, p, &delay);
    quick_number(check, is_pair(p) ? 0 : 11, asked == 12 ? 0 : asked);
    if (is_pair(p)) {
        need(quickly(check, block, image, length, key, 2) == (asked == 12 ? 0 : asked));
    }
    if (check == 0) {
        need(ask(chronicle_map_delay, block, image, length, p, &checked) == asked && checked == delay);
    }
}

/* A key has the same lookup in both images, and the list the same rows. */
static void same_map(const uint8_t *block, const uint8_t *before, const uint8_t *after, size_t length, const uint8_t *key, size_t key_length) {
    struct chronicle_map_place old_place, place;
    struct chronicle_map_row old_row, row;
    uint32_t found = chronicle_map_lookup(block, BLOCK, before, length, key, key_length, &old_place);
    need(chronicle_map_lookup(block, BLOCK, after, length, key, key_length, &place) == found);
    need(memcmp(&old_place, &place, sizeof place) == 0);
    uint32_t listed = 0;
    for (uint64_t n = 0; listed == 0; n++) {
        listed = chronicle_map_entry(block, BLOCK, before, length, n, &old_row);
        need(chronicle_map_entry(block, BLOCK, after, length, n, &row) == listed);
        need(memcmp(&old_row, &row, sizeof row) == 0);
    }
}

/* A grow, one more bulk: the check's number, or 0 or 13. Only free tiers are counted more after it, the map is the same, and a store has room. */
static void grown(uint32_t check, const struct chronicle_map_counts *counts, const uint8_t *block, const uint8_t *image, uint8_t *copy,
                  size_t length, const uint8_t *key, size_t key_length) {
    struct chronicle_map_counts after;
    uint32_t number = chronicle_map_grow(block, BLOCK, copy, length);
    need(check == 0 ? number == 0 || number == 13 : number == check);
    edited(number, 13, block, image, copy, length);
    if (number == 0) {
        need(chronicle_map_check(block, BLOCK, copy, length, &after) == 0);
        need(after.entries == counts->entries && after.chunks == counts->chunks);
        need(after.tiers == counts->tiers && after.free > counts->free);
        same_map(block, image, copy, length, key, key_length);
        need(chronicle_map_store(block, BLOCK, copy, length, key, key_length, key, key_length) != 10);
    }
}

int LLVMFuzzerTestOneInput(const uint8_t *data, size_t size) {
    if (size < PAIR + 1 || size < PAIR + 1 + (size_t)data[PAIR] + BLOCK) {
        return 0;
    }
    struct pair pair;
    memcpy(&pair, data, PAIR);
    size_t key_length = data[PAIR];
    const uint8_t *key = data + PAIR + 1;
    const uint8_t *block = key + key_length;
    const uint8_t *image = block + BLOCK;
    size_t length = size - PAIR - 1 - key_length - BLOCK;
    struct chronicle_map_counts counts;
    uint32_t number = chronicle_map_check(block, BLOCK, image, length, &counts);
    looked(number, block, image, length, key, key_length, counts.entries);
    quickly(number, block, image, length, key, key_length);
    quick_pair(number, block, image, length, &pair);
    uint8_t *copy = malloc(length + 1);
    memcpy(copy, image, length);
    stored(block, image, copy, length, key, key_length);
    memcpy(copy, image, length);
    removed(block, image, copy, length, key, key_length);
    memcpy(copy, image, length);
    pairs(number, block, image, copy, length, &pair);
    memcpy(copy, image, length);
    grown(number, &counts, block, image, copy, length, key, key_length);
    free(copy);
    return 0;
}
