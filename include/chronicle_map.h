/*
 * A proved library over a lent Chronicle Map memory image: the memory is the caller's.
 *
 * A call is given a settings block (71 bytes, which say how the image is laid out), the image, and what the
 * call is about: a key, a key and a record, the number of an entry, or a pair of channels. It checks the block
 * and the whole image itself before it does anything else. The two quick calls are the exception: they check the
 * block and the image's frame, and then read only what the search for their key meets. A call allocates nothing
 * and keeps nothing between calls.
 *
 * Link with what `pkg-config --cflags --libs chronicle_map` says (after `make install`), or with
 * target/staticlib/libchronicle_map_c.a (after `make lib`); x86-64 Linux. What each function returns and every byte
 * that it leaves is proved, for any bytes: the contracts are in crates/chronicle_map_c/src/lib.rt. docs/FORMAT.md
 * says what each byte of a block and an image means.
 *
 * What the caller must ensure
 * ---------------------------
 *   - Each pointer points to as many readable bytes as the length next to it says. `image` of a store, a removal,
 *     a set or a grow points to as many writable bytes. An out struct's pointer points to one struct of its type,
 *     and `delay` of a delay lookup (quick or not) to one number.
 *   - No pointer is null. A length of 0 may come with any other pointer.
 *   - The image of a store, a removal, a set or a grow overlaps no other argument: a key or a record that stands
 *     in the image is copied out before it is given. An out struct and `delay` of a delay lookup overlap no other
 *     argument either. What is only read (`const`) may overlap what is only read.
 *   - While a call runs, nobody else writes to what it was given, and nobody else reads what it may write.
 *     Calls on different images may run at the same time, and so may calls that only read one image.
 *
 * A quick call requires the same and no more: the image need not have been checked.
 *
 * Nothing else is required. The bytes may be any bytes, the lengths any lengths, and n, the channels and a delay
 * any numbers: where they are wrong the call says so by its number.
 *
 * What a call needs
 * -----------------
 * Every call but the two quick ones needs at most 85 KiB of stack, which leaves room on a thread's stack of 128 KiB.
 * On an ordinary store (each chain one tier that is not nearly full, lookup keys that mostly differ) 19 KiB are
 * enough. A quick call needs less than 1 KiB. All this is measured (`make bench ARGS=--stack`; with the code
 * that an older Rattle kit built), not proved. The time of a call is that of the check, which grows with the image;
 * docs/SPEED.md has it for chains of many full tiers.
 *
 * Two stores of one map
 * ---------------------
 * Two images that the check accepts under one block, with the same keys and records in them, may differ in every
 * place and in the order of their entries. The same lookups, stores of both kinds, removals, delay lookups and sets,
 * made in the same order on both, return the same numbers, records and delays until one of the two returns 10.
 */
#ifndef CHRONICLE_MAP_H
#define CHRONICLE_MAP_H

#include <stddef.h>
#include <stdint.h>

#ifdef __cplusplus
extern "C" {
#endif

/*
 * The number that a call returns. Of those that apply the first is given, in the order 2 to 8, 11, 12, 9, 13;
 * only where none of these applies, 0, 1 or 10. A quick call gives the first of 2, 3, 4, 8 and 11 that applies, then
 * 18 or 1, whichever its walk meets, then 12 for a record that it found, and else 0. With any number but 0 the out
 * struct is all zeros, the delay that a delay lookup gives is 0, and the image is as it was before the call. There
 * is one exception, the place of a lookup, quick or not, that returns 1.
 */
enum {
    CHRONICLE_MAP_DONE = 0,     /* done, or found */
    CHRONICLE_MAP_ABSENT = 1,   /* no such key (lookup, remove), entry (entry) or pair (delay) */
    CHRONICLE_MAP_BLOCK = 2,    /* the block's length, its length field or its version is wrong */
    CHRONICLE_MAP_FIELD = 3,    /* a field of the block breaks its rule */
    CHRONICLE_MAP_FRAME = 4,    /* the image's length, its offsets or its store size is wrong */
    CHRONICLE_MAP_CHAINS = 5,   /* the chains of tiers are broken */
    CHRONICLE_MAP_ENTRIES = 6,  /* a slot or an entry is broken */
    CHRONICLE_MAP_CHUNKS = 7,   /* the marks of chunks or the counters do not fit the entries */
    CHRONICLE_MAP_KEY = 8,      /* the key is empty or longer than 1,024 bytes */
    CHRONICLE_MAP_VALUE = 9,    /* the record is longer than 65,535 bytes, or takes more chunks than an entry may */
    CHRONICLE_MAP_FULL = 10,    /* no tier has room for the entry, and none is free */
    CHRONICLE_MAP_PAIR = 11,    /* a channel is not one of 1 to 32, or the two are equal */
    CHRONICLE_MAP_DELAY = 12,   /* the delay, given or stored, is INT32_MIN, or the stored record is not 4 bytes */
    CHRONICLE_MAP_NO_BULK = 13, /* the image is too short for one more bulk, or the tiers would pass 1,024 */
    CHRONICLE_MAP_WALK = 18     /* the walk of a quick call met a broken next, slot or entry, a chain longer than
                                   the tiers, or a tier without an empty slot */
};

/*
 * What a call gives besides its number. Each struct is as many uint64_t in a row as it has fields, all of them
 * written on every call. Segments, slots and chunks are counted from 0, tiers from 1.
 */

/* Of an accepted image. */
struct chronicle_map_counts {
    uint64_t entries; /* live entries */
    uint64_t chunks;  /* marked chunks */
    uint64_t tiers;   /* tiers in the segments' chains */
    uint64_t free;    /* tiers in the free chain */
};

/* Of a record. */
struct chronicle_map_place {
    uint64_t offset; /* where in the image it starts */
    uint64_t length; /* its length in bytes */
    uint64_t tier;   /* the tier of its entry */
    uint64_t slot;   /* the slot of its entry in that tier */
};

/* Of a live entry. */
struct chronicle_map_row {
    uint64_t segment;
    uint64_t tier;
    uint64_t slot;
    uint64_t chunk;        /* its first chunk in that tier */
    uint64_t chunks;       /* how many chunks it takes */
    uint64_t key_length;   /* in bytes */
    uint64_t value_length; /* the record's, in bytes */
};

/*
 * Checks the block and the whole image. Returns 0 or one of 2 to 7.
 */
uint32_t chronicle_map_check(const uint8_t *block, size_t block_len,
                             const uint8_t *image, size_t image_len,
                             struct chronicle_map_counts *counts);

/*
 * Looks up the record under a key. Keys are compared whole. Returns 0, 1 or one of 2 to 8.
 * With 0 the record is the `length` bytes from image + `offset` on, within the image, and stays there until a
 * store or a removal (a store that replaces another key's record on the spot, that is, in place, leaves it there).
 * An empty record is found with length 0.
 * With 1 the key is absent, and tier and slot say where the search for it ended: in the last tier of the chain of
 * the key's segment, at the first empty slot from the key's start slot on, wrapping. A store of that key may go to
 * another tier or slot.
 */
uint32_t chronicle_map_lookup(const uint8_t *block, size_t block_len,
                              const uint8_t *image, size_t image_len,
                              const uint8_t *key, size_t key_len,
                              struct chronicle_map_place *place);

/*
 * The quick lookup: it checks the block, the image's frame and the key, and then walks the chain of tiers of the
 * key's segment only, in each tier from the key's start slot to the key or an empty slot. So what it reads does
 * not depend on the rest of the image. Returns 0, 1, one of 2, 3, 4 and 8, or 18. The place is as in a lookup; with
 * 1 its tier is the last that the walk came to.
 * On an image that chronicle_map_check accepts it answers exactly what chronicle_map_lookup answers. On any other
 * image it is safe too: nothing outside the image is read, and a found record lies within the image. But damage that
 * the walk does not meet is not noticed, and damage can lead it through more of the image, at most every slot of
 * every tier. So check an image once, say when the copy arrives, and then use the quick calls as long as nobody else
 * writes to it; edits by this library are fine, they leave an image that the check accepts.
 */
uint32_t chronicle_map_quick_lookup(const uint8_t *block, size_t block_len,
                                    const uint8_t *image, size_t image_len,
                                    const uint8_t *key, size_t key_len,
                                    struct chronicle_map_place *place);

/*
 * Stores a record under a key. A record that is already there under the same key is replaced; every other
 * key keeps its record. Returns 0 or one of 2 to 10.
 * A replacement that takes as many chunks as the old entry stays on the spot: it keeps its tier, slot and
 * chunks, only the entry's own bytes are written, and what a lookup of any other key answered before is still
 * right. The offset of its own record moves only where the record's length takes a byte more or fewer than
 * before (from 127 to 128, from 16,383 to 16,384 or back). Any other replacement goes where a tight store puts it.
 */
uint32_t chronicle_map_store(const uint8_t *block, size_t block_len,
                             uint8_t *image, size_t image_len,
                             const uint8_t *key, size_t key_len,
                             const uint8_t *value, size_t value_len);

/*
 * The tight store: the same, but what it replaces is always removed first, in effect, and the new entry goes
 * to the lowest run of chunks in the first tier that takes it. A new key is stored alike by both. Neither
 * returns 10 for a replacement that takes as many chunks as the old entry, or fewer. Where the old entry was the
 * only one of an extra tier and an earlier tier takes the new one, the old tier becomes free as after a removal.
 */
uint32_t chronicle_map_store_tight(const uint8_t *block, size_t block_len,
                                   uint8_t *image, size_t image_len,
                                   const uint8_t *key, size_t key_len,
                                   const uint8_t *value, size_t value_len);

/*
 * Removes a key with its record; every other key keeps its record. Returns 0, 1 or one of 2 to 8.
 * Where this was the last entry of an extra tier, the tier leaves its segment's chain and becomes the first free
 * one, which a later store of any segment may take.
 */
uint32_t chronicle_map_remove(const uint8_t *block, size_t block_len,
                              uint8_t *image, size_t image_len,
                              const uint8_t *key, size_t key_len);

/*
 * Adds one bulk after the last, for when a store returns 10. Its tiers stand in the free chain in front of those
 * that are free already, so the next store does not return 10. Every key keeps its record, and what a lookup or the
 * list answered before is still right. Returns 0, one of 2 to 7, or 13.
 * The bulk must fit in the image behind the store. It takes as many bytes as field 16 of the block says (the block's
 * bytes 63 to 66, the highest first), so an image with that many bytes more than before is long enough, whatever
 * they hold; no image has more than 16,777,216 bytes.
 */
uint32_t chronicle_map_grow(const uint8_t *block, size_t block_len,
                            uint8_t *image, size_t image_len);

/*
 * Gives the n-th live entry, n from 0, by segment, then by the order of the segment's tiers, then by slot.
 * Returns 0, 1 where n is past the last entry, or one of 2 to 7. Each call checks the whole image anew.
 */
uint32_t chronicle_map_entry(const uint8_t *block, size_t block_len,
                             const uint8_t *image, size_t image_len,
                             uint64_t n, struct chronicle_map_row *row);

/*
 * Delays by pair of channels, 1 to 32, in microseconds. A pair is kept once, under the key of two bytes with the
 * smaller channel first; its record is the delay in that order, a signed number of 4 bytes, little-endian. The
 * other order has the opposite delay. INT32_MIN has no opposite: no set stores it, and no delay lookup gives it.
 */

/*
 * The delay lookup: looks up the delay of channels a and b, in that order. Both orders of a pair, found with no
 * edit between the two, sum to 0. Returns 0, 1 where nothing is stored under the pair's key, one of 2 to 7, 11, or
 * 12 where another record than a delay is stored there.
 */
uint32_t chronicle_map_delay(const uint8_t *block, size_t block_len,
                             const uint8_t *image, size_t image_len,
                             uint32_t a, uint32_t b, int32_t *delay);

/*
 * The quick delay lookup: the same by a quick lookup of the pair's key, so what it reads does not depend on the rest
 * of the image. Returns 0, 1, one of 2, 3, 4 and 11, 18, or 12.
 * On an image that chronicle_map_check accepts it answers exactly what chronicle_map_delay answers. On any other
 * image it is as safe as the quick lookup, and notices as little: check an image once, as said there.
 */
uint32_t chronicle_map_quick_delay(const uint8_t *block, size_t block_len,
                                   const uint8_t *image, size_t image_len,
                                   uint32_t a, uint32_t b, int32_t *delay);

/*
 * Sets the delay of channels a and b, in that order, and so of both orders. It is chronicle_map_store of the
 * pair's record under its key: what is there is replaced, on the spot where the old entry takes as many chunks
 * as the new one, and every other key keeps its record. Returns 0, one of 2 to 7, 11, 12 where the delay is
 * INT32_MIN, 9 or 10.
 */
uint32_t chronicle_map_set_delay(const uint8_t *block, size_t block_len,
                                 uint8_t *image, size_t image_len,
                                 uint32_t a, uint32_t b, int32_t delay);

/* The XXH64 hash of some bytes, with seed 0: the hash by which keys are placed. */
uint64_t chronicle_map_xxh64(const uint8_t *bytes, size_t len);

#ifdef __cplusplus
}
#endif

#endif
