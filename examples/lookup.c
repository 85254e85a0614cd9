/*
 * lookup FILE A B: prints the delay between microphones A and B, or where the search for the pair ended.
 * FILE holds a settings block of 71 bytes and after it the image. The key is the two bytes A B; the record is
 * a signed number of 4 bytes, little-endian, in microseconds.
 */
#include "chronicle_map.h"
#include "files.h"

#include <inttypes.h>
#include <stdio.h>
#include <stdlib.h>
#include <string.h>

static int32_t little_endian(const uint8_t *b)
{
    uint32_t n = (uint32_t)b[0] | (uint32_t)b[1] << 8 | (uint32_t)b[2] << 16 | (uint32_t)b[3] << 24;
    int32_t delay;

    memcpy(&delay, &n, sizeof delay);
    return delay;
}

int main(int argc, char **argv)
{
    struct store s;
    int64_t a, b;
    uint8_t key[2];
    struct chronicle_map_place place;
    uint32_t answer;

    if (argc != 4 || !number(argv[2], 0, 255, &a) || !number(argv[3], 0, 255, &b)) {
        fprintf(stderr, "lookup FILE A B, with A and B from 0 to 255\n");
        return 2;
    }
    if (!read_store("lookup", argv[1], &s))
        return 2;
    key[0] = (uint8_t)a;
    key[1] = (uint8_t)b;
    answer = chronicle_map_lookup(s.block, s.block_len, s.image, s.image_len, key, sizeof key, &place);
    printf("%u %u: ", key[0], key[1]);
    if (answer == CHRONICLE_MAP_ABSENT)
        printf("absent, search ended in tier %" PRIu64 ", slot %" PRIu64 "\n", place.tier, place.slot);
    else if (answer != CHRONICLE_MAP_DONE)
        printf("answer %" PRIu32 "\n", answer);
    else if (place.length != 4)
        printf("a record of %" PRIu64 " bytes\n", place.length);
    else
        printf("%" PRId32 " microseconds\n", little_endian(s.image + place.offset));
    free(s.block);
    return answer == CHRONICLE_MAP_DONE ? 0 : 1;
}
