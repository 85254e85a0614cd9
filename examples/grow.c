/*
 * grow FILE COUNT: stores COUNT new keys in the image. Each time a store is answered 10 it adds a bulk, for which it
 * makes the image longer where that is needed, and stores the key again. The file is not written.
 * FILE holds a settings block of 71 bytes and after it the image. Each record is its key once more.
 */
#include "chronicle_map.h"
#include "files.h"

#include <inttypes.h>
#include <stdio.h>
#include <stdlib.h>
#include <string.h>

/* Stores the n-th new key, and prints any answer but 0. */
static uint32_t store(struct store *s, uint32_t n)
{
    uint8_t key[16];
    size_t length = (size_t)sprintf((char *)key, "new %" PRIu32, n);
    uint32_t answer = chronicle_map_store(s->block, s->block_len, s->image, s->image_len, key, length, key, length);

    if (answer != CHRONICLE_MAP_DONE)
        printf("%s: answer %" PRIu32 "\n", (const char *)key, answer);
    return answer;
}

/* Adds a bulk, and prints the answer. */
static uint32_t grow(struct store *s)
{
    uint32_t answer = chronicle_map_grow(s->block, s->block_len, s->image, s->image_len);

    printf("grow with %zu bytes: answer %" PRIu32 "\n", s->image_len, answer);
    return answer;
}

/* Makes the image longer by a bulk. The length of one is field 16 of the block: 4 bytes, the highest first. */
static int lengthen(struct store *s)
{
    const uint8_t *field = s->block + 63;
    size_t more = (size_t)field[0] << 24 | (size_t)field[1] << 16 | (size_t)field[2] << 8 | field[3];
    uint8_t *bytes = realloc(s->block, s->block_len + s->image_len + more);

    if (bytes == NULL)
        return 0;
    s->block = bytes;
    s->image = bytes + s->block_len;
    memset(s->image + s->image_len, 0, more);
    s->image_len += more;
    return 1;
}

/* Stores the n-th new key, with one bulk more where there is no room. */
static uint32_t store_with_room(struct store *s, uint32_t n)
{
    uint32_t answer = store(s, n);

    if (answer != CHRONICLE_MAP_FULL)
        return answer;
    answer = grow(s);
    if (answer == CHRONICLE_MAP_NO_BULK && lengthen(s))
        answer = grow(s);
    return answer == CHRONICLE_MAP_DONE ? store(s, n) : answer;
}

int main(int argc, char **argv)
{
    struct store s;
    int64_t count;
    uint32_t n, answer = CHRONICLE_MAP_DONE;

    if (argc != 3 || !number(argv[2], 0, 1000000, &count)) {
        fprintf(stderr, "grow FILE COUNT, with COUNT from 0 to 1000000\n");
        return 2;
    }
    if (!read_store("grow", argv[1], &s))
        return 2;
    for (n = 0; n < count && answer == CHRONICLE_MAP_DONE; n++)
        answer = store_with_room(&s, n);
    if (answer == CHRONICLE_MAP_DONE)
        printf("%" PRIu32 " new keys stored in %zu bytes\n", n, s.image_len);
    free(s.block);
    return answer == CHRONICLE_MAP_DONE ? 0 : 1;
}
