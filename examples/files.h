/* What the examples share: a file of a settings block of 71 bytes and, after it, the image; and a number read from a word. */
#ifndef FILES_H
#define FILES_H

#include <errno.h>
#include <stdint.h>
#include <stdio.h>
#include <stdlib.h>

enum { BLOCK_LENGTH = 71 };

/* The bytes of a file, with their number in *size, or NULL. */
static inline uint8_t *read_file(const char *path, size_t *size)
{
    FILE *file = fopen(path, "rb");
    uint8_t *bytes = NULL;
    size_t room = 0, used = 0, got = 0;

    if (file == NULL)
        return NULL;
    do {
        if (used == room) {
            uint8_t *larger = realloc(bytes, room = 2 * room + 4096);
            if (larger == NULL)
                break;
            bytes = larger;
        }
        got = fread(bytes + used, 1, room - used, file);
        used += got;
    } while (got > 0);
    if (ferror(file) || !feof(file)) {
        free(bytes);
        bytes = NULL;
    }
    fclose(file);
    *size = used;
    return bytes;
}

/* A store in memory. The image follows the block, so free(block) frees both. */
struct store {
    uint8_t *block;
    size_t block_len;
    uint8_t *image;
    size_t image_len;
};

/* Reads a store for a program. Where that fails, a line on standard error says so, and the answer is 0. */
static inline int read_store(const char *program, const char *path, struct store *s)
{
    size_t size;

    s->block = read_file(path, &size);
    if (s->block == NULL) {
        fprintf(stderr, "%s: cannot read %s\n", program, path);
        return 0;
    }
    s->block_len = size < BLOCK_LENGTH ? size : BLOCK_LENGTH;
    s->image = s->block + s->block_len;
    s->image_len = size - s->block_len;
    return 1;
}

/* A number from least to most, from a word in decimals. */
static inline int number(const char *word, int64_t least, int64_t most, int64_t *n)
{
    const char *digits = word[0] == '-' ? word + 1 : word;
    char *end;

    errno = 0;
    *n = strtoll(word, &end, 10);
    return digits[0] >= '0' && digits[0] <= '9' && *end == '\0' && errno == 0 && *n >= least && *n <= most;
}

#endif
