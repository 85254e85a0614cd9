/*
 * delay FILE A B: prints the delay of channels A and B, in that order.
 * delay FILE A B D: sets it to D microseconds in memory, and prints the delays of both orders; FILE stays as it is.
 * FILE holds a settings block of 71 bytes and after it the image.
 */
#include "chronicle_map.h"
#include "files.h"

#include <inttypes.h>
#include <stdio.h>
#include <stdlib.h>

/* Looks a delay up and prints it, or the answer's number. */
static uint32_t ask(const struct store *s, uint32_t a, uint32_t b)
{
    int32_t delay;
    uint32_t answer = chronicle_map_delay(s->block, s->block_len, s->image, s->image_len, a, b, &delay);

    if (answer == CHRONICLE_MAP_DONE)
        printf("%" PRIu32 " %" PRIu32 ": %" PRId32 " microseconds\n", a, b, delay);
    else
        printf("%" PRIu32 " %" PRIu32 ": answer %" PRIu32 "\n", a, b, answer);
    return answer;
}

/* Sets a delay and looks both orders up. */
static uint32_t set(struct store *s, uint32_t a, uint32_t b, int32_t delay)
{
    uint32_t answer = chronicle_map_set_delay(s->block, s->block_len, s->image, s->image_len, a, b, delay);

    if (answer != CHRONICLE_MAP_DONE) {
        printf("%" PRIu32 " %" PRIu32 ": answer %" PRIu32 " to a set\n", a, b, answer);
        return answer;
    }
    answer = ask(s, a, b);
    return answer == CHRONICLE_MAP_DONE ? ask(s, b, a) : answer;
}

int main(int argc, char **argv)
{
    struct store s;
    int64_t a, b, delay = 0;
    uint32_t answer;

    if (argc < 4 || argc > 5 || !number(argv[2], 0, UINT32_MAX, &a) || !number(argv[3], 0, UINT32_MAX, &b)
        || (argc == 5 && !number(argv[4], INT32_MIN, INT32_MAX, &delay))) {
        fprintf(stderr, "delay FILE A B [D], with channels A and B and a delay D in microseconds\n");
        return 2;
    }
    if (!read_store("delay", argv[1], &s))
        return 2;
    answer = argc == 4 ? ask(&s, (uint32_t)a, (uint32_t)b) : set(&s, (uint32_t)a, (uint32_t)b, (int32_t)delay);
    free(s.block);
    return answer == CHRONICLE_MAP_DONE ? 0 : 1;
}
