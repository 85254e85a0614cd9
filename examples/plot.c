/*
 * plot FILE: prints the delay of every ordered pair of channels that is there, as a plot would need them: a line
 * `a b delay` each, and last how many delay lookups were made and how many of them found a delay.
 * The image is checked once. After that nobody writes to it, so the quick delay lookups answer as the checked ones would.
 * FILE holds a settings block of 71 bytes and after it the image.
 */
#include "chronicle_map.h"
#include "files.h"

#include <inttypes.h>
#include <stdio.h>
#include <stdlib.h>

enum { CHANNELS = 32 };

struct tally {
    uint32_t asks;
    uint32_t found;
};

/* Checks the image, and prints any answer but 0. */
static uint32_t check(const struct store *s)
{
    struct chronicle_map_counts counts;
    uint32_t answer = chronicle_map_check(s->block, s->block_len, s->image, s->image_len, &counts);

    if (answer != CHRONICLE_MAP_DONE)
        printf("check: answer %" PRIu32 "\n", answer);
    return answer;
}

/* Looks a delay up quickly and prints it; of other answers all but 1, for an absent pair, are printed. */
static uint32_t ask(const struct store *s, uint32_t a, uint32_t b, struct tally *t)
{
    int32_t delay;
    uint32_t answer = chronicle_map_quick_delay(s->block, s->block_len, s->image, s->image_len, a, b, &delay);

    t->asks++;
    if (answer == CHRONICLE_MAP_DONE) {
        t->found++;
        printf("%" PRIu32 " %" PRIu32 " %" PRId32 "\n", a, b, delay);
    } else if (answer != CHRONICLE_MAP_ABSENT) {
        printf("%" PRIu32 " %" PRIu32 ": answer %" PRIu32 "\n", a, b, answer);
    }
    return answer;
}

/* All ordered pairs. The answer is 0 where each lookup was answered by a delay or by 1. */
static int plot(const struct store *s)
{
    struct tally t = {0, 0};
    uint32_t a, b, answer;
    int bad = 0;

    for (a = 1; a <= CHANNELS; a++)
        for (b = 1; b <= CHANNELS; b++)
            if (a != b) {
                answer = ask(s, a, b, &t);
                bad |= answer != CHRONICLE_MAP_DONE && answer != CHRONICLE_MAP_ABSENT;
            }
    printf("%" PRIu32 " asks, %" PRIu32 " found\n", t.asks, t.found);
    return bad;
}

int main(int argc, char **argv)
{
    struct store s;
    int bad;

    if (argc != 2) {
        fprintf(stderr, "plot FILE\n");
        return 2;
    }
    if (!read_store("plot", argv[1], &s))
        return 2;
    bad = check(&s) != CHRONICLE_MAP_DONE || plot(&s);
    free(s.block);
    return bad;
}
